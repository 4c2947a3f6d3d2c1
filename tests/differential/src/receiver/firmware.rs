// What firmware asks of the library: that it needs next to nothing from outside, and little stack.

use reference::cache::{self, DISK, STATE};
use reference::damage::{self, Limit};
use reference::file::MOST_RULES;
use reference::generate;
use reference::random::Random;
use reference::states::{self, Source};

use super::columns;
use super::opening::file_of;
use crate::answer;
use crate::harness::{Outcome, Run, Suite};
use crate::lent::Lent;
use crate::needs;
use crate::stack::Deepest;

/// Bytes of stack that a call may use.
const MOST_STACK: usize = 4096;

/// What the library may need from outside.
const NEEDED: [&str; 3] = ["memcpy", "memmove", "memset"];

pub fn suites() -> Vec<Suite> {
    let suite = |name, run| Suite { name, run };
    vec![
        suite("firmware: what libreceiver.a needs", needed_symbols),
        suite("firmware: stack of open", stack_of_open),
        suite("firmware: stack of hand-in", stack_of_hand_in),
        suite("firmware: stack of step", stack_of_step),
        suite("firmware: stack of drain", stack_of_drain),
        suite("firmware: stack of get", stack_of_get),
    ]
}

fn needed_symbols(run: &mut Run) -> Outcome {
    needs::at_most(run, "receiver", &NEEDED)
}

fn slice(lent: &mut Lent) -> (u64, u64) {
    (lent.buffer() as u64, lent.len() as u64)
}

fn stack_of_open(run: &mut Run) -> Outcome {
    let mut deepest = Deepest::new(MOST_STACK);
    for i in 0..run.times(300) {
        let mut random = run.next_case();
        let file = match i % 6 {
            0 => damage::at_limit(&mut random, Limit::Rules),
            1 => damage::any(&mut random).bytes,
            2 => {
                let rules = generate::nearly_cyclic_rules(&mut random);
                file_of(&mut random, &rules)
            }
            3 | 4 => {
                let rules = generate::alike_rules(&mut random, MOST_RULES);
                file_of(&mut random, &rules)
            }
            _ => Source::new(&mut random).file(&mut random),
        };
        let expected = cache::open(&file, &mut vec![0; STATE]).map(|()| 0);
        let mut state = Lent::new(&mut random, &[0; STATE]);
        let mut file = Lent::new(&mut random, &file);
        let ((state, length), (file, file_length)) = (slice(&mut state), slice(&mut file));
        let arguments = [state, length, file, file_length, 0, 0, 0];
        let routine = library::OPEN.map(|routine| routine as *const ());
        deepest.call("open", routine, arguments, answer::of(expected))?;
    }
    deepest.within_limit(run)
}

/// Sound states of every kind, and unsound ones.
fn any_state(random: &mut Random) -> Vec<u8> {
    match random.below(6) {
        0 => {
            let clause = random.pick(&states::CLAUSES);
            states::broken(random, clause)
        }
        1 => {
            let (source, writes) = Source::by_columns(random);
            source.after_all(random, &writes)
        }
        _ => states::sound(random),
    }
}

/// States and writes of every kind; every other time a full or nearly full state, and a write that
/// has to do with those of the state, so that all that a hand-in looks at is looked at.
fn stack_of_hand_in(run: &mut Run) -> Outcome {
    let mut deepest = Deepest::new(MOST_STACK);
    for i in 0..run.times(400) {
        let mut random = run.next_case();
        let (state, write) = match i % 2 {
            0 => {
                let write = Source::new(&mut random).write(&mut random);
                (any_state(&mut random), write)
            }
            _ => {
                let (source, state) = columns::drawn(&mut random);
                let write = columns::near_write(&mut random, &source, &state);
                (state, write)
            }
        };
        let mut after = state.clone();
        let expected = cache::hand_in(&mut after, &write).map(|()| after[1] as u64);
        let mut state = Lent::new(&mut random, &state);
        let (state, length) = slice(&mut state);
        let arguments = [
            state,
            length,
            write.address as u64,
            write.name as u64,
            write.epoch as u64,
            write.block.first as u64,
            write.block.second as u64,
        ];
        let routine = library::HAND_IN.map(|routine| routine as *const ());
        deepest.call("hand-in", routine, arguments, answer::of(expected))?;
    }
    deepest.within_limit(run)
}

fn stack_of_storing(
    run: &mut Run,
    name: &str,
    routine: Option<*const ()>,
    expected: fn(&mut [u8], &mut [u8]) -> Result<usize, reference::refusal::Refusal>,
) -> Outcome {
    let mut deepest = Deepest::new(MOST_STACK);
    for _ in 0..run.times(300) {
        let mut random = run.next_case();
        let state = any_state(&mut random);
        let expected = expected(&mut state.clone(), &mut [0; DISK]);
        let mut state = Lent::new(&mut random, &state);
        let mut disk = Lent::new(&mut random, &[0; DISK]);
        let ((state, length), (disk, disk_length)) = (slice(&mut state), slice(&mut disk));
        let arguments = [state, length, disk, disk_length, 0, 0, 0];
        let expected = answer::of(expected.map(|stored| stored as u64));
        deepest.call(name, routine, arguments, expected)?;
    }
    deepest.within_limit(run)
}

fn stack_of_step(run: &mut Run) -> Outcome {
    let routine = library::STEP.map(|routine| routine as *const ());
    stack_of_storing(run, "step", routine, cache::step)
}

fn stack_of_drain(run: &mut Run) -> Outcome {
    let routine = library::DRAIN.map(|routine| routine as *const ());
    stack_of_storing(run, "drain", routine, cache::drain)
}

fn stack_of_get(run: &mut Run) -> Outcome {
    let mut deepest = Deepest::new(MOST_STACK);
    for i in 0..run.times(300) {
        let mut random = run.next_case();
        let mut disk = random.bytes(DISK);
        if i % 2 == 0 {
            disk[..4].copy_from_slice(&[0, 1, 1, 0]);
        }
        let key = random.below(3) as u16;
        let expected = reference::log::get(&disk, key);
        let expected = expected.map(|value| value.map_or(65_536, u64::from));
        let mut disk = Lent::new(&mut random, &disk);
        let (disk, length) = slice(&mut disk);
        let routine = library::GET.map(|routine| routine as *const ());
        let arguments = [disk, length, key as u64, 0, 0, 0, 0];
        deepest.call("get", routine, arguments, answer::of(expected))?;
    }
    deepest.within_limit(run)
}
