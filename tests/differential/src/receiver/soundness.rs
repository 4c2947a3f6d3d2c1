// States that are not sound: each clause broken alone, and bytes changed anywhere.

use reference::cache::{self, Clause, STATE, WRITES_AT, WRITE_SIZE};
use reference::file::MOST_RULES;
use reference::generate::{self, Values};
use reference::random::Random;
use reference::refusal::NOT_SOUND;
use reference::states::{self, Source};
use reference::writes::Write;

use super::hand_in::same_hand_in_on;
use super::storing::{lend, DRAIN, STEP};
use crate::harness::{require, Failure, Outcome, Run, Suite};

pub fn suites() -> Vec<Suite> {
    let suite = |name, run| Suite { name, run };
    vec![
        suite("soundness: layout", |run| broken(run, Clause::Layout)),
        suite("soundness: limits", |run| broken(run, Clause::Limits)),
        suite("soundness: known predicates", |run| {
            broken(run, Clause::KnownPredicates)
        }),
        suite("soundness: acyclic rules", |run| {
            broken(run, Clause::AcyclicRules)
        }),
        suite("soundness: stored count", |run| {
            broken(run, Clause::StoredCount)
        }),
        suite("soundness: stored writes need stored ones", |run| {
            broken(run, Clause::StoredNeedStored)
        }),
        suite("soundness: no ring of needs", |run| {
            broken(run, Clause::NoRingOfNeeds)
        }),
        suite("soundness: every byte", every_byte),
        suite("soundness: every byte of a full state", full_states),
        suite("soundness: bytes changed", bytes_changed),
        suite("soundness: any bytes", any_bytes),
    ]
}

/// All three calls on a state, with any write. Gives hand-in's refusal, or 0.
fn same_calls(random: &mut Random, state: &[u8]) -> Result<u32, Failure> {
    let write = any_write(random);
    same_calls_with(random, state, &write)
}

fn any_write(random: &mut Random) -> Write {
    let values = Values::small(random);
    generate::write(random, &values)
}

/// Likewise, with this write.
pub fn same_calls_with(random: &mut Random, state: &[u8], write: &Write) -> Result<u32, Failure> {
    let refused = same_hand_in_on(random, state, write)?;
    for storing in [STEP, DRAIN] {
        let (mut state, mut disk) = lend(random, state);
        storing.same(&mut state, &mut disk)?;
    }
    Ok(refused)
}

/// Likewise, without the drain of a sound state: of many writes that takes the reference long.
pub fn same_calls_in_short(random: &mut Random, state: &[u8], write: &Write) -> Outcome {
    if !cache::sound(state) {
        same_calls_with(random, state, write)?;
        return Ok(());
    }
    same_hand_in_on(random, state, write)?;
    let (mut state, mut disk) = lend(random, state);
    STEP.same(&mut state, &mut disk)?;
    Ok(())
}

fn broken(run: &mut Run, clause: Clause) -> Outcome {
    for _ in 0..run.times(300) {
        let mut random = run.next_case();
        let state = states::broken(&mut random, clause);
        let refused = same_calls(&mut random, &state)?;
        require(refused == NOT_SOUND, "15", refused.to_string())?;
    }
    Ok(())
}

/// Each byte of a state, changed alone.
fn each_byte_changed(run: &mut Run, random: &mut Random, state: &[u8]) -> Outcome {
    for at in 0..STATE {
        run.next_case();
        let mut changed = state.to_vec();
        changed[at] ^= 1 << random.below(8);
        let write = any_write(random);
        same_calls_in_short(random, &changed, &write)?;
    }
    Ok(())
}

/// Of a state with some rules and writes.
fn every_byte(run: &mut Run) -> Outcome {
    for _ in 0..run.times(5) {
        let mut random = run.next_case();
        let source = Source::new(&mut random);
        let mut state = source.opened();
        while state[1] < 5 {
            let _ = cache::hand_in(&mut state, &source.write(&mut random));
        }
        let _ = cache::step(&mut state, &mut [0; cache::DISK]);
        each_byte_changed(run, &mut random, &state)?;
    }
    Ok(())
}

/// Of a state in which each place of a rule and of a write is taken, with names of two bytes in it.
fn full_states(run: &mut Run) -> Outcome {
    for _ in 0..run.times(2) {
        let mut random = run.next_case();
        let state = loop {
            let (source, writes) = Source::by_columns(&mut random);
            let wide = source.values.names.iter().filter(|&&name| name > 255);
            if source.rules.len() == MOST_RULES && wide.count() > 0 {
                break source.after_all(&mut random, &writes);
            }
        };
        each_byte_changed(run, &mut random, &state)?;
    }
    Ok(())
}

fn bytes_changed(run: &mut Run) -> Outcome {
    let mut sound = 0;
    for _ in 0..run.times(2_000) {
        let mut random = run.next_case();
        let mut state = states::sound(&mut random);
        let used = WRITES_AT + WRITE_SIZE * state[1] as usize;
        for _ in 0..random.between(1, 3) {
            let at = match random.below(4) {
                0 => random.below(4),
                1 => random.below(WRITES_AT),
                _ => random.below(used),
            };
            state[at] = match random.below(3) {
                0 => random.byte(),
                1 => random.below(4) as u8,
                _ => state[at] ^ 1 << random.below(8),
            };
        }
        sound += u64::from(cache::sound(&state));
        same_calls(&mut random, &state)?;
    }
    run.note(format!("{sound} still sound"));
    require(sound > 80, "some still sound", sound.to_string())
}

fn any_bytes(run: &mut Run) -> Outcome {
    for _ in 0..run.times(300) {
        let mut random = run.next_case();
        let mut state = random.bytes(STATE);
        if random.one_in(2) {
            state.iter_mut().for_each(|byte| *byte %= 3);
        }
        same_calls(&mut random, &state)?;
    }
    Ok(())
}
