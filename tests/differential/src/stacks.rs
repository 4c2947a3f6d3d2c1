// The stack of the tester's routines, on tests of as many writes as there can be.

use reference::checks::Check;
use reference::crashes;
use reference::damage::{self, LIMITS};
use reference::file::{File, Test, MOST_MAIN, MOST_TESTS};
use reference::find::{LEAST_BUFFER, MOST_MAIN as MOST_TO_FIND};
use reference::generate::{self, Values};
use reference::log::{self, MOST_MAIN_PUTS};
use reference::random::Random;
use reference::writes;

use crate::calls;
use crate::harness::{Outcome, Run, Suite};
use crate::lent::Lent;
use crate::lines::LEAST;
use crate::stack::Deepest;

/// Bytes of stack that a call may use: the judge chooses up to 20 writes, one inside the other, and
/// finding has tables.
const MOST_OF_JUDGING: usize = 32 << 10;
const MOST_OF_FINDING: usize = 96 << 10;

pub fn suites() -> Vec<Suite> {
    let suite = |name, run| Suite { name, run };
    vec![
        suite("stack: judge", stack_of_judge),
        suite("stack: verdict", stack_of_verdict),
        suite(
            "stack: verdict, at most 12 main writes",
            stack_of_short_verdict,
        ),
        suite("stack: judge_lines", stack_of_lines),
        suite("stack: find", stack_of_find),
    ]
}

/// Files of all kinds: of one test, mostly of 20 main writes and often without rules, so that the judge
/// has a choice at each; full ones; and refused ones.
fn any_file(random: &mut Random, i: u64) -> Vec<u8> {
    let mut file = match i % 8 {
        0 => {
            let limit = random.pick(&LIMITS);
            return damage::at_limit(random, limit);
        }
        1 => return damage::any(random).bytes,
        2 => log_file(random),
        3 => one_inside_the_other(),
        4 => crashes::tangled_file_of(random, MOST_MAIN),
        _ => crashes::file_of(random, MOST_MAIN),
    };
    if random.one_in(2) {
        file.rules.clear();
    }
    file.to_mixed_bytes(random)
}

fn log_file(random: &mut Random) -> File {
    let initial = generate::puts(random, 1);
    let main = generate::puts(random, MOST_MAIN_PUTS);
    File {
        rules: vec![],
        tests: vec![log::test_of(&initial, &main)],
    }
}

/// 20 writes to one block, in turn such that a pointer there is broken and that it is not: the check
/// hangs on the last, without it on the one before, and so on down to the first.
fn one_inside_the_other() -> File {
    const AT: u8 = 5;
    let write = |i: usize| {
        let target = if i % 2 == 0 { 256 } else { AT as u16 };
        writes::write(AT, 1, 0, writes::block(1, target))
    };
    File {
        rules: vec![],
        tests: vec![Test {
            initial: vec![],
            main: (0..MOST_MAIN).map(write).collect(),
            checks: vec![Check::Pointer { at: AT }],
        }],
    }
}

type OnTest = unsafe extern "C" fn(*const u8, usize, u64) -> u64;

/// A routine of a file and a test's number: its answers are those that it gives on the usual stack.
fn on_tests(
    run: &mut Run,
    cases: u64,
    routine: Option<OnTest>,
    usual: fn(&Lent, u64) -> u64,
    most: usize,
    make: fn(&mut Random, u64) -> Vec<u8>,
) -> Outcome {
    let routine = routine.map(|routine| routine as *const ());
    let mut deepest = Deepest::new(most);
    for i in 0..run.times(cases) {
        let mut random = run.next_case();
        let bytes = make(&mut random, i);
        let lent = Lent::new(&mut random, &bytes);
        let (file, length) = (lent.pointer() as u64, lent.len() as u64);
        let arguments = [file, length, 1, 0, 0, 0, 0];
        deepest.call("the routine", routine, arguments, usual(&lent, 1))?;
    }
    deepest.within_limit(run)
}

fn stack_of_judge(run: &mut Run) -> Outcome {
    let (routine, usual) = (library::JUDGE, calls::judge);
    on_tests(run, 400, routine, usual, MOST_OF_JUDGING, any_file)
}

fn stack_of_verdict(run: &mut Run) -> Outcome {
    let (routine, usual) = (library::VERDICT, calls::verdict);
    on_tests(run, 400, routine, usual, MOST_OF_JUDGING, any_file)
}

/// Tests of no more main writes than there could be before 20 were allowed: at [8] these had tables of
/// their own.
fn short_file(random: &mut Random, _: u64) -> Vec<u8> {
    let main = random.between(0, MOST_TO_FIND);
    crashes::file_of(random, main).to_mixed_bytes(random)
}

fn stack_of_short_verdict(run: &mut Run) -> Outcome {
    let (routine, usual) = (library::VERDICT, calls::verdict);
    on_tests(run, 400, routine, usual, MOST_OF_JUDGING, short_file)
}

type OnFile = unsafe extern "C" fn(*const u8, usize, *mut u8, usize) -> u64;

/// A routine of a file and a buffer, likewise.
fn on_files(
    run: &mut Run,
    routine: Option<OnFile>,
    usual: fn(&Lent, &mut Lent) -> u64,
    most: usize,
    buffer: usize,
    make: fn(&mut Random, u64) -> Vec<u8>,
) -> Outcome {
    let routine = routine.map(|routine| routine as *const ());
    let mut deepest = Deepest::new(most);
    for i in 0..run.times(400) {
        let mut random = run.next_case();
        let bytes = make(&mut random, i);
        let lent = Lent::new(&mut random, &bytes);
        let (file, length) = (lent.pointer() as u64, lent.len() as u64);
        let content = random.bytes(buffer);
        let mut out = Lent::new(&mut random, &content);
        let expected = usual(&lent, &mut out);
        let (out, out_length) = (out.buffer() as u64, out.len() as u64);
        let arguments = [file, length, out, out_length, 0, 0, 0];
        deepest.call("the routine", routine, arguments, expected)?;
    }
    deepest.within_limit(run)
}

fn stack_of_lines(run: &mut Run) -> Outcome {
    let (routine, usual) = (library::JUDGE_LINES, calls::judge_lines);
    on_files(run, routine, usual, MOST_OF_JUDGING, LEAST, any_file)
}

/// Tests of 12 main writes of few names, for which rules may do, and refused files.
fn file_to_find_for(random: &mut Random, i: u64) -> Vec<u8> {
    if i % 4 == 0 {
        return damage::any(random).bytes;
    }
    let mut values = Values::small(random);
    values.names.truncate(random.between(1, 3));
    let mut test = |_| match random.below(3) {
        0 => crashes::test(random, &values, MOST_TO_FIND),
        _ => crashes::guarded_test(random, &values, MOST_TO_FIND, 8),
    };
    let tests = (0..1 + i as usize % MOST_TESTS).map(&mut test).collect();
    let rules = vec![];
    File { rules, tests }.to_mixed_bytes(random)
}

fn stack_of_find(run: &mut Run) -> Outcome {
    let (routine, usual) = (library::FIND, calls::find);
    let make = file_to_find_for;
    on_files(run, routine, usual, MOST_OF_FINDING, LEAST_BUFFER, make)
}
