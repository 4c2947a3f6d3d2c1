// Finding rules: against the reference, which tries set by set in the document's order, on small
// tests and on some large ones; and against tests/fast, by hitting sets as the proved code, on many.

use std::collections::BTreeMap;

use reference::checks::Check;
use reference::crashes;
use reference::damage;
use reference::file::{bytes_of, Field, File, Test, MOST_CHECKS, MOST_TESTS};
use reference::find::{all_do, candidates, find, members, sets_that_do};
use reference::find::{LEAST_BUFFER, MOST_CANDIDATES, MOST_MAIN};
use reference::generate::{self, Values};
use reference::random::Random;
use reference::refusal::{self, NO_SET_DOES};
use reference::samples;
use reference::schedule::disk_of;
use reference::writes::{Block, Write};

use crate::answer;
use crate::around::{file_with, AROUND};
use crate::calls;
use crate::harness::{require, same_answer_on, Failure, Outcome, Run, Suite};
use crate::lent::Lent;

pub fn suites() -> Vec<Suite> {
    let suite = |name, run| Suite { name, run };
    vec![
        suite("find: the bench sheet", bench_sheet),
        suite("find: few main writes", few_writes),
        suite("find: logs", logs),
        suite("find: head around tail", heads_around_tails),
        suite("find: up to 16 tests of 12 main writes", many_writes),
        suite("find: 12 main writes, set by set", set_by_set),
        suite("find: many rules", many_rules),
        suite("find: 11, around 16 candidates", around_16),
        suite("find: 10, files with rules", files_with_rules),
        suite("find: 24, over 12 main writes", over_12),
        suite("find: 24 or 6, 12 to 21 main writes anywhere", around_20),
        suite("find: damaged files", damaged_files),
        suite("find: 12, buffers around 128 bytes", buffers),
    ]
}

/// A finder to compare with: fills the buffer and answers.
type Finder = fn(&[u8], &mut [u8]) -> u64;

fn of_reference(file: &[u8], buffer: &mut [u8]) -> u64 {
    answer::of(find(file, buffer).map(|count| count as u64))
}

/// The answer and the buffer are those of the other finder. Gives the answer.
fn same_rules(
    random: &mut Random,
    file: &[u8],
    length: usize,
    finder: Finder,
) -> Result<u64, Failure> {
    same_rules_left(random, file, length, finder).map(|(got, _)| got)
}

/// Likewise, of a file in old and new tags, into the least buffer.
fn same_rules_of(random: &mut Random, file: &File, finder: Finder) -> Result<u64, Failure> {
    let bytes = file.to_mixed_bytes(random);
    same_rules(random, &bytes, LEAST_BUFFER, finder)
}

/// Likewise, and gives what is left in the buffer too.
fn same_rules_left(
    random: &mut Random,
    file: &[u8],
    length: usize,
    finder: Finder,
) -> Result<(u64, Vec<u8>), Failure> {
    let lent = Lent::new(random, file);
    let content = random.bytes(length);
    let mut buffer = Lent::new(random, &content);
    let mut after = content;
    let expected = finder(file, &mut after);
    let got = calls::find(&lent, &mut buffer);
    let call = format!("find into {length} bytes");
    same_answer_on(&call, &[("file", file)], expected, got)?;
    lent.unchanged("file")?;
    buffer.became("buffer", &after)?;
    Ok((got, after))
}

/// How often each answer came: the number of rules, or the refusal's number as text.
#[derive(Default)]
struct Answers(BTreeMap<String, u64>);

impl Answers {
    fn count(&mut self, got: u64) {
        let refused = got >> 63 == 1;
        let key = if refused {
            format!("refused {}", got << 1 >> 33)
        } else {
            format!("{got} rules")
        };
        *self.0.entry(key).or_insert(0) += 1;
    }

    /// Fails unless each of these came.
    fn include(&self, run: &mut Run, keys: &[&str]) -> Outcome {
        run.note(format!("{:?}", self.0));
        let all = keys.iter().all(|&key| self.0.contains_key(key));
        require(all, &format!("each of {keys:?}"), format!("{:?}", self.0))
    }
}

fn bench_sheet(run: &mut Run) -> Outcome {
    // K4.
    let mut random = run.next_case();
    let k = File {
        rules: vec![],
        tests: vec![samples::test_k()],
    };
    let mut buffer = Lent::new(&mut random, &[0xEE; LEAST_BUFFER]);
    let file = Lent::new(&mut random, &k.to_bytes());
    same_answer_on("find", &[], 2, calls::find(&file, &mut buffer))?;
    let mut expected = [0xEE; LEAST_BUFFER];
    expected[..12].copy_from_slice(&[3, 0, 3, 2, 0, 1, 3, 0, 3, 2, 1, 2]);
    buffer.became("buffer", &expected)?;
    // K7.
    let there = Block {
        first: 0,
        second: 1,
    };
    let write = |at: u8| Write {
        address: at,
        name: at.into(),
        epoch: 0,
        block: there,
    };
    let pair = |a, b| Check::Pair {
        a,
        v: there,
        b,
        w: there,
    };
    let both_ways = File {
        rules: vec![],
        tests: vec![Test {
            initial: vec![],
            main: vec![write(1), write(2)],
            checks: vec![pair(1, 2), pair(2, 1)],
        }],
    };
    let mut random = run.next_case();
    let got = same_rules(
        &mut random,
        &both_ways.to_bytes(),
        LEAST_BUFFER,
        of_reference,
    )?;
    let refused = answer::of(Err(refusal::plain(NO_SET_DOES)));
    same_answer_on("find", &[], refused, got)
}

/// A test for which rules may help: its checks are what rules guarantee, or hold before and, in
/// most of the cases, after all main writes.
fn hopeful_test(random: &mut Random, values: &Values, main: usize) -> Test {
    if random.one_in(2) {
        let most = random.between(1, 8);
        return crashes::guarded_test(random, values, main, most);
    }
    let mut test = crashes::test(random, values, main);
    let all = disk_of(&test.initial_disk(), &test.main, u64::MAX);
    if !random.one_in(8) {
        test.checks.retain(|check| check.holds(&all));
    }
    test
}

fn few_writes(run: &mut Run) -> Outcome {
    let mut answers = Answers::default();
    for _ in 0..run.times(1_000) {
        let mut random = run.next_case();
        let mut values = Values::small(&mut random);
        values.names.truncate(2);
        let tests = (0..random.between(1, 2))
            .map(|_| {
                let main = random.between(1, 5);
                hopeful_test(&mut random, &values, main)
            })
            .collect();
        let file = File {
            rules: vec![],
            tests,
        };
        let length = random.pick(&[LEAST_BUFFER, LEAST_BUFFER + 1, 200]);
        let bytes = file.to_mixed_bytes(&mut random);
        answers.count(same_rules(&mut random, &bytes, length, of_reference)?);
    }
    answers.include(run, &["0 rules", "1 rules", "2 rules", "refused 13"])
}

/// Files of one kind, without their rules; each of these answers comes.
fn without_rules(
    run: &mut Run,
    cases: u64,
    make: fn(&mut Random) -> File,
    keys: &[&str],
) -> Outcome {
    let mut answers = Answers::default();
    for _ in 0..run.times(cases) {
        let mut random = run.next_case();
        let mut file = make(&mut random);
        file.rules.clear();
        answers.count(same_rules_of(&mut random, &file, of_reference)?);
    }
    answers.include(run, keys)
}

/// Those of more than six puts have too many main writes.
fn logs(run: &mut Run) -> Outcome {
    without_rules(run, 40, crashes::log_file, &["2 rules", "refused 24"])
}

fn heads_around_tails(run: &mut Run) -> Outcome {
    let keys = ["0 rules", "1 rules", "2 rules", "refused 13"];
    without_rules(run, 400, crashes::range_file, &keys)
}

/// Large tests, of which some need many rules, and hopeless ones.
fn many_writes(run: &mut Run) -> Outcome {
    let mut answers = Answers::default();
    for _ in 0..run.times(250) {
        let mut random = run.next_case();
        let names = random.between(2, 4);
        let mut values = Values::small(&mut random);
        values.names = generate::names(&mut random, names);
        values.epochs.truncate(random.between(1, 3));
        let most = random.pick(&[2, 5, MOST_TESTS]);
        let main = random.between(5, MOST_MAIN);
        let tests = (0..random.between(1, most))
            .map(|_| hopeful_test(&mut random, &values, main))
            .collect();
        let file = File {
            rules: vec![],
            tests,
        };
        answers.count(same_rules_of(&mut random, &file, fast::find::find)?);
    }
    answers.include(
        run,
        &["0 rules", "1 rules", "2 rules", "refused 11", "refused 13"],
    )
}

/// One or two tests of 12 main writes with up to 16 candidates, set by set. Some need several rules
/// or have several sets that do, and some are hopeless.
fn set_by_set(run: &mut Run) -> Outcome {
    let mut kinds = Kinds::default();
    for _ in 0..run.times(200) {
        let mut random = run.next_case();
        let file = loop {
            let of = |random: &mut Random, names, epochs: u32| Values {
                names: generate::names(random, names),
                epochs: (0..epochs).collect(),
                ..Values::small(random)
            };
            // Four names of one epoch have 16 candidates, two of several have 12.
            let one = match random.below(4) {
                0 | 3 => of(&mut random, 4, 1),
                1 => of(&mut random, 3, 1),
                _ => of(&mut random, 2, 3),
            };
            let mut tests = vec![test_to_find(&mut random, &one, MOST_MAIN)];
            if random.one_in(2) {
                let other = if random.one_in(2) {
                    of(&mut random, 2, 1)
                } else {
                    one
                };
                tests.push(test_to_find(&mut random, &other, MOST_MAIN));
            }
            let file = File {
                rules: vec![],
                tests,
            };
            if (9..=MOST_CANDIDATES).contains(&candidates(&file).len()) {
                break file;
            }
        };
        same_and_largest(&mut random, &file, &mut kinds)?;
    }
    run.note(format!("{:?}", kinds.0));
    require(
        kinds.have(
            &[MOST_CANDIDATES],
            &[NONE, ONE, SEVERAL, TIE, WEAK, CYCLIC],
            1,
        ),
        "each kind of answer with 16 candidates",
        format!("{:?}", kinds.0),
    )
}

/// Tests that ask for what up to twelve rules guarantee: four names of one epoch, or two of three.
fn many_rules(run: &mut Run) -> Outcome {
    let mut answers = Answers::default();
    for _ in 0..run.times(500) {
        let mut random = run.next_case();
        let (names, epochs) = random.pick(&[(4, 1), (4, 1), (2, 3)]);
        let values = Values {
            names: generate::names(&mut random, names),
            epochs: (0..epochs).collect(),
            ..Values::small(&mut random)
        };
        let tests = (0..random.between(1, 3))
            .map(|_| {
                let main = random.between(4, 7);
                crashes::guarded_test(&mut random, &values, main, 12)
            })
            .collect();
        let file = File {
            rules: vec![],
            tests,
        };
        answers.count(same_rules_of(&mut random, &file, fast::find::find)?);
    }
    answers.include(run, &["2 rules", "3 rules", "4 rules", "refused 13"])
}

/// How often each kind of answer came, by the number of candidates.
#[derive(Default)]
struct Kinds(BTreeMap<(usize, &'static str), u64>);

const NONE: &str = "0 rules";
const ONE: &str = "1 rule";
const SEVERAL: &str = "2 or more";
/// Several sets of as many rules do.
const TIE: &str = "a tie";
/// All candidates together are not enough.
const WEAK: &str = "13, weak";
/// Only cyclic sets are enough.
const CYCLIC: &str = "13, cyclic";
const OVER: &str = "11";

impl Kinds {
    /// Counts an answer of the library that is the reference's too, and looks at a found set once
    /// more: it is the largest number among all sets of its size that do.
    fn count(&mut self, file: &File, got: u64, buffer: &[u8]) -> Outcome {
        let candidates = candidates(file);
        let mut add = |kind| *self.0.entry((candidates.len(), kind)).or_insert(0) += 1;
        if got == answer::of(Err(refusal::plain(refusal::TOO_MANY_CANDIDATES))) {
            add(OVER);
        } else if got == answer::of(Err(refusal::plain(NO_SET_DOES))) {
            add(if all_do(file, &candidates) {
                CYCLIC
            } else {
                WEAK
            });
        } else {
            let sets = sets_that_do(file, &candidates, got as usize);
            add(match got {
                0 => NONE,
                1 => ONE,
                _ => SEVERAL,
            });
            if sets.len() > 1 {
                add(TIE);
            }
            let best = sets.last().map(|&set| members(&candidates, set));
            let fields = best.unwrap_or_default();
            let fields: Vec<Field> = fields.iter().map(Field::of_rule).collect();
            let right = buffer.starts_with(&bytes_of(&fields)) && fields.len() as u64 == got;
            require(right, "the largest number", format!("{got} of {sets:x?}"))?;
        }
        Ok(())
    }

    fn of(&self, count: usize, kind: &'static str) -> u64 {
        self.0.get(&(count, kind)).copied().unwrap_or(0)
    }

    /// Whether each of these kinds came so often with each of these numbers of candidates.
    fn have(&self, counts: &[usize], kinds: &[&'static str], times: u64) -> bool {
        let often = |count: usize| kinds.iter().all(|kind| self.of(count, kind) >= times);
        counts.iter().all(|&count| often(count))
    }
}

/// The answer and the buffer are the reference's, and what is found has the largest number.
fn same_and_largest(random: &mut Random, file: &File, kinds: &mut Kinds) -> Outcome {
    let bytes = file.to_mixed_bytes(random);
    let (got, left) = same_rules_left(random, &bytes, LEAST_BUFFER, of_reference)?;
    kinds.count(file, got, &left)
}

/// A pair check of the test the other way round as well: then rules have to lead there and back.
fn ask_both_ways(random: &mut Random, test: &mut Test) {
    let pair = |check: &Check| match *check {
        Check::Pair { a, v, b, w } => Some((a, v, b, w)),
        _ => None,
    };
    let pairs: Vec<(u8, Block, u8, Block)> = test.checks.iter().filter_map(pair).collect();
    if !pairs.is_empty() {
        let (b, w, a, v) = random.pick(&pairs);
        test.checks.truncate(MOST_CHECKS - 1);
        test.checks.push(Check::Pair { a, v, b, w });
    }
}

/// A test for which rules are found, or for which they would have to be cyclic, or none are enough.
fn test_to_find(random: &mut Random, values: &Values, main: usize) -> Test {
    let mut test = match random.below(3) {
        0 => hopeful_test(random, values, main),
        _ => {
            let most = random.between(1, 12);
            crashes::guarded_test(random, values, main, most)
        }
    };
    match random.below(12) {
        0 => test.checks.clear(),
        1 => object_to_the_end(&mut test),
        2 | 3 | 4 => ask_both_ways(random, &mut test),
        _ => {}
    }
    test
}

/// With a check that fails once all main writes are made: no rules are enough.
fn object_to_the_end(test: &mut Test) {
    let end = disk_of(&test.initial_disk(), &test.main, u64::MAX);
    let at = test.main.last().map_or(0, |write| write.address);
    let v = end[at as usize];
    let w = Block {
        first: !v.first,
        ..v
    };
    test.checks.truncate(MOST_CHECKS - 1);
    test.checks.push(Check::Pair { a: at, v, b: at, w });
}

/// 14 to 18 candidates, of which 16 are the most: each kind of answer at each number.
fn around_16(run: &mut Run) -> Outcome {
    const MOST_TRIES: u64 = 200_000;
    const LESS: [usize; 3] = [MOST_CANDIDATES - 2, MOST_CANDIDATES - 1, MOST_CANDIDATES];
    const MORE: [usize; 2] = [MOST_CANDIDATES + 1, MOST_CANDIDATES + 2];
    const FOUND: [&str; 6] = [NONE, ONE, SEVERAL, TIE, WEAK, CYCLIC];
    let times = run.times(2);
    let mut kinds = Kinds::default();
    let enough =
        |kinds: &Kinds| kinds.have(&LESS, &FOUND, times) && kinds.have(&MORE, &[OVER], times);
    for _ in 0..run.times(MOST_TRIES) {
        if enough(&kinds) {
            break;
        }
        let mut random = run.next_case();
        let names = random.between(2, 5);
        let values = Values {
            names: generate::names(&mut random, names),
            epochs: (0..random.between(1, 3) as u32).collect(),
            ..Values::small(&mut random)
        };
        let tests = (0..random.between(1, 2))
            .map(|_| {
                let main = random.between(3, 7);
                test_to_find(&mut random, &values, main)
            })
            .collect();
        let file = File {
            rules: vec![],
            tests,
        };
        let count = candidates(&file).len();
        if !(LESS[0]..=MORE[1]).contains(&count) {
            continue;
        }
        same_and_largest(&mut random, &file, &mut kinds)?;
    }
    run.note(format!("{:?}", kinds.0));
    require(
        enough(&kinds),
        "each kind of answer",
        format!("{:?}", kinds.0),
    )
}

/// Refused by 10 before 12, 11 and 13.
fn files_with_rules(run: &mut Run) -> Outcome {
    for _ in 0..run.times(500) {
        let mut random = run.next_case();
        let mut file = crashes::file(&mut random);
        if file.rules.is_empty() {
            file.rules = generate::nearly_cyclic_rules(&mut random);
        }
        let length = random.pick(&[0, LEAST_BUFFER - 1, LEAST_BUFFER]);
        let bytes = file.to_mixed_bytes(&mut random);
        same_rules(&mut random, &bytes, length, of_reference)?;
    }
    Ok(())
}

/// A test of one name, for which no rules are needed, of 12, 13 and 20 main writes.
fn over_12(run: &mut Run) -> Outcome {
    let one_name = |random: &mut Random, main: usize| {
        let values = Values {
            names: vec![generate::name(random)],
            ..Values::small(random)
        };
        let initial = random.below(4);
        generate::test_of(random, &values, initial, main, 0)
    };
    for main in [MOST_MAIN, MOST_MAIN + 1, 20] {
        for place in 0..3 {
            for length in [LEAST_BUFFER, LEAST_BUFFER + 40, LEAST_BUFFER - 1, 0] {
                let mut random = run.next_case();
                let mut tests: Vec<Test> = (0..2).map(|_| one_name(&mut random, 2)).collect();
                tests.insert(place, one_name(&mut random, main));
                let file = File {
                    rules: vec![],
                    tests,
                };
                let known = if main > MOST_MAIN {
                    Err(refusal::plain(refusal::TOO_MANY_TO_FIND))
                } else if length < LEAST_BUFFER {
                    Err(refusal::plain(refusal::BUFFER_TOO_SHORT))
                } else {
                    Ok(0)
                };
                let bytes = file.to_mixed_bytes(&mut random);
                let got = same_rules(&mut random, &bytes, length, of_reference)?;
                same_answer_on("find", &[], answer::of(known), got)?;
            }
        }
    }
    Ok(())
}

/// By fast, since some have 16 tests and many candidates.
fn around_20(run: &mut Run) -> Outcome {
    let mut answers = Answers::default();
    for main in AROUND {
        for _ in 0..run.times(60) {
            let mut random = run.next_case();
            let (mut file, mut bytes, _) = file_with(&mut random, main);
            if !random.one_in(4) {
                file.rules.clear();
                bytes = file.to_mixed_bytes(&mut random);
            }
            let length = random.pick(&[0, LEAST_BUFFER - 1, LEAST_BUFFER, 200]);
            answers.count(same_rules(&mut random, &bytes, length, fast::find::find)?);
        }
    }
    answers.include(
        run,
        &[
            "refused 6",
            "refused 10",
            "refused 11",
            "refused 12",
            "refused 24",
        ],
    )
}

fn damaged_files(run: &mut Run) -> Outcome {
    for _ in 0..run.times(2_000) {
        let mut random = run.next_case();
        let bytes = damage::any(&mut random).bytes;
        let length = random.pick(&[0, LEAST_BUFFER - 1, LEAST_BUFFER]);
        same_rules(&mut random, &bytes, length, of_reference)?;
    }
    Ok(())
}

/// Refused by 12 before 11 and 13.
fn buffers(run: &mut Run) -> Outcome {
    for length in (0..LEAST_BUFFER + 8).chain([1000]) {
        let mut random = run.next_case();
        let values = Values::random(&mut random);
        let file = File {
            rules: vec![],
            tests: vec![hopeful_test(&mut random, &values, 3)],
        };
        let bytes = file.to_mixed_bytes(&mut random);
        same_rules(&mut random, &bytes, length, of_reference)?;
    }
    Ok(())
}
