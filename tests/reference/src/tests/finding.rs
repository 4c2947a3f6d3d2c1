// Finding and judging, against the definitions taken literally on small files.

use crate::checks::consistent;
use crate::cyclic::cyclic;
use crate::file::{read, File, Test, RULE_FIELD, WIDE_RULE, WIDE_RULE_FIELD};
use crate::find::{candidates, find, members, sets_that_do};
use crate::generate::{self, Values};
use crate::judge::{judge_test, Judgement};
use crate::log;
use crate::random::Random;
use crate::refusal::plain;
use crate::schedule::{disk_of, flagged};
use crate::writes::{Name, Rule, PREDICATES};

/// Definition 3.4, pair by pair.
fn valid_by_pairs(rules: &[Rule], test: &Test, schedule: u64) -> bool {
    for (i, one) in test.main.iter().enumerate() {
        for (j, two) in test.main.iter().enumerate() {
            let paired = rules.iter().any(|r| r.matches(one.label(), two.label()));
            if paired && flagged(schedule, i) && !flagged(schedule, j) {
                return false;
            }
        }
    }
    true
}

fn judge_by_pairs(rules: &[Rule], test: &Test) -> Judgement {
    let initial = disk_of(&crate::writes::EMPTY_DISK, &test.initial, u64::MAX);
    let mut found = Judgement {
        valid: 0,
        bad: 0,
        shown: 0,
    };
    // The schedules from the least to be shown to the most.
    for ones in (0..=test.main.len()).rev() {
        for schedule in (0..1u64 << test.main.len()).rev() {
            let is_next = schedule.count_ones() as usize == ones;
            if is_next && valid_by_pairs(rules, test, schedule) {
                found.valid += 1;
                if !consistent(&test.checks, &disk_of(&initial, &test.main, schedule)) {
                    found.bad += 1;
                    found.shown = schedule;
                }
            }
        }
    }
    found
}

#[test]
fn judging_by_pairs() {
    for seed in 0..300 {
        let mut random = Random::new(seed);
        let file = generate::small_file(&mut random);
        for test in &file.tests {
            let judgement = judge_test(&file.rules, test);
            assert_eq!(judgement, judge_by_pairs(&file.rules, test), "seed {seed}");
        }
    }
}

/// The rules that a buffer begins with.
fn found(buffer: &[u8], count: usize) -> Vec<Rule> {
    let mut length = 0;
    for _ in 0..count {
        length += match buffer[length] {
            WIDE_RULE => WIDE_RULE_FIELD,
            _ => RULE_FIELD,
        };
    }
    read(&buffer[..length]).unwrap().rules
}

/// A file without rules over two names, whose tests have up to three main writes, or are of the log,
/// with these names for its own.
fn file_to_find(random: &mut Random, names: [Name; 2]) -> File {
    let values = Values {
        names: names.to_vec(),
        addresses: vec![0, 1, 2],
        epochs: vec![0, 1],
        halves: vec![0, 1, 2, 3],
    };
    let tests = random.between(1, 2);
    let mut test = || {
        if random.one_in(4) {
            let mut test = generate::log_test(random);
            for write in test.initial.iter_mut().chain(&mut test.main) {
                write.name = names[usize::from(write.name == log::SUPERBLOCK)];
            }
            return test;
        }
        let (initial, main, checks) = (random.below(3), random.between(1, 3), random.between(1, 2));
        generate::test_of(random, &values, initial, main, checks)
    };
    File {
        rules: vec![],
        tests: (0..tests).map(|_| test()).collect(),
    }
}

fn all_hold(file: &File, rules: &[Rule]) -> bool {
    file.tests.iter().all(|t| judge_test(rules, t).bad == 0)
}

#[test]
fn no_other_set_is_smaller() {
    no_smaller_set_over([log::LOG, log::SUPERBLOCK]);
}

/// Names that a byte does not tell apart.
#[test]
fn no_other_set_is_smaller_over_wide_names() {
    no_smaller_set_over([1, 257]);
}

/// The found set against all sets of rules over the two names, candidates or not; and among the
/// sets of as many candidates that do, it has the largest number.
fn no_smaller_set_over(names: [Name; 2]) {
    let mut all = Vec::new();
    for name in names {
        for second in names {
            all.extend(PREDICATES.map(|predicate| Rule {
                name,
                predicate,
                second,
            }));
        }
    }
    let sets: Vec<Vec<Rule>> = (0..1u32 << all.len())
        .map(|set| {
            (0..all.len())
                .filter(|i| set >> i & 1 == 1)
                .map(|i| all[i])
                .collect()
        })
        .filter(|rules: &Vec<Rule>| !cyclic(rules))
        .collect();
    let (mut refused, mut ties) = (0, 0);
    for seed in 0..60 {
        let mut random = Random::new(seed);
        let file = file_to_find(&mut random, names);
        let mut buffer = [0; 128];
        let fewest = sets
            .iter()
            .filter(|rules| all_hold(&file, rules))
            .map(|rules| rules.len())
            .min();
        match find(&file.to_mixed_bytes(&mut random), &mut buffer) {
            Ok(count) => {
                let found = found(&buffer, count);
                assert_eq!(Some(count), fewest, "seed {seed}");
                assert!(all_hold(&file, &found) && !cyclic(&found), "seed {seed}");
                let candidates = candidates(&file);
                let equals: Vec<u32> = (0..1u32 << candidates.len())
                    .filter(|set| set.count_ones() as usize == count)
                    .filter(|&set| {
                        let rules = members(&candidates, set);
                        all_hold(&file, &rules) && !cyclic(&rules)
                    })
                    .collect();
                let largest = equals.last().map(|&set| members(&candidates, set));
                assert_eq!(Some(found), largest, "seed {seed}");
                assert_eq!(
                    sets_that_do(&file, &candidates, count),
                    equals,
                    "seed {seed}"
                );
                ties += usize::from(equals.len() > 1);
            }
            Err(refusal) => {
                assert_eq!((refusal, fewest), (plain(13), None), "seed {seed}");
                refused += 1;
            }
        }
    }
    assert!(refused > 0 && refused < 60 && ties > 0, "{refused} {ties}");
}

#[test]
fn refusals_of_finding() {
    let mut random = Random::new(5);
    let wide = Values::wide(&mut random);
    let mut file = File {
        rules: vec![],
        tests: vec![generate::test_of(&mut random, &wide, 0, 12, 0)],
    };
    assert!(candidates(&file).len() > 16);
    let over = file.to_bytes();
    assert_eq!(find(&over, &mut [0; 127]), Err(plain(12)));
    assert_eq!(find(&over, &mut [0; 128]), Err(plain(11)));
    file.rules = generate::rules_of(&mut random, &wide, 1);
    assert_eq!(find(&file.to_bytes(), &mut []), Err(plain(10)));
    assert_eq!(find(&[], &mut [0; 128]), Ok(0));
}

/// 24 is asked of all tests, after 10 and before 12, 11 and 13.
#[test]
fn finding_keeps_its_twelve() {
    let mut random = Random::new(6);
    let one_name = Values {
        names: vec![1],
        epochs: vec![0],
        ..Values::small(&mut random)
    };
    let wide = Values::wide(&mut random);
    for main in 13..=20 {
        for values in [&one_name, &wide] {
            let large = generate::test_of(&mut random, values, 2, main, 3);
            let small = generate::test_of(&mut random, values, 0, 2, 1);
            for tests in [
                vec![large.clone()],
                vec![small.clone(), large.clone()],
                vec![large.clone(), small.clone(), small.clone()],
                vec![large.clone(), large],
            ] {
                let mut file = File {
                    rules: vec![],
                    tests,
                };
                for length in [0, 127, 128, 200] {
                    let mut buffer = vec![0xEE; length];
                    let refused = find(&file.to_bytes(), &mut buffer);
                    assert_eq!(refused, Err(plain(24)), "{main} main writes");
                    assert_eq!(buffer, vec![0xEE; length]);
                }
                file.rules = generate::rules_of(&mut random, values, 1);
                assert_eq!(find(&file.to_bytes(), &mut []), Err(plain(10)));
            }
        }
    }
    // One of 12 is taken, and one of 21 is not even read.
    let mut file = File {
        rules: vec![],
        tests: vec![generate::test_of(&mut random, &one_name, 0, 12, 0)],
    };
    assert_eq!(find(&file.to_bytes(), &mut [0; 128]), Ok(0));
    file.tests = vec![generate::test_of(&mut random, &one_name, 0, 21, 0)];
    let read = find(&file.to_bytes(), &mut [0; 128]).unwrap_err();
    assert_eq!((read.number, read.place), (6, 20 * 13));
}
