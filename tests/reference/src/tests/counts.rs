// Judging by diagrams against going through all schedules.

use crate::checks::Check;
use crate::counts::{expected, judge_test, FEW};
use crate::crashes;
use crate::file::{File, Test, MOST_MAIN};
use crate::generate::{self, Values};
use crate::judge;
use crate::log;
use crate::random::Random;
use crate::samples::{log_rules, test_k};
use crate::writes::{block, rule, write, Predicate, Rule};

fn counts(rules: &[Rule], test: &Test) -> (u64, u64) {
    let judgement = judge_test(rules, test);
    (judgement.valid, judgement.bad)
}

/// The same counts and the same bad schedule shown.
fn same(file: &File, seed: u64) {
    for test in &file.tests {
        let by_schedules = judge::judge_test(&file.rules, test);
        assert_eq!(judge_test(&file.rules, test), by_schedules, "seed {seed}");
    }
}

#[test]
fn the_bench_sheet() {
    let both = log_rules();
    assert_eq!(counts(&both, &test_k()), (7, 0));
    assert_eq!(counts(&[], &test_k()), (16, 8));
    assert_eq!(counts(&both[..1], &test_k()), (9, 1));
    assert_eq!(judge_test(&both[..1], &test_k()).shown, 12);
}

#[test]
fn random_files() {
    let (mut hold, mut all) = (0, 0);
    for seed in 0..3000 {
        let mut random = Random::new(seed);
        let main = random.below(10);
        let file = match seed % 3 {
            0 => generate::small_file(&mut random),
            _ => crashes::file_of(&mut random, main),
        };
        same(&file, seed);
        let bad = |test: &&Test| judge_test(&file.rules, test).bad > 0;
        hold += file.tests.len() - file.tests.iter().filter(bad).count();
        all += file.tests.len();
    }
    assert!(hold > all / 5 && hold < all / 5 * 4, "{hold} of {all}");
}

/// Dependencies in rings are of no file that is judged, but they have a meaning.
#[test]
fn rules_that_are_cyclic() {
    for seed in 0..300 {
        let mut random = Random::new(seed);
        let values = Values::small(&mut random);
        let main = random.below(9);
        let file = File {
            rules: generate::rules_of(&mut random, &values, 6),
            tests: vec![crashes::test(&mut random, &values, main)],
        };
        same(&file, seed);
    }
}

#[test]
fn up_to_twenty_writes() {
    for (seed, main) in (0..).zip([11, 12, 13, 14, 15, 16, 19, MOST_MAIN]) {
        let file = crashes::file_of(&mut Random::new(seed), main);
        same(&file, seed);
        let test = &file.tests[0];
        assert_eq!(test.main.len() <= FEW, main <= 12);
        assert_eq!(
            expected(&file.rules, test),
            judge_test(&file.rules, test),
            "seed {seed}"
        );
    }
}

/// Counts of 20 writes that are known.
#[test]
fn known_counts() {
    let puts: Vec<_> = (1..=10).map(|key| block(key, 80 + key)).collect();
    let log = log::test_of(&[block(0, 42)], &puts);
    assert_eq!(counts(&log_rules(), &log), (2_047, 0));
    // With the superblock of put k seen the log's blocks up to k have to be there; those behind it,
    // and the superblocks before it, may.
    let good: u64 = (0..=10).map(|k| (1u64 << (10 - k)) << k.max(1) >> 1).sum();
    assert_eq!(good, 1024 + 10 * 512);
    assert_eq!(counts(&[], &log), (1 << 20, (1 << 20) - good));
    // Each write after all before it, or by itself; and a check that always fails.
    let never = Check::Pair {
        a: 200,
        v: block(0, 0),
        b: 201,
        w: block(1, 1),
    };
    let chain = Test {
        initial: vec![],
        main: (0..20)
            .map(|i| write(7, 1, i, block(i as u16, 1)))
            .collect(),
        checks: vec![never],
    };
    let in_order = rule(1, Predicate::Greater, 1);
    assert_eq!(counts(&[in_order], &chain), (21, 21));
    assert_eq!(counts(&[], &chain), (1 << 20, 1 << 20));
    assert_eq!(judge_test(&[], &chain).shown, 0);
}
