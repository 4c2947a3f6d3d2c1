// The bad schedule that is shown: by the definition, by diagrams, and by the two writes that break a
// check.

use crate::counts;
use crate::file::{File, MOST_CHECKS, MOST_INITIAL, MOST_MAIN};
use crate::judge::{bad_schedules, judge_test, smallest};
use crate::random::Random;
use crate::samples::{log_rules, test_k};
use crate::schedule::{dependencies, flagged, flags};
use crate::smallest::{at_limits, bad_at_start, fewer_flags, four_not_three, ties, two_blocks};
use crate::writes::{rule, Predicate};

fn shown(file: &File) -> Option<u64> {
    let judgement = judge_test(&file.rules, &file.tests[0]);
    (judgement.bad > 0).then_some(judgement.shown)
}

#[test]
fn of_numbers() {
    assert_eq!(smallest(&[]), None);
    assert_eq!(smallest(&[0, 1, 2]), Some(0));
    assert_eq!(smallest(&[3, 4, 8]), Some(4));
    assert_eq!(smallest(&[15, 12, 10, 7]), Some(10));
}

#[test]
fn four_and_not_three() {
    let test = four_not_three();
    assert_eq!(bad_schedules(&[], &test), [3, 4, 5, 6, 7]);
    assert_eq!(judge_test(&[], &test).shown, 4);
    // Where the third write depends on the others it is bad only with them: then 3 is shown.
    let mut after = test.clone();
    after.main[2].name = 2;
    let rules = [rule(2, Predicate::Equal, 1)];
    assert_eq!(bad_schedules(&rules, &after), [3, 7]);
    assert_eq!(judge_test(&rules, &after).shown, 3);
}

#[test]
fn of_test_k() {
    assert_eq!(judge_test(&[], &test_k()).shown, 2);
    assert_eq!(judge_test(&log_rules()[..1], &test_k()).shown, 12);
    assert_eq!(judge_test(&log_rules()[1..], &test_k()).shown, 2);
    assert_eq!(judge_test(&log_rules(), &test_k()).shown, 0);
}

/// No more writes have to be flagged than one or two and what these depend on, directly or not.
fn by_two_writes(file: &File) -> Option<u64> {
    let test = &file.tests[0];
    let on = dependencies(&file.rules, &test.main);
    let with_its_own = |i: usize| {
        let mut all = 1u64 << i;
        for _ in 0..on.len() {
            for j in (0..on.len())
                .filter(|&j| flagged(all, j))
                .collect::<Vec<_>>()
            {
                on[j].iter().for_each(|&k| all |= 1 << k);
            }
        }
        all
    };
    let one: Vec<u64> = (0..on.len()).map(with_its_own).collect();
    let mut candidates = vec![0];
    for i in &one {
        candidates.extend(one.iter().map(|j| i | j));
    }
    let bad = bad_schedules(&file.rules, test);
    candidates.retain(|candidate| bad.contains(candidate));
    smallest(&candidates)
}

/// Each kind of test for it, of up to ten main writes, in three ways; and that each is what it is for.
#[test]
fn in_three_ways() {
    let (mut fewer, mut tied, mut behind, mut twos) = (0, 0, 0, 0);
    const EACH: u64 = 400;
    for seed in 0..EACH {
        let mut random = Random::new(seed);
        let main = random.between(2, 10);
        let kinds: [fn(&mut Random, usize) -> File; 5] =
            [fewer_flags, bad_at_start, ties, two_blocks, at_limits];
        let files = kinds.map(|kind| kind(&mut random, main));
        for file in &files {
            let test = &file.tests[0];
            let judgement = judge_test(&file.rules, test);
            assert_eq!(
                counts::judge_test(&file.rules, test),
                judgement,
                "seed {seed}"
            );
            assert_eq!(by_two_writes(file), shown(file), "seed {seed}");
        }
        let bad = |k: usize| bad_schedules(&files[k].rules, &files[k].tests[0]);
        fewer += u64::from(shown(&files[0]) != bad(0).first().copied());
        assert_eq!(shown(&files[1]), Some(0), "seed {seed}");
        let fewest = |k: usize| shown(&files[k]).map_or(0, flags);
        let (of_ties, of_twos) = (fewest(2), fewest(3));
        let as_few = bad(2).iter().filter(|&&s| flags(s) == of_ties).count();
        tied += u64::from(as_few > 1);
        twos += u64::from(of_twos >= 2);
        behind += u64::from(of_twos >= 4);
    }
    assert!(fewer > EACH / 2, "{fewer}");
    assert!(tied > EACH / 2, "{tied}");
    assert!(twos > EACH / 2 && behind > EACH / 5, "{twos} {behind}");
}

/// Both the tests of no, of one and of the most main writes come, with no and with the most of the
/// others; and some hold.
#[test]
fn limits() {
    let (mut hold, mut all, mut full) = (0, 0, 0);
    for seed in 0..300 {
        for main in [0, 1, MOST_MAIN] {
            let file = at_limits(&mut Random::new(seed), main);
            let test = &file.tests[0];
            assert_eq!(test.main.len(), main);
            let bad = counts::judge_test(&file.rules, test).bad;
            hold += u64::from(bad == 0);
            all += 1;
            full +=
                u64::from(test.checks.len() == MOST_CHECKS && test.initial.len() == MOST_INITIAL);
        }
    }
    assert!(hold > all / 10 && hold < all / 10 * 9, "{hold} of {all}");
    assert!(full > all / 20, "{full} of {all}");
}
