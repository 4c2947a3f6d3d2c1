// Each routine against the reference, on random inputs.

use reference::checks::Check;
use reference::counts;
use reference::crashes;
use reference::damage;
use reference::file::{File, Test, LONGEST, MOST_MAIN};
use reference::find::MOST_MAIN as MOST_TO_FIND;
use reference::generate::{self, Values};
use reference::judge::{numbered, readable, Judgement};
use reference::random::Random;
use reference::refusal::{self, Refusal};
use reference::smallest::{at_limits, bad_at_start, fewer_flags, ties, two_blocks};
use reference::states;
use reference::writes::{Block, Write};

use crate::refused;
use crate::{cache, file, find, judge, log, program};

fn answer(of: Result<u64, Refusal>) -> u64 {
    of.unwrap_or_else(|refusal| refused(refusal.number as u64, refusal.place))
}

fn any_file(random: &mut Random) -> Vec<u8> {
    let mut file = match random.below(8) {
        0 => return damage::any(random).bytes,
        1 => generate::file(random),
        2 => crashes::log_file(random),
        _ => crashes::file(random),
    };
    if random.one_in(8) {
        file.rules = generate::nearly_cyclic_rules(random);
    }
    file.to_mixed_bytes(random)
}

/// A file whose bytes or fields are changed, or that is at a limit or beyond all of them.
fn odd_file(random: &mut Random) -> Vec<u8> {
    let file = generate::file(random);
    match random.below(8) {
        0 => damage::bytes_changed(random, &file),
        1 => damage::bytes_shifted(random, &file),
        2 => damage::fields_changed(random, &file),
        3 => damage::any_fields(random),
        4 => damage::huge_length(random),
        5 => damage::over_long(random),
        6 => {
            let limit = random.pick(&damage::LIMITS);
            damage::at_limit(random, limit)
        }
        _ => damage::any(random).bytes,
    }
}

#[test]
fn reading() {
    let (mut accepted, mut refusals) = (0, [0; 8]);
    for seed in 0..20_000 {
        let bytes = odd_file(&mut Random::new(seed));
        let expected = reference::file::read(&bytes);
        match &expected {
            Ok(_) => accepted += 1,
            Err(refusal) => refusals[refusal.number as usize] += 1,
        }
        let counts = expected.map(|file| (file.rules.len() + 256 * file.tests.len()) as u64);
        assert_eq!(file::read(&bytes), answer(counts), "seed {seed}");
    }
    assert!(
        accepted > 1000 && refusals[1..].iter().all(|&count| count > 100),
        "{refusals:?}"
    );
}

/// The longest file, and each of its beginnings: what is cut off is seen wherever that is.
#[test]
fn reading_beginnings() {
    let mut random = Random::new(1);
    let file = generate::full_file(&mut random, true);
    assert_eq!(file.to_wide_bytes().len(), LONGEST);
    for bytes in [file.to_wide_bytes(), file.to_mixed_bytes(&mut random)] {
        same_beginnings(&bytes);
    }
}

fn same_beginnings(bytes: &[u8]) {
    for length in (0..3000).chain(bytes.len() - 3000..=bytes.len()) {
        let expected = reference::file::read(&bytes[..length]);
        let counts = expected.map(|file| (file.rules.len() + 256 * file.tests.len()) as u64);
        assert_eq!(
            file::read(&bytes[..length]),
            answer(counts),
            "{length} bytes"
        );
    }
}

/// All judges and verdicts on tests of a file.
fn same_judgements(bytes: &[u8], numbers: impl IntoIterator<Item = u64>, seed: u64) {
    let file = readable(bytes);
    for number in numbers {
        let test = file.as_ref().map_err(|refusal| *refusal);
        let expected = test.and_then(|file| {
            let test = numbered(file, number)?;
            Ok(counts::expected(&file.rules, test))
        });
        let judged = |j: Judgement| j.valid + (j.bad << 21) + (j.shown << 42);
        let judged = answer(expected.map(judged));
        for judge in [judge::judge, judge::judge_by_words, judge::judge_settled] {
            assert_eq!(judge(bytes, number), judged, "seed {seed}");
        }
        let verdict = |j: Judgement| if j.bad == 0 { 0 } else { 1 + j.shown };
        let told = answer(expected.map(verdict));
        for verdict in VERDICTS {
            assert_eq!(verdict(bytes, number), told, "seed {seed}");
        }
    }
}

const VERDICTS: [fn(&[u8], u64) -> u64; 3] = [
    judge::verdict,
    judge::verdict_settled,
    judge::verdict_by_blocks,
];

#[test]
fn judging() {
    for seed in 0..4000 {
        let bytes = any_file(&mut Random::new(seed));
        same_judgements(&bytes, [1, 2, 0, 3], seed);
    }
}

/// Each number of main writes, with many checks and with rules of which many match.
#[test]
fn judging_up_to_the_limit() {
    for seed in 0..600 {
        let mut random = Random::new(seed);
        let values = Values::small(&mut random);
        let most = random.pick(&[0, 2, 6, 32]);
        let rules = crashes::acyclic_rules(&mut random, &values, most);
        let main = seed as usize % (MOST_MAIN + 1);
        let tests = vec![crashes::test(&mut random, &values, main)];
        let file = File { rules, tests };
        same_judgements(&file.to_mixed_bytes(&mut random), [1], seed);
    }
    for seed in 0..200 {
        let mut random = Random::new(seed);
        let ranges = crashes::range_file(&mut random);
        same_judgements(&ranges.to_mixed_bytes(&mut random), [1], seed);
        let (chain, _) = crashes::chain(&mut random);
        same_judgements(&chain.to_mixed_bytes(&mut random), [1], seed);
    }
    for seed in 0..4 {
        let mut random = Random::new(seed);
        let mut file = generate::full_file(&mut random, false);
        file.rules.truncate(3 * seed as usize);
        same_judgements(&file.to_mixed_bytes(&mut random), 0..=17, seed);
    }
}

/// Each number of main writes, of all kinds of tests.
#[test]
fn judging_of_every_kind() {
    let (mut hold, mut fail) = (0, 0);
    for seed in 0..3000 {
        let mut random = Random::new(seed);
        // One at a time a test of 20 writes takes long.
        let main = match seed % 20 {
            0 => random.between(13, MOST_MAIN),
            _ => random.below(13),
        };
        let file = crashes::file_of(&mut random, main);
        match counts::expected(&file.rules, &file.tests[0]).bad {
            0 => hold += 1,
            _ => fail += 1,
        }
        same_judgements(&file.to_mixed_bytes(&mut random), [1], seed);
    }
    assert!(hold > 500 && fail > 500, "{hold} {fail}");
}

/// Each kind of test for the schedule that is shown, and each number of main writes.
#[test]
fn judging_the_smallest() {
    let kinds: [fn(&mut Random, usize) -> File; 5] =
        [fewer_flags, bad_at_start, ties, two_blocks, at_limits];
    for seed in 0..1500 {
        let mut random = Random::new(seed);
        let main = match seed % 10 {
            0 => random.between(13, MOST_MAIN),
            _ => random.between(2, 12),
        };
        for kind in kinds {
            let file = kind(&mut random, main);
            same_judgements(&file.to_mixed_bytes(&mut random), [1], seed);
        }
        for main in [0, 1] {
            for kind in [bad_at_start, at_limits] {
                let file = kind(&mut random, main);
                same_judgements(&file.to_mixed_bytes(&mut random), [1], seed);
            }
        }
    }
}

/// The verdicts alone on tests of 20 main writes, which a judge takes long for.
#[test]
fn verdicts_on_twenty_writes() {
    let (mut hold, mut most) = (0, 0);
    for seed in 0..1500 {
        let mut random = Random::new(seed);
        let file = match seed % 6 {
            0 => crashes::file_of(&mut random, MOST_MAIN),
            1 => crashes::tangled_file_of(&mut random, MOST_MAIN),
            2 => crashes::long_ranges_file_of(&mut random, MOST_MAIN),
            3 => fewer_flags(&mut random, MOST_MAIN),
            4 => ties(&mut random, MOST_MAIN),
            _ => two_blocks(&mut random, MOST_MAIN),
        };
        let expected = counts::expected(&file.rules, &file.tests[0]);
        let told = if expected.bad == 0 {
            0
        } else {
            1 + expected.shown
        };
        hold += u64::from(told == 0);
        most = most.max(expected.shown.count_ones());
        let bytes = file.to_mixed_bytes(&mut random);
        for verdict in VERDICTS {
            assert_eq!(verdict(&bytes, 1), told, "seed {seed}");
        }
    }
    assert!((50..1000).contains(&hold) && most >= 10, "{hold} {most}");
}

#[test]
fn printing() {
    for seed in 0..2000 {
        let mut random = Random::new(seed);
        let bytes = match random.below(4) {
            0 => odd_file(&mut random),
            _ => any_file(&mut random),
        };
        // Tests of 12 writes and more take the reference long.
        let is_long = reference::file::read(&bytes).map_or(false, |file| {
            let long = file.tests.iter().filter(|test| test.main.len() >= 12);
            long.count() > 2
        });
        if is_long && !random.one_in(20) {
            continue;
        }
        let text = reference::program::output(&bytes);
        for length in [0, 399, 400, 1000] {
            let mut got = random.bytes(length);
            let mut expected = got.clone();
            let length = if length < 400 {
                Err(refusal::plain(refusal::BUFFER_TOO_SHORT))
            } else {
                expected[..text.len()].copy_from_slice(text.as_bytes());
                Ok(text.len() as u64)
            };
            let written = program::judge_lines(&bytes, &mut got);
            assert_eq!(written, answer(length), "seed {seed}");
            assert_eq!(got, expected, "seed {seed}");
        }
    }
}

/// 16 tests of which every schedule of 20 writes is bad: the initial disk has a block that no write
/// changes, and with it one that nothing leaves anywhere is asked for.
#[test]
fn printing_the_longest_text() {
    let mut random = Random::new(1);
    let values = Values {
        addresses: vec![1, 2, 3],
        ..Values::small(&mut random)
    };
    let mut test = generate::test_of(&mut random, &values, 64, MOST_MAIN, 0);
    let block = |number| Block {
        first: number,
        second: number,
    };
    test.checks = vec![Check::Pair {
        a: 77,
        v: block(0),
        b: 1,
        w: block(9),
    }];
    let file = File {
        rules: vec![],
        tests: vec![test; 16],
    };
    let text: String = (1..=16)
        .map(|number| format!("{number} 1048576 1048576 fails\n"))
        .collect();
    let mut buffer = [0xEE; 400];
    assert_eq!(program::judge_lines(&file.to_bytes(), &mut buffer), 391);
    assert_eq!(&buffer[..391], text.as_bytes());
    assert_eq!(buffer[391..], [0xEE; 9]);
}

#[test]
fn finding() {
    let mut found = 0;
    for seed in 0..400 {
        let mut random = Random::new(seed);
        let mut file = match random.below(3) {
            0 => crashes::log_file(&mut random),
            _ => crashes::file(&mut random),
        };
        for test in &mut file.tests {
            test.main.truncate(5);
        }
        if random.one_in(2) {
            let values = Values::small(&mut random);
            file.tests = vec![crashes::guarded_test(&mut random, &values, 5, 8)];
        }
        if !random.one_in(20) {
            file.rules.clear();
        }
        let bytes = file.to_mixed_bytes(&mut random);
        let length = random.pick(&[128, 127, 140]);
        let (mut one, mut two) = (vec![0xEE; length], vec![0xEE; length]);
        let expected = reference::find::find(&bytes, &mut one).map(|count| count as u64);
        found += u64::from(expected.is_ok());
        assert_eq!(
            find::find(&bytes, &mut two),
            answer(expected),
            "seed {seed}"
        );
        assert_eq!(one, two, "seed {seed}");
    }
    assert!(found > 50, "{found}");
}

/// Tests of up to 12 writes with up to 16 candidates and more, of all three predicates.
#[test]
fn finding_up_to_the_limit() {
    let (mut rules, mut refusals) = ([0; 17], [0; 29]);
    for seed in 0..400 {
        let mut random = Random::new(seed);
        let (names, epochs) = random.pick(&[(4, 1), (2, 3), (2, 2), (3, 2), (1, 4)]);
        let values = Values {
            names: generate::names(&mut random, names),
            epochs: (0..epochs).collect(),
            ..Values::small(&mut random)
        };
        let most = random.pick(&[5, 7, 9, MOST_TO_FIND]);
        let test = |random: &mut Random| {
            let main = random.between(2, most);
            if random.one_in(4) {
                return crashes::test(random, &values, main);
            }
            let mut test = crashes::guarded_test(random, &values, main, 12);
            if random.one_in(4) {
                test.checks.truncate(2);
            }
            test
        };
        let file = File {
            rules: vec![],
            tests: (0..random.between(1, 3))
                .map(|_| test(&mut random))
                .collect(),
        };
        let bytes = file.to_mixed_bytes(&mut random);
        let (mut one, mut two) = ([0xEE; 128], [0xEE; 128]);
        let expected = reference::find::find(&bytes, &mut one);
        match expected {
            Ok(count) => rules[count] += 1,
            Err(refusal) => refusals[refusal.number as usize] += 1,
        }
        let expected = answer(expected.map(|count| count as u64));
        assert_eq!(find::find(&bytes, &mut two), expected, "seed {seed}");
        assert_eq!(one, two, "seed {seed}");
    }
    assert!(rules[..5].iter().all(|&count| count > 0), "{rules:?}");
    assert!(refusals[11] > 0 && refusals[13] > 0, "{refusals:?}");
}

/// Around the most main writes that finding takes, with each refusal that could come before or after.
#[test]
fn finding_beyond_the_limit() {
    let mut refusals = [0; 29];
    for seed in 0..500 {
        let mut random = Random::new(seed);
        let main = random.pick(&[11, 12, 13, 16, 20, 21]);
        let values = match random.below(2) {
            0 => Values::wide(&mut random),
            _ => Values {
                names: vec![1],
                ..Values::small(&mut random)
            },
        };
        let mut file = File {
            rules: vec![],
            tests: vec![generate::test_of(&mut random, &values, 0, main, 2)],
        };
        if random.one_in(2) {
            let small = generate::test_of(&mut random, &values, 0, 2, 1);
            file.tests.insert(random.below(2), small);
        }
        if random.one_in(4) {
            file.rules = generate::rules_of(&mut random, &values, 1);
        }
        let bytes = file.to_mixed_bytes(&mut random);
        let length = random.pick(&[0, 127, 128, 140]);
        let (mut one, mut two) = (vec![0xEE; length], vec![0xEE; length]);
        let expected = reference::find::find(&bytes, &mut one).map(|count| count as u64);
        if let Err(refusal) = expected {
            refusals[refusal.number as usize] += 1;
        }
        assert_eq!(
            find::find(&bytes, &mut two),
            answer(expected),
            "seed {seed}"
        );
        assert_eq!(one, two, "seed {seed}");
    }
    let often = [6, 10, 12, 11, 24].map(|number| refusals[number]);
    assert!(often.iter().all(|&count| count > 10), "{refusals:?}");
}

/// 16 candidates of 16 names: tests of two writes, of which most ask for a rule of their own.
#[test]
fn finding_many_rules() {
    let mut rules = [0; 17];
    for seed in 0..30 {
        let mut random = Random::new(seed);
        let mut names = generate::alike_names(&mut random);
        if seed % 2 == 0 {
            names = (0..16).collect();
        }
        let test = |random: &mut Random, k: u8| {
            let there = Block {
                first: 0,
                second: 1,
            };
            let write = |random: &mut Random, i: u8| Write {
                address: i,
                name: names[(2 * k + i) as usize],
                epoch: random.below(3) as u32,
                block: there,
            };
            let tie = |a, b| Check::Pair {
                a,
                v: there,
                b,
                w: there,
            };
            Test {
                initial: vec![],
                main: vec![write(random, 0), write(random, 1)],
                checks: match random.below(20) {
                    0 => vec![],
                    1..=9 => vec![tie(0, 1)],
                    _ => vec![tie(1, 0)],
                },
            }
        };
        let file = File {
            rules: vec![],
            tests: (0..8).map(|k| test(&mut random, k)).collect(),
        };
        let bytes = file.to_mixed_bytes(&mut random);
        let (mut one, mut two) = ([0xEE; 128], [0xEE; 128]);
        let expected = reference::find::find(&bytes, &mut one).expect("rules that do");
        rules[expected] += 1;
        assert_eq!(find::find(&bytes, &mut two), expected as u64, "seed {seed}");
        assert_eq!(one, two, "seed {seed}");
    }
    assert!(rules[7] > 0 && rules[8] > 0, "{rules:?}");
}

fn hand_in(state: &mut [u8], write: &Write) -> u64 {
    let block = u32::from_be_bytes(write.block.to_bytes());
    cache::hand_in(state, write.address, write.name, write.epoch, block)
}

#[test]
fn caching() {
    for seed in 0..1500 {
        let mut random = Random::new(seed);
        let values = Values::small(&mut random);
        let mut file = crashes::file(&mut random);
        if !random.one_in(8) {
            file.tests.clear();
        }
        let (bytes, before) = (file.to_mixed_bytes(&mut random), random.bytes(1024));
        let (mut one, mut two) = (before.clone(), before);
        let opened = reference::cache::open(&bytes, &mut one).map(|()| 0);
        assert_eq!(cache::open(&mut two, &bytes), answer(opened), "seed {seed}");
        let (mut disk_one, mut disk_two) = ([0; 1024], [0; 1024]);
        for _ in 0..random.below(80) {
            if random.one_in(40) {
                let at = random.below(240);
                one[at] ^= 1;
                two[at] ^= 1;
            }
            let (expected, got) = match random.below(10) {
                0 => (
                    reference::cache::drain(&mut one, &mut disk_one),
                    cache::drain(&mut two, &mut disk_two),
                ),
                1 | 2 => (
                    reference::cache::step(&mut one, &mut disk_one),
                    cache::step(&mut two, &mut disk_two),
                ),
                _ => {
                    let write = generate::write(&mut random, &values);
                    let expected = reference::cache::hand_in(&mut one, &write);
                    (
                        expected.map(|()| one[1] as usize),
                        hand_in(&mut two, &write),
                    )
                }
            };
            assert_eq!(got, answer(expected.map(|n| n as u64)), "seed {seed}");
            assert_eq!(one, two, "seed {seed}");
            assert_eq!(disk_one, disk_two, "seed {seed}");
        }
        for key in 0..5 {
            let value = reference::log::get(&disk_one, key);
            let value = value.map(|value| value.map_or(65536, u64::from));
            assert_eq!(log::get(&disk_two, key), answer(value), "seed {seed}");
        }
    }
}

/// A drain stores one write after another as steps do, which the bytes left do not show.
#[test]
fn drains_in_the_order_of_steps() {
    let mut not_of_arrival = 0;
    for seed in 0..1000 {
        let mut state = states::sound(&mut Random::new(seed));
        let order = cache::order_of_drain(&state).expect("a sound state");
        let mut disk = [0; 1024];
        for &place in &order {
            assert_eq!(cache::step(&mut state, &mut disk), place, "seed {seed}");
        }
        assert_eq!(cache::step(&mut state, &mut disk), 0, "seed {seed}");
        not_of_arrival += usize::from(order.windows(2).any(|two| two[1] < two[0]));
    }
    assert!(not_of_arrival > 100, "{not_of_arrival}");
}

/// The three calls on one state and disk, each against the reference.
fn same_calls(state: &[u8], write: &Write, seed: u64) {
    let (mut one, mut two) = (state.to_vec(), state.to_vec());
    let expected = reference::cache::hand_in(&mut one, write);
    let expected = expected.map(|()| one[1] as u64);
    assert_eq!(hand_in(&mut two, write), answer(expected), "seed {seed}");
    assert_eq!(one, two, "seed {seed}");
    for drains in [false, true] {
        let (mut one, mut two) = (state.to_vec(), state.to_vec());
        let (mut disk_one, mut disk_two) = ([7; 1024], [7; 1024]);
        let (expected, got) = if drains {
            (
                reference::cache::drain(&mut one, &mut disk_one),
                cache::drain(&mut two, &mut disk_two),
            )
        } else {
            (
                reference::cache::step(&mut one, &mut disk_one),
                cache::step(&mut two, &mut disk_two),
            )
        };
        assert_eq!(got, answer(expected.map(|n| n as u64)), "seed {seed}");
        assert_eq!(one, two, "seed {seed}");
        assert_eq!(disk_one, disk_two, "seed {seed}");
    }
}

/// States that are sound and states that break one clause, whichever it is.
#[test]
fn caching_by_states() {
    for seed in 0..1000 {
        let mut random = Random::new(seed);
        let values = Values::small(&mut random);
        let write = generate::write(&mut random, &values);
        same_calls(&states::sound(&mut random), &write, seed);
        if seed < 100 {
            for clause in states::CLAUSES {
                same_calls(&states::broken(&mut random, clause), &write, seed);
            }
        }
    }
}

/// Epochs that are far apart are ranked in another way than those that are not.
#[test]
fn caching_far_epochs() {
    let (mut refusals, mut most) = ([0; 29], 0);
    for seed in 0..300 {
        let mut random = Random::new(seed);
        let apart = random.pick(&[1, 2, 1_000, 50_000_000]);
        let values = Values {
            names: generate::names(&mut random, 4),
            addresses: random.bytes(40),
            epochs: (0..70).map(|i| i * apart).collect(),
            ..Values::small(&mut random)
        };
        let rules = crashes::acyclic_rules(&mut random, &values, 12);
        let mut state = states::Source {
            values: values.clone(),
            rules,
        }
        .opened();
        let mut disk = [0; 1024];
        for _ in 0..80 {
            let write = generate::write(&mut random, &values);
            if random.one_in(8) {
                same_calls(&state, &write, seed);
                cache::step(&mut state, &mut disk);
            }
            let mut same = state.clone();
            let expected = reference::cache::hand_in(&mut same, &write);
            if let Err(refusal) = expected {
                refusals[refusal.number as usize] += 1;
            }
            let expected = expected.map(|()| same[1] as u64);
            assert_eq!(hand_in(&mut state, &write), answer(expected), "seed {seed}");
            assert_eq!(state, same, "seed {seed}");
        }
        most = most.max(state[1]);
    }
    assert_eq!(most, 64);
    assert!(refusals[16..=18].iter().all(|&n| n > 100), "{refusals:?}");
}

/// Keys that are there once, several times or not at all, 0 among them, with empty blocks between.
#[test]
fn getting() {
    let mut answers = [0; 3];
    for seed in 0..20_000 {
        let mut random = Random::new(seed);
        let superblock = match random.below(3) {
            0 => generate::head_and_tail(&mut random),
            _ => Block {
                first: random.below(257) as u16,
                second: random.below(258) as u16,
            },
        };
        let keys = random.between(1, 300);
        let mut disk = superblock.to_bytes().to_vec();
        for _ in 1..256 {
            disk.extend(match random.below(4) {
                0 => [0; 4],
                _ => Block {
                    first: random.below(keys) as u16,
                    second: random.below(3) as u16,
                }
                .to_bytes(),
            });
        }
        let key = random.below(keys + 2) as u16;
        let expected = reference::log::get(&disk, key);
        answers[expected.map_or(2, |value| value.is_some() as usize)] += 1;
        let expected = expected.map(|value| value.map_or(65536, u64::from));
        assert_eq!(log::get(&disk, key), answer(expected), "seed {seed}");
    }
    assert!(answers.iter().all(|&count| count > 1000), "{answers:?}");
    assert_eq!(log::get(&[0; 1023], 0), refused(14, 0));
}
