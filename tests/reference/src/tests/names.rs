// Names of two bytes, [2] of document 02: what tells one reading of it from another, and that old files
// keep their verdicts in whichever tags they are written.

use crate::cache::{accepted, broken_clause, drain, hand_in, open, step, Clause, DISK, STATE};
use crate::checks::Check;
use crate::crashes;
use crate::cyclic::cyclic;
use crate::file::{bytes_of, read, Field, File, Test};
use crate::find::{find, MOST_MAIN};
use crate::generate::{self, some_widened, widened, Values};
use crate::judge::{judge, judge_test, verdict};
use crate::log::trace;
use crate::program::output;
use crate::random::Random;
use crate::refusal::{at, plain, Refusal};
use crate::samples::{log_rules, test_k};
use crate::writes::{block, rule, write, Name, Predicate, Rule};

use Predicate::{Equal, Greater, Less};

const OLD_WRITE: [u8; 10] = [7, 1, 0, 0, 0, 3, 0, 4, 0, 5];
const NEW_WRITE: [u8; 11] = [7, 1, 1, 0, 0, 0, 3, 0, 4, 0, 5];
const OLD_RULE: [u8; 3] = [2, 0, 1];
const NEW_RULE: [u8; 5] = [1, 2, 0, 1, 1];

/// A field with a right body.
fn field(tag: u8) -> Vec<u8> {
    let body: &[u8] = match tag {
        1 | 2 => &OLD_WRITE,
        3 => &OLD_RULE,
        4 | 6 => &[0],
        7 => &[],
        8 | 9 => &NEW_WRITE,
        _ => &NEW_RULE,
    };
    [&[tag, 0, body.len() as u8], body].concat()
}

fn fields(tags: &[u8]) -> Vec<u8> {
    tags.iter().flat_map(|&tag| field(tag)).collect()
}

fn refused(bytes: &[u8]) -> Option<Refusal> {
    read(bytes).err()
}

/// 2.1: the parts of a body are in the same order, and so are the fields of a file.
#[test]
fn the_same_order() {
    let file = read(&[0x0a, 0, 5, 1, 0, 0, 0, 1]).unwrap();
    assert_eq!(file.rules, [rule(256, Equal, 1)]);
    let file = read(&fields(&[10, 3, 8, 1, 9, 2, 4, 7])).unwrap();
    assert_eq!(file.rules, [rule(258, Equal, 257), rule(2, Equal, 1)]);
    let (new, old) = (write(7, 257, 3, block(4, 5)), write(7, 1, 3, block(4, 5)));
    assert_eq!(file.tests[0].initial, [new, old]);
    assert_eq!(file.tests[0].main, [new, old]);
    for (before, after) in [
        (&[9][..], 1),
        (&[9], 8),
        (&[2], 8),
        (&[4], 1),
        (&[6], 8),
        (&[4], 9),
        (&[9, 6], 2),
        (&[7], 10),
        (&[8], 3),
        (&[9], 10),
    ] {
        let mut bytes = fields(before);
        let place = bytes.len();
        bytes.extend(field(after));
        assert_eq!(
            refused(&bytes),
            Some(at(4, place)),
            "{after} after {before:?}"
        );
    }
    for tags in [
        &[1, 8, 9, 7][..],
        &[8, 1, 2, 7],
        &[3, 10, 3, 7],
        &[2, 9, 2, 7],
    ] {
        assert_eq!(refused(&fields(tags)), None, "{tags:?}");
    }
}

/// 2.2: a limit counts old and new tags together.
#[test]
fn limits_of_both() {
    for (old, new, most) in [(3, 10, 32), (1, 8, 64), (2, 9, 20)] {
        for of_old in [0, 1, most / 2, most - 1, most] {
            let mut tags = vec![old; of_old];
            tags.resize(most, new);
            Random::new(of_old as u64).shuffle(&mut tags);
            let bytes = fields(&tags);
            assert_eq!(refused(&[&bytes[..], &[7, 0, 0]].concat()), None);
            for one_more in [old, new] {
                let over = [&bytes[..], &field(one_more)].concat();
                assert_eq!(refused(&over), Some(at(6, bytes.len())));
            }
        }
    }
    let thirty_three = fields(&[vec![3; 16], vec![10; 17]].concat());
    assert_eq!(refused(&thirty_three), Some(at(6, 16 * 6 + 16 * 8)));
}

/// 2.3: the order of refusals in a new field is that in an old one.
#[test]
fn refusals_of_a_new_field() {
    let rules = fields(&[10; 32]);
    let over = [&rules[..], &[0x0a, 0, 0]].concat();
    assert_eq!(refused(&over), Some(at(6, rules.len())));
    // The third byte of the body is the predicate, and only that.
    assert_eq!(refused(&[10, 0, 5, 1, 0, 3, 0, 1]), Some(at(5, 0)));
    assert_eq!(refused(&[10, 0, 5, 1, 0, 3, 0]), Some(at(1, 0)));
    assert_eq!(refused(&[10, 0, 5, 1, 0, 3]), Some(at(1, 0)));
    assert_eq!(refused(&[10, 0, 5, 9, 9, 2, 9, 9]), None);
    // The length of the other tag is a wrong one.
    assert_eq!(refused(&[10, 0, 3, 2, 0, 1]), Some(at(3, 0)));
    assert_eq!(refused(&[3, 0, 5, 1, 2, 0, 1, 1]), Some(at(3, 0)));
    for (tag, wrong) in [(1, 11), (2, 11), (8, 10), (9, 10), (5, 11)] {
        let bytes = [&[tag, 0, wrong][..], &[0; 11]].concat();
        assert_eq!(refused(&bytes), Some(at(3, 0)), "{tag}");
    }
    for tag in [8, 9] {
        let whole = field(tag);
        assert_eq!(refused(&whole), Some(at(7, 14)));
        for length in 3..14 {
            assert_eq!(refused(&whole[..length]), Some(at(1, 0)));
        }
    }
}

/// 2.4: 00 and 0B to FF.
#[test]
fn unknown_tags() {
    for tag in 0..=255 {
        let unknown = refused(&[tag, 0xff, 0xff]) == Some(at(2, 0));
        assert_eq!(unknown, tag == 0 || tag > 10, "{tag}");
    }
}

/// 2.5: names are numbers, in whichever tag; 1 and 257 differ.
#[test]
fn names_are_numbers() {
    let rules = |bytes: &[u8]| read(bytes).unwrap().rules;
    assert!(cyclic(&rules(&[10, 0, 5, 0, 3, 0, 0, 3])));
    assert!(!cyclic(&rules(&[10, 0, 5, 1, 3, 0, 0, 3])));
    assert!(!cyclic(&rules(&[10, 0, 5, 1, 0, 0, 0, 1])));
    let back = |high| [3, 0, 3, 1, 0, 2, 10, 0, 5, high, 2, 0, 0, 1];
    assert!(cyclic(&rules(&back(0))));
    assert!(!cyclic(&rules(&back(1))));
    // A superblock 2 depends on log block 1, and not on 257.
    for (name, valid) in [(1, 3), (257, 4)] {
        let test = Test {
            initial: vec![],
            main: vec![write(1, name, 0, block(0, 1)), write(0, 2, 0, block(1, 2))],
            checks: vec![],
        };
        let file = File {
            rules: vec![rule(2, Equal, 1)],
            tests: vec![test],
        };
        for bytes in [file.to_bytes(), file.to_wide_bytes()] {
            assert_eq!(judge(&bytes, 1).unwrap().valid, valid);
        }
    }
}

/// Two writes of a name, of epochs 0 and 1: with the second there, the first has to be.
fn first_before_second(name: Name) -> Test {
    let there = block(0, 1);
    Test {
        initial: vec![],
        main: vec![write(1, name, 0, there), write(2, name, 1, there)],
        checks: vec![Check::Pair {
            a: 2,
            v: there,
            b: 1,
            w: there,
        }],
    }
}

/// What find leaves in a buffer of 128 bytes of EE.
fn found(tests: &[Test]) -> Vec<u8> {
    let file = File {
        rules: vec![],
        tests: tests.to_vec(),
    };
    let mut all = Vec::new();
    for bytes in [file.to_bytes(), file.to_wide_bytes()] {
        let mut buffer = vec![0xEE; 128];
        let count = find(&bytes, &mut buffer).unwrap();
        buffer.push(count as u8);
        all.push(buffer);
    }
    assert_eq!(all[0], all[1]);
    all.remove(0)
}

fn left(fields: &[u8], count: u8) -> Vec<u8> {
    let mut expected = fields.to_vec();
    expected.resize(128, 0xEE);
    expected.push(count);
    expected
}

/// 2.6: 0A rule by rule, only where one of its names exceeds 255; order and choice go by the numbers.
#[test]
fn what_find_writes() {
    let both = [first_before_second(1), first_before_second(300)];
    let bytes = [
        0x03, 0, 3, 1, 1, 1, // (1,>,1)
        0x0a, 0, 5, 1, 0x2c, 1, 1, 0x2c, // (300,>,300)
    ];
    assert_eq!(found(&both), left(&bytes, 2));
    // One wide name, the first or the second, makes both two bytes.
    let mut k = test_k();
    for write in k.initial.iter_mut().chain(&mut k.main) {
        write.name = if write.name == 1 { 300 } else { 2 };
    }
    let bytes = [
        0x0a, 0, 5, 0, 2, 0, 1, 0x2c, // (2,=,300)
        0x0a, 0, 5, 1, 0x2c, 1, 1, 0x2c, // (300,>,300) has the larger number than (2,>,2)
    ];
    assert_eq!(found(&[k.clone()]), left(&bytes, 2));
    let rules = [rule(2, Equal, 300), rule(300, Greater, 300)];
    assert_eq!(judge_test(&rules, &k).bad, 0);
    for (name, bytes) in [
        (255, &[3, 0, 3, 255, 1, 255][..]),
        (256, &[10, 0, 5, 1, 0, 1, 1, 0]),
        (65_535, &[10, 0, 5, 255, 255, 1, 255, 255]),
    ] {
        assert_eq!(found(&[first_before_second(name)]), left(bytes, 1));
    }
}

/// 2.7: 128 bytes, also where all names are small; asked after 24 and before 11 and 13.
#[test]
fn the_buffer_of_find() {
    let file = |tests| File {
        rules: vec![],
        tests,
    };
    let k = file(vec![test_k()]).to_bytes();
    for length in [0, 96, 127] {
        let mut buffer = vec![0xEE; length];
        assert_eq!(find(&k, &mut buffer), Err(plain(12)));
        assert_eq!(buffer, vec![0xEE; length]);
    }
    assert_eq!(find(&k, &mut [0; 128]), Ok(2));
    assert_eq!(find(&[], &mut [0; 127]), Err(plain(12)));
    let mut random = Random::new(1);
    let wide = Values::wide(&mut random);
    let mut with = |main| file(vec![generate::test_of(&mut random, &wide, 0, main, 0)]);
    let most = with(MOST_MAIN).to_wide_bytes();
    assert_eq!(find(&most, &mut [0; 127]), Err(plain(12)));
    assert_eq!(find(&most, &mut [0; 128]), Err(plain(11)));
    assert_eq!(
        find(&with(13).to_wide_bytes(), &mut [0; 127]),
        Err(plain(24))
    );
}

/// 2.8: the bytes of a state with names of two bytes, and its limits.
#[test]
fn the_state() {
    let file = [10, 0, 5, 1, 0, 0, 0, 1, 3, 0, 3, 2, 1, 2];
    let mut state = vec![0xEE; STATE];
    assert_eq!(open(&file, &mut state), Ok(()));
    let mut expected = vec![0; STATE];
    expected[..14].copy_from_slice(&[2, 0, 0, 0, 1, 0, 0, 0, 1, 0, 2, 1, 0, 2]);
    assert_eq!(state, expected);
    let (name, epoch) = (0x0102, 0x03040506);
    assert_eq!(
        hand_in(&mut state, &write(9, name, epoch, block(0x0708, 0x090a))),
        Ok(())
    );
    expected[1] = 1;
    expected[164..175].copy_from_slice(&[9, 1, 2, 3, 4, 5, 6, 7, 8, 9, 10]);
    assert_eq!(state, expected);
    let mut disk = vec![0; DISK];
    assert_eq!(step(&mut state, &mut disk), Ok(1));
    (expected[2], expected[175]) = (1, 1);
    assert_eq!(state, expected);
    assert_eq!(disk[36..40], [7, 8, 9, 10]);
    // The last rule and the last write have their places.
    let mut state = vec![0; STATE];
    assert_eq!(open(&fields(&[10; 32]), &mut state), Ok(()));
    assert_eq!(state[159..165], [1, 2, 0, 1, 1, 0]);
    for i in 0..64 {
        let write = write(i, 0xFFFF, i as u32, block(1, 1));
        assert_eq!(hand_in(&mut state, &write), Ok(()));
    }
    assert_eq!(
        state[920..933],
        [63, 255, 255, 0, 0, 0, 63, 0, 1, 0, 1, 0, 0]
    );
    assert_eq!(
        hand_in(&mut state, &write(0, 1, 0, block(1, 1))),
        Err(plain(16))
    );
    assert_eq!(drain(&mut state, &mut disk), Ok(64));
    for zero in 932..STATE {
        state[zero] = 1;
        assert_eq!(broken_clause(&state), Some(Clause::Layout), "byte {zero}");
        state[zero] = 0;
    }
}

/// A late write and a ring by names of two bytes, which those with the same low byte do not make.
#[test]
fn late_and_ring() {
    let mut state = vec![0; STATE];
    assert_eq!(open(&[10, 0, 5, 0, 2, 0, 1, 1], &mut state), Ok(()));
    assert_eq!(hand_in(&mut state, &write(0, 2, 1, block(1, 3))), Ok(()));
    assert_eq!(step(&mut state, &mut [0; DISK]), Ok(1));
    let log = |name| write(2, name, 1, block(1, 81));
    assert_eq!(hand_in(&mut state, &log(257)), Err(plain(17)));
    assert_eq!(hand_in(&mut state, &log(1)), Ok(()));
    let falling = |name: Name| Rule {
        name,
        predicate: Less,
        second: name,
    };
    for (name, refused) in [(257, Err(plain(18))), (1, Ok(())), (513, Ok(()))] {
        let rules = [falling(257)];
        let mut state = crate::states::state_of(&rules, &[write(5, 257, 1, block(0, 1))], &[false]);
        assert_eq!(
            hand_in(&mut state, &write(5, name, 2, block(0, 2))),
            refused
        );
    }
}

/// A state of the layout before [2], with rules of three bytes and writes from 100 on. Some are sound in
/// the new one, too, and mean something else: such a state must not be kept across a new version.
#[test]
fn states_of_the_old_layout() {
    let opened_before = |rules: &[[u8; 3]]| {
        let mut state = vec![0; STATE];
        state[0] = rules.len() as u8;
        state[4..4 + 3 * rules.len()].copy_from_slice(&rules.concat());
        state
    };
    let rules_of = |state: &[u8], count: usize| -> Vec<Rule> {
        let rule_at =
            |i| crate::file::rule_of(&state[4 + 5 * i..9 + 5 * i], crate::file::Width::Two);
        (0..count).map(|i| rule_at(i).unwrap()).collect()
    };
    // (2,=,1).
    let one = opened_before(&[[2, 0, 1]]);
    assert_eq!(broken_clause(&one), None);
    assert_eq!(rules_of(&one, 1), [rule(512, Greater, 0)]);
    // The log's rules.
    let log = opened_before(&[[2, 0, 1], [2, 1, 2]]);
    assert_eq!(broken_clause(&log), None);
    let others = [rule(512, Greater, 513), rule(512, Equal, 0)];
    assert_eq!(rules_of(&log, 2), others);
    // With a write in it, one is refused unless that is all zeros.
    let mut with_write = one.clone();
    with_write[1] = 1;
    assert_eq!(broken_clause(&with_write), None);
    with_write[100..110].copy_from_slice(&OLD_WRITE);
    assert_eq!(broken_clause(&with_write), Some(Clause::Layout));
    assert_eq!(accepted(&one), []);
}

/// 2.9: trace keeps tags 01 and 02.
#[test]
fn trace_keeps_its_tags() {
    let mut buffer = [0; 59];
    assert_eq!(trace(&[0, 0, 0, 42], &[0, 1, 0, 81], &mut buffer), Ok(59));
    assert_eq!(
        [0, 13, 26, 39, 52, 56].map(|at| buffer[at]),
        [1, 1, 2, 2, 4, 7]
    );
}

/// All that is asked of a file.
fn answers(bytes: &[u8], test: u64) -> impl PartialEq + std::fmt::Debug {
    let (mut buffer, mut state) = (vec![0xEE; 128], vec![0xEE; STATE]);
    let found = find(bytes, &mut buffer);
    let opened = open(bytes, &mut state);
    (
        read(bytes),
        read(bytes).map(|file| cyclic(&file.rules)),
        judge(bytes, test),
        verdict(bytes, test),
        output(bytes),
        (found, buffer),
        (opened, state),
    )
}

/// 2.10: a file of document 01's tags says the same when any of its fields are in the new ones.
#[test]
fn old_files_keep_their_verdicts() {
    for seed in 0..400 {
        let mut random = Random::new(seed);
        let values = Values::narrow(&mut random);
        let rules = match random.below(4) {
            0 => vec![],
            1 => generate::rules_of(&mut random, &values, 3),
            _ => crashes::acyclic_rules(&mut random, &values, 4),
        };
        let tests = (0..random.below(3))
            .map(|_| {
                let main = random.between(0, 6);
                crashes::test(&mut random, &values, main)
            })
            .collect();
        let file = File { rules, tests };
        let old = file.fields();
        assert!(old.iter().all(|field| field.tag <= 7));
        let test = random.below(3) as u64;
        let before = answers(&bytes_of(&old), test);
        let all: Vec<Field> = old.iter().map(widened).collect();
        assert!(all.iter().all(|field| field.tag > 3));
        assert_eq!(bytes_of(&all), file.to_wide_bytes());
        assert_eq!(answers(&bytes_of(&all), test), before, "seed {seed}");
        for _ in 0..3 {
            let some = bytes_of(&some_widened(&mut random, &old));
            assert_eq!(answers(&some, test), before, "seed {seed}");
        }
    }
}

/// The log under its rules, with a byte added to each name: the same counts, the same rules found.
#[test]
fn the_log_with_other_names() {
    let of = |high: Name| {
        let mut test = test_k();
        for write in test.initial.iter_mut().chain(&mut test.main) {
            write.name += high << 8;
        }
        let rules =
            log_rules().map(|r| rule(r.name + (high << 8), r.predicate, r.second + (high << 8)));
        (rules, test)
    };
    let (rules, test) = of(0);
    for high in [1, 2, 255] {
        let (wide, moved) = of(high);
        assert_eq!(judge_test(&wide, &moved), judge_test(&rules, &test));
        // Of the old names the new rules say nothing.
        assert_eq!(judge_test(&wide, &test), judge_test(&[], &test));
        assert_eq!(judge_test(&rules, &moved), judge_test(&[], &test));
        let fields = wide.map(|rule| Field::of_rule(&rule));
        assert_eq!(found(&[moved]), left(&bytes_of(&fields), 2));
    }
}
