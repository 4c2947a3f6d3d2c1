// The bench sheet of document 01, line by line, and what the judging program prints.

use crate::cache::{accepted, hand_in, open, step, stored, DISK, STATE};
use crate::checks::Check;
use crate::cyclic::cyclic;
use crate::file::{bytes_of, Field, File, Test};
use crate::find::find;
use crate::judge::{judge, verdict, Judgement, Verdict};
use crate::log::{get, trace};
use crate::program::output;
use crate::refusal::plain;
use crate::writes::{block, disk_to_bytes, rule, Name, Predicate, Rule, Write, EMPTY_DISK};

use Predicate::{Equal, Greater, Less};

fn write(address: u8, name: Name, epoch: u32, first: u16, second: u16) -> Write {
    Write {
        address,
        name,
        epoch,
        block: block(first, second),
    }
}

const INITIAL_K: [u8; 4] = [0, 0, 0, 42];
const MAIN_K: [u8; 8] = [0, 1, 0, 81, 0, 2, 0, 37];

/// Test K, as the trace routine writes it.
fn k() -> Vec<u8> {
    let mut buffer = [0; 85];
    assert_eq!(trace(&INITIAL_K, &MAIN_K, &mut buffer), Ok(85));
    buffer.to_vec()
}

fn with_rules(rules: &[Rule], tests: &[u8]) -> Vec<u8> {
    let fields: Vec<Field> = rules.iter().map(Field::of_rule).collect();
    let mut bytes = bytes_of(&fields);
    bytes.extend(tests);
    bytes
}

fn k1_rules() -> [Rule; 2] {
    [rule(2, Equal, 1), rule(2, Greater, 2)]
}

fn judgement(valid: u64, bad: u64, shown: u64) -> Judgement {
    Judgement { valid, bad, shown }
}

#[test]
fn test_k_is_the_trace_of_000() {
    let expected = Test {
        initial: vec![write(1, 1, 0, 0, 42), write(0, 2, 0, 1, 2)],
        main: vec![
            write(2, 1, 1, 1, 81),
            write(0, 2, 1, 1, 3),
            write(3, 1, 2, 2, 37),
            write(0, 2, 2, 1, 4),
        ],
        checks: vec![Check::Range { at: 0 }],
    };
    assert_eq!(k(), bytes_of(&expected.fields()));
}

#[test]
fn k1() {
    let file = with_rules(&k1_rules(), &k());
    assert_eq!(judge(&file, 1), Ok(judgement(7, 0, 0)));
    assert_eq!(verdict(&file, 1), Ok(Verdict::Holds));
    assert_eq!(output(&file), "1 7 0 holds\n");
}

#[test]
fn k2() {
    // Either superblock alone is bad.
    assert_eq!(judge(&k(), 1), Ok(judgement(16, 8, 2)));
    assert_eq!(verdict(&k(), 1), Ok(Verdict::Fails(2)));
    assert_eq!(output(&k()), "1 16 8 fails\n");
}

#[test]
fn k3() {
    let file = with_rules(&[rule(2, Equal, 1)], &k());
    assert_eq!(judge(&file, 1), Ok(judgement(9, 1, 12)));
    assert_eq!(verdict(&file, 1), Ok(Verdict::Fails(12)));
    assert_eq!(output(&file), "1 9 1 fails\n");
}

#[test]
fn k4() {
    let mut buffer = [0xEE; 128];
    assert_eq!(find(&k(), &mut buffer), Ok(2));
    let mut expected = [0xEE; 128];
    expected[..12].copy_from_slice(&[3, 0, 3, 2, 0, 1, 3, 0, 3, 2, 1, 2]);
    assert_eq!(buffer, expected);
    // 96 bytes were enough before [2] of document 02.
    assert_eq!(find(&k(), &mut [0; 127]), Err(plain(12)));
}

#[test]
fn k5() {
    assert!(!cyclic(&[rule(1, Equal, 2), rule(2, Greater, 1)]));
}

#[test]
fn k6() {
    assert!(cyclic(&[rule(1, Greater, 2), rule(2, Less, 1)]));
}

#[test]
fn k7() {
    let pair = |a, b| Check::Pair {
        a,
        v: block(0, 1),
        b,
        w: block(0, 1),
    };
    let file = File {
        rules: vec![],
        tests: vec![Test {
            initial: vec![],
            main: vec![write(1, 1, 0, 0, 1), write(2, 2, 0, 0, 1)],
            checks: vec![pair(1, 2), pair(2, 1)],
        }],
    };
    let mut buffer = [0xEE; 128];
    assert_eq!(find(&file.to_bytes(), &mut buffer), Err(plain(13)));
    assert_eq!(buffer, [0xEE; 128]);
}

fn opened(rules: &[Rule]) -> Vec<u8> {
    let mut state = vec![0xEE; STATE];
    assert_eq!(open(&with_rules(rules, &[]), &mut state), Ok(()));
    state
}

#[test]
fn k8() {
    let (mut state, mut disk) = (opened(&k1_rules()), vec![0; DISK]);
    assert_eq!(hand_in(&mut state, &write(0, 2, 1, 1, 3)), Ok(()));
    assert_eq!(step(&mut state, &mut disk), Ok(1));
    assert_eq!(disk[..4], [0, 1, 0, 3]);
    let before = state.clone();
    let late = hand_in(&mut state, &write(2, 1, 1, 1, 81));
    assert_eq!(late, Err(plain(17)));
    assert_eq!(state, before);
}

#[test]
fn k9() {
    let (mut state, mut disk) = (opened(&k1_rules()), vec![0; DISK]);
    assert_eq!(hand_in(&mut state, &write(0, 2, 1, 1, 3)), Ok(()));
    assert_eq!(hand_in(&mut state, &write(2, 1, 1, 1, 81)), Ok(()));
    assert_eq!(step(&mut state, &mut disk), Ok(2));
    assert_eq!(stored(&state), [false, true]);
    assert_eq!(step(&mut state, &mut disk), Ok(1));
    assert_eq!(step(&mut state, &mut disk), Ok(0));
    assert_eq!(disk[..12], [0, 1, 0, 3, 0, 0, 0, 0, 0, 1, 0, 81]);
}

#[test]
fn k10() {
    let mut state = opened(&[rule(1, Less, 1)]);
    assert_eq!(hand_in(&mut state, &write(5, 1, 1, 0, 1)), Ok(()));
    let ring = hand_in(&mut state, &write(5, 1, 2, 0, 2));
    assert_eq!(ring, Err(plain(18)));
    assert_eq!(accepted(&state), [write(5, 1, 1, 0, 1)]);
}

#[test]
fn k11() {
    let (mut state, mut disk) = (opened(&[rule(1, Less, 1)]), vec![0; DISK]);
    assert_eq!(hand_in(&mut state, &write(5, 1, 1, 0, 1)), Ok(()));
    assert_eq!(hand_in(&mut state, &write(6, 1, 2, 0, 2)), Ok(()));
    assert_eq!(step(&mut state, &mut disk), Ok(2));
}

#[test]
fn k12() {
    let holds = |first, second| {
        let mut disk = EMPTY_DISK;
        disk[0] = block(first, second);
        Check::Range { at: 0 }.holds(&disk)
    };
    assert!(holds(5, 5));
    assert!(!holds(1, 257));
    // It held in document 01; [6] of document 02 changed that.
    assert!(!holds(300, 200));
    // The other lines of [6].
    assert!(holds(0, 0));
    assert!(holds(300, 300));
    assert!(!holds(256, 255));
}

/// The check is one at any address, not of the log's superblock alone.
#[test]
fn head_past_tail_at_any_address() {
    for at in 0..=255 {
        let mut disk = EMPTY_DISK;
        disk[at as usize] = block(6, 5);
        assert!(!Check::Range { at }.holds(&disk));
    }
}

#[test]
fn puts_and_the_buffer() {
    let mut buffer = [0xEE; 200];
    assert_eq!(trace(&[0; 4], &[], &mut buffer), Err(plain(20)));
    assert_eq!(trace(&[], &[0; 4], &mut buffer), Err(plain(20)));
    assert_eq!(buffer, [0xEE; 200]);
    assert_eq!(trace(&INITIAL_K, &[], &mut buffer), Ok(33));
    assert_eq!(buffer[33..], [0xEE; 167]);
    assert_eq!(trace(&INITIAL_K, &MAIN_K, &mut [0; 85]), Ok(85));
    assert_eq!(trace(&INITIAL_K, &MAIN_K, &mut [0; 84]), Err(plain(12)));
}

#[test]
fn get_on_the_disk_of_k() {
    let test = crate::file::read(&k()).unwrap().tests.remove(0);
    let disk = crate::schedule::disk_of(&test.initial_disk(), &test.main, 15);
    let bytes = disk_to_bytes(&disk);
    assert_eq!(get(&bytes, 0), Ok(Some(42)));
    assert_eq!(get(&bytes, 1), Ok(Some(81)));
    assert_eq!(get(&bytes, 2), Ok(Some(37)));
    assert_eq!(get(&bytes, 3), Ok(None));
}

#[test]
fn what_the_program_prints() {
    assert_eq!(output(&[]), "");
    assert_eq!(output(&[1]), "refused 1 0\n");
    let cyclic = with_rules(&[rule(1, Equal, 1)], &k());
    assert_eq!(output(&cyclic), "refused 8 0\n");
    let two = with_rules(&k1_rules(), &[k(), vec![7, 0, 0]].concat());
    assert_eq!(output(&two), "1 7 0 holds\n2 1 0 holds\n");
    let not_ended = &two[..two.len() - 6];
    assert_eq!(output(not_ended), "refused 7 94\n");
}
