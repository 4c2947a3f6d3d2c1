// Soundness of a state, a broken one for each clause; and the calls' first refusals.

use crate::cache::{broken_clause, drain, hand_in, open, sound, step, Clause, DISK, STATE};
use crate::refusal::plain;
use crate::writes::{self, block, Name, Write};

const RULES: [u8; 12] = [3, 0, 3, 2, 0, 1, 3, 0, 3, 2, 1, 2];

fn write(address: u8, name: Name, epoch: u32) -> Write {
    writes::write(address, name, epoch, block(1, 2))
}

/// Two rules, three accepted writes, the first stored: a log block, its superblock, another.
fn state() -> Vec<u8> {
    let mut state = vec![0xEE; STATE];
    assert_eq!(open(&RULES, &mut state), Ok(()));
    assert_eq!(hand_in(&mut state, &write(1, 1, 0)), Ok(()));
    assert_eq!(hand_in(&mut state, &write(0, 2, 0)), Ok(()));
    assert_eq!(hand_in(&mut state, &write(2, 1, 1)), Ok(()));
    assert_eq!(step(&mut state, &mut [0; DISK]), Ok(1));
    state
}

fn broken_by(changes: &[(usize, u8)]) -> Option<Clause> {
    let mut state = state();
    for &(at, byte) in changes {
        state[at] = byte;
    }
    broken_clause(&state)
}

#[test]
fn the_layout_in_bytes() {
    let mut expected = vec![0; STATE];
    expected[..14].copy_from_slice(&[2, 3, 1, 0, 0, 2, 0, 0, 1, 0, 2, 1, 0, 2]);
    expected[164..176].copy_from_slice(&[1, 0, 1, 0, 0, 0, 0, 0, 1, 0, 2, 1]);
    expected[176..188].copy_from_slice(&[0, 0, 2, 0, 0, 0, 0, 0, 1, 0, 2, 0]);
    expected[188..200].copy_from_slice(&[2, 0, 1, 0, 0, 0, 1, 0, 1, 0, 2, 0]);
    assert_eq!(state(), expected);
    assert!(sound(&expected));
}

#[test]
fn each_clause() {
    assert_eq!(broken_by(&[]), None);
    assert_eq!(broken_by(&[(0, 33)]), Some(Clause::Limits));
    assert_eq!(broken_by(&[(1, 65)]), Some(Clause::Limits));
    for zero in [3, 14, 163, 200, 931, 932, 1023] {
        let broken = broken_by(&[(zero, 1)]);
        assert_eq!(broken, Some(Clause::Layout), "byte {zero}");
    }
    assert_eq!(broken_by(&[(0, 1)]), Some(Clause::Layout));
    assert_eq!(broken_by(&[(1, 2)]), Some(Clause::Layout));
    assert_eq!(broken_by(&[(175, 2)]), Some(Clause::Layout));
    assert_eq!(broken_by(&[(6, 3)]), Some(Clause::KnownPredicates));
    assert_eq!(broken_by(&[(11, 0)]), Some(Clause::AcyclicRules));
    // The second rule as (258,=,2); and the two as (2,>,258) and (258,<,2).
    assert_eq!(broken_by(&[(9, 1), (11, 0)]), None);
    let both = [(4, 0), (6, 1), (7, 1), (8, 2), (9, 1), (11, 2)];
    assert_eq!(broken_by(&both), Some(Clause::AcyclicRules));
    assert_eq!(broken_by(&[(2, 0)]), Some(Clause::StoredCount));
    assert_eq!(broken_by(&[(2, 2)]), Some(Clause::StoredCount));
    // The superblock stored, its log block not.
    let swapped = [(175, 0), (187, 1)];
    assert_eq!(broken_by(&swapped), Some(Clause::StoredNeedStored));
    // Unused places count too: a third rule (0,=,0), cyclic.
    assert_eq!(broken_by(&[(0, 3)]), Some(Clause::AcyclicRules));
    // A fourth write to address 0 that names 0 and nothing needs.
    assert_eq!(broken_by(&[(1, 4)]), None);
    // Rule (1,<,1), and two log blocks of rising epochs at one address.
    let ring = [(5, 1), (6, 2), (8, 1), (188, 1), (175, 0), (2, 0)];
    assert_eq!(broken_by(&ring), Some(Clause::NoRingOfNeeds));
}

#[test]
fn the_first_refusals() {
    let (mut sound, mut disk) = (state(), vec![0; DISK]);
    let mut unsound = state();
    unsound[1023] = 1;
    for length in [0, 1023, 1025] {
        let mut other = vec![0; length];
        assert_eq!(open(&[1], &mut other), Err(plain(14)));
        assert_eq!(hand_in(&mut other, &write(0, 0, 0)), Err(plain(14)));
        assert_eq!(step(&mut other, &mut disk), Err(plain(14)));
        assert_eq!(step(&mut unsound, &mut other), Err(plain(14)));
        assert_eq!(drain(&mut sound, &mut other), Err(plain(14)));
    }
    assert_eq!(hand_in(&mut unsound, &write(0, 0, 0)), Err(plain(15)));
    assert_eq!(step(&mut unsound, &mut disk), Err(plain(15)));
    assert_eq!(drain(&mut unsound, &mut disk), Err(plain(15)));
    // Opening: reading, then 22, then 8.
    let cyclic = [3, 0, 3, 1, 0, 1];
    let with_test = [&cyclic[..], &[7, 0, 0]].concat();
    let before = sound.clone();
    assert_eq!(open(&with_test[..8], &mut sound).unwrap_err().number, 1);
    assert_eq!(open(&with_test, &mut sound), Err(plain(22)));
    assert_eq!(open(&cyclic, &mut sound), Err(plain(8)));
    assert_eq!(sound, before);
    assert_eq!(open(&[], &mut unsound), Ok(()));
    assert_eq!(unsound, vec![0; STATE]);
}
