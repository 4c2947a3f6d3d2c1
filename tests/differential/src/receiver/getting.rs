// Get: on logs, on any disks, and with superblocks at the limits.

use reference::cache::DISK;
use reference::checks::Check;
use reference::generate::{self, Values};
use reference::log;
use reference::random::Random;
use reference::refusal;
use reference::schedule::disk_of;
use reference::writes::{disk_to_bytes, Block, EMPTY, EMPTY_DISK};

use super::OTHER_LENGTHS;
use crate::answer;
use crate::calls;
use crate::harness::{require, same_answer_on, Failure, Outcome, Run, Suite};
use crate::lent::Lent;

pub fn suites() -> Vec<Suite> {
    let suite = |name, run| Suite { name, run };
    vec![
        suite("get: logs", logs),
        suite("get: any disks", any_disks),
        suite("get: every kind of head and tail", heads_and_tails),
        suite(
            "get: 21, exactly where no disk meets the range check",
            damage,
        ),
        suite("get: 14, other lengths", other_lengths),
    ]
}

/// What get answers where the log has no such key.
const NONE: u64 = 65_536;

fn same_value(lent: &Lent, key: u16) -> Result<u64, Failure> {
    let disk = lent.content();
    let expected = log::get(disk, key).map(|value| value.map_or(NONE, u64::from));
    let got = calls::get(lent, key);
    let call = format!("get {key}");
    same_answer_on(&call, &[("disk", disk)], answer::of(expected), got)?;
    lent.unchanged("disk")?;
    Ok(got)
}

/// Disks that puts leave, cut anywhere.
fn logs(run: &mut Run) -> Outcome {
    for _ in 0..run.times(1_000) {
        let mut random = run.next_case();
        let (before, after) = (random.below(20), random.below(20));
        let initial = generate::puts(&mut random, before);
        let main = generate::puts(&mut random, after);
        let test = log::test_of(&initial, &main);
        let disk = disk_of(&EMPTY_DISK, &test.initial, u64::MAX);
        let cut = random.number();
        let lent = Lent::new(
            &mut random,
            &disk_to_bytes(&disk_of(&disk, &test.main, cut)),
        );
        for key in 0..4 {
            run.next_case();
            same_value(&lent, key)?;
        }
    }
    Ok(())
}

fn any_disks(run: &mut Run) -> Outcome {
    let mut found = 0;
    for _ in 0..run.times(3_000) {
        let mut random = run.next_case();
        let values = Values::small(&mut random);
        let keys: Vec<u16> = values.halves.iter().copied().chain([7]).collect();
        let mut blocks = EMPTY_DISK.map(|_| generate::block(&mut random, &values));
        if random.one_in(2) {
            blocks[0] = superblock(&mut random);
        }
        let lent = Lent::new(&mut random, &disk_to_bytes(&blocks));
        for key in keys {
            run.next_case();
            found += u64::from(same_value(&lent, key)? < NONE);
        }
    }
    run.note(format!("{found} values"));
    require(found > 1_000, "many values", found.to_string())
}

const HALVES: [u16; 15] = [
    0, 1, 2, 3, 127, 254, 255, 256, 257, 258, 300, 511, 512, 65_534, 65_535,
];

fn superblock(random: &mut Random) -> Block {
    if random.one_in(2) {
        return generate::head_and_tail(random);
    }
    Block {
        first: random.pick(&HALVES),
        second: random.pick(&HALVES),
    }
}

fn heads_and_tails(run: &mut Run) -> Outcome {
    for first in HALVES {
        for second in HALVES {
            let mut random = run.next_case();
            // Each block has its own key and value, or the key of the superblock, or is empty.
            let mut blocks = EMPTY_DISK;
            for (i, block) in (0..).zip(&mut blocks) {
                *block = match random.below(4) {
                    0 => EMPTY,
                    1 => Block { first, second: i },
                    2 => Block {
                        first: 0,
                        second: i,
                    },
                    _ => Block {
                        first: i,
                        second: 0,
                    },
                };
            }
            blocks[0] = Block { first, second };
            let lent = Lent::new(&mut random, &disk_to_bytes(&blocks));
            for key in (0..=256).chain([first, second, 511, 65_535]) {
                same_value(&lent, key)?;
            }
        }
    }
    Ok(())
}

/// Every head and tail up to beyond the disk, and each near the largest: 21 exactly if a disk with that
/// superblock and no other empty block fails the range check at 0, whatever is on the disk read. Where
/// it is not 21 on the full disk, none of the keys is there exactly if head and tail are equal.
fn damage(run: &mut Run) -> Outcome {
    let refused = answer::of(Err(refusal::plain(refusal::LOG_DAMAGED)));
    let halves: Vec<u16> = (0..=260).chain([300, 511, 65_534, 65_535]).collect();
    let mut counts = [0, 0, 0];
    for &first in &halves {
        for &second in &halves {
            let mut random = run.next_case();
            let mut full = EMPTY_DISK.map(|_| Block {
                first: 7,
                second: 9,
            });
            full[0] = Block { first, second };
            let meets = Check::Range { at: 0 }.holds(&full);
            let mut sparse = full.map(|block| if random.one_in(2) { block } else { EMPTY });
            sparse[0] = full[0];
            let sparse = Lent::new(&mut random, &disk_to_bytes(&sparse));
            let full = Lent::new(&mut random, &disk_to_bytes(&full));
            for lent in [&sparse, &full] {
                for key in [7, 8] {
                    let is_refused = same_value(lent, key)? == refused;
                    let shown = format!("({first},{second}), key {key}");
                    require(is_refused != meets, "21 exactly if none meets it", shown)?;
                }
            }
            // The superblock is a block of the log too where head is 0.
            let has_none = [7, first].iter().all(|&key| calls::get(&full, key) == NONE);
            let shown = format!("({first},{second})");
            require(
                has_none == (first == second),
                "no value exactly if equal",
                shown,
            )?;
            counts[usize::from(meets) + usize::from(has_none)] += 1;
        }
    }
    run.note(format!(
        "{} damaged, {} logs, {} empty",
        counts[0], counts[1], counts[2]
    ));
    Ok(())
}

/// Refused by 14, also with a superblock that would be refused by 21.
fn other_lengths(run: &mut Run) -> Outcome {
    for length in OTHER_LENGTHS.into_iter().chain([4, 8, 1028]) {
        for _ in 0..run.times(20) {
            let mut random = run.next_case();
            let mut disk = random.bytes(DISK);
            disk[..4].copy_from_slice(&superblock(&mut random).to_bytes());
            disk.resize(length, 0);
            let lent = Lent::new(&mut random, &disk);
            same_value(&lent, random.below(3) as u16)?;
        }
    }
    Ok(())
}
