// Checks: when a disk is consistent.

use crate::writes::{Block, Disk, BLOCKS};

#[derive(Clone, Copy, Debug, PartialEq, Eq)]
pub enum Check {
    Range { at: u8 },
    Pair { a: u8, v: Block, b: u8, w: Block },
    Pointer { at: u8 },
}

impl Check {
    pub fn holds(&self, disk: &Disk) -> bool {
        match *self {
            Check::Range { at } => {
                let head = disk[at as usize].first as usize;
                let tail = disk[at as usize].second as usize;
                if head > tail || head < tail && tail > BLOCKS {
                    return false;
                }
                (head..tail).all(|a| !disk[a].is_empty())
            }
            Check::Pair { a, v, b, w } => disk[a as usize] != v || disk[b as usize] == w,
            Check::Pointer { at } => {
                let block = disk[at as usize];
                if block.is_empty() {
                    return true;
                }
                let target = block.second as usize;
                target < BLOCKS && !disk[target].is_empty()
            }
        }
    }
}

pub fn consistent(checks: &[Check], disk: &Disk) -> bool {
    checks.iter().all(|check| check.holds(disk))
}
