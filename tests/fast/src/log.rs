// The reading log: get.

use crate::cache::SIZE;
use crate::file::word;
use crate::refused;

/// What get answers where no block has the key.
const NONE: u64 = 1 << 16;

/// The bytes of so many blocks are compared together.
const TOGETHER: usize = 4 * 16;

#[inline(never)]
pub fn get(disk: &[u8], key: u16) -> u64 {
    if disk.len() != SIZE {
        return refused(14, 0);
    }
    let superblock = word(disk);
    let (head, tail) = ((superblock >> 16) as usize, (superblock & 0xFFFF) as usize);
    if head == tail {
        return NONE;
    }
    if head > tail || tail > 256 {
        return refused(21, 0);
    }
    let blocks = &disk[4 * head..4 * tail];
    let groups = blocks.rchunks_exact(TOGETHER);
    let rest = groups.remainder();
    for group in groups {
        if may_have(group.try_into().expect("a whole group"), key) {
            if let Some(value) = value_in(group, key) {
                return value;
            }
        }
    }
    value_in(rest, key).unwrap_or(NONE)
}

/// Does a block have the key, which perhaps is an empty one? Two blocks are compared at a time: a
/// number of 16 bits is 0 exactly if its sum with 2^16 - 1 has no bit 16.
#[inline(always)]
fn may_have(blocks: &[u8; TOGETHER], key: u16) -> bool {
    const KEYS: u64 = 0xFFFF_0000_FFFF;
    const DIFFER: u64 = 0x1_0000_0001_0000;
    let key = key.swap_bytes() as u64;
    let keys = key << 32 | key;
    let mut all = DIFFER;
    for two in blocks.chunks_exact(8) {
        let two = u64::from_le_bytes(two.try_into().expect("eight bytes"));
        all &= ((two ^ keys) & KEYS) + KEYS;
    }
    all != DIFFER
}

/// The value of the last block that is not empty and has the key.
fn value_in(blocks: &[u8], key: u16) -> Option<u64> {
    let mut blocks = blocks.chunks_exact(4).rev().map(word);
    let found = blocks.find(|&block| (block >> 16) as u16 == key && block != 0)?;
    Some((found & 0xFFFF) as u64)
}
