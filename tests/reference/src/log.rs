// The reading log: a test from two programs of puts, and get on a disk's bytes.

use crate::cache::DISK;
use crate::checks::Check;
use crate::file::{bytes_of, Test};
use crate::refusal::{self, Refusal};
use crate::writes::{Block, Name, Write, BLOCKS};

pub const LOG: Name = 1;
pub const SUPERBLOCK: Name = 2;

pub const PUT: usize = 4;
pub const MOST_INITIAL_PUTS: usize = 32;
pub const MOST_MAIN_PUTS: usize = 10;

struct Log {
    head: u16,
    tail: u16,
    epoch: u32,
}

impl Log {
    fn new() -> Log {
        Log {
            head: 1,
            tail: 1,
            epoch: 0,
        }
    }

    /// The two writes of a put.
    fn put(&mut self, block: Block) -> [Write; 2] {
        let log = Write {
            address: self.tail as u8,
            name: LOG,
            epoch: self.epoch,
            block,
        };
        let superblock = Write {
            address: 0,
            name: SUPERBLOCK,
            epoch: self.epoch,
            block: Block {
                first: self.head,
                second: self.tail + 1,
            },
        };
        self.tail += 1;
        self.epoch += 1;
        [log, superblock]
    }
}

/// The test of two programs: the main one continues where the initial one ended.
pub fn test_of(initial: &[Block], main: &[Block]) -> Test {
    let mut log = Log::new();
    Test {
        initial: initial.iter().flat_map(|&put| log.put(put)).collect(),
        main: main.iter().flat_map(|&put| log.put(put)).collect(),
        checks: vec![Check::Range { at: 0 }],
    }
}

fn puts(program: &[u8]) -> Vec<Block> {
    program.chunks(PUT).map(Block::from_bytes).collect()
}

/// Writes the test of two programs to the buffer, and answers its length.
pub fn trace(initial: &[u8], main: &[u8], buffer: &mut [u8]) -> Result<usize, Refusal> {
    if initial.len() % PUT != 0 || main.len() % PUT != 0 {
        return Err(refusal::plain(refusal::NOT_WHOLE_PUTS));
    }
    if initial.len() / PUT > MOST_INITIAL_PUTS || main.len() / PUT > MOST_MAIN_PUTS {
        return Err(refusal::plain(refusal::OVER_LIMIT));
    }
    let (initial, main) = (puts(initial), puts(main));
    if initial.iter().chain(&main).any(|put| put.is_empty()) {
        return Err(refusal::plain(refusal::EMPTY_PUT));
    }
    let bytes = bytes_of(&test_of(&initial, &main).fields());
    if buffer.len() < bytes.len() {
        return Err(refusal::plain(refusal::BUFFER_TOO_SHORT));
    }
    buffer[..bytes.len()].copy_from_slice(&bytes);
    Ok(bytes.len())
}

/// The value at the highest address from head to tail-1 whose block is non-empty with that key.
pub fn get(disk: &[u8], key: u16) -> Result<Option<u16>, Refusal> {
    if disk.len() != DISK {
        return Err(refusal::plain(refusal::NOT_1024_BYTES));
    }
    let block = |address: usize| Block::from_bytes(&disk[4 * address..4 * address + 4]);
    let (head, tail) = (block(0).first as usize, block(0).second as usize);
    if head > tail || head < tail && tail > BLOCKS {
        return Err(refusal::plain(refusal::LOG_DAMAGED));
    }
    let found = (head..tail)
        .rev()
        .map(block)
        .find(|b| !b.is_empty() && b.first == key);
    Ok(found.map(|b| b.second))
}
