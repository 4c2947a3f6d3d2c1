// A test made ready for its schedules: a disk is a mask, and a check is a few masks.
//
// Only the blocks at addresses of main writes differ between the disks of a test's schedules. What
// can stand there is a source: a main write, or the address's initial block. The disk of a schedule
// is the set of the sources that are seen on it, one for each such address.

use crate::file::{Check, Main, Test, MOST_CHECKS, MOST_MAIN};

/// Main write i is source i; the initial block at its address, where no earlier one goes, is source
/// `MOST_MAIN` + i. The last source is in every disk: it stands for all that main writes leave alone.
pub const SOURCES: usize = 2 * MOST_MAIN + 1;
const LAST: usize = SOURCES - 1;
pub const ALWAYS: u64 = 1 << LAST;

/// Broken if one of the premise is seen and none of the conclusion is.
#[derive(Clone, Copy)]
pub struct Pair {
    pub premise: u64,
    pub conclusion: u64,
}

impl Pair {
    pub const NONE: Pair = Pair {
        premise: 0,
        conclusion: 0,
    };
}

/// A range or a pointer: broken if, with the source that is seen at its address, one of that
/// source's holes is seen.
#[derive(Clone, Copy)]
pub struct Filled {
    pub at: u64,
    /// Where the holes of source 0 stand, or would.
    holes_from: usize,
}

impl Filled {
    const NONE: Filled = Filled {
        at: 0,
        holes_from: 0,
    };
}

/// Where the holes of ranges' sources stand, those of pointers' sources, and those of checks at
/// addresses that no main write changes, one for each.
const OF_RANGES: usize = 0;
const OF_POINTERS: usize = OF_RANGES + LAST;
const OF_CHECKS: usize = OF_POINTERS + LAST;
/// A power of 2, so that places need not be compared with it.
const HOLES: usize = (OF_CHECKS + MOST_CHECKS).next_power_of_two();

pub struct Sources {
    pub main_count: usize,
    /// The sources at the address of each main write.
    pub at: [u64; MOST_MAIN],
    /// The initial disk.
    pub start: u64,
    pairs: [Pair; MOST_CHECKS],
    pair_count: usize,
    filled: [Filled; MOST_CHECKS],
    filled_count: usize,
    holes: [u64; HOLES],
    /// The sources of ranges and of pointers whose holes stand there.
    known: [u64; 2],
}

/// The members of a mask, rising.
#[inline(always)]
pub fn members(mut mask: u64) -> impl Iterator<Item = usize> {
    std::iter::from_fn(move || {
        let i = mask.trailing_zeros() as usize;
        mask &= mask.wrapping_sub(1);
        (i < 64).then_some(i)
    })
}

impl Sources {
    /// To be filled where it stands: to move it would cost more than to fill it.
    pub const NONE: Sources = Sources {
        main_count: 0,
        at: [0; MOST_MAIN],
        start: 0,
        pairs: [Pair::NONE; MOST_CHECKS],
        pair_count: 0,
        filled: [Filled::NONE; MOST_CHECKS],
        filled_count: 0,
        holes: [0; HOLES],
        known: [0; 2],
    };

    pub fn fill(&mut self, test: &Test) {
        let blocks = Blocks::of(test);
        self.main_count = test.main.count;
        self.start = ALWAYS | blocks.initial;
        let addresses = &test.main.address[..test.main.count];
        for (at, &address) in self.at.iter_mut().zip(addresses) {
            *at = blocks.at(address as usize);
        }
        for check in &test.checks[..test.check_count] {
            match *check {
                Check::Pair { a, v, b, w } => self.add_pair(blocks.equal(a, v), blocks.equal(b, w)),
                Check::Range { at } => {
                    self.add_filled(&blocks, at, OF_RANGES, |block| blocks.holes_of_range(block))
                }
                Check::Pointer { at } => self.add_filled(&blocks, at, OF_POINTERS, |block| {
                    blocks.holes_of_pointer(block)
                }),
            }
        }
    }

    fn add_pair(&mut self, premise: u64, conclusion: u64) {
        // One that no disk breaks is left out.
        if premise != 0 && conclusion & ALWAYS == 0 {
            self.pairs[self.pair_count] = Pair {
                premise,
                conclusion,
            };
            self.pair_count += 1;
        }
    }

    fn add_filled(
        &mut self,
        blocks: &Blocks,
        address: u8,
        of_kind: usize,
        holes_of: impl Fn(u32) -> u64,
    ) {
        let filled = &mut self.filled[self.filled_count];
        let mut all_holes = 0;
        match blocks.at(address as usize) {
            0 => {
                all_holes = holes_of(blocks.test.disk[address as usize]);
                filled.at = ALWAYS;
                filled.holes_from = OF_CHECKS + self.filled_count - LAST;
                self.holes[OF_CHECKS + self.filled_count] = all_holes;
            }
            at => {
                filled.at = at;
                filled.holes_from = of_kind;
                let known = &mut self.known[of_kind / OF_POINTERS];
                for source in members(at & !*known) {
                    // With it no other one is seen at its own address.
                    self.holes[of_kind + source] = holes_of(blocks.of_source[source]) & !at;
                }
                *known |= at;
                for source in members(at) {
                    all_holes |= self.holes[of_kind + source];
                }
            }
        }
        // One that no disk breaks is left out here too.
        self.filled_count += (all_holes != 0) as usize;
    }

    /// The holes of a check's source.
    #[inline(always)]
    pub fn holes(&self, filled: &Filled, source: usize) -> u64 {
        self.holes[(filled.holes_from + source) % HOLES]
    }

    /// The sources at a source's address; the last source is by itself.
    #[inline(always)]
    pub fn at_of(&self, source: usize) -> u64 {
        match source {
            LAST => ALWAYS,
            _ => self.at[source % MOST_MAIN],
        }
    }

    /// The sources at the addresses that a range or a pointer can look at.
    pub fn seen_by(&self, filled: &Filled) -> u64 {
        let holes = members(filled.at).fold(0, |all, source| all | self.holes(filled, source));
        let holes = members(holes & !ALWAYS);
        holes.fold(filled.at, |all, source| all | self.at_of(source))
    }

    pub fn pairs(&self) -> &[Pair] {
        &self.pairs[..self.pair_count]
    }

    pub fn filled(&self) -> &[Filled] {
        &self.filled[..self.filled_count]
    }

    /// Do all checks hold on a disk? All are asked: to stop at the first that does not would cost
    /// more, since where that is changes from disk to disk.
    #[inline(always)]
    pub fn consistent(&self, disk: u64) -> bool {
        let mut broken = 0;
        for pair in self.pairs() {
            let concluded = disk & pair.conclusion != 0;
            broken |= ((disk & pair.premise != 0) & !concluded) as u64;
        }
        for filled in self.filled() {
            let seen = (disk & filled.at).trailing_zeros() as usize;
            broken |= disk & self.holes(filled, seen);
        }
        broken == 0
    }
}

/// The blocks of the sources, and where they are.
struct Blocks<'a> {
    test: &'a Test,
    /// For each address the number of the first main write to it, from 1; 0 if there is none.
    first: [u8; 256],
    /// The sources at the address of each main write that is the first to it.
    at: [u64; MOST_MAIN],
    of_source: [u32; 2 * MOST_MAIN],
    initial: u64,
    empty: u64,
}

impl Blocks<'_> {
    fn of(test: &Test) -> Blocks<'_> {
        let mut blocks = Blocks {
            test,
            first: [0; 256],
            at: [0; MOST_MAIN],
            of_source: [0; 2 * MOST_MAIN],
            initial: 0,
            empty: 0,
        };
        let Main { address, block, .. } = &test.main;
        for i in 0..test.main.count {
            let address = address[i] as usize;
            if blocks.first[address] == 0 {
                blocks.first[address] = i as u8 + 1;
                blocks.initial |= 1 << (MOST_MAIN + i);
                blocks.add(i, MOST_MAIN + i, test.disk[address]);
            }
            blocks.add(blocks.first[address] as usize - 1, i, block[i]);
        }
        blocks
    }

    /// Adds a source at the address of a write that is the first to it.
    fn add(&mut self, first: usize, source: usize, block: u32) {
        self.at[first] |= 1 << source;
        self.of_source[source] = block;
        self.empty |= ((block == 0) as u64) << source;
    }

    /// The sources at an address, or 0 if no main write changes it.
    fn at(&self, address: usize) -> u64 {
        match self.first[address] {
            0 => 0,
            first => self.at[first as usize - 1],
        }
    }

    /// The sources of this block at an address.
    fn equal(&self, address: u8, block: u32) -> u64 {
        match self.at(address as usize) {
            0 if self.test.disk[address as usize] == block => ALWAYS,
            0 => 0,
            at => {
                let is_it = |&source: &usize| self.of_source[source] == block;
                members(at)
                    .filter(is_it)
                    .fold(0, |all, source| all | 1 << source)
            }
        }
    }

    /// The sources that leave an address empty.
    fn holes_at(&self, address: usize) -> u64 {
        match self.at(address) {
            0 if self.test.disk[address] == 0 => ALWAYS,
            at => at & self.empty,
        }
    }

    fn holes_of_range(&self, block: u32) -> u64 {
        let (head, tail) = ((block >> 16) as usize, (block & 0xFFFF) as usize);
        if head == tail {
            return 0;
        }
        if head > tail || tail > 256 {
            return ALWAYS;
        }
        let mut holes = 0;
        for address in head..tail {
            holes |= self.holes_at(address);
            if holes & ALWAYS != 0 {
                return ALWAYS;
            }
        }
        holes
    }

    fn holes_of_pointer(&self, block: u32) -> u64 {
        match (block & 0xFFFF) as usize {
            _ if block == 0 => 0,
            target if target < 256 => self.holes_at(target),
            _ => ALWAYS,
        }
    }
}
