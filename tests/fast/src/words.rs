// 64 schedules at a time: the first six main writes are the bits of a word, and bit k of a word is
// about the schedule that flags, of these six, those of number k. The later writes are the same in
// all 64, and are chosen one by one.

use crate::file::{Test, MOST_CHECKS, MOST_MAIN};
use crate::order::Order;
use crate::smallest::ANY_FLAGS;
use crate::sources::{members, Filled, Sources, ALWAYS, SOURCES};

/// How many writes are the bits of a word.
pub const LOW: usize = 6;
const LOW_WRITES: u64 = (1 << LOW) - 1;
/// The main writes that are none of these.
const LATER_WRITES: u64 = ((1 << MOST_MAIN) - 1) & !LOW_WRITES;
/// The initial blocks at addresses that only these go to.
const UNDER_LATER: u64 = LATER_WRITES << MOST_MAIN;

/// For each of the first six writes the schedules that flag it.
pub const FLAGGED: [u64; LOW] = [
    0xAAAA_AAAA_AAAA_AAAA,
    0xCCCC_CCCC_CCCC_CCCC,
    0xF0F0_F0F0_F0F0_F0F0,
    0xFF00_FF00_FF00_FF00,
    0xFFFF_0000_FFFF_0000,
    0xFFFF_FFFF_0000_0000,
];

/// The schedules that flag all these of the first six writes.
fn flagging(writes: u64) -> u64 {
    members(writes & LOW_WRITES).fold(u64::MAX, |all, i| all & FLAGGED[i])
}

/// The schedules that flag none of these of the first six writes.
fn leaving_out(writes: u64) -> u64 {
    members(writes & LOW_WRITES).fold(u64::MAX, |all, i| all & !FLAGGED[i])
}

/// What the later writes of a word's schedules leave to be seen.
#[derive(Clone, Copy)]
struct Later {
    /// Those of them that are seen, and the source that always is.
    seen: u64,
    /// All sources at their addresses.
    hidden: u64,
}

/// A pair's premise or conclusion: some sources at one address.
#[derive(Clone, Copy)]
struct Either {
    sources: u64,
    /// The schedules in which one of them is seen if no later write hides them.
    low: u64,
}

impl Either {
    const NONE: Either = Either { sources: 0, low: 0 };

    fn of(sources: u64, words: &[u64; SOURCES]) -> Either {
        let low = members(sources).fold(0, |all, source| all | words[source]);
        Either { sources, low }
    }

    /// The schedules in which one of them is seen.
    #[inline(always)]
    fn seen(&self, later: Later) -> u64 {
        let low = if later.hidden & self.sources == 0 {
            self.low
        } else {
            0
        };
        low | ((later.seen & self.sources != 0) as u64).wrapping_neg()
    }
}

/// A range or a pointer where no later write is seen at its address.
#[derive(Clone, Copy)]
struct Low {
    /// The schedules that break it whatever the later writes are.
    broken: u64,
    /// Other schedules, with the holes that break it for these.
    parts: [(u64, u64); LOW + 1],
    count: usize,
}

impl Low {
    const NONE: Low = Low {
        broken: 0,
        parts: [(0, 0); LOW + 1],
        count: 0,
    };

    fn fill(&mut self, filled: &Filled, sources: &Sources, words: &[u64; SOURCES]) {
        for source in members(filled.at & !LATER_WRITES & !ALWAYS) {
            match sources.holes(filled, source) {
                0 => {}
                holes if holes & ALWAYS != 0 => self.broken |= words[source],
                holes => self.add(words[source], holes),
            }
        }
    }

    fn add(&mut self, schedules: u64, holes: u64) {
        let mut parts = self.parts[..self.count].iter_mut();
        match parts.find(|part| part.1 == holes) {
            Some(part) => part.0 |= schedules,
            None => {
                self.parts[self.count] = (schedules, holes);
                self.count += 1;
            }
        }
    }
}

/// What is worked out once for all words of a test.
struct Words<'a> {
    sources: &'a Sources,
    tables: &'a Tables,
}

/// Filled where they stand, like the sources.
struct Tables {
    /// For each source but the later writes, the schedules in which it is seen if no later write
    /// hides it.
    words: [u64; SOURCES],
    pairs: [(Either, Either); MOST_CHECKS],
    low: [Low; MOST_CHECKS],
}

impl Tables {
    const NONE: Tables = Tables {
        words: [0; SOURCES],
        pairs: [(Either::NONE, Either::NONE); MOST_CHECKS],
        low: [Low::NONE; MOST_CHECKS],
    };

    fn fill(&mut self, sources: &Sources) {
        for (i, &at) in sources.at[..sources.main_count].iter().enumerate() {
            if i < LOW {
                let covered_by = at & !((2 << i) - 1);
                self.words[i] = FLAGGED[i] & leaving_out(covered_by);
            }
            if sources.start >> (MOST_MAIN + i) & 1 == 1 {
                self.words[MOST_MAIN + i] = leaving_out(at);
            }
        }
        for (either, pair) in self.pairs.iter_mut().zip(sources.pairs()) {
            either.0 = Either::of(pair.premise, &self.words);
            either.1 = Either::of(pair.conclusion, &self.words);
        }
        for (low, filled) in self.low.iter_mut().zip(sources.filled()) {
            low.fill(filled, sources, &self.words);
        }
    }
}

impl Words<'_> {
    /// The schedules in which one of these holes is seen.
    #[inline(always)]
    fn seen(&self, holes: u64, later: Later) -> u64 {
        let unhidden = holes & !later.hidden;
        if holes & later.seen | unhidden & UNDER_LATER != 0 {
            return u64::MAX;
        }
        members(unhidden).fold(0, |all, source| all | self.tables.words[source])
    }

    /// The schedules that break a check, as far as they are among these.
    #[inline(always)]
    fn broken(&self, schedules: u64, later: Later) -> u64 {
        let mut broken = 0;
        for (premise, conclusion) in &self.tables.pairs[..self.sources.pairs().len()] {
            broken |= premise.seen(later) & !conclusion.seen(later);
            if schedules & !broken == 0 {
                return broken;
            }
        }
        for (filled, low) in self.sources.filled().iter().zip(&self.tables.low) {
            if schedules & !broken == 0 {
                break;
            }
            let top = later.seen & filled.at;
            if top != 0 {
                let holes = self.sources.holes(filled, top.trailing_zeros() as usize);
                broken |= self.seen(holes, later);
                continue;
            }
            broken |= low.broken;
            for &(part, holes) in &low.parts[..low.count] {
                broken |= part & self.seen(holes, later);
            }
        }
        broken
    }
}

/// For each number of flags the schedules of a word that flag so many of the first six writes.
const WITH_FLAGS: [u64; LOW + 1] = {
    let mut with = [0; LOW + 1];
    let mut k = 0u32;
    while k < 1 << LOW {
        with[k.count_ones() as usize] |= 1 << k;
        k += 1;
    }
    with
};

/// Of some schedules of a word the one with the fewest flags, and among those the smallest number.
pub fn smallest_of(word: u64) -> u64 {
    let mut with_flags = WITH_FLAGS.iter().map(|with| word & with);
    let with_fewest = with_flags.find(|&schedules| schedules != 0);
    with_fewest.unwrap_or(0).trailing_zeros() as u64
}

/// Goes through the words of a test that have valid schedules, in rising number of the later writes:
/// the number of its first schedule, which of its schedules are valid, and which of these are
/// inconsistent. `visit` says how many flags are too many from then on: words of which all schedules
/// have as many are passed over.
pub fn each_word(test: &Test, order: &Order, visit: impl FnMut(u64, u64, u64) -> u32) {
    let (mut sources, mut tables) = (Sources::NONE, Tables::NONE);
    sources.fill(test);
    tables.fill(&sources);
    let mut walk = Walk {
        words: Words {
            sources: &sources,
            tables: &tables,
        },
        order,
        with: [0; MOST_MAIN],
        without: [0; MOST_MAIN],
        too_many: ANY_FLAGS,
        visit,
    };
    let count = test.main.count;
    for i in LOW..count {
        walk.with[i] = flagging(order.flags[i]);
        walk.without[i] = leaving_out(order.bars[i]);
    }
    let mut valid = leaving_out(LOW_WRITES & !((1 << count) - 1));
    for (i, flags) in order.flags[..count.min(LOW)].iter().enumerate() {
        valid &= !FLAGGED[i] | flagging(*flags);
    }
    let later = Later {
        seen: ALWAYS,
        hidden: 0,
    };
    walk.go_on(count, 0, 0, later, valid);
}

struct Walk<'a, V> {
    words: Words<'a>,
    order: &'a Order,
    /// For each write the schedules that are still valid with it, and without it.
    with: [u64; MOST_MAIN],
    without: [u64; MOST_MAIN],
    /// Schedules with so many flags need not be visited.
    too_many: u32,
    visit: V,
}

impl<V: FnMut(u64, u64, u64) -> u32> Walk<'_, V> {
    /// Goes on with these writes flagged and these left out, from the last of the first `i` on. Both
    /// choices for a write that is neither lead to valid schedules.
    fn go_on(
        &mut self,
        mut i: usize,
        mut flagged: u64,
        barred: u64,
        mut later: Later,
        mut valid: u64,
    ) {
        while i > LOW {
            i -= 1;
            if barred >> i & 1 == 1 {
                continue;
            }
            if flagged >> i & 1 == 0 {
                let barred = barred | self.order.bars[i];
                self.go_on(i, flagged, barred, later, valid & self.without[i]);
                flagged |= self.order.flags[i];
                if self.too_many < ANY_FLAGS && flagged.count_ones() >= self.too_many {
                    return;
                }
                valid &= self.with[i];
            }
            if later.hidden >> i & 1 == 0 {
                later.seen |= 1 << i;
                later.hidden |= self.words.sources.at[i];
            }
        }
        let broken = self.words.broken(valid, later);
        self.too_many = (self.visit)(flagged & LATER_WRITES, valid, valid & broken);
    }
}
