// The smallest bad schedule: the fewest flags, and among equals the smallest number.
//
// A check that fails looks at no more than two blocks to do so: its own, and an empty one of its range,
// the one that it points to, or the pair's other one. Where a schedule leaves them so, it flags at most
// two writes that these blocks are of, and all that these depend on. To flag nothing else is valid, and
// leaves the two blocks as they are: what hides neither in the whole schedule hides neither in a part.
// So the smallest bad schedule is what one or two writes flag, or nothing.

use crate::file::MOST_MAIN;
use crate::sources::{members, Sources, ALWAYS, SOURCES};

/// The smallest of the schedules that were added.
#[derive(Clone, Copy)]
pub struct Smallest {
    rank: u64,
}

/// The numbers of schedules are below.
const NUMBERS: u64 = 1 << MOST_MAIN;
/// More flags than any schedule has.
pub const ANY_FLAGS: u32 = MOST_MAIN as u32 + 1;

/// The smaller the schedule, the smaller.
#[inline(always)]
fn rank(schedule: u64) -> u64 {
    ((schedule as u32).count_ones() as u64) << MOST_MAIN | schedule
}

impl Smallest {
    pub const NONE: Smallest = Smallest { rank: u64::MAX };

    #[inline(always)]
    pub fn add(&mut self, schedule: u64) {
        self.rank = self.rank.min(rank(schedule));
    }

    /// Would this schedule be the smallest?
    #[inline(always)]
    pub fn is_above(&self, schedule: u64) -> bool {
        rank(schedule) < self.rank
    }

    /// Its flags, or more than any schedule has.
    #[inline(always)]
    pub fn flags(&self) -> u32 {
        (self.rank / NUMBERS).min(ANY_FLAGS as u64) as u32
    }

    /// Its number, or 0.
    pub fn shown(&self) -> u64 {
        match self.rank {
            u64::MAX => 0,
            rank => rank % NUMBERS,
        }
    }

    /// 1 + its number, or 0.
    pub fn verdict(&self) -> u64 {
        match self.rank {
            u64::MAX => 0,
            rank => 1 + rank % NUMBERS,
        }
    }
}

/// The smallest bad schedule of a test, given how to come to know what flagging each write flags.
pub fn smallest_bad(sources: &Sources, flags: impl FnOnce() -> [u64; MOST_MAIN]) -> Smallest {
    let mut smallest = Smallest::NONE;
    if !sources.consistent(sources.start) {
        smallest.add(0);
    } else if !sources.pairs().is_empty() || !sources.filled().is_empty() {
        let mut search = Search {
            flags: [0; SOURCES],
            hidden_by: [0; SOURCES],
            smallest,
        };
        search.fill(sources, &flags());
        search.go_on(sources);
        smallest = search.smallest;
    }
    smallest
}

struct Search {
    /// What has to be flagged for a source to be seen, and what must not be.
    flags: [u64; SOURCES],
    hidden_by: [u64; SOURCES],
    smallest: Smallest,
}

impl Search {
    fn fill(&mut self, sources: &Sources, flags: &[u64; MOST_MAIN]) {
        for i in 0..sources.main_count {
            let writes = sources.at[i] & (NUMBERS - 1);
            self.flags[i] = flags[i];
            self.hidden_by[i] = writes & !((2 << i) - 1);
            self.hidden_by[MOST_MAIN + i] = writes;
        }
    }

    fn go_on(&mut self, sources: &Sources) {
        for pair in sources.pairs() {
            // Where no block would do, any is seen at once.
            let others = match pair.conclusion {
                0 => ALWAYS,
                some => sources.at_of(some.trailing_zeros() as usize) & !some,
            };
            members(pair.premise).for_each(|own| self.add(own, others));
        }
        for filled in sources.filled() {
            members(filled.at).for_each(|own| self.add(own, sources.holes(filled, own)));
        }
    }

    /// Adds the schedules in which a source is seen with one of some others.
    #[inline(always)]
    fn add(&mut self, own: usize, others: u64) {
        let (flags, hidden_by) = (self.flags[own], self.hidden_by[own]);
        if others == 0 || flags & hidden_by != 0 || !self.smallest.is_above(flags) {
            return;
        }
        for other in members(others) {
            let both = flags | self.flags[other];
            if both & (hidden_by | self.hidden_by[other]) == 0 {
                self.smallest.add(both);
            }
        }
    }
}
