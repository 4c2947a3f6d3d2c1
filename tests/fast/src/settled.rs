// What is settled is not walked: a write is chosen only where an open check hangs on it, and is then
// flagged with all that it depends on, or left out with all that depends on it. So a check comes to
// hold or to fail for all schedules that are left. If one fails, these are bad, and are counted without
// going through them; if none is open, they are good.

use crate::file::{Test, MOST_CHECKS, MOST_MAIN};
use crate::order::Order;
use crate::sources::{members, Filled, Pair, Sources, ALWAYS};

/// The main writes, as sources.
const WRITES: u64 = (1 << MOST_MAIN) - 1;

/// The last member of a mask that has one.
#[inline(always)]
fn last(mask: u64) -> usize {
    63 - mask.leading_zeros() as usize
}

/// The valid schedules that flag what is chosen and some of what is free, and what these can leave on
/// the disk. What is neither is left out; both are closed under what rules tie together.
#[derive(Clone, Copy)]
struct Left {
    chosen: u64,
    free: u64,
    /// The sources that can be seen, and perhaps some that a rule always hides: at each address what
    /// is there without the free writes, and the free writes behind that.
    possible: u64,
    /// Those of them that are the only one at their address.
    certain: u64,
    /// The checks that are open.
    pairs: u64,
    filled: u64,
}

/// What is said of a check.
enum Said {
    Holds,
    Fails,
    /// Whether it holds hangs on this free write.
    Open(usize),
}

impl Left {
    fn all(sources: &Sources) -> Left {
        let all = (1 << sources.main_count) - 1;
        Left {
            chosen: 0,
            free: all,
            possible: sources.start | all,
            certain: ALWAYS,
            pairs: (1 << sources.pairs().len()) - 1,
            filled: (1 << sources.filled().len()) - 1,
        }
    }

    #[inline(always)]
    fn pair(&self, pair: &Pair, at: &Pair) -> Said {
        let premise = self.possible & at.premise;
        let conclusion = self.possible & at.conclusion;
        let (met, unmet) = (premise & pair.premise, premise & !pair.premise);
        let (kept, broken) = (conclusion & pair.conclusion, conclusion & !pair.conclusion);
        if met == 0 || broken == 0 {
            Said::Holds
        } else if unmet != 0 {
            Said::Open(last(premise & self.free))
        } else if kept != 0 {
            Said::Open(last(conclusion & self.free))
        } else {
            Said::Fails
        }
    }

    #[inline(always)]
    fn filled(&self, sources: &Sources, filled: &Filled) -> Said {
        let here = self.possible & filled.at;
        if here & self.certain != 0 {
            let holes = sources.holes(filled, here.trailing_zeros() as usize) & self.possible;
            if holes == 0 {
                return Said::Holds;
            }
            if holes & self.certain != 0 {
                return Said::Fails;
            }
            return Said::Open(last(self.possible & sources.at_of(last(holes)) & self.free));
        }
        let (mut may_fail, mut must_fail) = (false, true);
        for source in members(here) {
            let holes = sources.holes(filled, source) & self.possible;
            may_fail |= holes != 0;
            must_fail &= holes & self.certain != 0;
        }
        if !may_fail {
            Said::Holds
        } else if must_fail {
            Said::Fails
        } else {
            Said::Open(last(here & self.free))
        }
    }

    /// Leaves these writes out, and gives the sources at the addresses where that is seen.
    #[inline(always)]
    fn leave_out(&mut self, writes: u64, sources: &Sources) -> u64 {
        let seen = writes & self.possible;
        self.free &= !writes;
        self.possible &= !writes;
        self.settle(seen, sources)
    }

    /// Flags these writes, likewise.
    #[inline(always)]
    fn flag(&mut self, writes: u64, sources: &Sources) -> u64 {
        let seen = writes & self.possible;
        self.chosen |= writes;
        self.free &= !writes;
        for i in members(seen) {
            // All before it at its address is hidden: the initial block and the earlier writes.
            self.possible &= !(sources.at[i] & (!WRITES | ((1 << i) - 1)));
        }
        self.settle(seen, sources)
    }

    #[inline(always)]
    fn settle(&mut self, writes: u64, sources: &Sources) -> u64 {
        let mut changed = 0;
        for i in members(writes) {
            let here = self.possible & sources.at[i];
            changed |= sources.at[i];
            if here & (here - 1) == 0 {
                self.certain |= here;
            }
        }
        changed
    }
}

/// What is done with the schedules that fail for sure.
pub trait Failing {
    /// Are schedules asked for that flag this and perhaps more?
    #[inline(always)]
    fn asked(&self, _chosen: u64) -> bool {
        true
    }

    /// All that flag what is chosen and some of what is free, closed as that is, fail.
    fn add(&mut self, chosen: u64, free: u64);
}

/// Goes through what fails for sure.
pub fn each_failing<F: Failing>(sources: &Sources, order: &Order, failing: &mut F) {
    let mut walk = Walk {
        sources,
        order,
        pairs_at: [Pair::NONE; MOST_CHECKS],
        seen_by_filled: [0; MOST_CHECKS],
        failing,
    };
    for (at, pair) in walk.pairs_at.iter_mut().zip(sources.pairs()) {
        at.premise = sources.at_of(pair.premise.trailing_zeros() as usize);
        // Where none can be seen, it does not matter where.
        at.conclusion = match pair.conclusion {
            0 => ALWAYS,
            some => sources.at_of(some.trailing_zeros() as usize),
        };
    }
    for (seen, filled) in walk.seen_by_filled.iter_mut().zip(sources.filled()) {
        *seen = sources.seen_by(filled);
    }
    walk.go_on(Left::all(sources), u64::MAX);
}

struct Walk<'a, F> {
    sources: &'a Sources,
    order: &'a Order,
    /// For each pair the sources at the addresses of its premise and its conclusion.
    pairs_at: [Pair; MOST_CHECKS],
    /// For each range and pointer the sources at the addresses that it can look at.
    seen_by_filled: [u64; MOST_CHECKS],
    failing: &'a mut F,
}

impl<F: Failing> Walk<'_, F> {
    /// Goes on with what is left, after a change at these addresses.
    fn go_on(&mut self, mut left: Left, mut changed: u64) {
        let sources = self.sources;
        while self.failing.asked(left.chosen) {
            let next = match self.ask(&mut left, changed) {
                Said::Holds => return,
                Said::Fails => return self.failing.add(left.chosen, left.free),
                Said::Open(next) => next,
            };
            let mut without = left;
            let out = self.order.bars[next] & left.free;
            let changed_without = without.leave_out(out, sources);
            self.go_on(without, changed_without);
            let with = self.order.flags[next] & left.free;
            changed = left.flag(with, sources);
        }
    }

    /// What is said of all open checks together. Only those that can see a change are asked again,
    /// but for one of the others if no open one can.
    #[inline(always)]
    fn ask(&self, left: &mut Left, changed: u64) -> Said {
        let sources = self.sources;
        let mut open = None;
        for k in members(left.pairs) {
            let at = &self.pairs_at[k];
            if (at.premise | at.conclusion) & changed != 0 {
                match left.pair(&sources.pairs()[k], at) {
                    Said::Holds => left.pairs &= !(1 << k),
                    Said::Fails => return Said::Fails,
                    Said::Open(next) => open = open.or(Some(next)),
                }
            }
        }
        for k in members(left.filled) {
            if self.seen_by_filled[k] & changed != 0 {
                match left.filled(sources, &sources.filled()[k]) {
                    Said::Holds => left.filled &= !(1 << k),
                    Said::Fails => return Said::Fails,
                    Said::Open(next) => open = open.or(Some(next)),
                }
            }
        }
        match open {
            Some(next) => Said::Open(next),
            None if left.pairs != 0 => {
                let k = left.pairs.trailing_zeros() as usize;
                left.pair(&sources.pairs()[k], &self.pairs_at[k])
            }
            None if left.filled != 0 => {
                let k = left.filled.trailing_zeros() as usize;
                left.filled(sources, &sources.filled()[k])
            }
            None => Said::Holds,
        }
    }
}

/// Counts of closed sets.
pub struct Closed<'a> {
    order: &'a Order,
    /// The writes that a rule ties to another.
    tied: u64,
}

impl Closed<'_> {
    pub fn new<'a>(test: &Test, order: &'a Order) -> Closed<'a> {
        let tied = |&i: &usize| order.flags[i] | order.bars[i] != 1 << i;
        let tied = (0..test.main.count).filter(tied);
        let tied = tied.fold(0, |all, i| all | 1 << i);
        Closed { order, tied }
    }

    /// How many sets of these writes have with each write all of them that it depends on.
    #[inline(always)]
    pub fn count(&self, free: u64) -> u64 {
        let tied = free & self.tied;
        let untied = (free & !tied).count_ones();
        match tied {
            0 => 1 << untied,
            _ => self.count_tied(tied) << untied,
        }
    }

    /// The same of writes that a rule ties to another, which may not be among them any more.
    fn count_tied(&self, mut free: u64) -> u64 {
        let mut count = 1;
        while free != 0 {
            let i = last(free);
            let (flags, bars) = (self.order.flags[i], self.order.bars[i]);
            let part = self.part(i, free);
            free &= !part;
            count *= match part & !(1 << i) {
                0 => 2,
                _ => self.count_tied(part & !bars) + self.count_tied(part & !flags),
            };
        }
        count
    }

    /// Those of these writes that ties lead to from one of them.
    #[inline(always)]
    fn part(&self, i: usize, free: u64) -> u64 {
        let near = |j: usize| (self.order.flags[j] | self.order.bars[j]) & free;
        let (mut part, mut new) = (near(i), near(i) & !(1 << i));
        while new != 0 && part != free {
            let more = members(new).fold(0, |all, j| all | near(j));
            new = more & !part;
            part |= more;
        }
        part
    }
}
