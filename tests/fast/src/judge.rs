// Judging: of valid schedules only, one at a time or 64 at a time, or only of those that a check hangs
// on, with the others counted. The verdict goes the last two ways, too, and passes over what has too
// many flags to be shown; or it looks for nothing but the two blocks that break a check.

use crate::file::{scan, Test};
use crate::order::{flagged_by, Order};
use crate::refused;
use crate::rules::Rules;
use crate::settled::{each_failing, Closed, Failing};
use crate::smallest::{smallest_bad, Smallest, ANY_FLAGS};
use crate::sources::Sources;
use crate::words::{each_word, smallest_of};

/// A test's counts, and its smallest bad schedule.
#[derive(Clone, Copy)]
pub struct Judgement {
    pub valid: u64,
    pub bad: u64,
    pub smallest: Smallest,
}

impl Judgement {
    const NONE: Judgement = Judgement {
        valid: 0,
        bad: 0,
        smallest: Smallest::NONE,
    };

    fn answer(&self) -> u64 {
        self.valid + (self.bad << 21) + (self.smallest.shown() << 42)
    }
}

/// valid + 2^21 * bad + 2^42 * the number of the smallest bad schedule, or 0.
#[inline(never)]
pub fn judge(file: &[u8], number: u64) -> u64 {
    on_test(file, number, |rules, test| {
        one_by_one(test, &Order::of(rules, &test.main)).answer()
    })
}

/// The same, 64 schedules at a time.
#[inline(never)]
pub fn judge_by_words(file: &[u8], number: u64) -> u64 {
    on_test(file, number, |rules, test| by_words(rules, test).answer())
}

/// The same without going through what is settled.
#[inline(never)]
pub fn judge_settled(file: &[u8], number: u64) -> u64 {
    on_test(file, number, |rules, test| settled(rules, test).answer())
}

/// 0 if the test holds, else 1 + the number of the smallest bad schedule. 64 schedules at a time.
#[inline(never)]
pub fn verdict(file: &[u8], number: u64) -> u64 {
    on_test(file, number, |rules, test| {
        let mut smallest = Smallest::NONE;
        each_word(test, &Order::of(rules, &test.main), |from, _, bad| {
            smallest.add_of_word(from, bad);
            smallest.flags()
        });
        smallest.verdict()
    })
}

/// The same without going through what is settled.
#[inline(never)]
pub fn verdict_settled(file: &[u8], number: u64) -> u64 {
    on_test(file, number, |rules, test| {
        let mut sources = Sources::NONE;
        sources.fill(test);
        let mut found = SmallestOnly(Smallest::NONE);
        each_failing(&sources, &Order::of(rules, &test.main), &mut found);
        found.0.verdict()
    })
}

/// The same by the two blocks that break a check.
#[inline(never)]
pub fn verdict_by_blocks(file: &[u8], number: u64) -> u64 {
    on_test(file, number, |rules, test| {
        let mut sources = Sources::NONE;
        sources.fill(test);
        smallest_bad(&sources, || flagged_by(rules, &test.main)).verdict()
    })
}

impl Smallest {
    /// Adds the bad schedules of a word, after those of all words with lower numbers.
    #[inline(always)]
    fn add_of_word(&mut self, from: u64, bad: u64) {
        // Of as many flags a later one is not smaller.
        if bad != 0 && from.count_ones() < self.flags() {
            self.add(from | smallest_of(bad));
        }
    }
}

/// Of sets of schedules that fail only the smallest is asked for: that which flags nothing of what is
/// free.
struct SmallestOnly(Smallest);

impl Failing for SmallestOnly {
    #[inline(always)]
    fn asked(&self, chosen: u64) -> bool {
        self.0.is_above(chosen)
    }

    #[inline(always)]
    fn add(&mut self, chosen: u64, _: u64) {
        self.0.add(chosen);
    }
}

/// The answer for a file's rules and the test of that number, or the refusal.
#[inline(always)]
fn on_test(file: &[u8], number: u64, answer: impl FnOnce(&Rules, &Test) -> u64) -> u64 {
    let scan = match scan(file) {
        Ok(scan) => scan,
        Err(refusal) => return refusal,
    };
    let (mut rules, mut test) = (Rules::NONE, Test::NONE);
    rules.fill(file, &scan);
    if rules.cyclic() {
        return refused(8, 0);
    }
    if number < 1 || number > scan.tests as u64 {
        return refused(9, 0);
    }
    test.fill(file, &scan.places[number as usize - 1]);
    answer(&rules, &test)
}

/// A test's judgement, 64 schedules at a time.
fn by_words(rules: &Rules, test: &Test) -> Judgement {
    let mut judged = Judgement::NONE;
    each_word(test, &Order::of(rules, &test.main), |from, valid, bad| {
        judged.valid += valid.count_ones() as u64;
        judged.bad += bad.count_ones() as u64;
        judged.smallest.add_of_word(from, bad);
        ANY_FLAGS
    });
    judged
}

/// How many schedules fail, and the smallest.
struct Counted<'a> {
    closed: &'a Closed<'a>,
    bad: u64,
    smallest: Smallest,
}

impl Failing for Counted<'_> {
    #[inline(always)]
    fn add(&mut self, chosen: u64, free: u64) {
        self.bad += self.closed.count(free);
        self.smallest.add(chosen);
    }
}

/// A test's judgement without going through what is settled.
pub fn settled(rules: &Rules, test: &Test) -> Judgement {
    let mut sources = Sources::NONE;
    sources.fill(test);
    let order = Order::of(rules, &test.main);
    let closed = Closed::new(test, &order);
    let mut counted = Counted {
        closed: &closed,
        bad: 0,
        smallest: Smallest::NONE,
    };
    each_failing(&sources, &order, &mut counted);
    Judgement {
        valid: closed.count((1 << test.main.count) - 1),
        bad: counted.bad,
        smallest: counted.smallest,
    }
}

/// A test's judgement, one schedule at a time.
fn one_by_one(test: &Test, order: &Order) -> Judgement {
    let mut sources = Sources::NONE;
    sources.fill(test);
    let mut visits = Visits {
        order,
        sources: &sources,
        judged: Judgement::NONE,
    };
    match sources.main_count {
        0 => visits.visit(0, sources.start),
        _ => visits.go_on(0, 0, 0, sources.start),
    }
    visits.judged
}

struct Visits<'a> {
    order: &'a Order,
    sources: &'a Sources,
    judged: Judgement,
}

impl Visits<'_> {
    /// Goes through the valid schedules with these writes flagged and these left out, from write
    /// `i` on. Both choices for a write that is neither lead to valid ones: flagging it flags all
    /// that it depends on, and leaving it out leaves out all that depends on it.
    fn go_on(&mut self, mut i: usize, mut flagged: u64, barred: u64, mut disk: u64) {
        let last = self.sources.main_count - 1;
        while i < last {
            if barred >> i & 1 == 0 {
                if flagged >> i & 1 == 0 {
                    self.go_on(i + 1, flagged, barred | self.order.bars[i], disk);
                    flagged |= self.order.flags[i];
                }
                disk = disk & !self.sources.at[i] | 1 << i;
            }
            i += 1;
        }
        if barred >> last & 1 == 0 {
            if flagged >> last & 1 == 0 {
                self.visit(flagged, disk);
                flagged |= self.order.flags[last];
            }
            disk = disk & !self.sources.at[last] | 1 << last;
        }
        self.visit(flagged, disk);
    }

    #[inline(always)]
    fn visit(&mut self, schedule: u64, disk: u64) {
        self.judged.valid += 1;
        if !self.sources.consistent(disk) {
            self.judged.bad += 1;
            self.judged.smallest.add(schedule);
        }
    }
}
