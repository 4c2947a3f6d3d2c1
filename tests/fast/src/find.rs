// Finding, as a hitting set: a set of rules does if it has for each inconsistent schedule a rule that
// makes this invalid, one that pairs a flagged write with an unflagged one.

use crate::file::{scan, Main, Scan, Test};
use crate::names::Names;
use crate::order::Order;
use crate::refused;
use crate::rules::{EQUAL, GREATER, LESS};
use crate::smallest::ANY_FLAGS;
use crate::sources::members;
use crate::words::{each_word, FLAGGED, LOW};

const MOST_CANDIDATES: usize = 16;
/// Candidates have at most so many names.
const MOST_NAMES: usize = 2 * MOST_CANDIDATES;
const LEAST_BUFFER: usize = 128;

/// A test that finding takes has at most so many main writes, and so many schedules.
const MOST_MAIN: usize = 12;
const SCHEDULES: usize = 1 << MOST_MAIN;

/// A set of candidates, by its number.
type Set = u16;

#[derive(Clone, Copy, Default)]
struct Rule {
    name: u16,
    second: u16,
    predicate: u8,
    /// The numbers of its names, from 0.
    ends: (u8, u8),
}

impl Rule {
    /// Its field in the front of a buffer. Answers the length.
    fn write(&self, buffer: &mut [u8]) -> usize {
        let ([high, name], [more, second]) = (self.name.to_be_bytes(), self.second.to_be_bytes());
        if high | more == 0 {
            buffer[..6].copy_from_slice(&[3, 0, 3, name, self.predicate, second]);
            return 6;
        }
        buffer[..8].copy_from_slice(&[10, 0, 5, high, name, self.predicate, more, second]);
        8
    }
}

/// The candidates, in order, with their names numbered.
struct Candidates {
    rules: [Rule; MOST_CANDIDATES],
    count: usize,
    names: Names,
    /// The position of the candidate of two numbered names and a predicate, from 1; 0 if there is
    /// none.
    position: [[[u8; 3]; MOST_NAMES]; MOST_NAMES],
}

/// The predicates in which two epochs stand, and the other way round.
fn predicates(one: u32, two: u32) -> (u8, u8) {
    match one.cmp(&two) {
        std::cmp::Ordering::Equal => (EQUAL, EQUAL),
        std::cmp::Ordering::Greater => (GREATER, LESS),
        std::cmp::Ordering::Less => (LESS, GREATER),
    }
}

impl Candidates {
    /// The candidates of a file, or none if there are too many.
    fn of(file: &[u8], scan: &Scan) -> Option<Candidates> {
        let mut found = Candidates {
            rules: [Rule::default(); MOST_CANDIDATES],
            count: 0,
            names: Names::NONE,
            position: [[[0; 3]; MOST_NAMES]; MOST_NAMES],
        };
        for place in &scan.places[..scan.tests] {
            let mut main = Main::NONE;
            main.fill(file, place);
            found.add(&main)?;
        }
        found.sort();
        Some(found)
    }

    fn add(&mut self, main: &Main) -> Option<()> {
        // One write alone makes no candidate.
        if main.count < 2 {
            return Some(());
        }
        for &name in &main.name[..main.count] {
            self.add_name(name)?;
        }
        let numbers = self.numbers(main);
        let rule = |one: usize, two: usize, predicate| Rule {
            name: main.name[one],
            second: main.name[two],
            predicate,
            ends: (numbers[one], numbers[two]),
        };
        for i in 0..main.count {
            for j in 0..i {
                let (forth, back) = predicates(main.epoch[i], main.epoch[j]);
                self.add_rule(rule(i, j, forth))?;
                self.add_rule(rule(j, i, back))?;
            }
        }
        Some(())
    }

    /// Each name is that of a candidate, so that with too many of them there are too many of these.
    fn add_name(&mut self, name: u16) -> Option<()> {
        if self.names.count == MOST_NAMES && self.names.number(name) == 0 {
            return None;
        }
        self.names.numbered(name);
        Some(())
    }

    /// The numbers of the names of main writes, from 0; each is one that was added, if these are two or
    /// more.
    fn numbers(&self, main: &Main) -> [u8; MOST_MAIN] {
        let mut numbers = [0; MOST_MAIN];
        for (number, &name) in numbers.iter_mut().zip(&main.name[..main.count]) {
            *number = self.names.number(name).wrapping_sub(1);
        }
        numbers
    }

    fn add_rule(&mut self, rule: Rule) -> Option<()> {
        if *self.place(&rule) == 0 {
            if self.count == MOST_CANDIDATES {
                return None;
            }
            self.rules[self.count] = rule;
            self.count += 1;
            *self.place(&rule) = self.count as u8;
        }
        Some(())
    }

    fn place(&mut self, rule: &Rule) -> &mut u8 {
        let (from, to) = rule.ends;
        &mut self.position[from as usize][to as usize][rule.predicate as usize]
    }

    fn sort(&mut self) {
        let mut rules = self.rules;
        rules[..self.count].sort_unstable_by_key(|rule| (rule.name, rule.second, rule.predicate));
        self.rules = rules;
        for (position, rule) in (1..).zip(&rules[..self.count]) {
            *self.place(rule) = position;
        }
    }

    /// The set of the one candidate of two numbered names and a predicate.
    fn set(&self, from: u8, to: u8, predicate: u8) -> Set {
        1 << (self.position[from as usize][to as usize][predicate as usize] - 1)
    }

    fn all(&self) -> Set {
        first(self.count)
    }
}

/// The set of the first so many candidates.
fn first(count: usize) -> Set {
    ((1u32 << count) - 1) as Set
}

/// For each schedule of a test the candidates that make it invalid.
struct Objections {
    of: [Set; SCHEDULES],
    with: [Set; SCHEDULES],
    without: [Set; SCHEDULES],
}

impl Objections {
    fn new() -> Objections {
        Objections {
            of: [0; SCHEDULES],
            with: [0; SCHEDULES],
            without: [0; SCHEDULES],
        }
    }

    /// Fills the table by doubling it, write by write.
    fn fill(&mut self, main: &Main, candidates: &Candidates) {
        self.of[0] = 0;
        let numbers = candidates.numbers(main);
        for k in 0..main.count {
            self.fill_pairs(main, &numbers, candidates, k);
            let (without, with) = self.of[..2 << k].split_at_mut(1 << k);
            let added = self.with.iter().zip(&self.without);
            for ((of, of_more), (more_with, more)) in without.iter_mut().zip(with).zip(added) {
                *of_more = *of | more_with;
                *of |= more;
            }
        }
    }

    /// For each schedule of the first k writes the candidates that pair write k with one of these:
    /// with an unflagged one if k is flagged, and a flagged one with it if not.
    fn fill_pairs(&mut self, main: &Main, numbers: &[u8], candidates: &Candidates, k: usize) {
        self.with[0] = 0;
        self.without[0] = 0;
        for j in 0..k {
            let (forth, back) = predicates(main.epoch[k], main.epoch[j]);
            let on_j = candidates.set(numbers[k], numbers[j], forth);
            let j_on = candidates.set(numbers[j], numbers[k], back);
            let (low, high) = self.with[..2 << j].split_at_mut(1 << j);
            for (unflagged, flagged) in low.iter_mut().zip(high) {
                *flagged = *unflagged;
                *unflagged |= on_j;
            }
            let (low, high) = self.without[..2 << j].split_at_mut(1 << j);
            for (unflagged, flagged) in low.iter_mut().zip(high) {
                *flagged = *unflagged | j_on;
            }
        }
    }
}

/// A bit for each set.
struct Sets {
    words: [u64; 1 << (MOST_CANDIDATES - LOW)],
}

impl Sets {
    fn has(&self, set: Set) -> bool {
        self.words[set as usize >> LOW] >> (set & 63) & 1 == 1
    }

    fn add(&mut self, set: Set) {
        let word = &mut self.words[set as usize >> LOW];
        let bit = 1 << (set & 63);
        // Most are there already: to look first is faster than to store again and again.
        if *word & bit == 0 {
            *word |= bit;
        }
    }

    /// Adds all sets of the first so many candidates that a set is part of.
    fn spread(&mut self, candidates: usize) {
        for (i, flagged) in FLAGGED.iter().enumerate().take(candidates) {
            for word in &mut self.words {
                *word |= *word << (1 << i) & flagged;
            }
        }
        for i in LOW..candidates {
            let half = 1 << (i - LOW);
            for words in self.words.chunks_exact_mut(2 * half) {
                let (without, with) = words.split_at_mut(half);
                for (with, without) in with.iter_mut().zip(without) {
                    *with |= *without;
                }
            }
        }
    }
}

/// How many rules; their fields are written to the buffer.
#[inline(never)]
pub fn find(file: &[u8], buffer: &mut [u8]) -> u64 {
    match found(file, buffer.len()) {
        Err(refusal) => refusal,
        Ok((candidates, set)) => {
            let mut length = 0;
            for i in members(set as u64) {
                length += candidates.rules[i].write(&mut buffer[length..]);
            }
            set.count_ones() as u64
        }
    }
}

fn found(file: &[u8], buffer: usize) -> Result<(Candidates, Set), u64> {
    let scan = scan(file)?;
    if scan.rules > 0 {
        return Err(refused(10, 0));
    }
    if scan.most_main() > MOST_MAIN {
        return Err(refused(24, 0));
    }
    if buffer < LEAST_BUFFER {
        return Err(refused(12, 0));
    }
    let candidates = Candidates::of(file, &scan).ok_or(refused(11, 0))?;
    // Sets that some inconsistent schedule needs one of; later all sets that such a set is part of.
    let mut within = Sets {
        words: [0; 1 << (MOST_CANDIDATES - LOW)],
    };
    let mut objections = Objections::new();
    for place in &scan.places[..scan.tests] {
        let mut test = Test::NONE;
        test.fill(file, place);
        objections.fill(&test.main, &candidates);
        each_word(&test, &Order::of_no_rules(), |from, _, bad| {
            let of: &[Set; 1 << LOW] = objections.of[from as usize..][..1 << LOW]
                .try_into()
                .expect("as many as a word has bits");
            members(bad).for_each(|k| within.add(of[k]));
            ANY_FLAGS
        });
    }
    within.spread(candidates.count);
    let mut search = Search {
        candidates: &candidates,
        within: &within,
        best: None,
    };
    search.go_on(candidates.count, 0, &Reach::NONE);
    match search.best {
        Some(set) => Ok((candidates, set)),
        None => Err(refused(13, 0)),
    }
}

/// What names reach by the rules of an acyclic set, as masks of numbered names.
#[derive(Clone)]
struct Reach {
    by_any: [u32; MOST_NAMES],
    by_equal: [u32; MOST_NAMES],
}

impl Reach {
    const NONE: Reach = Reach {
        by_any: [0; MOST_NAMES],
        by_equal: [0; MOST_NAMES],
    };
}

/// Adds a rule, from a name to another, to what is reached.
fn reach(rows: &mut [u32], from: usize, to: usize) {
    let more = rows[to] | 1 << to;
    for (name, row) in rows.iter_mut().enumerate() {
        if name == from || *row >> from & 1 == 1 {
            *row |= more;
        }
    }
}

/// The search for the acyclic set that does, with the fewest rules and then the largest number.
struct Search<'a> {
    candidates: &'a Candidates,
    within: &'a Sets,
    best: Option<Set>,
}

impl Search<'_> {
    /// A set does if no needed set is part of what it leaves out.
    fn does(&self, set: Set) -> bool {
        !self.within.has(self.candidates.all() & !set)
    }

    /// Goes through the acyclic sets that have these of the later candidates and some of the first
    /// `i`, in falling number, and leaves out what cannot be better than the best: sets that do not
    /// even with all of the first `i`, and those with as many rules.
    fn go_on(&mut self, mut i: usize, set: Set, reached: &Reach) {
        if self.does(set) {
            self.best = Some(set);
            return;
        }
        while i > 0 && self.may_be_better(set) && self.does(set | first(i)) {
            i -= 1;
            if let Some(more) = self.with(set, i, reached) {
                self.go_on(i, set | 1 << i, &more);
            }
        }
    }

    /// May a set with one more rule be better than the best?
    fn may_be_better(&self, set: Set) -> bool {
        self.best
            .map_or(true, |best| set.count_ones() + 1 < best.count_ones())
    }

    /// What an acyclic set reaches with one more candidate, or none if that makes it cyclic. Only
    /// closed walks with the new rule are new.
    fn with(&self, set: Set, i: usize, reached: &Reach) -> Option<Reach> {
        let names = self.candidates.names.count;
        let rule = self.candidates.rules[i];
        let (from, to) = (rule.ends.0 as usize, rule.ends.1 as usize);
        let mut more = reached.clone();
        if rule.predicate == EQUAL {
            reach(&mut more.by_equal[..names], from, to);
            if more.by_equal[from] >> from & 1 == 1 {
                return None;
            }
        }
        reach(&mut more.by_any[..names], from, to);
        let closes = more.by_any[from] >> from & 1 == 1;
        if closes && self.has_both(set | 1 << i, around(&more.by_any[..names], from)) {
            return None;
        }
        Some(more)
    }

    /// Has a set both a > and a < rule within these names?
    fn has_both(&self, set: Set, names: u32) -> bool {
        let mut found = [false; 3];
        for rule in members(set as u64).map(|i| self.candidates.rules[i]) {
            let (from, to) = rule.ends;
            found[rule.predicate as usize] |= names >> from & names >> to & 1 == 1;
        }
        found[GREATER as usize] && found[LESS as usize]
    }
}

/// The names that a name reaches and that reach it.
fn around(rows: &[u32], name: usize) -> u32 {
    let back = |&other: &usize| rows[other] >> name & 1 == 1;
    let others = members(rows[name] as u64).filter(back);
    others.fold(0, |mask, other| mask | 1 << other)
}
