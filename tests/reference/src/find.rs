// Finding: the smallest acyclic set of candidate rules under which all tests hold.

use std::cmp::Reverse;

use crate::cyclic::cyclic;
use crate::file::{read, Field, File, Test};
use crate::judge::inconsistent_schedules;
use crate::refusal::{self, Refusal};
use crate::schedule::dependencies;
use crate::writes::{Rule, PREDICATES};

pub const MOST_CANDIDATES: usize = 16;
/// As long as 16 fields of two-byte names, also where all names are small.
pub const LEAST_BUFFER: usize = 128;
/// The most main writes of a test that finding takes; reading takes more.
pub const MOST_MAIN: usize = 12;

/// Writes the found rules' fields to the buffer, and answers how many there are.
pub fn find(file: &[u8], buffer: &mut [u8]) -> Result<usize, Refusal> {
    let file = read(file)?;
    if !file.rules.is_empty() {
        return Err(refusal::plain(refusal::FILE_HAS_RULES));
    }
    if file.tests.iter().any(|test| test.main.len() > MOST_MAIN) {
        return Err(refusal::plain(refusal::TOO_MANY_TO_FIND));
    }
    if buffer.len() < LEAST_BUFFER {
        return Err(refusal::plain(refusal::BUFFER_TOO_SHORT));
    }
    let candidates = candidates(&file);
    if candidates.len() > MOST_CANDIDATES {
        return Err(refusal::plain(refusal::TOO_MANY_CANDIDATES));
    }
    let rules = match smallest_set(&file, &candidates) {
        Some(rules) => rules,
        None => return Err(refusal::plain(refusal::NO_SET_DOES)),
    };
    let mut bytes = Vec::new();
    for rule in &rules {
        Field::of_rule(rule).append_to(&mut bytes);
    }
    buffer[..bytes.len()].copy_from_slice(&bytes);
    Ok(rules.len())
}

/// The rules that match an ordered pair of two different main writes of one test, sorted by first
/// name, second name, predicate.
pub fn candidates(file: &File) -> Vec<Rule> {
    let mut found = Vec::new();
    for test in &file.tests {
        for i in 0..test.main.len() {
            for j in (0..test.main.len()).filter(|&j| j != i) {
                let (one, two) = (test.main[i].label(), test.main[j].label());
                for predicate in PREDICATES {
                    let rule = Rule {
                        name: one.name,
                        predicate,
                        second: two.name,
                    };
                    if rule.matches(one, two) && !found.contains(&rule) {
                        found.push(rule);
                    }
                }
            }
        }
    }
    found.sort_by_key(|rule| (rule.name, rule.second, rule.predicate.to_byte()));
    found
}

/// The best set: the fewest rules, and among equals the largest number.
fn smallest_set(file: &File, candidates: &[Rule]) -> Option<Vec<Rule>> {
    let mut sets: Vec<u32> = (0..1 << candidates.len()).collect();
    sets.sort_by_key(|set| (set.count_ones(), Reverse(*set)));
    let mut search = Search::new(file, candidates);
    let found = sets.into_iter().find(|&set| search.does(set));
    found.map(|set| members(candidates, set))
}

/// The numbers, rising, of all acyclic sets of this many candidates under which all tests hold.
pub fn sets_that_do(file: &File, candidates: &[Rule], rules: usize) -> Vec<u32> {
    let mut search = Search::new(file, candidates);
    (0..1u32 << candidates.len())
        .filter(|set| set.count_ones() as usize == rules && search.does(*set))
        .collect()
}

/// Do all tests hold under all candidates together, cyclic as they may be?
pub fn all_do(file: &File, candidates: &[Rule]) -> bool {
    Search::new(file, candidates).all_hold(((1u64 << candidates.len()) - 1) as u32)
}

/// The candidates whose bit is set, in order.
pub fn members(candidates: &[Rule], set: u32) -> Vec<Rule> {
    (0..candidates.len())
        .filter(|i| set >> i & 1 == 1)
        .map(|i| candidates[i])
        .collect()
}

/// Sets of candidates asked about one after another. What does not hang on the set is worked out
/// once: the inconsistent schedules of each test, and what each candidate makes a write depend on.
struct Search<'a> {
    candidates: &'a [Rule],
    tests: Vec<Searched>,
    /// Whether a set is cyclic, once it is known.
    cyclic: Vec<Option<bool>>,
}

struct Searched {
    inconsistent: Vec<u64>,
    /// For each candidate and each main write the mask of the writes that it depends on by it.
    on: Vec<Vec<u64>>,
}

impl Search<'_> {
    fn new<'a>(file: &File, candidates: &'a [Rule]) -> Search<'a> {
        let mask = |on: &Vec<usize>| on.iter().map(|&j| 1 << j).sum();
        let searched = |test: &Test| Searched {
            inconsistent: inconsistent_schedules(test),
            on: candidates
                .iter()
                .map(|&rule| dependencies(&[rule], &test.main).iter().map(mask).collect())
                .collect(),
        };
        Search {
            candidates,
            tests: file.tests.iter().map(searched).collect(),
            cyclic: vec![None; 1 << candidates.len()],
        }
    }

    fn does(&mut self, set: u32) -> bool {
        !self.is_cyclic(set) && self.all_hold(set)
    }

    /// A set is cyclic if a part of it is.
    fn is_cyclic(&mut self, set: u32) -> bool {
        if let Some(known) = self.cyclic[set as usize] {
            return known;
        }
        let mut parts = (0..self.candidates.len()).filter(|i| set >> i & 1 == 1);
        let found =
            parts.any(|i| self.is_cyclic(set ^ 1 << i)) || cyclic(&members(self.candidates, set));
        self.cyclic[set as usize] = Some(found);
        found
    }

    fn all_hold(&mut self, set: u32) -> bool {
        self.tests.iter_mut().all(|test| test.holds(set))
    }
}

impl Searched {
    /// Is no inconsistent schedule valid? The one that is, is asked for first the next time, since
    /// it often is valid again.
    fn holds(&mut self, set: u32) -> bool {
        let mut on = vec![0; self.on.first().map_or(0, Vec::len)];
        for (_, of_rule) in (0..).zip(&self.on).filter(|(i, _)| set >> i & 1 == 1) {
            for (mask, more) in on.iter_mut().zip(of_rule) {
                *mask |= more;
            }
        }
        let valid = |schedule: u64| {
            let mut flagged = (0..).zip(&on).filter(|(i, _)| schedule >> i & 1 == 1);
            flagged.all(|(_, on)| on & !schedule == 0)
        };
        match self
            .inconsistent
            .iter()
            .position(|&schedule| valid(schedule))
        {
            Some(i) => self.inconsistent.swap(0, i),
            None => return true,
        }
        false
    }
}
