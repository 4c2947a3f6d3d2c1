// Rules: whether a set of them is cyclic, and what they make writes depend on, by the names' masks.

use crate::file::MOST_RULES;
use crate::names::{Names, MOST_NAMES};

pub const EQUAL: u8 = 0;
pub const GREATER: u8 = 1;
pub const LESS: u8 = 2;

/// As many writes as a mask has bits.
pub const MOST_WRITES: usize = 64;

/// Rules, with the names that they mention numbered.
pub struct Rules {
    pub count: usize,
    predicate: [u8; MOST_RULES],
    /// The numbers of a rule's two names.
    ends: [(u8, u8); MOST_RULES],
    names: Names,
}

impl Rules {
    pub const NONE: Rules = Rules {
        count: 0,
        predicate: [0; MOST_RULES],
        ends: [(0, 0); MOST_RULES],
        names: Names::NONE,
    };

    pub fn push(&mut self, name: u16, predicate: u8, second: u16) {
        let ends = (self.names.numbered(name), self.names.numbered(second));
        self.predicate[self.count] = predicate;
        self.ends[self.count] = ends;
        self.count += 1;
    }

    /// Each rule's predicate and the numbers of its names.
    fn all(&self) -> impl Iterator<Item = (u8, usize, usize)> + '_ {
        let rules = self.predicate.iter().zip(&self.ends).take(self.count);
        rules.map(|(&predicate, &(from, to))| (predicate, from as usize, to as usize))
    }

    /// Is some closed walk of = rules only, or with both a > and a < rule?
    pub fn cyclic(&self) -> bool {
        // Walks of one rule by themselves, so that most sets have no other ones.
        let mut rows = [0; MOST_NAMES];
        let mut to_itself = [0u64; 3];
        for (predicate, from, to) in self.all() {
            if from == to {
                to_itself[predicate as usize] |= 1 << (from - 1);
            } else {
                rows[from - 1] |= 1 << (to - 1);
            }
        }
        let [equal, greater, less] = to_itself;
        equal != 0 || greater & less != 0 || has_ring(&rows[..self.names.count]) && self.closes()
    }

    /// The same, by all walks.
    #[cold]
    fn closes(&self) -> bool {
        let (mut equal, mut any) = ([0; MOST_NAMES], [0; MOST_NAMES]);
        for (predicate, from, to) in self.all() {
            any[from - 1] |= 1 << (to - 1);
            if predicate == EQUAL {
                equal[from - 1] |= 1 << (to - 1);
            }
        }
        let names = self.names.count;
        let (equal, any) = (&mut equal[..names], &mut any[..names]);
        close(any);
        // The names that are on a closed walk with a rule: none if it is on none.
        let around = |from: usize, to: usize| {
            let is_there = |i: usize| any[i] >> (from - 1) & any[to - 1] >> i & 1 == 1;
            let others = (0..names).filter(|&i| is_there(i));
            others.fold(0u64, |mask, i| mask | 1 << i)
        };
        let with = |wanted: u8| self.all().filter(move |rule| rule.0 == wanted);
        has_ring(equal)
            || with(GREATER).any(|(_, from, to)| {
                let walk = around(from, to);
                let within = |name: usize| walk >> (name - 1) & 1 == 1;
                with(LESS).any(|(_, start, end)| within(start) && within(end))
            })
    }

    /// Adds to each write's row the writes that it depends on.
    pub fn add_dependencies(&self, names: &[u16], epochs: &[u32], rows: &mut [u64]) {
        if self.count == 0 {
            return;
        }
        let mut numbers = [0; MOST_WRITES];
        let mut with_name = [0; MOST_NAMES + 1];
        for (i, (number, &name)) in numbers.iter_mut().zip(names).enumerate() {
            *number = self.names.number(name);
            with_name[*number as usize] |= 1 << i;
        }
        // The writes that rules pair with a name, by predicate. A name that no rule mentions has
        // the number 0, and none.
        let mut paired = [[0; 3]; MOST_NAMES + 1];
        for (predicate, from, to) in self.all() {
            paired[from][predicate as usize] |= with_name[to];
        }
        let ranks = Ranks::of(epochs);
        for ((row, &number), &rank) in rows.iter_mut().zip(&numbers).zip(&ranks.rank) {
            let [on_equal, on_lower, on_higher] = paired[number as usize];
            let (equal, lower) = ranks.masks(rank);
            *row |= on_equal & equal | on_lower & lower | on_higher & !(equal | lower);
        }
    }
}

/// Up to 64 epochs, ranked: equal ones have the same rank, and a lower one has a lower rank.
struct Ranks {
    rank: [u8; MOST_WRITES],
    /// For each rank the places that have it, and those with a lower one.
    equal: [u64; MOST_WRITES],
    lower: [u64; MOST_WRITES],
}

impl Ranks {
    fn of(epochs: &[u32]) -> Ranks {
        let mut ranks = Ranks {
            rank: [0; MOST_WRITES],
            equal: [0; MOST_WRITES],
            lower: [0; MOST_WRITES],
        };
        let least = epochs.iter().copied().min().unwrap_or(0);
        let most = epochs.iter().copied().max().unwrap_or(0);
        if ((most - least) as usize) < MOST_WRITES {
            for (rank, epoch) in ranks.rank.iter_mut().zip(epochs) {
                *rank = (epoch - least) as u8;
            }
        } else {
            ranks.sort(epochs);
        }
        ranks.fill(epochs.len());
        ranks
    }

    /// Ranks epochs that are far apart.
    fn sort(&mut self, epochs: &[u32]) {
        let mut order = [0; MOST_WRITES];
        for (i, (key, &epoch)) in order.iter_mut().zip(epochs).enumerate() {
            *key = (epoch as u64) << 8 | i as u64;
        }
        let order = &mut order[..epochs.len()];
        order.sort_unstable();
        let (mut rank, mut last) = (0, order[0] >> 8);
        for key in order {
            rank += (*key >> 8 != last) as u8;
            last = *key >> 8;
            self.rank[(*key & 0xFF) as usize] = rank;
        }
    }

    fn fill(&mut self, count: usize) {
        for (i, &rank) in self.rank[..count].iter().enumerate() {
            self.equal[rank as usize % MOST_WRITES] |= 1 << i;
        }
        let mut lower = 0;
        for (rank, equal) in self.lower.iter_mut().zip(&self.equal) {
            *rank = lower;
            lower |= equal;
        }
    }

    /// The places with an equal epoch and those with a lower one.
    #[inline(always)]
    fn masks(&self, rank: u8) -> (u64, u64) {
        let rank = rank as usize % MOST_WRITES;
        (self.equal[rank], self.lower[rank])
    }
}

/// Is there a ring in a relation given as rows? Members that are related only to peeled ones are
/// peeled, as long as there are any: where none is left there is no ring. Passes go up and down, so
/// that one of each is enough where all are related to lower ones only, or all to higher ones.
pub fn has_ring(rows: &[u64]) -> bool {
    let peel = |peeled: u64, i: usize| peeled | ((rows[i] & !peeled == 0) as u64) << i;
    let mut peeled = 0u64;
    loop {
        let before = peeled;
        peeled = (0..rows.len()).fold(peeled, peel);
        if peeled.count_ones() as usize == rows.len() {
            return false;
        }
        peeled = (0..rows.len()).rev().fold(peeled, peel);
        if peeled == before {
            return true;
        }
    }
}

/// The transitive closure of a relation given as rows.
pub fn close(rows: &mut [u64]) {
    for k in 0..rows.len() {
        let through = rows[k];
        for row in rows.iter_mut() {
            *row |= through & (*row >> k & 1).wrapping_neg();
        }
    }
}
