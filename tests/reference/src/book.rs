// Whole runs: the book, which is fed the calls and whether each was refused, and nothing else.

use crate::needs::{earliest_ready, needs};
use crate::writes::{Rule, Write};

#[derive(Clone, Copy, Debug, PartialEq, Eq)]
pub enum Call {
    /// An opening within a run changes the book only by being refused, which is to say not at all.
    Open,
    HandIn(Write),
    Step,
    Drain,
}

#[derive(Clone, Debug, PartialEq, Eq)]
pub struct Book {
    rules: Vec<Rule>,
    pub writes: Vec<Write>,
    pub flags: Vec<bool>,
}

impl Book {
    pub fn new(rules: &[Rule]) -> Book {
        Book {
            rules: rules.to_vec(),
            writes: Vec::new(),
            flags: Vec::new(),
        }
    }

    pub fn enter(&mut self, call: &Call, refused: bool) {
        if refused {
            return;
        }
        match call {
            Call::Open => {}
            Call::HandIn(write) => {
                self.writes.push(*write);
                self.flags.push(false);
            }
            Call::Step => self.step(),
            Call::Drain => {
                for _ in 0..self.waiting() {
                    self.step();
                }
            }
        }
    }

    fn step(&mut self) {
        if let Some(i) = earliest_ready(&needs(&self.rules, &self.writes), &self.flags) {
            self.flags[i] = true;
        }
    }

    pub fn waiting(&self) -> usize {
        self.flags.iter().filter(|&&flag| !flag).count()
    }

    /// The flags as a schedule of the accepted writes.
    pub fn schedule(&self) -> u64 {
        (0..self.flags.len())
            .filter(|&i| self.flags[i])
            .fold(0, |schedule, i| schedule | 1 << i)
    }
}
