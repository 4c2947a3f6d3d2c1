// A second way to judge, which goes through no schedules: that a schedule is valid, and that its disk
// is consistent, are decision diagrams over the flags. A diagram asks for one flag after another, in
// the order of the writes, up to yes or no, and parts that are the same are one. What the document
// says of validity, disks and checks becomes diagrams by "if"; how many schedules lead to yes, and which
// of them is the smallest, is then found part by part.

use std::collections::HashMap;

use crate::checks::Check;
use crate::file::Test;
use crate::judge::{self, Judgement};
use crate::schedule::dependencies;
use crate::writes::{Block, Rule, Write, BLOCKS};

/// Up to so many main writes the schedules are few enough to go through them all, again and again.
pub const FEW: usize = 12;

/// What is expected of a judge: schedule by schedule where these are few, else by diagrams.
pub fn expected(rules: &[Rule], test: &Test) -> Judgement {
    if test.main.len() <= FEW {
        judge::judge_test(rules, test)
    } else {
        judge_test(rules, test)
    }
}

/// The judgement by diagrams.
pub fn judge_test(rules: &[Rule], test: &Test) -> Judgement {
    let mut diagrams = Diagrams::new();
    let valid = valid(&mut diagrams, rules, &test.main);
    let consistent = consistent(&mut diagrams, test);
    let bad = diagrams.when(consistent, NO, valid);
    Judgement {
        valid: diagrams.count(valid, test.main.len()),
        bad: diagrams.count(bad, test.main.len()),
        shown: diagrams.smallest(bad).unwrap_or(0),
    }
}

/// Is every dependency of every flagged write flagged?
fn valid(diagrams: &mut Diagrams, rules: &[Rule], main: &[Write]) -> Diagram {
    let mut valid = YES;
    for (i, on) in dependencies(rules, main).iter().enumerate() {
        let all = on.iter().fold(YES, |all, &j| {
            let flag = diagrams.flag(j);
            diagrams.and(all, flag)
        });
        let flag = diagrams.flag(i);
        let kept = diagrams.when(flag, all, YES);
        valid = diagrams.and(valid, kept);
    }
    valid
}

/// Do all checks hold?
fn consistent(diagrams: &mut Diagrams, test: &Test) -> Diagram {
    let disk = Symbolic::new(diagrams, test);
    let mut consistent = YES;
    for check in &test.checks {
        let broken = disk.broken(diagrams, check);
        consistent = diagrams.when(broken, NO, consistent);
    }
    consistent
}

/// The disk of a schedule, by its flags.
struct Symbolic<'a> {
    test: &'a Test,
    initial: Vec<Block>,
    /// For each address, is its block empty?
    empty: Vec<Diagram>,
}

impl Symbolic<'_> {
    fn new<'a>(diagrams: &mut Diagrams, test: &'a Test) -> Symbolic<'a> {
        let initial = test.initial_disk().to_vec();
        let mut empty: Vec<Diagram> = initial.iter().map(|b| constant(b.is_empty())).collect();
        for (i, write) in test.main.iter().enumerate() {
            let flag = diagrams.flag(i);
            let here = &mut empty[write.address as usize];
            *here = diagrams.when(flag, constant(write.block.is_empty()), *here);
        }
        Symbolic {
            test,
            initial,
            empty,
        }
    }

    /// Is the block at an address, of those that a write or the initial disk leaves there, one for
    /// which this is so?
    fn block_is(
        &self,
        diagrams: &mut Diagrams,
        address: u8,
        mut is_so: impl FnMut(&mut Diagrams, Block) -> Diagram,
    ) -> Diagram {
        let mut here = is_so(diagrams, self.initial[address as usize]);
        for (i, write) in self.test.main.iter().enumerate() {
            if write.address == address {
                let (flag, of_write) = (diagrams.flag(i), is_so(diagrams, write.block));
                here = diagrams.when(flag, of_write, here);
            }
        }
        here
    }

    fn broken(&self, diagrams: &mut Diagrams, check: &Check) -> Diagram {
        match *check {
            Check::Pair { a, v, b, w } => {
                let premise = self.block_is(diagrams, a, |_, block| constant(block == v));
                let conclusion = self.block_is(diagrams, b, |_, block| constant(block == w));
                diagrams.when(conclusion, NO, premise)
            }
            Check::Range { at } => self.block_is(diagrams, at, |diagrams, block| {
                let (head, tail) = (block.first as usize, block.second as usize);
                if head > tail || head < tail && tail > BLOCKS {
                    return YES;
                }
                self.some_empty(diagrams, head..tail)
            }),
            Check::Pointer { at } => self.block_is(diagrams, at, |diagrams, block| {
                let target = block.second as usize;
                if block.is_empty() {
                    return NO;
                }
                if target >= BLOCKS {
                    return YES;
                }
                self.some_empty(diagrams, target..target + 1)
            }),
        }
    }

    /// Is one of these blocks empty?
    fn some_empty(&self, diagrams: &mut Diagrams, blocks: std::ops::Range<usize>) -> Diagram {
        // The last ones first: the flags of later writes are asked for later.
        let mut some = NO;
        for &empty in self.empty[blocks.start.min(BLOCKS)..blocks.end.min(BLOCKS)]
            .iter()
            .rev()
        {
            some = diagrams.when(empty, YES, some);
        }
        some
    }
}

/// A diagram, by its place among the nodes.
type Diagram = usize;

const NO: Diagram = 0;
const YES: Diagram = 1;

fn constant(answer: bool) -> Diagram {
    answer as Diagram
}

/// A question for a write's flag.
#[derive(Clone, Copy, PartialEq, Eq, Hash)]
struct Node {
    write: usize,
    without: Diagram,
    with: Diagram,
}

struct Diagrams {
    /// No and yes, which ask for nothing, and behind them each node after those that it leads to.
    nodes: Vec<Node>,
    places: HashMap<Node, Diagram>,
    /// What "if, then, else" of three diagrams is.
    known: HashMap<[Diagram; 3], Diagram>,
}

impl Diagrams {
    fn new() -> Diagrams {
        let answer = |diagram| Node {
            write: usize::MAX,
            without: diagram,
            with: diagram,
        };
        Diagrams {
            nodes: vec![answer(NO), answer(YES)],
            places: HashMap::new(),
            known: HashMap::new(),
        }
    }

    fn node(&mut self, write: usize, without: Diagram, with: Diagram) -> Diagram {
        if without == with {
            return with;
        }
        let node = Node {
            write,
            without,
            with,
        };
        let next = self.nodes.len();
        let place = *self.places.entry(node).or_insert(next);
        if place == next {
            self.nodes.push(node);
        }
        place
    }

    /// Is this write flagged?
    fn flag(&mut self, write: usize) -> Diagram {
        self.node(write, NO, YES)
    }

    fn and(&mut self, one: Diagram, two: Diagram) -> Diagram {
        self.when(one, two, NO)
    }

    /// If `one` then `two`, else `three`.
    fn when(&mut self, one: Diagram, two: Diagram, three: Diagram) -> Diagram {
        match (one, two, three) {
            (YES, _, _) => return two,
            (NO, _, _) => return three,
            (_, YES, NO) => return one,
            _ if two == three => return two,
            _ => {}
        }
        let parts = [one, two, three];
        if let Some(&known) = self.known.get(&parts) {
            return known;
        }
        let nodes = parts.map(|part| self.nodes[part]);
        let first = nodes.iter().map(|node| node.write).min().unwrap_or(0);
        let below = |flagged: bool| {
            let mut parts = parts;
            for (part, node) in parts.iter_mut().zip(&nodes) {
                if node.write == first {
                    *part = if flagged { node.with } else { node.without };
                }
            }
            parts
        };
        let (without, with) = (below(false), below(true));
        let without = self.when(without[0], without[1], without[2]);
        let with = self.when(with[0], with[1], with[2]);
        let found = self.node(first, without, with);
        self.known.insert(parts, found);
        found
    }

    /// How many schedules of so many writes lead to yes. Half of those of a node's either part have
    /// its flag the one way, and half the other way.
    fn count(&self, diagram: Diagram, writes: usize) -> u64 {
        let mut of = vec![0, 1 << writes];
        for node in &self.nodes[2..] {
            of.push((of[node.without] + of[node.with]) / 2);
        }
        of[diagram]
    }

    /// Of the schedules that lead to yes the one with the fewest flags, and among those the smallest
    /// number. Which of two that is does not hang on a flag that both have; and a flag that isn't
    /// asked for is not set.
    fn smallest(&self, diagram: Diagram) -> Option<u64> {
        let mut of: Vec<Option<u64>> = vec![None, Some(0)];
        for node in &self.nodes[2..] {
            let with = of[node.with].map(|number| number | 1 << node.write);
            let both = [of[node.without], with].into_iter().flatten();
            of.push(both.min_by_key(|&number| (number.count_ones(), number)));
        }
        of[diagram]
    }
}
