// Def. 3.5 of document 000 for one test, as a question to an SMT solver: is there a valid schedule
// whose disk is inconsistent? "unsat" says that the test holds. As in the paper's section 3.3, the
// unknowns are the schedule's flags, and a block is a term over them.

use std::collections::BTreeSet;

use reference::checks::Check;
use reference::file::Test;
use reference::schedule::dependencies;
use reference::writes::{Block, Disk, Rule, Write, BLOCKS};

/// What the solver is told once, before all questions.
pub const LOGIC: &str = "(set-logic QF_BV)\n";

const PRELUDE: &str = "\
(define-fun first ((block (_ BitVec 32))) (_ BitVec 16) ((_ extract 31 16) block))
(define-fun second ((block (_ BitVec 32))) (_ BitVec 16) ((_ extract 15 0) block))
(define-fun empty ((block (_ BitVec 32))) Bool (= block #x00000000))
";

/// The question in SMT-LIB 2.
pub fn script(rules: &[Rule], test: &Test) -> String {
    let start = test.initial_disk();
    let flags = (0..test.main.len()).map(|i| format!("(declare-const {} Bool)\n", flag(i)));
    let blocks = (addresses(&start, test).into_iter()).map(|a| definition(&start, &test.main, a));
    let holding = |check| holds(&start, test, check);
    let checks: Vec<String> = test.checks.iter().map(holding).collect();
    let lines: String = flags
        .chain(valid(rules, &test.main))
        .chain(blocks)
        .collect();
    let consistent = all(&checks);
    format!("{PRELUDE}{lines}(assert (not {consistent}))\n(check-sat)\n")
}

/// The flag of a main write, whose index counts from 0 while the paper counts from 1.
fn flag(index: usize) -> String {
    format!("s{}", index + 1)
}

/// Def. 3.4: a flagged write's dependencies are flagged.
fn valid(rules: &[Rule], main: &[Write]) -> Vec<String> {
    let implied = |(i, on): (usize, Vec<usize>)| {
        (on.into_iter()).map(move |j| format!("(assert (=> {} {}))\n", flag(i), flag(j)))
    };
    (dependencies(rules, main).into_iter().enumerate())
        .flat_map(implied)
        .collect()
}

/// The block at an address after the crash: that of the last flagged write there, else the initial
/// disk's.
fn definition(start: &Disk, main: &[Write], address: usize) -> String {
    let mut block = bits(start[address]);
    for (i, write) in main.iter().enumerate() {
        if write.address as usize == address {
            block = format!("(ite {} {} {block})", flag(i), bits(write.block));
        }
    }
    format!("(define-fun block{address} () (_ BitVec 32) {block})\n")
}

fn bits(block: Block) -> String {
    format!("#x{:04x}{:04x}", block.first, block.second)
}

fn half(number: usize) -> String {
    format!("#x{number:04x}")
}

fn all(terms: &[String]) -> String {
    match terms {
        [] => "true".to_string(),
        [term] => term.clone(),
        _ => format!("(and {})", terms.join(" ")),
    }
}

/// The addresses whose blocks the checks can look at.
fn addresses(start: &Disk, test: &Test) -> BTreeSet<usize> {
    let looked_at = |check: &Check| match *check {
        Check::Pair { a, b, .. } => BTreeSet::from([a as usize, b as usize]),
        Check::Range { at } | Check::Pointer { at } => {
            let mut addresses = reached(start, test, check);
            addresses.insert(at as usize);
            addresses
        }
    };
    test.checks.iter().flat_map(looked_at).collect()
}

/// The addresses to which a block leads that a schedule can leave at the check's own address. A
/// term for any other one would be true whatever the schedule, so the solver is spared it.
fn reached(start: &Disk, test: &Test, check: &Check) -> BTreeSet<usize> {
    let numbers = |block: Block| (block.first as usize, block.second as usize);
    let led_to = |block| match (check, numbers(block)) {
        (Check::Range { .. }, (head, tail)) => head..tail.min(BLOCKS),
        (_, (_, target)) => target..(target + 1).min(BLOCKS),
    };
    match *check {
        Check::Pair { .. } => BTreeSet::new(),
        Check::Range { at } | Check::Pointer { at } => (test.main.iter())
            .filter(|write| write.address == at)
            .map(|write| write.block)
            .chain([start[at as usize]])
            .flat_map(led_to)
            .collect(),
    }
}

/// When a check holds.
fn holds(start: &Disk, test: &Test, check: &Check) -> String {
    let reached = reached(start, test, check);
    match *check {
        Check::Range { at } => range(at, reached),
        Check::Pair { a, v, b, w } => {
            let (v, w) = (bits(v), bits(w));
            format!("(=> (= block{a} {v}) (= block{b} {w}))")
        }
        Check::Pointer { at } => pointer(at, reached),
    }
}

fn range(at: u8, reached: BTreeSet<usize>) -> String {
    let (head, tail) = (format!("(first block{at})"), format!("(second block{at})"));
    let filled = |a| {
        let number = half(a);
        format!("(=> (and (bvule {head} {number}) (bvult {number} {tail})) (not (empty block{a})))")
    };
    let mut ends = vec![
        format!("(bvult {head} {tail})"),
        format!("(bvule {tail} {})", half(BLOCKS)),
    ];
    ends.extend(reached.into_iter().map(filled));
    format!("(or (= {head} {tail}) {})", all(&ends))
}

fn pointer(at: u8, reached: BTreeSet<usize>) -> String {
    let target = format!("(second block{at})");
    let filled = |a| format!("(=> (= {target} {}) (not (empty block{a})))", half(a));
    let mut points = vec![format!("(bvult {target} {})", half(BLOCKS))];
    points.extend(reached.into_iter().map(filled));
    format!("(or (empty block{at}) {})", all(&points))
}
