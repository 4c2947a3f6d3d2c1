// Suites of random cases: each is one test of the final count, with its own seed.
//
// To add a suite, write a function from a `Run` to an `Outcome` that takes each case's random
// numbers from `next_case` and returns at the first failure, and name it in its module's `suites`.

use std::fmt::Write;
use std::panic;
use std::time::Instant;

use reference::random::{mix, Random};

use crate::answer;

/// A named test of many cases.
pub struct Suite {
    pub name: &'static str,
    pub run: fn(&mut Run) -> Outcome,
}

/// Suites that need the same routines or programs.
pub struct Part {
    pub name: &'static str,
    pub is_there: bool,
    pub suites: Vec<Suite>,
}

impl Part {
    pub fn new(name: &'static str, is_there: bool, suites: Vec<Suite>) -> Part {
        Part {
            name,
            is_there,
            suites,
        }
    }
}

/// A case that came out wrong.
pub struct Failure {
    pub call: String,
    pub inputs: Vec<(String, String)>,
    pub expected: String,
    pub got: String,
}

pub type Outcome = Result<(), Failure>;

/// A suite on its way.
pub struct Run {
    seed: u64,
    multiplier: u64,
    cases: u64,
    note: String,
}

impl Run {
    /// A suite's usual number of cases, times the multiplier asked for.
    pub fn times(&self, cases: u64) -> u64 {
        cases * self.multiplier
    }

    /// Begins the next case: its own source of random numbers.
    pub fn next_case(&mut self) -> Random {
        self.cases += 1;
        Random::new(mix(self.seed.wrapping_add(mix(self.cases))))
    }

    /// Shown with the suite's result.
    pub fn note(&mut self, note: String) {
        self.note = note;
    }
}

pub fn hexadecimal(bytes: &[u8]) -> String {
    let mut text = String::new();
    for byte in bytes {
        let _ = write!(text, "{byte:02x}");
    }
    text
}

/// What a call was given, by name.
pub type Inputs<'a> = &'a [(&'a str, &'a [u8])];

/// Fails with that call.
pub fn fail(call: &str, inputs: Inputs, expected: String, got: String) -> Outcome {
    let shown = |&(name, bytes): &(&str, &[u8])| (name.to_string(), hexadecimal(bytes));
    Err(Failure {
        call: call.to_string(),
        inputs: inputs.iter().map(shown).collect(),
        expected,
        got,
    })
}

/// Fails unless the library's answer is the expected one.
pub fn same_answer_on(call: &str, inputs: Inputs, expected: u64, got: u64) -> Outcome {
    if expected == got {
        return Ok(());
    }
    fail(call, inputs, answer::show(expected), answer::show(got))
}

/// Likewise, of a call that is given a file.
pub fn same_answer(call: &str, file: &[u8], expected: u64, got: u64) -> Outcome {
    same_answer_on(call, &[("file", file)], expected, got)
}

/// Fails with a statement about the suite itself.
pub fn require(condition: bool, expected: &str, got: String) -> Outcome {
    if condition {
        return Ok(());
    }
    fail("the suite itself", &[], expected.to_string(), got)
}

fn seed_of(base: u64, name: &str) -> u64 {
    name.bytes()
        .fold(mix(base), |seed, byte| mix(seed ^ byte as u64))
}

/// Runs a suite and prints its result. True if it passed.
pub fn passes(suite: &Suite, base: u64, multiplier: u64) -> bool {
    let started = Instant::now();
    let seed = seed_of(base, suite.name);
    let mut run = Run {
        seed,
        multiplier,
        cases: 0,
        note: String::new(),
    };
    // A panic, of the reference say, fails this suite only.
    let body = suite.run;
    let outcome = panic::catch_unwind(panic::AssertUnwindSafe(|| body(&mut run)));
    let passed = matches!(outcome, Ok(Ok(())));
    println!(
        "{} {}: {} cases{}{}, seed {seed:#018x}, {:.2} s",
        if passed { "ok    " } else { "FAILED" },
        suite.name,
        run.cases,
        if run.note.is_empty() { "" } else { ", " },
        run.note,
        started.elapsed().as_secs_f64()
    );
    match outcome {
        Ok(Ok(())) => {}
        Ok(Err(failure)) => {
            println!("  suite:    {}", suite.name);
            println!("  seed:     {seed:#018x} (of base seed {base})");
            println!("  case:     {}", run.cases);
            println!("  call:     {}", failure.call);
            for (name, value) in &failure.inputs {
                println!("  {name}: {value}");
            }
            println!("  expected: {}", failure.expected);
            println!("  got:      {}", failure.got);
        }
        Err(_) => println!("  case {} panicked", run.cases),
    }
    passed
}
