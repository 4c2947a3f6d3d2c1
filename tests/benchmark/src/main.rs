// The benchmark: each proved routine and its counterpart in Rust on the same input, in one process,
// in turn; the medians and their ratio. Then the turns of the test whether a schedule is valid. Then
// the proved verdict and an SMT solver's. With --check it only compares the solver's answers with
// the reference's, on many random tests.

mod inputs;
mod measure;
mod rows;
mod smt;
mod solver;
mod turns;
mod verdicts;

use std::env;
use std::process::exit;

use measure::{in_words, medians, ROUNDS};
use rows::Part;

/// How many random files the solver judges for `--check`.
const CHECKED: u64 = 400;

const NO_SOLVER: &str = "z3 is not there: no comparison with an SMT solver";

fn main() {
    match env::args().nth(1).as_deref() {
        None => {
            routines();
            turns::print();
            against_solver();
        }
        Some("--check") if solver::version().is_some() => verdicts::compare_with_reference(CHECKED),
        Some("--check") => {
            eprintln!("{NO_SOLVER}");
            exit(1);
        }
        Some(_) => {
            eprintln!("usage: benchmark [--check]");
            exit(2);
        }
    }
}

fn routines() {
    println!("Proved routines linked from libworkbench.a and libreceiver.a of 'make libraries';");
    println!("Rust from tests/fast. Release builds, same process, called in turn; time of a call,");
    println!(
        "median of {ROUNDS} rounds. The judge in Rust takes one schedule at a time or, in rows of"
    );
    println!(
        "their own, 64 at a time, or by open checks: it chooses only writes that one hangs on."
    );
    println!(
        "The verdict takes 64 at a time or, in rows of its own, goes by open checks, or looks only"
    );
    println!(
        "for the two blocks that break a check. The program's text goes by open checks, and find"
    );
    println!("takes 64 at a time. Judge and verdict show the smallest bad schedule.");
    println!();
    println!("| routine | input | Rattle | Rust | Rattle/Rust |");
    println!("|---|---|---:|---:|---:|");
    let mut missing = Vec::new();
    for part in rows::parts() {
        match part {
            Part::Missing(name) => missing.push(name),
            Part::Rows(rows) => rows.into_iter().for_each(print_row),
        }
    }
    println!();
    for name in missing {
        println!("not there yet: {name}");
    }
}

fn print_row(mut row: rows::Row) {
    let (routine, input) = (row.routine, &row.input);
    assert_eq!((row.proved)(), (row.rust)(), "{routine}, {input}");
    let times = medians([&mut row.proved, &mut row.rust]);
    let [proved, rust] = times.map(|time| time / row.calls as f64);
    println!(
        "| {routine} | {input} | {} | {} | {:.2} |",
        in_words(proved),
        in_words(rust),
        proved / rust
    );
}

/// The second table, if there is z3 for it.
fn against_solver() {
    match (library::VERDICT, solver::version()) {
        (Some(verdict), Some(version)) => print_verdicts(verdict, version),
        (Some(_), None) => println!("{NO_SOLVER}"),
        (None, _) => {}
    }
}

fn print_verdicts(verdict: verdicts::Verdict, version: String) {
    println!("The proved verdict against an SMT solver on Def. 3.5 of document 000: {version},");
    println!("SMT-LIB 2, logic QF_BV. 'z3' is with the start of its process, 'running' without:");
    println!("one process is asked again and again. Its question is written before; the proved");
    println!("verdict reads the file in each call. Median of {ROUNDS} rounds.");
    println!();
    println!("| input | answer | proved verdict | z3 | z3/proved | running | running/proved |");
    println!("|---|---|---:|---:|---:|---:|---:|");
    verdicts::rows(verdict).into_iter().for_each(print_answers);
}

fn print_answers(mut row: verdicts::Row) {
    let answer = (row.proved)();
    assert_eq!(answer, (row.started)(), "z3, {}", row.input);
    assert_eq!(answer, (row.running)(), "z3 running, {}", row.input);
    let calls = [&mut row.proved, &mut row.started, &mut row.running];
    let [proved, started, running] = medians(calls);
    println!(
        "| {} | {} | {} | {} | {:.0} | {} | {:.0} |",
        row.input,
        if answer == 0 { "holds" } else { "fails" },
        in_words(proved),
        in_words(started),
        started / proved,
        in_words(running),
        running / proved
    );
}
