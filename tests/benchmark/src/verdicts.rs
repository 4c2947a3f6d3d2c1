// The proved verdict beside that of an SMT solver: the rows of the second table, and a comparison
// of the solver with the reference on many tests, so that the question asked is the right one.

use reference::counts;
use reference::crashes;
use reference::file::{self, File};
use reference::generate::{self, Values};
use reference::judge::readable;
use reference::random::Random;
use reference::samples::log_rules;

use crate::inputs;
use crate::measure::Call;
use crate::smt;
use crate::solver::Solver;

pub type Verdict = unsafe extern "C" fn(*const u8, usize, u64) -> u64;

/// Calls that answer 0 if the test holds and 1 if it fails.
pub struct Row {
    pub input: &'static str,
    pub proved: Call,
    /// With the start and the end of the solver's process.
    pub started: Call,
    /// By a process that runs.
    pub running: Call,
}

pub fn rows(verdict: Verdict) -> Vec<Row> {
    let row = |input, bytes: Vec<u8>| {
        let file = file::read(&bytes).expect("a file that reading accepts");
        let script = smt::script(&file.rules, &file.tests[0]);
        let same = script.clone();
        let mut solver = Solver::start(smt::LOGIC);
        Row {
            input,
            proved: Box::new(move || proved(verdict, &bytes)),
            started: Box::new(move || Solver::start(smt::LOGIC).satisfiable(&script) as u64),
            running: Box::new(move || solver.satisfiable(&same) as u64),
        }
    };
    vec![
        row("test K, K1's rules", inputs::k_file(&log_rules())),
        row("test K, no rules", inputs::k_file(&[])),
        row("log of 6 puts, its rules", inputs::log_file(&log_rules())),
        row("log of 6 puts, no rules", inputs::log_file(&[])),
        row("12 writes, 16 checks, many rules", inputs::dense_file()),
        row(
            "log of 10 puts, its rules",
            inputs::long_log_file(&log_rules()),
        ),
        row("log of 10 puts, no rules", inputs::long_log_file(&[])),
        row("20 writes, 16 checks, no rules", inputs::marks_file(0, 1)),
    ]
}

fn proved(verdict: Verdict, file: &[u8]) -> u64 {
    let answer = unsafe { verdict(file.as_ptr(), file.len(), 1) };
    assert!(answer < 1 << 63, "refused: {answer:x}");
    answer.min(1)
}

/// Asks the solver about each test of random files, and panics where the reference judges another
/// way.
pub fn compare_with_reference(files: u64) {
    let mut solver = Solver::start(smt::LOGIC);
    let mut counts = [0, 0];
    for seed in 0..files {
        let file = random_file(seed);
        for test in &file.tests {
            let script = smt::script(&file.rules, test);
            let fails = counts::expected(&file.rules, test).bad != 0;
            assert_eq!(solver.satisfiable(&script), fails, "seed {seed}\n{script}");
            counts[fails as usize] += 1;
        }
    }
    let [hold, fail] = counts;
    println!("{files} random files: z3 and the reference agree; {hold} tests hold, {fail} fail");
}

/// A file of one of the reference's generators, with rules that are not cyclic.
pub fn random_file(seed: u64) -> File {
    let mut random = Random::new(seed);
    match seed % 5 {
        0 => crashes::file(&mut random),
        1 => crashes::log_file(&mut random),
        2 => crashes::chain(&mut random).0,
        3 => file_at_the_end(&mut random),
        _ => loop {
            let file = generate::file(&mut random);
            if readable(&file.to_bytes()).is_ok() {
                return file;
            }
        },
    }
}

/// A file whose tests are about the last addresses, so that ranges and pointers end at the disk's
/// end, or just beyond it.
fn file_at_the_end(random: &mut Random) -> File {
    let values = Values {
        addresses: vec![254, 255],
        halves: vec![255, 256, 257],
        ..Values::small(random)
    };
    let rules = crashes::acyclic_rules(random, &values, 4);
    let main = crashes::main_count(random);
    let tests = vec![crashes::test(random, &values, main)];
    File { rules, tests }
}
