// The differential tests. Words on the command line pick the suites whose names contain one of
// them; PELZHONDY_SEED is the base seed, PELZHONDY_CASES multiplies the number of cases.

mod answer;
mod around;
mod calls;
mod child;
mod cyclic;
mod finding;
mod harness;
mod judging;
mod lent;
mod lines;
mod locate;
mod names;
mod needs;
mod paths;
mod precedence;
mod program;
mod reading;
mod receiver;
mod stack;
mod stacks;
mod tracing;

use std::env;
use std::process::exit;

use harness::{Part, Suite};

const BASE_SEED: u64 = 141;

/// All suites. A new module of suites joins here.
fn parts() -> Vec<Part> {
    use library::{CYCLIC, FIND, JUDGE, JUDGE_LINES, LOCATE, READ, TRACE, VERDICT};
    let judge = JUDGE.is_some() && VERDICT.is_some();
    let program = paths::program().is_file();
    let part = Part::new;
    let mut parts = vec![
        part("read", READ.is_some(), reading::suites()),
        part("locate", LOCATE.is_some(), locate::suites()),
        part("cyclic", CYCLIC.is_some(), cyclic::suites()),
        part("judge, verdict", judge, judging::suites()),
        part("judge_lines", JUDGE_LINES.is_some(), lines::suites()),
        part("the judging program", program, program::suites()),
        part("find", FIND.is_some(), finding::suites()),
        part("trace", TRACE.is_some(), tracing::suites()),
    ];
    let stacks = judge && JUDGE_LINES.is_some() && FIND.is_some();
    parts.push(part("stack", stacks, stacks::suites()));
    parts.push(part("what it needs", judge, needs::suites()));
    parts.extend(receiver::parts());
    let all = parts.iter().all(|part| part.is_there);
    parts.push(part("precedence of refusals", all, precedence::suites()));
    parts.push(part("names of two bytes", all, names::suites()));
    parts
}

/// A number from the environment, or what it is if it isn't set.
fn setting(name: &str, unset: u64) -> Option<u64> {
    match env::var(name) {
        Err(env::VarError::NotPresent) => Some(unset),
        Ok(text) => text.parse().ok(),
        Err(_) => None,
    }
}

fn main() {
    let seed = setting("PELZHONDY_SEED", BASE_SEED);
    let multiplier = setting("PELZHONDY_CASES", 1);
    let (seed, multiplier) = match (seed, multiplier) {
        (Some(seed), Some(multiplier)) if multiplier > 0 => (seed, multiplier),
        _ => {
            println!("PELZHONDY_SEED is a number, PELZHONDY_CASES a number from 1");
            println!("differential: 0 passed, 1 failed");
            exit(1);
        }
    };
    println!("base seed {seed}, cases times {multiplier}");
    let words: Vec<String> = env::args().skip(1).collect();
    let wanted = |suite: &Suite| words.is_empty() || words.iter().any(|w| suite.name.contains(w));
    let (mut passed, mut failed) = (0, 0);
    for part in parts() {
        if !part.is_there {
            println!("not there: {}", part.name);
            failed += 1;
            continue;
        }
        for suite in part.suites.iter().filter(|suite| wanted(suite)) {
            if harness::passes(suite, seed, multiplier) {
                passed += 1;
            } else {
                failed += 1;
            }
        }
    }
    if passed + failed == 0 {
        println!("no suite has such a name");
        failed = 1;
    }
    println!("differential: {passed} passed, {failed} failed");
    if failed > 0 {
        exit(1);
    }
}
