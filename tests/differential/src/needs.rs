// What an archive needs from outside, as nm tells it.

use std::process::Command;

use crate::harness::{require, Outcome, Run, Suite};
use crate::paths;

/// What the tester's library may need.
const NEEDED: [&str; 2] = ["memcpy", "memset"];

pub fn suites() -> Vec<Suite> {
    vec![Suite {
        name: "what libworkbench.a needs",
        run: |run| at_most(run, "workbench", &NEEDED),
    }]
}

/// A library needs no symbols but these.
pub fn at_most(run: &mut Run, library: &str, needed: &[&str]) -> Outcome {
    run.next_case();
    let archive = paths::target().join(format!("staticlib/lib{library}.a"));
    let listing = Command::new("nm").args(["-u", "-P"]).arg(archive).output();
    let listing = listing.map_or_else(|error| error.to_string().into(), |output| output.stdout);
    let listing = String::from_utf8_lossy(&listing).into_owned();
    // A line of a member's name ends with a colon and has no blank.
    let symbols: Vec<&str> = listing
        .lines()
        .filter_map(|line| line.split_once(' ').map(|(symbol, _)| symbol))
        .collect();
    run.note(symbols.join(" "));
    require(
        !listing.is_empty() && symbols.iter().all(|symbol| needed.contains(symbol)),
        &format!("{needed:?} at most"),
        listing,
    )
}
