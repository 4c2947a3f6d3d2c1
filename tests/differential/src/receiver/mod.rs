// The receiver's library: the cache's calls one by one, whole runs of them, get, and what firmware
// asks of the code itself.

mod columns;
mod firmware;
mod getting;
pub mod hand_in;
mod opening;
mod rings;
mod runs;
mod soundness;
pub mod storing;

use library::{DRAIN, GET, HAND_IN, OPEN, STEP};

use crate::harness::Part;

/// Lengths that a state or a disk does not have.
const OTHER_LENGTHS: [usize; 8] = [0, 1, 3, 100, 1020, 1023, 1025, 2048];

pub fn parts() -> Vec<Part> {
    let (open, handing) = (OPEN.is_some(), HAND_IN.is_some());
    let (step, drain, get) = (STEP.is_some(), DRAIN.is_some(), GET.is_some());
    let cache = handing && step && drain;
    let part = Part::new;
    vec![
        part("open", open, opening::suites()),
        part("hand_in", handing && step, hand_in::suites()),
        part("step, drain", step && drain, storing::suites()),
        part("soundness of a state", cache, soundness::suites()),
        part("states of 60 to 64 writes", cache, columns::suites()),
        part("rings of needs", cache, rings::suites()),
        part("whole runs", open && cache, runs::suites()),
        part("get", get, getting::suites()),
        part("firmware", open && cache && get, firmware::suites()),
    ]
}
