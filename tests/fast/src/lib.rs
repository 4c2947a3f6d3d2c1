// The routines of both libraries in Rust as one would write it for speed: each byte decoded once, sets
// and disks as masks, tables computed once per test or state, no allocation. Each function takes and
// answers what its proved counterpart does, refusals too; the tests hold it to the reference.
//
// The judge visits one schedule after another; the judge by words, the verdict and find take 64 at a
// time; the settled judge and verdict and the program's text choose only the writes that an open check
// hangs on, and count what is left; the verdict by blocks looks for the two that break a check.

pub mod cache;
pub mod file;
pub mod find;
pub mod judge;
pub mod log;
mod names;
mod order;
pub mod program;
mod rules;
mod settled;
mod smallest;
mod sources;
mod words;

#[cfg(test)]
mod tests;

/// A refusal as an answer.
pub const fn refused(number: u64, place: usize) -> u64 {
    (1 << 63) + (number << 32) + place as u64
}
