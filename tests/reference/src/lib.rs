// An implementation of document 01 in plain Rust, written from the document alone, a module for
// each of its sections. It is the other side of the differential tests, so it prefers the plainest
// way to say a thing; it must never be derived from the proved code or from its definitions.

pub mod book;
pub mod cache;
pub mod checks;
pub mod counts;
pub mod crashes;
pub mod cyclic;
pub mod damage;
pub mod file;
pub mod find;
pub mod generate;
pub mod judge;
pub mod log;
pub mod needs;
pub mod program;
pub mod random;
pub mod refusal;
pub mod ring;
pub mod samples;
pub mod schedule;
pub mod smallest;
pub mod states;
pub mod writes;

#[cfg(test)]
mod tests;
