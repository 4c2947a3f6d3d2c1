// The reference's own tests: the bench sheet, and each part against a second way to say it.

mod bench_sheet;
mod counts;
mod crashes;
mod cyclic;
mod finding;
mod log;
mod names;
mod reading;
mod runs;
mod samples;
mod smallest;
mod soundness;
mod states;
