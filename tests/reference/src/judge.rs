// Judging: the counts of valid and of bad schedules of a test, the bad one to show, and the verdict.

use crate::checks::consistent;
use crate::cyclic::cyclic;
use crate::file::{read, File, Test};
use crate::refusal::{self, Refusal};
use crate::schedule::{dependencies, disk_of, flags, valid};
use crate::writes::Rule;

#[derive(Clone, Copy, Debug, PartialEq, Eq)]
pub struct Judgement {
    pub valid: u64,
    pub bad: u64,
    /// The smallest bad schedule, 0 where there is none: [4] of document 02.
    pub shown: u64,
}

#[derive(Clone, Copy, Debug, PartialEq, Eq)]
pub enum Verdict {
    Holds,
    Fails(u64),
}

pub fn judge(file: &[u8], test: u64) -> Result<Judgement, Refusal> {
    let file = readable(file)?;
    let test = numbered(&file, test)?;
    Ok(judge_test(&file.rules, test))
}

pub fn verdict(file: &[u8], test: u64) -> Result<Verdict, Refusal> {
    let judgement = judge(file, test)?;
    Ok(if judgement.bad == 0 {
        Verdict::Holds
    } else {
        Verdict::Fails(judgement.shown)
    })
}

/// Reading, then 8.
pub fn readable(file: &[u8]) -> Result<File, Refusal> {
    let file = read(file)?;
    if cyclic(&file.rules) {
        return Err(refusal::plain(refusal::CYCLIC_RULES));
    }
    Ok(file)
}

/// The test of that number, from 1.
pub fn numbered(file: &File, test: u64) -> Result<&Test, Refusal> {
    if test < 1 || test > file.tests.len() as u64 {
        return Err(refusal::plain(refusal::NO_SUCH_TEST));
    }
    Ok(&file.tests[test as usize - 1])
}

pub fn judge_test(rules: &[Rule], test: &Test) -> Judgement {
    let dependencies = dependencies(rules, &test.main);
    let bad = bad_schedules(rules, test);
    Judgement {
        valid: schedules(test).filter(|&s| valid(&dependencies, s)).count() as u64,
        bad: bad.len() as u64,
        shown: smallest(&bad).unwrap_or(0),
    }
}

pub fn schedules(test: &Test) -> std::ops::Range<u64> {
    0..1 << test.main.len()
}

/// The schedules that are valid and inconsistent, rising.
pub fn bad_schedules(rules: &[Rule], test: &Test) -> Vec<u64> {
    let dependencies = dependencies(rules, &test.main);
    let mut bad = inconsistent_schedules(test);
    bad.retain(|&schedule| valid(&dependencies, schedule));
    bad
}

/// The schedules, valid or not, whose disk is inconsistent.
pub fn inconsistent_schedules(test: &Test) -> Vec<u64> {
    let initial = test.initial_disk();
    schedules(test)
        .filter(|&s| !consistent(&test.checks, &disk_of(&initial, &test.main, s)))
        .collect()
}

/// Of some schedules the one with the fewest flagged writes, and among those the smallest number.
pub fn smallest(schedules: &[u64]) -> Option<u64> {
    let fewest = schedules.iter().map(|&s| flags(s)).min()?;
    let with_fewest = schedules.iter().filter(|&&s| flags(s) == fewest);
    with_fewest.min().copied()
}
