// The cache: its state of 1,024 bytes, when that is sound, and its four calls.

use crate::cyclic::cyclic;
use crate::file::{read, rule_body, rule_of, write_body, write_of, Width, MOST_RULES};
use crate::needs::{earliest_ready, needs};
use crate::refusal::{self, Refusal};
use crate::ring::has_ring;
use crate::writes::{depends_on, Rule, Write};

pub const STATE: usize = 1024;
pub const DISK: usize = 1024;
pub const MOST_WRITES: usize = 64;

pub const RULES_AT: usize = 4;
/// The body of tag 0A.
pub const RULE_SIZE: usize = 5;
pub const WRITES_AT: usize = RULES_AT + MOST_RULES * RULE_SIZE;
/// The body of tag 09, and the stored flag.
pub const WRITE_SIZE: usize = 12;
pub const FLAG: usize = 11;
pub const WRITES_END: usize = WRITES_AT + MOST_WRITES * WRITE_SIZE;

/// The parts of soundness, in the document's order.
#[derive(Clone, Copy, Debug, PartialEq, Eq)]
pub enum Clause {
    Layout,
    Limits,
    KnownPredicates,
    AcyclicRules,
    StoredCount,
    StoredNeedStored,
    NoRingOfNeeds,
}

fn rule_entry(state: &[u8], i: usize) -> &[u8] {
    &state[RULES_AT + i * RULE_SIZE..RULES_AT + (i + 1) * RULE_SIZE]
}

fn write_entry(state: &[u8], i: usize) -> &[u8] {
    &state[WRITES_AT + i * WRITE_SIZE..WRITES_AT + (i + 1) * WRITE_SIZE]
}

/// The rules of a state, if their predicates are known.
fn rules_of(state: &[u8]) -> Option<Vec<Rule>> {
    (0..state[0] as usize)
        .map(|i| rule_of(rule_entry(state, i), Width::Two))
        .collect()
}

/// The accepted writes of a state.
pub fn accepted(state: &[u8]) -> Vec<Write> {
    (0..state[1] as usize)
        .map(|i| write_of(write_entry(state, i), Width::Two))
        .collect()
}

/// The stored flags of the accepted writes.
pub fn stored(state: &[u8]) -> Vec<bool> {
    (0..state[1] as usize)
        .map(|i| write_entry(state, i)[FLAG] == 1)
        .collect()
}

/// A clause of soundness that a state of 1,024 bytes breaks, if any.
pub fn broken_clause(state: &[u8]) -> Option<Clause> {
    let rule_count = state[0] as usize;
    let accepted_count = state[1] as usize;
    let stored_count = state[2] as usize;
    if rule_count > MOST_RULES || accepted_count > MOST_WRITES {
        return Some(Clause::Limits);
    }
    let zero = |bytes: &[u8]| bytes.iter().all(|&byte| byte == 0);
    let unused_rules = (rule_count..MOST_RULES).all(|i| zero(rule_entry(state, i)));
    let unused_writes = (accepted_count..MOST_WRITES).all(|i| zero(write_entry(state, i)));
    let flags = (0..accepted_count).all(|i| write_entry(state, i)[FLAG] <= 1);
    if state[3] != 0 || !unused_rules || !unused_writes || !flags || !zero(&state[WRITES_END..]) {
        return Some(Clause::Layout);
    }
    let rules = match rules_of(state) {
        Some(rules) => rules,
        None => return Some(Clause::KnownPredicates),
    };
    if cyclic(&rules) {
        return Some(Clause::AcyclicRules);
    }
    let stored = stored(state);
    if stored_count != stored.iter().filter(|&&flag| flag).count() {
        return Some(Clause::StoredCount);
    }
    let needs = needs(&rules, &accepted(state));
    let only_stored = |i: usize| needs[i].iter().all(|&j| stored[j]);
    if !(0..accepted_count).all(|i| !stored[i] || only_stored(i)) {
        return Some(Clause::StoredNeedStored);
    }
    if has_ring(&needs) {
        return Some(Clause::NoRingOfNeeds);
    }
    None
}

pub fn sound(state: &[u8]) -> bool {
    broken_clause(state).is_none()
}

/// The rules of a sound state.
fn sound_rules(state: &[u8]) -> Result<Vec<Rule>, Refusal> {
    // One that is not may count more rules than it has bytes for.
    let rules = if sound(state) { rules_of(state) } else { None };
    rules.ok_or(refusal::plain(refusal::NOT_SOUND))
}

/// Starts a state with the file's rules and no writes.
pub fn open(file: &[u8], state: &mut [u8]) -> Result<(), Refusal> {
    if state.len() != STATE {
        return Err(refusal::plain(refusal::NOT_1024_BYTES));
    }
    let file = read(file)?;
    if !file.tests.is_empty() {
        return Err(refusal::plain(refusal::FILE_HAS_TESTS));
    }
    if cyclic(&file.rules) {
        return Err(refusal::plain(refusal::CYCLIC_RULES));
    }
    state.fill(0);
    state[0] = file.rules.len() as u8;
    for (i, rule) in file.rules.iter().enumerate() {
        let at = RULES_AT + i * RULE_SIZE;
        state[at..at + RULE_SIZE].copy_from_slice(&rule_body(rule, Width::Two));
    }
    Ok(())
}

/// Appends one waiting write.
pub fn hand_in(state: &mut [u8], write: &Write) -> Result<(), Refusal> {
    if state.len() != STATE {
        return Err(refusal::plain(refusal::NOT_1024_BYTES));
    }
    let rules = sound_rules(state)?;
    let mut writes = accepted(state);
    let count = writes.len();
    if count == MOST_WRITES {
        return Err(refusal::plain(refusal::STATE_FULL));
    }
    let stored = stored(state);
    let on_it = |i: usize| depends_on(&rules, writes[i].label(), write.label());
    if (0..count).any(|i| stored[i] && on_it(i)) {
        return Err(refusal::plain(refusal::LATE));
    }
    writes.push(*write);
    if has_ring(&needs(&rules, &writes)) {
        return Err(refusal::plain(refusal::RING_OF_NEEDS));
    }
    let at = WRITES_AT + count * WRITE_SIZE;
    state[at..at + FLAG].copy_from_slice(&write_body(write, Width::Two));
    state[1] += 1;
    Ok(())
}

/// Stores the earliest write that is ready, and answers its place from 1, or 0 if none waits.
pub fn step(state: &mut [u8], disk: &mut [u8]) -> Result<usize, Refusal> {
    if state.len() != STATE || disk.len() != DISK {
        return Err(refusal::plain(refusal::NOT_1024_BYTES));
    }
    let rules = sound_rules(state)?;
    let writes = accepted(state);
    let ready = match earliest_ready(&needs(&rules, &writes), &stored(state)) {
        Some(i) => i,
        None => return Ok(0),
    };
    let block_at = 4 * writes[ready].address as usize;
    disk[block_at..block_at + 4].copy_from_slice(&writes[ready].block.to_bytes());
    state[WRITES_AT + ready * WRITE_SIZE + FLAG] = 1;
    state[2] += 1;
    Ok(ready + 1)
}

/// Steps until none waits, and answers how many were stored.
pub fn drain(state: &mut [u8], disk: &mut [u8]) -> Result<usize, Refusal> {
    let mut count = 0;
    while step(state, disk)? != 0 {
        count += 1;
    }
    Ok(count)
}
