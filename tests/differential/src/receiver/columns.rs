// States of 60 to 64 writes whose names, addresses and epochs are drawn column by column: what the
// calls do with them, to the end, and what they do where one thing is changed.

use std::collections::BTreeMap;

use reference::cache::{self, Clause, MOST_WRITES, STATE};
use reference::cache::{FLAG, RULES_AT, RULE_SIZE, WRITES_AT, WRITE_SIZE};
use reference::generate;
use reference::needs::needs;
use reference::random::Random;
use reference::refusal::{LATE, NOT_SOUND, RING_OF_NEEDS, STATE_FULL};
use reference::states::{self, Source};
use reference::writes::{Rule, Write, PREDICATES};

use super::hand_in::{each_often, same_hand_in, same_hand_in_on};
use super::soundness::{same_calls_in_short, same_calls_with};
use super::storing::{lend, same_to_the_end, STEP};
use crate::harness::{require, Outcome, Run, Suite};

pub fn suites() -> Vec<Suite> {
    let suite = |name, run| Suite { name, run };
    vec![
        suite("columns: hand-ins and steps", hand_ins_and_steps),
        suite("columns: steps to the end, and a drain", all_steps),
        suite("columns: one thing changed", one_thing_changed),
        suite("columns: one need is not stored", one_need_is_not_stored),
    ]
}

/// A state of 60 to 64 writes, and what it is drawn from.
pub fn drawn(random: &mut Random) -> (Source, Vec<u8>) {
    let count = random.between(60, MOST_WRITES);
    let (source, writes) = Source::by_columns(random);
    let state = source.after_all(random, &writes[..count]);
    (source, state)
}

/// A write that has to do with those of a state: its address is mostly one of theirs, its name one of
/// theirs or of a rule's, its epoch one of theirs, or next to one.
pub fn near_write(random: &mut Random, source: &Source, state: &[u8]) -> Write {
    let accepted = cache::accepted(state);
    let mut name = random.pick(&accepted).name;
    if random.one_in(2) && !source.rules.is_empty() {
        let rule = random.pick(&source.rules);
        name = random.pick(&[rule.name, rule.second]);
    }
    let epoch = random.pick(&accepted).epoch;
    Write {
        address: match random.below(4) {
            0 => random.byte(),
            _ => random.pick(&accepted).address,
        },
        name,
        epoch: match random.below(5) {
            0 => epoch.saturating_add(1),
            1 => epoch.saturating_sub(1),
            2 => random.pick(&[0, u32::MAX]),
            _ => epoch,
        },
        block: generate::block(random, &source.values),
    }
}

/// Hand-ins, each on the same state; then a step, and hand-ins one after another.
fn hand_ins_and_steps(run: &mut Run) -> Outcome {
    let mut answers = BTreeMap::new();
    for _ in 0..run.times(250) {
        let mut random = run.next_case();
        let (source, state) = drawn(&mut random);
        let (mut lent, mut disk) = lend(&mut random, &state);
        for i in 0..8 {
            run.next_case();
            if i == 4 {
                STEP.same(&mut lent, &mut disk)?;
            }
            let write = near_write(&mut random, &source, &state);
            let refused = match i < 4 {
                true => same_hand_in_on(&mut random, &state, &write)?,
                false => same_hand_in(&mut lent, &write)?,
            };
            *answers.entry(refused).or_insert(0) += 1;
        }
    }
    each_often(run, &answers, &[0, STATE_FULL, LATE, RING_OF_NEEDS], 30)
}

fn all_steps(run: &mut Run) -> Outcome {
    let (cases, mut not_of_arrival) = (run.times(150), 0);
    for _ in 0..cases {
        let mut random = run.next_case();
        let (_, state) = drawn(&mut random);
        let places = same_to_the_end(&mut random, &state)?;
        not_of_arrival += u64::from(places.windows(2).any(|two| two[1] < two[0]));
    }
    run.note(format!("{not_of_arrival} not as they came"));
    require(
        not_of_arrival > cases / 10,
        "many that are stored in another order",
        not_of_arrival.to_string(),
    )
}

/// One more or one less.
fn beside(random: &mut Random, byte: u8) -> u8 {
    match random.below(2) {
        0 => byte.wrapping_add(1),
        _ => byte.wrapping_sub(1),
    }
}

/// One thing of a state is changed: a flag, with the count of the stored or without it, one of the
/// counts, an entry of a column, a part of a rule, any bit.
fn change(random: &mut Random, state: &mut [u8]) {
    let accepted = state[1] as usize;
    let one = WRITES_AT + random.below(accepted) * WRITE_SIZE;
    let other = WRITES_AT + random.below(accepted) * WRITE_SIZE;
    let rule = RULES_AT + random.below((state[0] as usize).max(1)) * RULE_SIZE;
    match random.below(10) {
        0 => state[one + FLAG] ^= 1,
        1 | 2 => {
            state[one + FLAG] ^= 1;
            state[2] = match state[one + FLAG] {
                1 => state[2] + 1,
                _ => state[2] - 1,
            };
        }
        3 => {
            let count = random.below(3);
            state[count] = beside(random, state[count]);
        }
        4 | 5 => state[one] = state[other],
        6 => {
            // A whole name, or one of its bytes.
            let bytes = random.pick(&[(1, 3), (1, 2), (2, 3)]);
            state.copy_within(other + bytes.0..other + bytes.1, one + bytes.0);
        }
        7 => state.copy_within(other + 3..other + 7, one + 3),
        8 => match random.below(2) {
            0 => state[rule + 2] = random.between(0, 3) as u8,
            _ => state.copy_within(rule + 3..rule + 5, rule),
        },
        _ => state[random.below(STATE)] ^= 1 << random.below(8),
    }
}

fn one_thing_changed(run: &mut Run) -> Outcome {
    let mut clauses = BTreeMap::new();
    for _ in 0..run.times(120) {
        let mut random = run.next_case();
        let (source, state) = drawn(&mut random);
        for _ in 0..12 {
            run.next_case();
            let mut changed = state.clone();
            change(&mut random, &mut changed);
            let write = near_write(&mut random, &source, &state);
            let clause = cache::broken_clause(&changed);
            *clauses.entry(format!("{clause:?}")).or_insert(0) += 1;
            same_calls_in_short(&mut random, &changed, &write)?;
        }
    }
    run.note(format!("{clauses:?}"));
    let all = states::CLAUSES.map(Some).into_iter().chain([None]);
    require(
        all.into_iter()
            .all(|clause| clauses.contains_key(&format!("{clause:?}"))),
        "each clause broken, and none",
        format!("{clauses:?}"),
    )
}

/// A write and all that it needs are stored but for one, which none of these others needs: the state
/// is sound with it, and not without it.
fn one_need_is_not_stored(run: &mut Run) -> Outcome {
    let mut reasons = BTreeMap::new();
    for _ in 0..run.times(150) {
        let mut random = run.next_case();
        let (source, state) = drawn(&mut random);
        let writes = cache::accepted(&state);
        let needs = needs(&source.rules, &writes);
        let needing: Vec<usize> = (0..writes.len())
            .filter(|&i| !needs[i].is_empty())
            .collect();
        if needing.is_empty() {
            continue;
        }
        for _ in 0..3 {
            run.next_case();
            let i = match random.below(4) {
                0 => needing[needing.len() - 1],
                1 => needing[0],
                _ => random.pick(&needing),
            };
            let mut stored = vec![false; writes.len()];
            store_with_needs(&needs, i, &mut stored);
            let needed_elsewhere =
                |j: usize| (0..writes.len()).any(|k| k != i && stored[k] && needs[k].contains(&j));
            let only: Vec<usize> = needs[i]
                .iter()
                .copied()
                .filter(|&j| !needed_elsewhere(j))
                .collect();
            let j = random.pick(&only);
            let reason = reason(&source.rules, &writes[i], &writes[j]);
            *reasons.entry(reason).or_insert(0) += 1;
            let write = near_write(&mut random, &source, &state);
            let sound = states::state_of(&source.rules, &writes, &stored);
            let clause = cache::broken_clause(&sound);
            require(clause.is_none(), "a sound state", format!("{clause:?}"))?;
            same_hand_in_on(&mut random, &sound, &write)?;
            stored[j] = false;
            let state = states::state_of(&source.rules, &writes, &stored);
            let clause = cache::broken_clause(&state);
            require(
                clause == Some(Clause::StoredNeedStored),
                "one clause broken",
                format!("{clause:?}"),
            )?;
            let refused = same_calls_with(&mut random, &state, &write)?;
            require(refused == NOT_SOUND, "15", refused.to_string())?;
        }
    }
    run.note(format!("{reasons:?}"));
    require(
        reasons.len() == 4 && reasons.values().all(|&count| count > 10),
        "each reason often",
        format!("{reasons:?}"),
    )
}

fn store_with_needs(needs: &[Vec<usize>], i: usize, stored: &mut [bool]) {
    if !stored[i] {
        stored[i] = true;
        for &j in &needs[i] {
            store_with_needs(needs, j, stored);
        }
    }
}

/// Why one write needs another.
fn reason(rules: &[Rule], one: &Write, two: &Write) -> String {
    let by = |&p: &_| {
        let of = |rule: &Rule| rule.predicate == p && rule.matches(one.label(), two.label());
        rules.iter().any(of)
    };
    let predicate = PREDICATES.into_iter().find(by);
    predicate.map_or("Address".to_string(), |predicate| format!("{predicate:?}"))
}
