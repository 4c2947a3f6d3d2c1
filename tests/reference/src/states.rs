// States of the cache: sound ones, as runs of calls leave them and others, and ones that break one
// clause.

use crate::cache::{self, Clause, DISK, STATE};
use crate::cache::{FLAG, MOST_WRITES, RULES_AT, RULE_SIZE, WRITES_AT, WRITES_END, WRITE_SIZE};
use crate::crashes;
use crate::cyclic::cyclic;
use crate::file::{rule_body, write_body, File, Width, MOST_RULES};
use crate::generate::{self, Values};
use crate::needs::needs;
use crate::random::Random;
use crate::refusal;
use crate::writes::{rule, Name, Predicate, Rule, Write};

pub const CLAUSES: [Clause; 7] = [
    Clause::Layout,
    Clause::Limits,
    Clause::KnownPredicates,
    Clause::AcyclicRules,
    Clause::StoredCount,
    Clause::StoredNeedStored,
    Clause::NoRingOfNeeds,
];

const COUNT: usize = 1;
const STORED: usize = 2;
/// Where a rule's entry has its predicate.
const PREDICATE: usize = 2;

/// What a run draws its rules and writes from.
#[derive(Clone, Debug)]
pub struct Source {
    pub values: Values,
    pub rules: Vec<Rule>,
}

impl Source {
    /// Rules that are not cyclic, and writes that they often match; in most of the cases so many
    /// addresses and epochs that a run can fill the state.
    pub fn new(random: &mut Random) -> Source {
        let mut values = Values::small(random);
        if !random.one_in(4) {
            let wide = Values::wide(random);
            values.addresses.extend(wide.addresses);
            let from = random.pick(&values.epochs).min(u32::MAX - 40);
            values.epochs = (from..from + random.between(1, 40) as u32).collect();
        }
        let few = random.pick(&[0, 2, 6, 12]);
        let mut rules = crashes::acyclic_rules(random, &values, few);
        if random.one_in(8) {
            rules = crashes::padded(random, &values, &rules);
        }
        Source { values, rules }
    }

    pub fn write(&self, random: &mut Random) -> Write {
        generate::write(random, &self.values)
    }

    /// A file that a cache is opened with.
    pub fn file(&self, random: &mut Random) -> Vec<u8> {
        let file = File {
            rules: self.rules.clone(),
            tests: vec![],
        };
        file.to_mixed_bytes(random)
    }

    /// The state that it leaves, whichever tags the file has.
    pub fn opened(&self) -> Vec<u8> {
        state_of(&self.rules, &[], &[])
    }

    /// As many writes as a state holds, column by column: names, addresses and epochs that are all
    /// equal, all different, or something between; and rules for them, none to the most. The values
    /// are those of the writes.
    pub fn by_columns(random: &mut Random) -> (Source, Vec<Write>) {
        let names = name_column(random);
        let addresses = address_column(random);
        let epochs = generate::epoch_column(random, MOST_WRITES);
        let rules = rules_about(random, &names);
        let values = Values {
            names,
            addresses,
            epochs,
            halves: Values::wide(random).halves,
        };
        let write = |i: usize| Write {
            address: values.addresses[i],
            name: values.names[i],
            epoch: values.epochs[i],
            block: generate::block(random, &values),
        };
        let writes = (0..MOST_WRITES).map(write).collect();
        (Source { values, rules }, writes)
    }

    /// The state after these writes were handed in, some perhaps stored by steps in between. One that
    /// is refused is handed in with an address of its own, and then with a name that no rule has.
    pub fn after_all(&self, random: &mut Random, writes: &[Write]) -> Vec<u8> {
        let (mut state, mut disk) = (self.opened(), [0; DISK]);
        let steps = random.pick(&[0, 0, 0, 1, 4]);
        for write in writes {
            let mut write = *write;
            if cache::hand_in(&mut state, &write).is_err() {
                write.address = unused_address(random, &state);
                if cache::hand_in(&mut state, &write).is_err() {
                    write.name = unused_name(random, &state, self);
                    cache::hand_in(&mut state, &write).expect("a write that rules say nothing of");
                }
            }
            if random.below(10) < steps {
                cache::step(&mut state, &mut disk).expect("a sound state");
            }
        }
        if random.one_in(2) {
            store_any(random, &self.rules, &mut state);
        }
        state
    }

    /// A state that a run leaves.
    pub fn reached(&self, random: &mut Random) -> Vec<u8> {
        let calls = match random.below(8) {
            0 => random.below(4),
            1 => 100,
            _ => random.below(40),
        };
        let storing = random.pick(&[0, 1, 3, 8]);
        self.after(random, calls, storing)
    }

    /// The state after so many calls, so many in ten of them steps.
    fn after(&self, random: &mut Random, calls: usize, steps: usize) -> Vec<u8> {
        let (mut state, mut disk) = (self.opened(), [0; DISK]);
        for _ in 0..calls {
            if random.below(10) < steps {
                cache::step(&mut state, &mut disk).expect("a sound state");
            } else {
                let write = self.write(random);
                let _ = cache::hand_in(&mut state, &write);
            }
        }
        state
    }
}

/// A sound state: one that a run leaves or, in half of the cases, one with some of the waiting
/// writes stored in any order that their needs allow. A run stores the earliest of them first, so
/// that many of these are left by no run.
pub fn sound(random: &mut Random) -> Vec<u8> {
    let source = Source::new(random);
    let mut state = source.reached(random);
    if random.one_in(2) {
        store_any(random, &source.rules, &mut state);
    }
    state
}

/// Flags some waiting writes whose needs are all stored, one after another.
fn store_any(random: &mut Random, rules: &[Rule], state: &mut [u8]) {
    let needs = needs(rules, &cache::accepted(state));
    for _ in 0..random.below(needs.len() + 1) {
        let stored = cache::stored(state);
        let is_ready = |&i: &usize| !stored[i] && needs[i].iter().all(|&j| stored[j]);
        let ready: Vec<usize> = (0..needs.len()).filter(is_ready).collect();
        if ready.is_empty() {
            return;
        }
        state[WRITES_AT + random.pick(&ready) * WRITE_SIZE + FLAG] = 1;
        state[STORED] += 1;
    }
}

/// A name for each of 64 writes.
fn name_column(random: &mut Random) -> Vec<Name> {
    let mut all = generate::alike_names(random);
    if random.one_in(3) {
        random.shuffle(&mut all);
    }
    all.truncate(random.pick(&[1, 2, 4, 8, MOST_WRITES]));
    column(random, &all)
}

/// An address for each of 64 writes.
fn address_column(random: &mut Random) -> Vec<u8> {
    let mut all: Vec<u8> = (0..=255).collect();
    random.shuffle(&mut all);
    let half = MOST_WRITES / 2;
    all.truncate(random.pick(&[1, 8, half, MOST_WRITES, MOST_WRITES]));
    column(random, &all)
}

/// Each of the items as often as another one, one after another or in no order.
fn column<T: Copy + Ord>(random: &mut Random, items: &[T]) -> Vec<T> {
    let mut column: Vec<T> = items.iter().copied().cycle().take(MOST_WRITES).collect();
    match random.below(3) {
        0 => column.sort_unstable(),
        1 => random.shuffle(&mut column),
        _ => {}
    }
    column
}

/// Rules that are not cyclic, few or as many as there can be, about these names, about others, or
/// about one of these and one of others.
fn rules_about(random: &mut Random, names: &[Name]) -> Vec<Rule> {
    let count = random.pick(&[0, 1, 4, MOST_RULES - 1, MOST_RULES, MOST_RULES]);
    let of_others = random.pick(&[0, 0, 1, 5]);
    let predicates = generate::some_predicates(random);
    let name = |random: &mut Random| match random.below(10) < of_others {
        true => generate::name(random),
        false => random.pick(names),
    };
    let mut rules = Vec::new();
    for _ in 0..4 * count {
        if rules.len() == count {
            break;
        }
        rules.push(Rule {
            name: name(random),
            predicate: random.pick(predicates),
            second: name(random),
        });
        if cyclic(&rules) {
            rules.pop();
        }
    }
    rules
}

/// An address that no write of the state has.
fn unused_address(random: &mut Random, state: &[u8]) -> u8 {
    let writes = cache::accepted(state);
    loop {
        let address = random.byte();
        if writes.iter().all(|write| write.address != address) {
            return address;
        }
    }
}

/// The state with these rules and writes, sound or not, of which these are stored.
pub fn state_of(rules: &[Rule], writes: &[Write], stored: &[bool]) -> Vec<u8> {
    let mut state = vec![0; STATE];
    state[0] = rules.len() as u8;
    for (entry, rule) in state[RULES_AT..].chunks_exact_mut(RULE_SIZE).zip(rules) {
        entry.copy_from_slice(&rule_body(rule, Width::Two));
    }
    for (write, &stored) in writes.iter().zip(stored) {
        append(&mut state, write, stored);
    }
    state
}

/// Appends a write, whether or not it would be accepted.
fn append(state: &mut [u8], write: &Write, stored: bool) {
    let at = WRITES_AT + state[COUNT] as usize * WRITE_SIZE;
    state[at..at + FLAG].copy_from_slice(&write_body(write, Width::Two));
    state[at + FLAG] = stored as u8;
    state[COUNT] += 1;
    state[STORED] += stored as u8;
}

/// Puts a rule, given as its bytes, at any place among those that are there.
fn insert_rule(random: &mut Random, state: &mut [u8], rule: &[u8]) {
    let count = state[0] as usize;
    let at = RULES_AT + random.between(0, count) * RULE_SIZE;
    let end = RULES_AT + count * RULE_SIZE;
    state.copy_within(at..end, at + RULE_SIZE);
    state[at..at + RULE_SIZE].copy_from_slice(rule);
    state[0] += 1;
}

/// A name that no rule and no write of the state has.
fn unused_name(random: &mut Random, state: &[u8], source: &Source) -> Name {
    let writes = cache::accepted(state);
    let used = |name: Name| {
        writes.iter().any(|write| write.name == name)
            || source
                .rules
                .iter()
                .any(|rule| rule.name == name || rule.second == name)
    };
    loop {
        let name = generate::name(random);
        if !used(name) {
            return name;
        }
    }
}

fn nonzero(random: &mut Random) -> u8 {
    match random.below(3) {
        0 => 1,
        1 => 1 << random.below(8),
        _ => random.between(1, 255) as u8,
    }
}

/// A state that breaks this clause and no other. None if this attempt did not make one.
fn try_broken(random: &mut Random, clause: Clause) -> Option<Vec<u8>> {
    let source = Source::new(random);
    let mut state = source.reached(random);
    let (rules, count) = (state[0] as usize, state[COUNT] as usize);
    let rules_end = RULES_AT + rules * RULE_SIZE;
    let used_end = WRITES_AT + count * WRITE_SIZE;
    match clause {
        Clause::Layout => {
            let entry = WRITES_AT + random.below(count.max(1)) * WRITE_SIZE;
            let place = match random.below(7) {
                0 => 3,
                1 if rules < MOST_RULES => random.between(rules_end, WRITES_AT - 1),
                2 if rules < MOST_RULES => rules_end,
                3 if count < MOST_WRITES => random.between(used_end, WRITES_END - 1),
                4 => random.pick(&[WRITES_END, STATE - 1]),
                5 => random.between(WRITES_END, STATE - 1),
                6 if count > 0 => {
                    state[entry + FLAG] = random.between(2, 255) as u8;
                    return Some(state);
                }
                _ => return None,
            };
            state[place] = nonzero(random);
        }
        Clause::Limits => {
            let (at, most) = random.pick(&[(0, MOST_RULES), (COUNT, MOST_WRITES)]);
            state = if at == COUNT {
                let values = Values::wide(random);
                let rules = vec![];
                Source { values, rules }.after(random, MOST_WRITES, 0)
            } else {
                let values = Values::small(random);
                let rules = crashes::padded(random, &values, &[]);
                Source { values, rules }.reached(random)
            };
            let over = random.between(most + 1, 255);
            state[at] = random.pick(&[most + 1, over]) as u8;
        }
        Clause::KnownPredicates | Clause::AcyclicRules => {
            if rules == MOST_RULES {
                return None;
            }
            let name = unused_name(random, &state, &source);
            let mut entry = rule_body(&rule(name, Predicate::Equal, name), Width::Two);
            if clause == Clause::KnownPredicates {
                entry[PREDICATE] = random.between(3, 255) as u8;
            }
            insert_rule(random, &mut state, &entry);
        }
        Clause::StoredCount => {
            let stored = state[STORED];
            state[STORED] = match random.below(3) {
                0 => stored.wrapping_add(1),
                1 => stored.wrapping_sub(1),
                _ => stored ^ nonzero(random),
            };
        }
        Clause::StoredNeedStored => {
            if count == MOST_WRITES {
                return None;
            }
            // A write stored too early, or one that a stored write depends on.
            let write = source.write(random);
            let late = random.one_in(2);
            let before = state.clone();
            match cache::hand_in(&mut state, &write) {
                Ok(()) if !late => {
                    state = before;
                    append(&mut state, &write, true);
                }
                Err(refused) if late && refused.number == refusal::LATE => {
                    append(&mut state, &write, false);
                }
                _ => return None,
            }
        }
        Clause::NoRingOfNeeds => {
            let write = source.write(random);
            match cache::hand_in(&mut state, &write) {
                Err(refused) if refused.number == refusal::RING_OF_NEEDS => {
                    append(&mut state, &write, false);
                }
                _ => return None,
            }
        }
    }
    Some(state)
}

/// A state that breaks this clause and no other.
pub fn broken(random: &mut Random, clause: Clause) -> Vec<u8> {
    loop {
        if let Some(state) = try_broken(random, clause) {
            if cache::broken_clause(&state) == Some(clause) {
                return state;
            }
        }
    }
}
