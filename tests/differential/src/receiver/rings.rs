// Rings of needs of every length, and what nearly is one: in a state, and closed by a hand-in.

use std::collections::BTreeMap;

use reference::cache::{self, Clause, MOST_WRITES};
use reference::crashes;
use reference::file::MOST_RULES;
use reference::generate::{self, Values};
use reference::random::Random;
use reference::refusal::{LATE, NOT_SOUND, RING_OF_NEEDS, STATE_FULL};
use reference::states::state_of;
use reference::writes::{block, rule, write, Name, Predicate, Rule, Write, PREDICATES};

use super::hand_in::{each_often, same_hand_in, same_hand_in_on};
use super::soundness::same_calls_with;
use super::storing::{lend, same_to_the_end, STEP};
use crate::harness::{require, Failure, Outcome, Run, Suite};

pub fn suites() -> Vec<Suite> {
    let suite = |name, run| Suite { name, run };
    vec![
        suite("rings: in a state, of 1 to 64 writes", in_a_state),
        suite("rings: several in a state", several_in_a_state),
        suite("rings: nearly, steps to the end", steps_of_chains),
        suite("rings: closed by a hand-in, of 2 to 64 writes", closed),
        suite("rings: several closed by one hand-in", several_closed),
        suite("rings: a hand-in to a chain by > or <", chains_by_epochs),
        suite("rings: at the address of all others", at_one_address),
    ]
}

/// Names and addresses that are not in use yet, epochs, and how many rules a ring may have.
#[derive(Clone)]
struct Supply {
    names: Vec<Name>,
    addresses: Vec<u8>,
    epochs: Vec<u32>,
    rules: usize,
}

impl Supply {
    fn new(random: &mut Random) -> Supply {
        let mut names = generate::alike_names(random);
        let mut addresses: Vec<u8> = (0..=255).collect();
        random.shuffle(&mut addresses);
        if random.one_in(2) {
            random.shuffle(&mut names);
        }
        Supply {
            names,
            addresses,
            epochs: generate::epoch_column(random, MOST_WRITES),
            rules: MOST_RULES,
        }
    }

    fn address(&mut self) -> u8 {
        self.addresses.pop().expect("fewer than 256 writes")
    }

    /// A write with a name and an address of its own.
    fn write(&mut self, random: &mut Random) -> Write {
        let name = self.names.pop().expect("fewer than 256 names");
        let content = block(random.number() as u16, random.number() as u16);
        write(self.address(), name, random.pick(&self.epochs), content)
    }

    /// Writes that no rule is about, half of them to the address of another one of them.
    fn others(&mut self, random: &mut Random, count: usize) -> Vec<Write> {
        let mut others: Vec<Write> = Vec::new();
        for _ in 0..count {
            let mut other = self.write(random);
            if random.one_in(2) && !others.is_empty() {
                other.address = random.pick(&others).address;
            }
            others.push(other);
        }
        others
    }
}

/// Writes of which each needs the next one, the last one needs the first, and none another one.
struct Ring {
    writes: Vec<Write>,
    rules: Vec<Rule>,
    /// The writes, by their places in the ring, that go to one address: the first comes after the
    /// second, and so needs it.
    meeting: Vec<(usize, usize)>,
}

impl Ring {
    fn new(random: &mut Random, supply: &mut Supply, length: usize) -> Ring {
        let first = supply.write(random);
        Ring::through(random, supply, first, length)
    }

    /// A ring with this as its first write, on which the last one depends, so that it can be the
    /// last to come.
    fn through(random: &mut Random, supply: &mut Supply, first: Write, length: usize) -> Ring {
        let by_address = links(random, length, supply.rules);
        let mut ring = Ring {
            writes: vec![first],
            rules: vec![],
            meeting: vec![],
        };
        for i in 1..length {
            let mut write = supply.write(random);
            if by_address[i - 1] {
                write.address = ring.writes[i - 1].address;
            }
            ring.writes.push(write);
        }
        for (i, &by_address) in by_address.iter().enumerate() {
            let next = (i + 1) % length;
            if by_address {
                ring.meeting.push((i, next));
            } else {
                ring.rules
                    .push(between(&ring.writes[i], &ring.writes[next]));
            }
        }
        ring
    }

    /// The last write, which depends on the first one.
    fn last(&self) -> &Write {
        &self.writes[self.writes.len() - 1]
    }

    /// One need is no longer: a rule is gone or says something else, or two writes go to different
    /// addresses or come the other way round. It is a chain then.
    fn cut(&mut self, random: &mut Random, supply: &mut Supply) {
        let link = random.below(self.rules.len() + self.meeting.len());
        if link < self.rules.len() {
            self.cut_rule(random, supply, link);
            return;
        }
        let link = link - self.rules.len();
        let (after, before) = self.meeting[link];
        if after > 0 && random.one_in(2) {
            self.meeting[link] = (before, after);
        } else {
            self.writes[before].address = supply.address();
            self.meeting.remove(link);
        }
    }

    fn cut_rule(&mut self, random: &mut Random, supply: &mut Supply, link: usize) {
        let rule = &mut self.rules[link];
        let others: Vec<Predicate> = PREDICATES
            .into_iter()
            .filter(|&predicate| predicate != rule.predicate)
            .collect();
        let name = match random.below(2) {
            0 => &mut rule.name,
            _ => &mut rule.second,
        };
        let is_alike = |other: &&Name| **other % 64 == *name % 64;
        let alike = supply.names.iter().find(is_alike).copied();
        match (random.below(3), alike) {
            (0, Some(alike)) => {
                *name = alike;
                supply.names.retain(|&name| name != alike);
            }
            (1, _) => {
                self.rules.remove(link);
            }
            _ => rule.predicate = random.pick(&others),
        }
    }
}

/// Which of a ring's needs are by address: at least one, no two side by side, not the last one, and
/// so many that the others need no more rules than this. Of one write there is none.
fn links(random: &mut Random, length: usize, rules: usize) -> Vec<bool> {
    if length == 1 {
        return vec![false];
    }
    let least = length.saturating_sub(rules).max(1);
    let by_address = random.between(least, length / 2);
    // A need by address has one by rule behind it.
    let mut parts: Vec<&[bool]> = vec![&[true, false]; by_address];
    parts.resize(length - by_address, &[false]);
    random.shuffle(&mut parts);
    parts.concat()
}

/// A rule by which one write depends on another.
fn between(one: &Write, two: &Write) -> Rule {
    let relates = |predicate: &Predicate| predicate.relates(one.epoch, two.epoch);
    let predicate = PREDICATES.into_iter().find(relates);
    rule(one.name, predicate.expect("one of three relates"), two.name)
}

/// The writes of a state in the order in which they came, and its rules.
struct Made {
    rules: Vec<Rule>,
    writes: Vec<Write>,
    stored: Vec<bool>,
    /// Those that are in no ring.
    others: Vec<Write>,
}

impl Made {
    /// These writes of one ring, with others.
    fn of(
        random: &mut Random,
        supply: &Supply,
        ring: &Ring,
        writes: &[Write],
        count: usize,
    ) -> Made {
        Made::new(random, supply, std::slice::from_ref(ring), writes, count)
    }

    /// These writes of rings, and so many others that there is this count of them, in any order that
    /// the rings allow, none stored, under their rules, or as many as there can be.
    fn new(
        random: &mut Random,
        supply: &Supply,
        rings: &[Ring],
        writes: &[Write],
        count: usize,
    ) -> Made {
        let others = supply.clone().others(random, count - writes.len());
        let mut order = [writes, &others].concat();
        random.shuffle(&mut order);
        if random.one_in(2) {
            to_an_end(random, &mut order, writes);
        }
        for ring in rings {
            for &(after, before) in &ring.meeting {
                let place = |i: usize| order.iter().position(|w| w.name == ring.writes[i].name);
                if let (Some(after), Some(before)) = (place(after), place(before)) {
                    if after < before {
                        order.swap(after, before);
                    }
                }
            }
        }
        let mut rules: Vec<Rule> = rings.iter().flat_map(|ring| ring.rules.clone()).collect();
        random.shuffle(&mut rules);
        if random.one_in(2) {
            let of_writes = order.iter().map(|write| write.name);
            let of_rules = rules.iter().flat_map(|rule| [rule.name, rule.second]);
            let values = Values {
                names: of_writes.chain(of_rules).collect(),
                ..Values::small(random)
            };
            rules = crashes::padded(random, &values, &rules);
        }
        Made {
            rules,
            stored: vec![false; order.len()],
            writes: order,
            others,
        }
    }

    /// Stores these and, in half of the cases, the first of those that are in no ring.
    fn store(&mut self, random: &mut Random, writes: &[Write]) {
        let first = match random.below(2) {
            0 => 0,
            _ => random.between(0, self.writes.len()),
        };
        for (i, (write, stored)) in self.writes.iter().zip(&mut self.stored).enumerate() {
            *stored = writes.contains(write) || i < first && self.others.contains(write);
        }
    }

    fn state(&self) -> Vec<u8> {
        state_of(&self.rules, &self.writes, &self.stored)
    }

    /// The state, which is sound.
    fn sound_state(&self) -> Result<Vec<u8>, Failure> {
        let state = self.state();
        let clause = cache::broken_clause(&state);
        require(clause.is_none(), "a sound state", format!("{clause:?}"))?;
        Ok(state)
    }
}

/// The last of these writes, or any one, becomes the last or the first of all.
fn to_an_end(random: &mut Random, order: &mut [Write], writes: &[Write]) {
    let (last, any) = match writes {
        [] => return,
        [.., last] => (*last, random.pick(writes)),
    };
    let one = random.pick(&[last, any]);
    let end = random.pick(&[0, order.len() - 1]);
    if let Some(place) = order.iter().position(|write| *write == one) {
        order.swap(place, end);
    }
}

/// Any write of those that a state has, with another block.
fn again(random: &mut Random, made: &Made) -> Write {
    let mut write = random.pick(&made.writes);
    write.block = block(1, random.number() as u16);
    write
}

/// A state breaks this clause, and all three calls on it are refused by 15.
fn refused_for(random: &mut Random, made: &Made, expected: Clause) -> Outcome {
    let state = made.state();
    let clause = cache::broken_clause(&state);
    require(
        clause == Some(expected),
        &format!("{expected:?}"),
        format!("{clause:?}"),
    )?;
    let write = again(random, made);
    let refused = same_calls_with(random, &state, &write)?;
    require(refused == NOT_SOUND, "15", refused.to_string())
}

/// A hand-in and a step on a state, which is sound.
fn not_refused(random: &mut Random, made: &Made) -> Outcome {
    let (mut state, mut disk) = lend(random, &made.sound_state()?);
    same_hand_in(&mut state, &again(random, made))?;
    STEP.same(&mut state, &mut disk)?;
    Ok(())
}

/// A ring, none or all of it stored; and the chain that is left if one need is taken out.
fn in_a_state(run: &mut Run) -> Outcome {
    for length in 1..=MOST_WRITES {
        for _ in 0..run.times(5) {
            let mut random = run.next_case();
            let mut supply = Supply::new(&mut random);
            let count = random.between(length.max(60), MOST_WRITES);
            let mut ring = Ring::new(&mut random, &mut supply, length);
            let mut made = Made::of(&mut random, &supply, &ring, &ring.writes, count);
            let stored = match random.below(2) {
                0 => &[],
                _ => &ring.writes[..],
            };
            made.store(&mut random, stored);
            let clause = match length {
                1 => Clause::AcyclicRules,
                _ => Clause::NoRingOfNeeds,
            };
            refused_for(&mut random, &made, clause)?;
            ring.cut(&mut random, &mut supply);
            let mut made = Made::of(&mut random, &supply, &ring, &ring.writes, count);
            made.store(&mut random, &[]);
            not_refused(&mut random, &made)?;
        }
    }
    Ok(())
}

/// Two to four rings that have nothing to do with each other, of which all, one or none is left.
fn several_in_a_state(run: &mut Run) -> Outcome {
    for _ in 0..run.times(150) {
        let mut random = run.next_case();
        let mut supply = Supply::new(&mut random);
        let count = random.between(2, 4);
        let most = MOST_RULES / count;
        supply.rules = most;
        let mut rings: Vec<Ring> = Vec::new();
        for _ in 0..count {
            let length = random.between(2, 2 * most);
            rings.push(Ring::new(&mut random, &mut supply, length));
        }
        let spared = random.below(count);
        for left in (0..=count).rev() {
            let writes: Vec<Write> = rings.iter().flat_map(|ring| ring.writes.clone()).collect();
            let total = random.between(writes.len().max(60), MOST_WRITES);
            let mut made = Made::new(&mut random, &supply, &rings, &writes, total);
            made.store(&mut random, &[]);
            if left == 0 {
                not_refused(&mut random, &made)?;
            } else {
                refused_for(&mut random, &made, Clause::NoRingOfNeeds)?;
                // The spared one is the last to be cut.
                rings[(spared + left - 1) % count].cut(&mut random, &mut supply);
            }
        }
    }
    Ok(())
}

/// A chain of all writes, or nearly all, is stored from its end on, wherever its writes stand.
fn steps_of_chains(run: &mut Run) -> Outcome {
    for _ in 0..run.times(120) {
        let mut random = run.next_case();
        let mut supply = Supply::new(&mut random);
        let count = random.between(60, MOST_WRITES);
        let length = match random.below(3) {
            0 => random.between(2, count),
            _ => count,
        };
        let mut ring = Ring::new(&mut random, &mut supply, length);
        ring.cut(&mut random, &mut supply);
        let mut made = Made::of(&mut random, &supply, &ring, &ring.writes, count);
        made.store(&mut random, &[]);
        let waiting = made.stored.iter().filter(|&&stored| !stored).count();
        let places = same_to_the_end(&mut random, &made.sound_state()?)?;
        require(
            places.len() == waiting,
            &waiting.to_string(),
            places.len().to_string(),
        )?;
    }
    Ok(())
}

/// A ring's first write is handed in behind the others: with none of these stored, with the last ones
/// stored, of which just one depends on it, in a state that is full, and with a need taken out.
fn closed(run: &mut Run) -> Outcome {
    for length in 2..=MOST_WRITES {
        for _ in 0..run.times(4) {
            let mut random = run.next_case();
            let mut supply = Supply::new(&mut random);
            let least = length - 1;
            let counts = [least, random.between(least, 63), 62.max(least), 63];
            let count = random.pick(&counts);
            let mut ring = Ring::new(&mut random, &mut supply, length);
            let mut made = Made::of(&mut random, &supply, &ring, &ring.writes[1..], count);
            made.store(&mut random, &[]);
            let (mut state, mut disk) = lend(&mut random, &made.sound_state()?);
            let answer = same_hand_in(&mut state, &ring.writes[0])?;
            require(answer == RING_OF_NEEDS, "18", answer.to_string())?;
            // After the refusal, and a step: perhaps this stores what depends on it.
            STEP.same(&mut state, &mut disk)?;
            same_hand_in(&mut state, &ring.writes[0])?;
            let from = random.between(1, length - 1);
            made.store(&mut random, &ring.writes[from..]);
            let answer = same_hand_in_on(&mut random, &made.sound_state()?, &ring.writes[0])?;
            require(answer == LATE, "17", answer.to_string())?;
            let mut full = Made::of(&mut random, &supply, &ring, &ring.writes[1..], 64);
            full.store(&mut random, &ring.writes[from..]);
            let answer = same_hand_in_on(&mut random, &full.sound_state()?, &ring.writes[0])?;
            require(answer == STATE_FULL, "16", answer.to_string())?;
            ring.cut(&mut random, &mut supply);
            let made = Made::of(&mut random, &supply, &ring, &ring.writes[1..], count);
            let answer = same_hand_in_on(&mut random, &made.sound_state()?, &ring.writes[0])?;
            require(answer == 0, "accepted", answer.to_string())?;
        }
    }
    Ok(())
}

/// Two to four rings through one write, which is handed in last: all of them, one and none left; and
/// with just one of the writes that depend on it stored.
fn several_closed(run: &mut Run) -> Outcome {
    let mut late = 0;
    for _ in 0..run.times(150) {
        let mut random = run.next_case();
        let mut supply = Supply::new(&mut random);
        let count = random.between(2, 4);
        let most = MOST_RULES / count;
        supply.rules = most;
        let first = supply.write(&mut random);
        let mut rings: Vec<Ring> = Vec::new();
        for _ in 0..count {
            let length = random.between(2, 2 * most);
            rings.push(Ring::through(&mut random, &mut supply, first, length));
        }
        let spared = random.below(count);
        for left in (0..=count).rev() {
            let behind = rings.iter().flat_map(|ring| &ring.writes[1..]);
            let behind: Vec<Write> = behind.copied().collect();
            let total = random.between(behind.len(), 63);
            let mut made = Made::new(&mut random, &supply, &rings, &behind, total);
            made.store(&mut random, &[]);
            let answer = same_hand_in_on(&mut random, &made.sound_state()?, &first)?;
            let expected = if left > 0 { RING_OF_NEEDS } else { 0 };
            require(
                answer == expected,
                &expected.to_string(),
                answer.to_string(),
            )?;
            let depending = *rings[random.below(count)].last();
            made.store(&mut random, &[depending]);
            late += u64::from(same_hand_in_on(&mut random, &made.state(), &first)? == LATE);
            if left > 0 {
                // The spared one is the last to be cut.
                rings[(spared + left - 1) % count].cut(&mut random, &mut supply);
            }
        }
    }
    run.note(format!("{late} late"));
    require(late > 150, "many late by one", late.to_string())
}

/// Up to 64 writes of one name, each of which depends on those with lower epochs, or higher ones, and
/// a write of that name or of another that is before or behind them.
fn chains_by_epochs(run: &mut Run) -> Outcome {
    let mut answers = BTreeMap::new();
    for count in [0, 1, 62, 63, 64] {
        for _ in 0..run.times(80) {
            let mut random = run.next_case();
            let predicate = random.pick(&[Predicate::Greater, Predicate::Less]);
            let (one, other) =
                random.pick(&[(1, 65), (129, 1), (0, 255), (7, 8), (1, 257), (512, 2)]);
            let mut rules = vec![rule(one, predicate, one)];
            let ends = random.pick(&[(one, other), (other, one)]);
            rules.push(rule(ends.0, random.pick(&PREDICATES), ends.1));
            let mut writes = chain(&mut random, one, count);
            let mut stored = vec![false; count];
            if count > 0 && random.one_in(2) {
                let end = from_the_end(predicate, &writes)[0];
                writes.swap(end, count - 1);
            }
            let some = match random.below(4) {
                0 => random.between(0, count),
                1 => 1,
                _ => 0,
            };
            for i in from_the_end(predicate, &writes).into_iter().take(some) {
                stored[i] = true;
            }
            let state = state_of(&rules, &writes, &stored);
            if count == 0 {
                writes = chain(&mut random, one, 3);
            }
            for _ in 0..8 {
                run.next_case();
                let epoch = random.pick(&writes).epoch;
                let epoch = match random.below(3) {
                    0 => epoch.saturating_sub(1),
                    1 => epoch.saturating_add(1),
                    _ => epoch,
                };
                let name = random.pick(&[one, other]);
                let address = match random.below(4) {
                    0 => random.byte(),
                    _ => random.pick(&writes).address,
                };
                let write = write(address, name, epoch, block(1, 2));
                let answer = same_hand_in_on(&mut random, &state, &write)?;
                *answers.entry((count, answer)).or_insert(0) += 1;
            }
        }
    }
    run.note(format!("{answers:?}"));
    let often = |of| answers.get(&of).map_or(false, |&count| count > 50);
    let refusals = [0, LATE, RING_OF_NEEDS];
    require(
        [62, 63]
            .into_iter()
            .all(|count| refusals.into_iter().all(|number| often((count, number))))
            && often((64, STATE_FULL)),
        "each of the refusals often",
        format!("{answers:?}"),
    )
}

/// The places of a chain's writes, each of which depends on the ones before it.
fn from_the_end(predicate: Predicate, writes: &[Write]) -> Vec<usize> {
    let mut places: Vec<usize> = (0..writes.len()).collect();
    places.sort_unstable_by_key(|&i| writes[i].epoch);
    if predicate == Predicate::Less {
        places.reverse();
    }
    places
}

/// So many writes of a name to different addresses with different epochs, neighbours or not, in no
/// order.
fn chain(random: &mut Random, name: Name, count: usize) -> Vec<Write> {
    let apart = random.pick(&[1, 2, 3, 1_000, u32::MAX / 63]);
    let from = random.pick(&[0, u32::MAX - 63 * apart]);
    let mut epochs: Vec<u32> = (0..64).map(|i| from + i * apart).collect();
    let mut addresses: Vec<u8> = (0..=255).collect();
    random.shuffle(&mut epochs);
    random.shuffle(&mut addresses);
    let columns = addresses.into_iter().zip(epochs).take(count);
    columns
        .map(|(address, epoch)| write(address, name, epoch, block(3, address as u16)))
        .collect()
}

/// All writes go to one address, and so does the one that is handed in, on which some depend.
fn at_one_address(run: &mut Run) -> Outcome {
    let mut answers = BTreeMap::new();
    for _ in 0..run.times(300) {
        let mut random = run.next_case();
        let (address, new) = (random.byte(), generate::name(&mut random));
        let epochs = generate::epoch_column(&mut random, MOST_WRITES);
        let mut names = generate::names(&mut random, MOST_WRITES);
        let few = random.between(1, MOST_WRITES);
        names = (0..MOST_WRITES).map(|_| names[random.below(few)]).collect();
        names.retain(|&name| name != new);
        let depending = random.between(1, 3);
        let rules: Vec<Rule> = (0..depending)
            .filter(|_| !names.is_empty())
            .map(|_| rule(random.pick(&names), random.pick(&PREDICATES), new))
            .collect();
        let count = names.len().min(random.pick(&[1, 62, 63, 63]));
        let writes: Vec<Write> = (0..count)
            .map(|i| write(address, names[i], epochs[i], block(i as u16, 1)))
            .collect();
        let some = random.pick(&[0, 1, count / 2, count]);
        let stored: Vec<bool> = (0..count).map(|i| i < some).collect();
        let state = state_of(&rules, &writes, &stored);
        require(cache::sound(&state), "a sound state", "none".to_string())?;
        for _ in 0..4 {
            run.next_case();
            let epoch = random.pick(&epochs);
            let epoch = match random.below(4) {
                0 => epoch.saturating_sub(1),
                1 => epoch.saturating_add(1),
                _ => epoch,
            };
            let address = match random.below(6) {
                0 => random.byte(),
                _ => address,
            };
            let write = write(address, new, epoch, block(1, 2));
            let answer = same_hand_in_on(&mut random, &state, &write)?;
            *answers.entry(answer).or_insert(0) += 1;
        }
        if random.one_in(8) {
            same_to_the_end(&mut random, &state)?;
        }
    }
    each_often(run, &answers, &[0, LATE, RING_OF_NEEDS], 50)
}
