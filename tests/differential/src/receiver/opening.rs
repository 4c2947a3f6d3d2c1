// Opening a cache: the state that a file's rules leave, whatever was there before.

use reference::cache::{self, STATE};
use reference::crashes;
use reference::cyclic::cyclic;
use reference::damage::{self, Limit};
use reference::file::{File, MOST_RULES};
use reference::generate::{self, Values};
use reference::random::Random;
use reference::refusal;
use reference::states;
use reference::writes::{rule, Name, Predicate, Rule, PREDICATES};

use super::storing::{lend, STEP};
use super::OTHER_LENGTHS;
use crate::answer;
use crate::around::{file_with, AROUND};
use crate::calls;
use crate::harness::{require, same_answer_on, Outcome, Run, Suite};
use crate::lent::Lent;

pub fn suites() -> Vec<Suite> {
    let suite = |name, run| Suite { name, run };
    vec![
        suite("open: rules", rules),
        suite("open: 8, cyclic rules", cyclic_rules),
        suite("open: 8, names equal modulo 64", names_alike),
        suite("open: 8, = rules round 1 to 32 names", equal_rings),
        suite("open: 8, > and < round", mixed_rings),
        suite("open: 22, files with tests", files_with_tests),
        suite("open: 22 up to 20 main writes, 6 for 21", around_20),
        suite("open: damaged files", damaged_files),
        suite("open: 14, other lengths", other_lengths),
    ]
}

/// A state of this length on which a call leaves what the reference leaves.
fn same_opening(random: &mut Random, before: &[u8], file: &[u8]) -> Outcome {
    let (mut state, lent) = (Lent::new(random, before), Lent::new(random, file));
    let mut after = before.to_vec();
    let expected = answer::of(cache::open(file, &mut after).map(|()| 0));
    let got = calls::open(&mut state, &lent);
    same_answer_on("open", &[("state", before), ("file", file)], expected, got)?;
    lent.unchanged("file")?;
    state.became("state", &after)
}

/// What a state may hold before: nothing, anything, or a run that is on its way.
fn any_state(random: &mut Random) -> Vec<u8> {
    match random.below(4) {
        0 => vec![0; STATE],
        1 => states::sound(random),
        _ => random.bytes(STATE),
    }
}

fn each(run: &mut Run, cases: u64, make: fn(&mut Random) -> Vec<u8>) -> Outcome {
    for _ in 0..run.times(cases) {
        let mut random = run.next_case();
        let file = make(&mut random);
        let before = any_state(&mut random);
        same_opening(&mut random, &before, &file)?;
    }
    Ok(())
}

/// A file of these rules, in old and new tags.
pub fn file_of(random: &mut Random, rules: &[Rule]) -> Vec<u8> {
    let file = File {
        rules: rules.to_vec(),
        tests: vec![],
    };
    file.to_mixed_bytes(random)
}

fn rules(run: &mut Run) -> Outcome {
    each(run, 2_000, |random| {
        let values = Values::random(random);
        let rules = match random.below(4) {
            0 => vec![],
            1 => crashes::padded(random, &values, &[]),
            _ => crashes::acyclic_rules(random, &values, 12),
        };
        file_of(random, &rules)
    })
}

fn cyclic_rules(run: &mut Run) -> Outcome {
    let (cases, mut refused) = (run.times(2_000), 0);
    for _ in 0..cases {
        let mut random = run.next_case();
        let rules = generate::nearly_cyclic_rules(&mut random);
        refused += u64::from(cyclic(&rules));
        let before = any_state(&mut random);
        let file = file_of(&mut random, &rules);
        same_opening(&mut random, &before, &file)?;
    }
    run.note(format!("{refused} refused"));
    require(
        refused > cases / 5 && refused < cases / 5 * 4,
        "a fifth of either at least",
        refused.to_string(),
    )
}

/// Rules that are cyclic or not, known by how they are made.
fn known_rules(random: &mut Random, rules: &[Rule], is_cyclic: bool) -> Outcome {
    require(
        cyclic(rules) == is_cyclic,
        &format!("cyclic {is_cyclic}"),
        format!("{rules:?}"),
    )?;
    same_rules(random, rules)
}

/// Opening with these rules, and a step on a state that has them.
fn same_rules(random: &mut Random, rules: &[Rule]) -> Outcome {
    let before = any_state(random);
    let file = file_of(random, rules);
    same_opening(random, &before, &file)?;
    let (mut state, mut disk) = lend(random, &states::state_of(rules, &[], &[]));
    STEP.same(&mut state, &mut disk)?;
    Ok(())
}

fn names_alike(run: &mut Run) -> Outcome {
    let (cases, mut refused) = (run.times(2_000), 0);
    for _ in 0..cases {
        let mut random = run.next_case();
        let count = match random.below(3) {
            0 => random.between(1, MOST_RULES),
            _ => MOST_RULES,
        };
        let rules = generate::alike_rules(&mut random, count);
        refused += u64::from(cyclic(&rules));
        same_rules(&mut random, &rules)?;
    }
    run.note(format!("{refused} refused"));
    require(
        refused > cases / 5 && refused < cases / 5 * 4,
        "a fifth of either at least",
        refused.to_string(),
    )
}

/// Names for rules that lead round, half of the time four after another equal modulo 64.
fn names_for_rings(random: &mut Random) -> Vec<Name> {
    let mut names = generate::alike_names(random);
    if random.one_in(2) {
        random.shuffle(&mut names);
    }
    names
}

/// The rules as they are, or with others about other names that are not cyclic, in any order.
fn strewn(random: &mut Random, mut rules: Vec<Rule>) -> Vec<Rule> {
    if random.one_in(2) {
        random.shuffle(&mut rules);
        return rules;
    }
    let names = rules.iter().flat_map(|rule| [rule.name, rule.second]);
    let values = Values {
        names: names.collect(),
        ..Values::small(random)
    };
    crashes::padded(random, &values, &rules)
}

/// = rules round so many names; then with one rule that is another one, or none.
fn equal_rings(run: &mut Run) -> Outcome {
    for length in 1..=MOST_RULES {
        for _ in 0..run.times(30) {
            let mut random = run.next_case();
            let names = names_for_rings(&mut random);
            let equal = vec![Predicate::Equal; length];
            let mut rules = generate::round(&mut random, &names[..length], &equal);
            let all = strewn(&mut random, rules.clone());
            known_rules(&mut random, &all, true)?;
            let one = random.below(length);
            match random.below(4) {
                0 => {
                    rules.remove(one);
                }
                1 => rules[one].predicate = random.pick(&[Predicate::Greater, Predicate::Less]),
                2 => rules[one].name = alike(&mut random, &names[length..], rules[one].name),
                _ => rules[one].second = alike(&mut random, &names[length..], rules[one].second),
            }
            let all = strewn(&mut random, rules);
            known_rules(&mut random, &all, false)?;
        }
    }
    Ok(())
}

/// One of the names that is equal to a name modulo 64, or any one if none is.
fn alike(random: &mut Random, names: &[Name], name: Name) -> Name {
    let alike: Vec<Name> = names
        .iter()
        .copied()
        .filter(|other| other % 64 == name % 64)
        .collect();
    match alike.is_empty() {
        true => random.pick(names),
        false => random.pick(&alike),
    }
}

/// Rules round some names, of = and at least one >, and round others, of = and at least one <. They
/// are cyclic if both lead round one name, or there are rules from either to the other.
fn mixed_rings(run: &mut Run) -> Outcome {
    for i in 0..run.times(1_000) {
        let mut random = run.next_case();
        let names = names_for_rings(&mut random);
        let (one, two) = (random.between(1, 15), random.between(1, 15));
        let (firsts, seconds) = names[..one + two].split_at(one);
        let mut seconds = seconds.to_vec();
        let joint = i % 4;
        if joint == 1 {
            seconds[0] = random.pick(firsts);
        }
        let mut rules = ring_with(&mut random, firsts, Predicate::Greater);
        rules.extend(ring_with(&mut random, &seconds, Predicate::Less));
        if joint > 1 {
            let (from, to) = (random.pick(firsts), random.pick(&seconds));
            rules.push(rule(from, random.pick(&PREDICATES), to));
        }
        if joint > 2 {
            let (from, to) = (random.pick(&seconds), random.pick(firsts));
            rules.push(rule(from, random.pick(&PREDICATES), to));
        }
        let all = strewn(&mut random, rules);
        known_rules(&mut random, &all, joint % 2 == 1)?;
    }
    Ok(())
}

/// Rules round these names, of = and of another predicate, this at least once.
fn ring_with(random: &mut Random, names: &[Name], predicate: Predicate) -> Vec<Rule> {
    let count = random.between(1, names.len());
    let mut predicates = vec![Predicate::Equal; names.len()];
    predicates[..count].fill(predicate);
    generate::round(random, names, &predicates)
}

/// Refused by 22 even if the rules are cyclic.
fn files_with_tests(run: &mut Run) -> Outcome {
    each(run, 2_000, |random| {
        let mut file = match random.below(3) {
            0 => generate::file(random),
            _ => crashes::file(random),
        };
        if random.one_in(2) {
            file.rules = generate::nearly_cyclic_rules(random);
        }
        file.tests.truncate(random.between(0, 2));
        file.to_mixed_bytes(random)
    })
}

/// A test of 13 main writes is one; before 20 was the limit it was refused by 6.
fn around_20(run: &mut Run) -> Outcome {
    for main in AROUND {
        for _ in 0..run.times(60) {
            let mut random = run.next_case();
            let (_, bytes, refused) = file_with(&mut random, main);
            let known = refused.unwrap_or(refusal::plain(refusal::FILE_HAS_TESTS));
            let before = any_state(&mut random);
            let (mut state, lent) = (
                Lent::new(&mut random, &before),
                Lent::new(&mut random, &bytes),
            );
            let got = calls::open(&mut state, &lent);
            let inputs = [("state", &before[..]), ("file", &bytes[..])];
            same_answer_on("open", &inputs, answer::of(Err(known)), got)?;
            state.unchanged("state")?;
            same_opening(&mut random, &before, &bytes)?;
        }
    }
    Ok(())
}

fn damaged_files(run: &mut Run) -> Outcome {
    each(run, 4_000, |random| damage::any(random).bytes)?;
    each(run, 200, |random| {
        damage::over_limit(random, Limit::Rules).bytes
    })
}

/// Refused by 14, whatever the file.
fn other_lengths(run: &mut Run) -> Outcome {
    for length in OTHER_LENGTHS {
        for _ in 0..run.times(30) {
            let mut random = run.next_case();
            let file = match random.below(4) {
                0 => damage::any(&mut random).bytes,
                1 => generate::file(&mut random).to_mixed_bytes(&mut random),
                _ => {
                    let rules = generate::nearly_cyclic_rules(&mut random);
                    file_of(&mut random, &rules)
                }
            };
            let before = random.bytes(length);
            let lent = Lent::new(&mut random, &file);
            let mut state = Lent::new(&mut random, &before);
            let refused = answer::of(Err(refusal::plain(refusal::NOT_1024_BYTES)));
            let got = calls::open(&mut state, &lent);
            same_answer_on("open", &[("state", &before), ("file", &file)], refused, got)?;
            state.unchanged("state")?;
            same_opening(&mut random, &before, &file)?;
        }
    }
    Ok(())
}
