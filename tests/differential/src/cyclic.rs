// Cyclic rules: random and structured rule sets, and all small ones.

use reference::cyclic::{cyclic, labels_form_ring};
use reference::damage;
use reference::file::{read, File, MOST_RULES};
use reference::generate::{self, Values};
use reference::random::Random;
use reference::writes::{Name, Rule, PREDICATES};

use crate::answer;
use crate::around::{file_with, AROUND};
use crate::calls;
use crate::harness::{require, same_answer, Outcome, Run, Suite};
use crate::lent::Lent;

pub fn suites() -> Vec<Suite> {
    let suite = |name, run| Suite { name, run };
    vec![
        suite("cyclic: random rules", random_rules),
        suite("cyclic: rings and near rings", near_rings),
        suite("cyclic: every set over two names", every_set),
        suite("cyclic: every list of up to three rules", every_list),
        suite("cyclic: 32 rules", most_rules),
        suite("cyclic: files with tests", files_with_tests),
        suite("cyclic: 12, 13, 19, 20 and 21 main writes", around_20),
        suite("cyclic: damaged files", damaged_files),
    ]
}

fn same_answer_for(random: &mut Random, file: &[u8]) -> Outcome {
    let lent = Lent::new(random, file);
    let expected = answer::of(read(file).map(|file| cyclic(&file.rules) as u64));
    same_answer("cyclic", file, expected, calls::cyclic(&lent))?;
    lent.unchanged("file")
}

fn file_of(random: &mut Random, rules: &[Rule]) -> Vec<u8> {
    let file = File {
        rules: rules.to_vec(),
        tests: vec![],
    };
    file.to_mixed_bytes(random)
}

/// Rule sets of which both answers must occur often.
fn both_answers(run: &mut Run, cases: u64, make: fn(&mut Random) -> Vec<Rule>) -> Outcome {
    let cases = run.times(cases);
    let mut found = 0;
    for _ in 0..cases {
        let mut random = run.next_case();
        let rules = make(&mut random);
        found += cyclic(&rules) as u64;
        let bytes = file_of(&mut random, &rules);
        same_answer_for(&mut random, &bytes)?;
    }
    run.note(format!("{found} of them cyclic"));
    require(
        found > cases / 5 && found < cases / 5 * 4,
        "a fifth of either answer at least",
        format!("{found} of {cases} cyclic"),
    )
}

fn random_rules(run: &mut Run) -> Outcome {
    fn make(random: &mut Random) -> Vec<Rule> {
        let names = random.between(1, 8);
        let predicates = random.between(1, 3);
        let count = random.below(2 * names + 1);
        let mut values = Values::wide(random);
        values.names.truncate(names);
        let from = random.below(3);
        (0..count)
            .map(|_| Rule {
                name: random.pick(&values.names),
                predicate: PREDICATES[(from + random.below(predicates)) % 3],
                second: random.pick(&values.names),
            })
            .collect()
    }
    both_answers(run, 60_000, make)
}

fn near_rings(run: &mut Run) -> Outcome {
    both_answers(run, 50_000, generate::nearly_cyclic_rules)
}

/// All rules over these names.
fn rules_over(names: &[Name]) -> Vec<Rule> {
    let mut rules = Vec::new();
    for &name in names {
        for predicate in PREDICATES {
            rules.extend(names.iter().map(|&second| Rule {
                name,
                predicate,
                second,
            }));
        }
    }
    rules
}

/// The definition itself, with epochs enough for rules over three names.
fn same_by_labels(run: &mut Run, rules: &[Rule]) -> Outcome {
    let mut random = run.next_case();
    let file = file_of(&mut random, rules);
    let by_labels = labels_form_ring(rules, 7) as u64;
    same_answer(
        "cyclic, of the reference",
        &file,
        by_labels,
        cyclic(rules) as u64,
    )?;
    same_answer_for(&mut random, &file)
}

fn every_set(run: &mut Run) -> Outcome {
    for names in [[1, 2], [0, 255], [1, 257], [255, 65_535]] {
        let all = rules_over(&names);
        for set in 0..1u32 << all.len() {
            let rules: Vec<Rule> = (0..all.len())
                .filter(|i| set >> i & 1 == 1)
                .map(|i| all[i])
                .collect();
            same_by_labels(run, &rules)?;
        }
    }
    Ok(())
}

/// In any order and with repeats: over two names, and over three.
fn every_list(run: &mut Run) -> Outcome {
    for names in [&[2, 1][..], &[0, 128, 255], &[256, 1, 257]] {
        let all = rules_over(names);
        same_by_labels(run, &[])?;
        for &one in &all {
            same_by_labels(run, &[one])?;
            for &two in &all {
                same_by_labels(run, &[one, two])?;
                for &three in &all {
                    same_by_labels(run, &[one, two, three])?;
                }
            }
        }
    }
    Ok(())
}

/// As many rules as a file can have: in half of the cases one ring, perhaps a long one, else rules
/// that go one way along the names but for a single rule, often the first or the last.
fn most_rules(run: &mut Run) -> Outcome {
    fn make(random: &mut Random) -> Vec<Rule> {
        let mut names = generate::many_names(random);
        let kinds = random.between(1, 3);
        let rule = |random: &mut Random, name, second| Rule {
            name,
            predicate: PREDICATES[2 - random.below(kinds)],
            second,
        };
        if random.one_in(2) {
            names.truncate(random.between(2, MOST_RULES));
            let at = |i: usize| names[i % names.len()];
            return (0..MOST_RULES)
                .map(|i| rule(random, at(i), at(i + 1)))
                .collect();
        }
        let other = names.pop().unwrap_or(0);
        names.truncate(random.between(2, 40));
        let mut rules = Vec::new();
        while rules.len() < MOST_RULES {
            let (a, b) = (random.below(names.len()), random.below(names.len()));
            if a < b {
                rules.push(rule(random, names[a], names[b]));
            }
        }
        let special = match random.below(3) {
            0 => 0,
            1 => MOST_RULES - 1,
            _ => random.below(MOST_RULES),
        };
        let there = rules[special];
        match random.below(3) {
            0 => rules[special] = rule(random, there.second, there.name),
            1 => rules[special] = rule(random, other, other),
            _ => {
                let back = random.pick(&rules);
                rules[special] = rule(random, back.second, there.name);
            }
        }
        rules
    }
    both_answers(run, 10_000, make)
}

fn files_with_tests(run: &mut Run) -> Outcome {
    for _ in 0..run.times(3_000) {
        let mut random = run.next_case();
        let bytes = generate::file(&mut random).to_mixed_bytes(&mut random);
        same_answer_for(&mut random, &bytes)?;
    }
    Ok(())
}

/// Rules of either kind before a test that has as many, or one too many.
fn around_20(run: &mut Run) -> Outcome {
    for main in AROUND {
        for _ in 0..run.times(60) {
            let mut random = run.next_case();
            let (mut file, mut bytes, _) = file_with(&mut random, main);
            if random.one_in(2) {
                file.rules = generate::nearly_cyclic_rules(&mut random);
                bytes = file.to_mixed_bytes(&mut random);
            }
            same_answer_for(&mut random, &bytes)?;
        }
    }
    Ok(())
}

/// Refused by reading, cyclic or not.
fn damaged_files(run: &mut Run) -> Outcome {
    for _ in 0..run.times(10_000) {
        let mut random = run.next_case();
        let damaged = damage::any(&mut random);
        same_answer_for(&mut random, &damaged.bytes)?;
    }
    Ok(())
}
