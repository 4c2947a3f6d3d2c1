// Cyclic rule sets: closed walks against rings of labels, and against strong components.

use crate::cyclic::{cyclic, labels_form_ring};
use crate::generate::{self, Values};
use crate::random::Random;
use crate::ring::has_ring;
use crate::writes::{Name, Predicate, Rule, PREDICATES};

fn rules_over(names: &[Name]) -> Vec<Rule> {
    let mut rules = Vec::new();
    for &name in names {
        for predicate in PREDICATES {
            rules.extend(names.iter().map(|&second| Rule {
                name,
                predicate,
                second,
            }));
        }
    }
    rules
}

/// A third way: a ring of = rules alone, or a > and a < rule within one strong component.
fn by_components(rules: &[Rule]) -> bool {
    let reaches = |from: Name, to: Name| {
        let mut seen = vec![from];
        let mut next = 0;
        while next < seen.len() {
            let name = seen[next];
            for rule in rules.iter().filter(|rule| rule.name == name) {
                if !seen.contains(&rule.second) {
                    seen.push(rule.second);
                }
            }
            next += 1;
        }
        seen.contains(&to)
    };
    let within = |one: &Rule, other: &Rule| {
        reaches(one.second, one.name)
            && reaches(one.name, other.name)
            && reaches(other.name, one.name)
            && reaches(other.second, other.name)
    };
    let of = |predicate| rules.iter().filter(move |rule| rule.predicate == predicate);
    let names: Vec<Name> = rules.iter().flat_map(|r| [r.name, r.second]).collect();
    let number = |name| names.iter().position(|&other| other == name).unwrap_or(0);
    let mut equal = vec![Vec::new(); names.len()];
    for rule in of(Predicate::Equal) {
        equal[number(rule.name)].push(number(rule.second));
    }
    has_ring(&equal) || of(Predicate::Greater).any(|g| of(Predicate::Less).any(|l| within(g, l)))
}

#[test]
fn all_sets_over_two_names() {
    for names in [[1, 2], [1, 257]] {
        let all = rules_over(&names);
        for set in 0..1u32 << all.len() {
            let rules: Vec<Rule> = (0..all.len())
                .filter(|i| set >> i & 1 == 1)
                .map(|i| all[i])
                .collect();
            assert_eq!(cyclic(&rules), labels_form_ring(&rules, 6), "{rules:?}");
            assert_eq!(cyclic(&rules), by_components(&rules), "{rules:?}");
        }
    }
}

#[test]
fn all_triples_over_three_names() {
    let all = rules_over(&[0, 256, 65_535]);
    for one in &all {
        for two in &all {
            for three in &all {
                let rules = [*one, *two, *three];
                assert_eq!(cyclic(&rules), labels_form_ring(&rules, 6), "{rules:?}");
            }
        }
    }
}

#[test]
fn random_sets() {
    for seed in 0..3000 {
        let mut random = Random::new(seed);
        let values = Values::small(&mut random);
        let count = random.below(9);
        let rules = generate::rules_of(&mut random, &values, count);
        assert_eq!(cyclic(&rules), by_components(&rules), "seed {seed}");
        assert_eq!(cyclic(&rules), labels_form_ring(&rules, 12), "seed {seed}");
    }
}

#[test]
fn nearly_cyclic_sets() {
    for seed in 0..1000 {
        let rules = generate::nearly_cyclic_rules(&mut Random::new(seed));
        assert_eq!(cyclic(&rules), by_components(&rules), "seed {seed}");
    }
}
