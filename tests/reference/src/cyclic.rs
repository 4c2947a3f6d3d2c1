// Cyclic rule sets, by closed walks over the names; and by rings of labels, for comparison.

use std::collections::BTreeSet;

use crate::ring::has_ring;
use crate::writes::{depends_on, Label, Name, Predicate, Rule};

/// Is there a closed walk of one or more rules that uses only = rules, or both a > and a < rule?
pub fn cyclic(rules: &[Rule]) -> bool {
    rules.iter().any(|rule| closes(rules, rule.name))
}

/// Is there such a walk from `start` back to it? The search goes over pairs of the name that was
/// reached and which of > and < were used on the way.
fn closes(rules: &[Rule], start: Name) -> bool {
    const NONE: usize = 0;
    const GREATER: usize = 1;
    const LESS: usize = 2;
    let mut reached = BTreeSet::new();
    let mut todo = vec![(start, NONE)];
    while let Some((name, used)) = todo.pop() {
        for rule in rules.iter().filter(|rule| rule.name == name) {
            let used = match rule.predicate {
                Predicate::Equal => used,
                Predicate::Greater => used | GREATER,
                Predicate::Less => used | LESS,
            };
            if reached.insert((rule.second, used)) {
                todo.push((rule.second, used));
            }
        }
    }
    reached.contains(&(start, NONE)) || reached.contains(&(start, GREATER | LESS))
}

/// Do labels with epochs below `epochs` form a ring, each depending on the next? This is the
/// document's definition itself, up to the bound on the epochs.
pub fn labels_form_ring(rules: &[Rule], epochs: u32) -> bool {
    let mut names: Vec<Name> = rules.iter().flat_map(|r| [r.name, r.second]).collect();
    names.sort_unstable();
    names.dedup();
    let mut labels = Vec::new();
    for &name in &names {
        labels.extend((0..epochs).map(|epoch| Label { name, epoch }));
    }
    let on = |one: &Label| -> Vec<usize> {
        (0..labels.len())
            .filter(|&j| depends_on(rules, *one, labels[j]))
            .collect()
    };
    let next: Vec<Vec<usize>> = labels.iter().map(on).collect();
    has_ring(&next)
}
