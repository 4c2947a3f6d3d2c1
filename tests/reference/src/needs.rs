// What an accepted write needs: what it depends on, and the earlier writes to its address.

use crate::writes::{depends_on, Rule, Write};

/// For each accepted write, the indices of the accepted writes that it needs.
pub fn needs(rules: &[Rule], accepted: &[Write]) -> Vec<Vec<usize>> {
    let of = |i: usize| {
        (0..accepted.len())
            .filter(|&j| {
                depends_on(rules, accepted[i].label(), accepted[j].label())
                    || (j < i && accepted[j].address == accepted[i].address)
            })
            .collect()
    };
    (0..accepted.len()).map(of).collect()
}

/// The index of the earliest write that is not stored and whose needs are all stored.
pub fn earliest_ready(needs: &[Vec<usize>], stored: &[bool]) -> Option<usize> {
    (0..needs.len()).find(|&i| !stored[i] && needs[i].iter().all(|&j| stored[j]))
}
