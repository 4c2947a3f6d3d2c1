// Rings in a finite relation.

/// Is there a ring of one or more things, each related to the next? `next[i]` lists what thing i is
/// related to. Things related only to removed things are removed as long as there are any: what is
/// left, if anything, has a ring.
pub fn has_ring(next: &[Vec<usize>]) -> bool {
    let mut removed = vec![false; next.len()];
    loop {
        let mut progress = false;
        for i in 0..next.len() {
            if !removed[i] && next[i].iter().all(|&j| removed[j]) {
                removed[i] = true;
                progress = true;
            }
        }
        if !progress {
            return removed.contains(&false);
        }
    }
}
