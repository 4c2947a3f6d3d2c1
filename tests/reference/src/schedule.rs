// Crash schedules: bit i-1 of a schedule's number is the flag of write i.

use crate::writes::{depends_on, Disk, Rule, Write};

/// The flag of the write at `index`, counted from 0.
pub fn flagged(schedule: u64, index: usize) -> bool {
    schedule >> index & 1 == 1
}

/// How many writes a schedule flags.
pub fn flags(schedule: u64) -> u32 {
    schedule.count_ones()
}

/// The disk of a schedule: its flagged writes, applied in order to `start`.
pub fn disk_of(start: &Disk, writes: &[Write], schedule: u64) -> Disk {
    let mut disk = *start;
    for (i, write) in writes.iter().enumerate() {
        if flagged(schedule, i) {
            disk[write.address as usize] = write.block;
        }
    }
    disk
}

/// For each write of a trace, the indices of the writes of the trace that it depends on.
pub fn dependencies(rules: &[Rule], trace: &[Write]) -> Vec<Vec<usize>> {
    let on = |one: &Write| {
        (0..trace.len())
            .filter(|&j| depends_on(rules, one.label(), trace[j].label()))
            .collect()
    };
    trace.iter().map(on).collect()
}

/// Is every dependency of every flagged write flagged?
pub fn valid(dependencies: &[Vec<usize>], schedule: u64) -> bool {
    (0..dependencies.len())
        .filter(|&i| flagged(schedule, i))
        .all(|i| dependencies[i].iter().all(|&j| flagged(schedule, j)))
}
