// Step and drain: on sound states, and on states and disks of another length.

use reference::cache::{self, DISK, STATE};
use reference::random::Random;
use reference::refusal::Refusal;
use reference::states;

use super::OTHER_LENGTHS;
use crate::answer;
use crate::calls;
use crate::harness::{require, same_answer_on, Failure, Outcome, Run, Suite};
use crate::lent::Lent;

pub fn suites() -> Vec<Suite> {
    let suite = |name, run| Suite { name, run };
    vec![
        suite("step: sound states", steps),
        suite("step: until nothing waits", all_steps),
        suite("drain: sound states", drains),
        suite("step, drain: 14, other lengths", other_lengths),
    ]
}

/// Step or drain, proved and of the reference.
#[derive(Clone, Copy)]
pub struct Storing {
    name: &'static str,
    proved: fn(&mut Lent, &mut Lent) -> u64,
    reference: fn(&mut [u8], &mut [u8]) -> Result<usize, Refusal>,
}

pub const STEP: Storing = Storing {
    name: "step",
    proved: calls::step,
    reference: cache::step,
};

pub const DRAIN: Storing = Storing {
    name: "drain",
    proved: calls::drain,
    reference: cache::drain,
};

impl Storing {
    /// The answer, the state and the disk are the reference's. Both are then as the call left them.
    pub fn same(self, state: &mut Lent, disk: &mut Lent) -> Result<u64, Failure> {
        let (mut state_after, mut disk_after) = (state.content().to_vec(), disk.content().to_vec());
        let expected = (self.reference)(&mut state_after, &mut disk_after);
        let expected = answer::of(expected.map(|stored| stored as u64));
        let got = (self.proved)(state, disk);
        let inputs = [("state", state.content()), ("disk", disk.content())];
        same_answer_on(self.name, &inputs, expected, got)?;
        state.became("state", &state_after)?;
        disk.became("disk", &disk_after)?;
        Ok(got)
    }
}

/// A state lent beside a disk with any content.
pub fn lend(random: &mut Random, state: &[u8]) -> (Lent, Lent) {
    let disk = random.bytes(DISK);
    (Lent::new(random, state), Lent::new(random, &disk))
}

/// All steps of a state; and a drain, which leaves what they leave. Gives the places in the order in
/// which they are stored.
pub fn same_to_the_end(random: &mut Random, state: &[u8]) -> Result<Vec<u64>, Failure> {
    let (mut state, mut disk) = lend(random, state);
    let (mut drained, mut drained_disk) = (state.clone(), disk.clone());
    let mut places = Vec::new();
    loop {
        match STEP.same(&mut state, &mut disk)? {
            0 => break,
            place => places.push(place),
        }
    }
    let got = calls::drain(&mut drained, &mut drained_disk);
    let inputs = [
        ("state", drained.content()),
        ("disk", drained_disk.content()),
    ];
    same_answer_on("drain", &inputs, places.len() as u64, got)?;
    drained.became("state", state.content())?;
    drained_disk.became("disk", disk.content())?;
    Ok(places)
}

fn steps(run: &mut Run) -> Outcome {
    let mut idle = 0;
    for _ in 0..run.times(2_000) {
        let mut random = run.next_case();
        let state = states::sound(&mut random);
        let (mut state, mut disk) = lend(&mut random, &state);
        idle += u64::from(STEP.same(&mut state, &mut disk)? == 0);
    }
    run.note(format!("{idle} idle"));
    require(idle > 50, "some with nothing waiting", idle.to_string())
}

fn all_steps(run: &mut Run) -> Outcome {
    for _ in 0..run.times(150) {
        let mut random = run.next_case();
        let state = states::sound(&mut random);
        let (mut state, mut disk) = lend(&mut random, &state);
        while STEP.same(&mut state, &mut disk)? != 0 {
            run.next_case();
        }
    }
    Ok(())
}

fn drains(run: &mut Run) -> Outcome {
    for _ in 0..run.times(600) {
        let mut random = run.next_case();
        let state = states::sound(&mut random);
        let (mut state, mut disk) = lend(&mut random, &state);
        DRAIN.same(&mut state, &mut disk)?;
        let again = DRAIN.same(&mut state, &mut disk)?;
        require(again == 0, "nothing waits after a drain", again.to_string())?;
    }
    Ok(())
}

/// Every pair of lengths but the right one, with a sound or an unsound state.
fn other_lengths(run: &mut Run) -> Outcome {
    let lengths = || OTHER_LENGTHS.into_iter().chain([STATE]);
    for state_length in lengths() {
        for disk_length in lengths().filter(|&length| (length, state_length) != (DISK, STATE)) {
            let mut random = run.next_case();
            let mut state = match random.below(2) {
                0 => random.bytes(STATE),
                _ => states::sound(&mut random),
            };
            state.resize(state_length, 0);
            let disk = random.bytes(disk_length);
            for storing in [STEP, DRAIN] {
                let mut state = Lent::new(&mut random, &state);
                let mut disk = Lent::new(&mut random, &disk);
                storing.same(&mut state, &mut disk)?;
            }
        }
    }
    Ok(())
}
