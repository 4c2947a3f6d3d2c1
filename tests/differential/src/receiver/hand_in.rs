// Handing in a write: on sound states of every kind, and on states of another length.

use std::collections::BTreeMap;

use reference::cache::{self, STATE};
use reference::generate;
use reference::random::Random;
use reference::refusal::{LATE, RING_OF_NEEDS, STATE_FULL};
use reference::samples;
use reference::states::Source;
use reference::writes::{Block, Predicate, Rule, Write};

use super::storing::{lend, STEP};
use super::OTHER_LENGTHS;
use crate::answer;
use crate::calls;
use crate::harness::{require, same_answer_on, Failure, Outcome, Run, Suite};
use crate::lent::Lent;

pub fn suites() -> Vec<Suite> {
    let suite = |name, run| Suite { name, run };
    vec![
        suite("hand-in: the bench sheet", bench_sheet),
        suite("hand-in: sound states", sound_states),
        suite("hand-in: refused by 17 and 18 both", late_and_ring),
        suite("hand-in: any write", any_write),
        suite("hand-in: 14, other lengths", other_lengths),
    ]
}

/// The answer and the state are the reference's. Gives the refusal's number, or 0.
pub fn same_hand_in(state: &mut Lent, write: &Write) -> Result<u32, Failure> {
    let mut after = state.content().to_vec();
    let expected = cache::hand_in(&mut after, write).map(|()| after[1] as u64);
    let got = calls::hand_in(state, write);
    let call = format!("hand-in {write:?}");
    let inputs = [("state", state.content())];
    same_answer_on(&call, &inputs, answer::of(expected), got)?;
    state.became("state", &after)?;
    Ok(expected.map_or_else(|refusal| refusal.number, |_| 0))
}

/// Likewise, on a state that is lent for this call.
pub fn same_hand_in_on(random: &mut Random, state: &[u8], write: &Write) -> Result<u32, Failure> {
    same_hand_in(&mut Lent::new(random, state), write)
}

/// Answers by refusal, 0 for none: each of these came more often than so many times.
pub fn each_often(
    run: &mut Run,
    answers: &BTreeMap<u32, u64>,
    refusals: &[u32],
    times: u64,
) -> Outcome {
    run.note(format!("by refusal {answers:?}"));
    let often = |number| answers.get(number).map_or(false, |&count| count > times);
    require(
        refusals.iter().all(often),
        "each of the refusals often",
        format!("{answers:?}"),
    )
}

/// K8 and K10: the second of two writes is refused, in K8 after a step. K9 and K11 are among the runs.
fn bench_sheet(run: &mut Run) -> Outcome {
    let write = |address, name, epoch| Write {
        address,
        name,
        epoch,
        block: Block {
            first: 0,
            second: 1,
        },
    };
    let less = Rule {
        name: 1,
        predicate: Predicate::Less,
        second: 1,
    };
    let log = samples::log_rules().to_vec();
    for (rules, one, two, steps, number) in [
        (log, write(0, 2, 1), write(2, 1, 1), 1, LATE),
        (vec![less], write(5, 1, 1), write(5, 1, 2), 0, RING_OF_NEEDS),
    ] {
        let mut random = run.next_case();
        let mut source = Source::new(&mut random);
        source.rules = rules;
        let (mut state, mut disk) = lend(&mut random, &source.opened());
        let accepted = same_hand_in(&mut state, &one)?;
        require(accepted == 0, "accepted", accepted.to_string())?;
        for _ in 0..steps {
            STEP.same(&mut state, &mut disk)?;
        }
        let refused = same_hand_in(&mut state, &two)?;
        require(refused == number, &number.to_string(), refused.to_string())?;
    }
    Ok(())
}

fn sound_states(run: &mut Run) -> Outcome {
    let mut answers = BTreeMap::new();
    for _ in 0..run.times(2_000) {
        let mut random = run.next_case();
        let source = Source::new(&mut random);
        let state = source.reached(&mut random);
        for _ in 0..4 {
            let write = source.write(&mut random);
            *answers
                .entry(same_hand_in_on(&mut random, &state, &write)?)
                .or_insert(0) += 1;
        }
    }
    each_often(run, &answers, &[0, STATE_FULL, LATE, RING_OF_NEEDS], 30)
}

/// With (1,<,1) and (2,=,1): a stored 2 and a waiting 1 of a lower epoch at the new one's address.
fn late_and_ring(run: &mut Run) -> Outcome {
    for _ in 0..run.times(200) {
        let mut random = run.next_case();
        let mut source = Source::new(&mut random);
        let (low, high) = (generate::name(&mut random), generate::name(&mut random));
        if low == high {
            continue;
        }
        let rule = |name, predicate| Rule {
            name,
            predicate,
            second: low,
        };
        source.rules = vec![rule(low, Predicate::Less), rule(high, Predicate::Equal)];
        let epoch = 1 + (random.number() as u32 >> 1);
        let mut write = |address, name, epoch| Write {
            address,
            name,
            epoch,
            block: generate::block(&mut random, &source.values),
        };
        let (stored, waiting) = (write(1, high, epoch), write(2, low, epoch - 1));
        let both = write(2, low, epoch);
        let mut state = source.opened();
        let accepted = cache::hand_in(&mut state, &stored)
            .and_then(|()| cache::step(&mut state, &mut [0; cache::DISK]))
            .and_then(|_| cache::hand_in(&mut state, &waiting));
        require(accepted.is_ok(), "both accepted", format!("{accepted:?}"))?;
        let refused = same_hand_in_on(&mut random, &state, &both)?;
        require(refused == LATE, "17", refused.to_string())?;
    }
    Ok(())
}

/// Writes with values at the ends of their ranges, and any others.
fn any_write(run: &mut Run) -> Outcome {
    const EPOCHS: [u32; 6] = [0, 1, 0xFFFF, 0x1_0000, 0x8000_0000, u32::MAX];
    for _ in 0..run.times(1_500) {
        let mut random = run.next_case();
        let source = Source::new(&mut random);
        let state = source.opened();
        let half = |random: &mut Random| match random.below(3) {
            0 => random.pick(&[0, 255, 256, u16::MAX]),
            _ => random.number() as u16,
        };
        let write = Write {
            address: random.byte(),
            name: match random.below(3) {
                0 => random.pick(&[0, 255, 256, 257, 65_535]),
                _ => random.number() as u16,
            },
            epoch: match random.below(3) {
                0 => random.pick(&EPOCHS),
                _ => random.number() as u32,
            },
            block: Block {
                first: half(&mut random),
                second: half(&mut random),
            },
        };
        same_hand_in_on(&mut random, &state, &write)?;
    }
    Ok(())
}

/// Refused by 14: any bytes, or a state with bytes missing or added.
fn other_lengths(run: &mut Run) -> Outcome {
    for length in OTHER_LENGTHS {
        for _ in 0..run.times(20) {
            let mut random = run.next_case();
            let source = Source::new(&mut random);
            let mut state = match random.below(2) {
                0 => random.bytes(STATE),
                _ => source.reached(&mut random),
            };
            state.resize(length, 0);
            let write = source.write(&mut random);
            same_hand_in_on(&mut random, &state, &write)?;
        }
    }
    Ok(())
}
