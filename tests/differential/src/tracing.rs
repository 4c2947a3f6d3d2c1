// Traces of the reading log: the test of two programs of puts, written to a buffer.

use reference::file::bytes_of;
use reference::log::{test_of, trace, MOST_INITIAL_PUTS, MOST_MAIN_PUTS, PUT};
use reference::random::Random;
use reference::refusal;
use reference::writes::Block;

use crate::answer;
use crate::calls;
use crate::harness::{same_answer_on, Outcome, Run, Suite};
use crate::lent::Lent;

pub fn suites() -> Vec<Suite> {
    let suite = |name, run| Suite { name, run };
    vec![
        suite("trace: the bench sheet's lines", bench_sheet),
        suite("trace: every number of puts", every_number),
        suite("trace: 9, 10 and 11 main puts", around_10),
        suite("trace: any programs", any_programs),
        suite("trace: 12, every buffer around a trace", buffers),
    ]
}

fn same_trace(random: &mut Random, initial: &[u8], main: &[u8], length: usize) -> Outcome {
    let (one, two) = (Lent::new(random, initial), Lent::new(random, main));
    let content = random.bytes(length);
    let mut buffer = Lent::new(random, &content);
    let mut after = content;
    let expected = trace(initial, main, &mut after).map(|length| length as u64);
    let got = calls::trace(&one, &two, &mut buffer);
    let inputs = [("initial", initial), ("main", main)];
    let call = format!("trace into {length} bytes");
    same_answer_on(&call, &inputs, answer::of(expected), got)?;
    one.unchanged("initial")?;
    two.unchanged("main")?;
    buffer.became("buffer", &after)
}

/// The initial put (0,42) of test K, its main puts (1,81) and (2,37), and K as the sheet's bytes.
const INITIAL_K: [u8; 4] = [0, 0, 0, 42];
const MAIN_K: [u8; 8] = [0, 1, 0, 81, 0, 2, 0, 37];
const K: [u8; 85] = [
    1, 0, 10, 1, 1, 0, 0, 0, 0, 0, 0, 0, 42, // (0,42) to address 1
    1, 0, 10, 0, 2, 0, 0, 0, 0, 0, 1, 0, 2, // superblock (1,2)
    2, 0, 10, 2, 1, 0, 0, 0, 1, 0, 1, 0, 81, // (1,81) to address 2
    2, 0, 10, 0, 2, 0, 0, 0, 1, 0, 1, 0, 3, // superblock (1,3)
    2, 0, 10, 3, 1, 0, 0, 0, 2, 0, 2, 0, 37, // (2,37) to address 3
    2, 0, 10, 0, 2, 0, 0, 0, 2, 0, 1, 0, 4, // superblock (1,4)
    4, 0, 1, 0, 7, 0, 0, // the range check at 0, and the end
];

/// A put of (0,0) is 20, (0,42) is accepted; 85 bytes hold K, 84 give 12. The answers are written
/// out, and no implementation is asked.
fn bench_sheet(run: &mut Run) -> Outcome {
    let refused = |number: u64| (1 << 63) + (number << 32);
    let lines: [(&[u8], &[u8], usize, u64, &[u8]); 5] = [
        (&[0; 4], &[], 100, refused(20), &[]),
        (&[], &[0; 4], 100, refused(20), &[]),
        (&INITIAL_K, &[], 33, 33, &[]),
        (&INITIAL_K, &MAIN_K, 85, 85, &K),
        (&INITIAL_K, &MAIN_K, 84, refused(12), &[]),
    ];
    for (initial, main, length, expected, bytes) in lines {
        let mut random = run.next_case();
        let (one, two) = (
            Lent::new(&mut random, initial),
            Lent::new(&mut random, main),
        );
        let mut after = random.bytes(length);
        let mut buffer = Lent::new(&mut random, &after);
        let got = calls::trace(&one, &two, &mut buffer);
        let inputs = [("initial", initial), ("main", main)];
        same_answer_on(
            &format!("trace into {length} bytes"),
            &inputs,
            expected,
            got,
        )?;
        if expected < 1 << 63 && bytes.is_empty() {
            continue;
        }
        after[..bytes.len()].copy_from_slice(bytes);
        buffer.became("buffer", &after)?;
    }
    Ok(())
}

/// So many puts; with zeros in them, but none of (0,0).
fn program(random: &mut Random, puts: usize) -> Vec<u8> {
    let mut bytes = Vec::new();
    while bytes.len() < PUT * puts {
        let put: Vec<u8> = (0..PUT)
            .map(|_| if random.one_in(3) { 0 } else { random.byte() })
            .collect();
        if put.iter().any(|&byte| byte != 0) {
            bytes.extend(put);
        }
    }
    bytes
}

/// The length of the trace of so many puts.
fn trace_length(puts: usize) -> usize {
    26 * puts + 7
}

fn every_number(run: &mut Run) -> Outcome {
    for initial in 0..=MOST_INITIAL_PUTS + 2 {
        for main in 0..=MOST_MAIN_PUTS + 2 {
            let mut random = run.next_case();
            let (one, two) = (program(&mut random, initial), program(&mut random, main));
            same_trace(&mut random, &one, &two, trace_length(initial + main) + 20)?;
        }
    }
    Ok(())
}

/// Up to 10 are accepted; the answers are known, and the bytes are those of the test.
fn around_10(run: &mut Run) -> Outcome {
    for main in [9, 10, 11] {
        for initial in [0, 1, 31, 32] {
            for room in [0, 1, 300] {
                let mut random = run.next_case();
                let (one, two) = (program(&mut random, initial), program(&mut random, main));
                let needed = trace_length(initial + main);
                let expected = match main {
                    11 => Err(refusal::plain(refusal::OVER_LIMIT)),
                    _ => Ok(needed as u64),
                };
                let lent = (Lent::new(&mut random, &one), Lent::new(&mut random, &two));
                let mut after = random.bytes(needed + room);
                let mut buffer = Lent::new(&mut random, &after);
                let got = calls::trace(&lent.0, &lent.1, &mut buffer);
                let inputs = [("initial", &one[..]), ("main", &two[..])];
                same_answer_on("trace", &inputs, answer::of(expected), got)?;
                if expected.is_ok() {
                    let puts = |program: &[u8]| -> Vec<Block> {
                        program.chunks(PUT).map(Block::from_bytes).collect()
                    };
                    let test = test_of(&puts(&one), &puts(&two));
                    after[..needed].copy_from_slice(&bytes_of(&test.fields()));
                }
                buffer.became("buffer", &after)?;
                same_trace(&mut random, &one, &two, needed + room)?;
            }
        }
    }
    Ok(())
}

/// Programs of any length, with puts of (0,0) among them: each refusal, and several at once.
fn any_programs(run: &mut Run) -> Outcome {
    for _ in 0..run.times(5_000) {
        let mut random = run.next_case();
        let mut any = |most: usize| {
            let puts = match random.below(4) {
                0 => random.between(most, most + 2),
                _ => random.below(most + 1),
            };
            let mut bytes = program(&mut random, puts);
            if puts > 0 && random.one_in(4) {
                let at = PUT * random.below(puts);
                bytes[at..at + PUT].fill(0);
            }
            if random.one_in(6) {
                let length = random.below(PUT);
                bytes.extend(random.bytes(length));
            }
            bytes
        };
        let (one, two) = (any(MOST_INITIAL_PUTS), any(MOST_MAIN_PUTS));
        let needed = trace_length((one.len() + two.len()) / PUT);
        let length = match random.below(3) {
            0 => random.below(needed),
            _ => needed + random.below(20),
        };
        same_trace(&mut random, &one, &two, length)?;
    }
    Ok(())
}

fn buffers(run: &mut Run) -> Outcome {
    for (initial, main) in [(0, 0), (1, 2), (5, 0), (0, 10), (32, 10)] {
        let mut random = run.next_case();
        let (one, two) = (program(&mut random, initial), program(&mut random, main));
        for length in 0..trace_length(initial + main) + 3 {
            run.next_case();
            same_trace(&mut random, &one, &two, length)?;
        }
    }
    Ok(())
}
