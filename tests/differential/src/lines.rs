// What the judging program prints for a file, written to a buffer.

use reference::checks::Check;
use reference::crashes;
use reference::damage;
use reference::file::{File, MOST_MAIN, MOST_TESTS};
use reference::generate;
use reference::program;
use reference::random::Random;
use reference::refusal;
use reference::writes::{Block, EMPTY};

use crate::answer;
use crate::around::{file_with, AROUND};
use crate::calls;
use crate::harness::{require, same_answer_on, Outcome, Run, Suite};
use crate::lent::Lent;

/// The least buffer that is accepted.
pub const LEAST: usize = 400;

pub fn suites() -> Vec<Suite> {
    let suite = |name, run| Suite { name, run };
    vec![
        suite("lines: writes that meet, rules that match", telling_files),
        suite("lines: small tests in which all things meet", tangled_files),
        suite("lines: random files", random_files),
        suite("lines: 16 tests of 12 main writes", most_tests),
        suite("lines: 16 tests of 20 main writes", most_writes),
        suite("lines: the longest text, 391 bytes", longest_text),
        suite("lines: 12, 13, 19, 20 and 21 main writes", around_20),
        suite("lines: damaged and cyclic files", refused_files),
        suite("lines: short files, over-long files", other_files),
        suite("lines: 12, every buffer too short", short_buffers),
    ]
}

/// Into a buffer of this length: the text at its start and the rest as it was, or 12 alone.
fn same_lines_in(random: &mut Random, file: &[u8], length: usize) -> Outcome {
    let lent = Lent::new(random, file);
    let content = random.bytes(length);
    let mut out = Lent::new(random, &content);
    let mut after = content;
    let expected = if length < LEAST {
        Err(refusal::plain(refusal::BUFFER_TOO_SHORT))
    } else {
        let text = program::output(file);
        after[..text.len()].copy_from_slice(text.as_bytes());
        Ok(text.len() as u64)
    };
    let got = calls::judge_lines(&lent, &mut out);
    let call = format!("judge_lines into {length} bytes");
    same_answer_on(&call, &[("file", file)], answer::of(expected), got)?;
    lent.unchanged("file")?;
    out.became("out", &after)
}

fn same_lines(random: &mut Random, file: &[u8]) -> Outcome {
    for length in [0, LEAST - 1, LEAST, 4096] {
        same_lines_in(random, file, length)?;
    }
    Ok(())
}

fn each(run: &mut Run, cases: u64, make: fn(&mut Random) -> Vec<u8>) -> Outcome {
    for _ in 0..run.times(cases) {
        let mut random = run.next_case();
        let bytes = make(&mut random);
        same_lines(&mut random, &bytes)?;
    }
    Ok(())
}

fn telling_files(run: &mut Run) -> Outcome {
    each(run, 1_500, |random| {
        crashes::file(random).to_mixed_bytes(random)
    })
}

fn tangled_files(run: &mut Run) -> Outcome {
    each(run, 3_000, |random| {
        let mut file = crashes::tangled_file(random);
        for _ in 0..random.below(3) {
            file.tests.extend(crashes::tangled_file(random).tests);
        }
        file.to_mixed_bytes(random)
    })
}

fn random_files(run: &mut Run) -> Outcome {
    each(run, 500, |random| {
        generate::file(random).to_mixed_bytes(random)
    })
}

/// 16 lines, with counts of four digits where there are no rules.
fn most_tests(run: &mut Run) -> Outcome {
    each(run, 4, |random| full_of_tests(random, 12))
}

/// Likewise, with counts of seven digits.
fn most_writes(run: &mut Run) -> Outcome {
    each(run, 10, |random| full_of_tests(random, MOST_MAIN))
}

fn full_of_tests(random: &mut Random, main: usize) -> Vec<u8> {
    let mut file = crashes::file(random);
    file.rules.truncate(random.below(3));
    file.tests.clear();
    let values = generate::Values::small(random);
    while file.tests.len() < MOST_TESTS {
        file.tests.push(crashes::test(random, &values, main));
    }
    file.to_mixed_bytes(random)
}

/// 16 tests without rules of which every schedule is bad: no text is longer, and it fits into the
/// least buffer. The text is written out, and no implementation is asked.
fn longest_text(run: &mut Run) -> Outcome {
    let values = generate::Values::small(&mut run.next_case());
    for _ in 0..run.times(3) {
        let mut random = run.next_case();
        let test = |random: &mut Random| {
            let mut test = generate::test_of(random, &values, 3, MOST_MAIN, 0);
            // What is nowhere on the disk cannot be asked for.
            let (first, second) = (7, 7);
            let at = test.main[0].address;
            test.checks = vec![Check::Pair {
                a: 77,
                v: EMPTY,
                b: at,
                w: Block { first, second },
            }];
            test
        };
        let file = File {
            rules: vec![],
            tests: (0..MOST_TESTS).map(|_| test(&mut random)).collect(),
        };
        let bytes = file.to_mixed_bytes(&mut random);
        let text: String = (1..=MOST_TESTS)
            .map(|number| format!("{number} 1048576 1048576 fails\n"))
            .collect();
        require(text.len() == 391, "391 bytes", text.len().to_string())?;
        let lent = Lent::new(&mut random, &bytes);
        let mut after = random.bytes(LEAST);
        let mut out = Lent::new(&mut random, &after);
        let got = calls::judge_lines(&lent, &mut out);
        same_answer_on("judge_lines", &[("file", &bytes)], 391, got)?;
        after[..391].copy_from_slice(text.as_bytes());
        out.became("out", &after)?;
        same_lines(&mut random, &bytes)?;
    }
    Ok(())
}

fn around_20(run: &mut Run) -> Outcome {
    for main in AROUND {
        for _ in 0..run.times(40) {
            let mut random = run.next_case();
            let (_, bytes, refusal) = file_with(&mut random, main);
            if let Some(refusal) = refusal {
                let known = format!("refused {} {}\n", refusal.number, refusal.place);
                let text = program::output(&bytes);
                require(text == known, &known, text)?;
            }
            same_lines(&mut random, &bytes)?;
        }
    }
    Ok(())
}

fn refused_files(run: &mut Run) -> Outcome {
    each(run, 3_000, |random| {
        if random.one_in(4) {
            let mut file = crashes::file(random);
            file.rules = generate::nearly_cyclic_rules(random);
            return file.to_mixed_bytes(random);
        }
        damage::any(random).bytes
    })
}

fn other_files(run: &mut Run) -> Outcome {
    each(run, 300, damage::over_long)?;
    each(run, 300, |random| {
        let length = random.below(4);
        random.bytes(length)
    })
}

/// Refused before anything of the file is looked at.
fn short_buffers(run: &mut Run) -> Outcome {
    for length in 0..LEAST + 20 {
        let mut random = run.next_case();
        let bytes = match random.below(3) {
            0 => damage::any(&mut random).bytes,
            _ => generate::small_file(&mut random).to_mixed_bytes(&mut random),
        };
        same_lines_in(&mut random, &bytes, length)?;
    }
    Ok(())
}
