// Locating a test in its file: the offset of its first field, and its counts.

use reference::damage::{self, LIMITS};
use reference::file::read_with_places;
use reference::generate;
use reference::judge::numbered;
use reference::random::Random;
use reference::refusal::Refusal;

use crate::answer;
use crate::around::{file_with, AROUND};
use crate::calls;
use crate::harness::{same_answer, Outcome, Run, Suite};
use crate::lent::Lent;

pub fn suites() -> Vec<Suite> {
    let suite = |name, run| Suite { name, run };
    vec![
        suite("locate: every test of random files", random_files),
        suite("locate: files at the limits", files_at_limits),
        suite("locate: 12, 13, 19, 20 and 21 main writes", around_20),
        suite("locate: damaged files", damaged_files),
    ]
}

fn located(file: &[u8], number: u64) -> Result<u64, Refusal> {
    let (file, places) = read_with_places(file)?;
    let test = numbered(&file, number)?;
    let at = places[number as usize - 1] as u64;
    let initial = test.initial.len() as u64;
    let main = test.main.len() as u64;
    let checks = test.checks.len() as u64;
    Ok(at + (initial << 16) + (main << 24) + (checks << 32))
}

fn same_place(lent: &Lent, test: u64) -> Outcome {
    let file = lent.content();
    let expected = answer::of(located(file, test));
    let call = format!("locate test {test}");
    same_answer(&call, file, expected, calls::locate(lent, test))
}

/// All numbers from 0 to one above the tests that a file can have, and some far off.
fn same_places(run: &mut Run, random: &mut Random, file: &[u8]) -> Outcome {
    const FAR: [u64; 7] = [
        18,
        255,
        257,
        1 << 16 | 1,
        1 << 32 | 1,
        1 << 63 | 1,
        u64::MAX,
    ];
    let lent = Lent::new(random, file);
    for test in (0..=17).chain(FAR) {
        run.next_case();
        same_place(&lent, test)?;
    }
    lent.unchanged("file")
}

fn random_files(run: &mut Run) -> Outcome {
    for _ in 0..run.times(1_500) {
        let mut random = run.next_case();
        let bytes = generate::file(&mut random).to_mixed_bytes(&mut random);
        same_places(run, &mut random, &bytes)?;
    }
    Ok(())
}

fn files_at_limits(run: &mut Run) -> Outcome {
    for _ in 0..run.times(100) {
        for limit in LIMITS {
            let mut random = run.next_case();
            let bytes = damage::at_limit(&mut random, limit);
            same_places(run, &mut random, &bytes)?;
        }
    }
    for pairs_only in [false, true] {
        let mut random = run.next_case();
        let file = generate::full_file(&mut random, pairs_only);
        for bytes in [file.to_wide_bytes(), file.to_mixed_bytes(&mut random)] {
            same_places(run, &mut random, &bytes)?;
        }
    }
    Ok(())
}

fn around_20(run: &mut Run) -> Outcome {
    for main in AROUND {
        for _ in 0..run.times(60) {
            let mut random = run.next_case();
            let (_, bytes, _) = file_with(&mut random, main);
            same_places(run, &mut random, &bytes)?;
        }
    }
    Ok(())
}

/// Refused by reading, whatever the test.
fn damaged_files(run: &mut Run) -> Outcome {
    for _ in 0..run.times(10_000) {
        let mut random = run.next_case();
        let damaged = damage::any(&mut random);
        let lent = Lent::new(&mut random, &damaged.bytes);
        let test = random.below(18) as u64;
        same_place(&lent, test)?;
        lent.unchanged("file")?;
    }
    Ok(())
}
