// The judging program, run as a child process: what it prints, however its input comes and wherever
// its output goes.

use std::fs;
use std::os::unix::process::ExitStatusExt;
use std::process::ExitStatus;
use std::time::Duration;

use reference::crashes;
use reference::damage;
use reference::file::{File, LAST_TAG, LONGEST};
use reference::generate;
use reference::program::output;
use reference::random::Random;
use reference::samples;
use reference::writes::Rule;

use crate::around::{file_with, AROUND};
use crate::child::{self, Ended, Input};
use crate::harness::{fail, hexadecimal, require, Outcome, Run, Suite};
use crate::paths;

pub fn suites() -> Vec<Suite> {
    let suite = |name, run| Suite { name, run };
    vec![
        suite("program: K1 to K3", bench_sheet),
        suite("program: no input", no_input),
        suite("program: the one byte 01", one_byte),
        suite("program: the samples", sample_files),
        suite("program: writes that meet, rules that match", telling_files),
        suite("program: random files", random_files),
        suite("program: 12, 13, 19, 20 and 21 main writes", around_20),
        suite("program: damaged and cyclic files", refused_files),
        suite(
            "program: the longest file, and longer by a few bytes",
            longest,
        ),
        suite("program: 100 kB and 5 MB", far_too_long),
        suite("program: endless input", endless),
        suite("program: over-long input that is left open", left_open),
        suite("program: in tiny pieces with pauses", tiny_pieces),
        suite("program: in two pieces, cut everywhere", two_pieces),
        suite("program: input that cannot be read", unreadable),
        suite("program: output that cannot be written", unwritable),
    ]
}

fn by_itself(status: Option<ExitStatus>) -> bool {
    status.map_or(false, |status| status.signal().is_none())
}

fn ending(ended: &Ended) -> String {
    match ended.status {
        None => "it had to be stopped".to_string(),
        Some(status) => format!("{status}, {:?}", String::from_utf8_lossy(&ended.errors)),
    }
}

/// The program ended by itself and printed this, and nothing to standard error.
fn prints(call: &str, file: &[u8], expected: &str, ended: &Ended) -> Outcome {
    let right = ended.output == expected.as_bytes() && ended.errors.is_empty();
    if right && by_itself(ended.status) {
        return Ok(());
    }
    let start = &file[..file.len().min(LONGEST + 100)];
    fail(
        call,
        &[("file", start)],
        format!("{expected:?}"),
        format!(
            "{:?} ({}), {}",
            String::from_utf8_lossy(&ended.output),
            hexadecimal(&ended.output),
            ending(ended)
        ),
    )
}

fn same_output(file: &[u8]) -> Outcome {
    let ended = child::on(Input::Whole(file.to_vec()));
    prints("the program", file, &output(file), &ended)
}

fn each(run: &mut Run, cases: u64, make: fn(&mut Random) -> Vec<u8>) -> Outcome {
    for _ in 0..run.times(cases) {
        let mut random = run.next_case();
        same_output(&make(&mut random))?;
    }
    Ok(())
}

/// Test K under these rules.
fn file_k(rules: &[Rule]) -> Vec<u8> {
    let file = File {
        rules: rules.to_vec(),
        tests: vec![samples::test_k()],
    };
    file.to_bytes()
}

fn known(run: &mut Run, file: &[u8], expected: &str) -> Outcome {
    run.next_case();
    let ended = child::on(Input::Whole(file.to_vec()));
    prints("the program", file, expected, &ended)
}

fn bench_sheet(run: &mut Run) -> Outcome {
    let both = samples::log_rules();
    known(run, &file_k(&both), "1 7 0 holds\n")?;
    known(run, &file_k(&[]), "1 16 8 fails\n")?;
    known(run, &file_k(&both[..1]), "1 9 1 fails\n")
}

fn no_input(run: &mut Run) -> Outcome {
    known(run, &[], "")?;
    run.next_case();
    prints(
        "the program on /dev/null",
        &[],
        "",
        &child::by_shell("exec \"$0\" </dev/null", &[]),
    )
}

fn one_byte(run: &mut Run) -> Outcome {
    known(run, &[1], "refused 1 0\n")
}

/// The files of samples/ as they are.
fn sample_files(run: &mut Run) -> Outcome {
    for sample in samples::samples() {
        run.next_case();
        match fs::read(paths::samples().join(sample.name)) {
            Ok(bytes) => same_output(&bytes)?,
            Err(error) => require(false, sample.name, error.to_string())?,
        }
    }
    Ok(())
}

fn telling_files(run: &mut Run) -> Outcome {
    each(run, 150, |random| {
        crashes::file(random).to_mixed_bytes(random)
    })
}

fn random_files(run: &mut Run) -> Outcome {
    each(run, 150, |random| {
        generate::file(random).to_mixed_bytes(random)
    })
}

fn around_20(run: &mut Run) -> Outcome {
    for main in AROUND {
        for _ in 0..run.times(20) {
            let mut random = run.next_case();
            let (_, bytes, _) = file_with(&mut random, main);
            same_output(&bytes)?;
        }
    }
    Ok(())
}

fn refused_files(run: &mut Run) -> Outcome {
    each(run, 150, |random| {
        if random.one_in(4) {
            let mut file = crashes::file(random);
            file.rules = generate::nearly_cyclic_rules(random);
            return file.to_mixed_bytes(random);
        }
        damage::any(random).bytes
    })
}

/// A file as long as one can be, without cyclic rules.
fn longest_file(random: &mut Random) -> Vec<u8> {
    let mut file = generate::full_file(random, true);
    let values = generate::Values::small(random);
    file.rules = crashes::padded(random, &values, &[]);
    file.to_wide_bytes()
}

/// Accepted, and refused where the 17th test would begin or just before.
fn longest(run: &mut Run) -> Outcome {
    let file = longest_file(&mut run.next_case());
    require(
        file.len() == LONGEST && !output(&file).starts_with("refused"),
        "an accepted file of that length",
        format!("{} bytes", file.len()),
    )?;
    same_output(&file)?;
    same_output(&file[..LONGEST - 1])?;
    for longer in [1, 2, 3, 4, 12, 13, 14, 15, 16, 100, 4096] {
        for tag in 1..=LAST_TAG + 1 {
            let mut random = run.next_case();
            let mut bytes = file.clone();
            while bytes.len() < LONGEST + longer {
                damage::field(&mut random, tag).append_to(&mut bytes);
            }
            bytes.truncate(LONGEST + longer);
            same_output(&bytes)?;
        }
    }
    Ok(())
}

/// `length` bytes of a file that reading gets far into, and of what follows.
fn over_long(random: &mut Random, length: usize) -> Vec<u8> {
    let mut bytes = longest_file(random);
    if random.one_in(2) {
        // A test not ended, with too many checks.
        bytes.truncate(LONGEST - 3);
    }
    let rest = damage::field(random, 5);
    while bytes.len() < length {
        rest.append_to(&mut bytes);
    }
    bytes
}

fn far_too_long(run: &mut Run) -> Outcome {
    for length in [100_000, 100_000, 5_000_000, 5_000_000] {
        let mut random = run.next_case();
        same_output(&over_long(&mut random, length))?;
        same_output(&damage::over_long(&mut random))?;
    }
    Ok(())
}

fn endless(run: &mut Run) -> Outcome {
    run.next_case();
    let ended = child::by_shell("exec \"$0\" </dev/zero", &[]);
    prints("the program on /dev/zero", &[], "refused 2 0\n", &ended)?;
    let file = longest_file(&mut run.next_case());
    for (first, then) in [
        (vec![], vec![3, 0, 3, 2, 0, 1]),
        (vec![], vec![7, 0, 0]),
        (vec![], vec![1]),
        (file.clone(), vec![7, 0, 0]),
        (file[..LONGEST - 3].to_vec(), vec![6, 0, 1, 9]),
    ] {
        run.next_case();
        let mut start = first.clone();
        start.extend(then.repeat(10_000));
        let ended = child::on(Input::Endless(first, then));
        prints("the program without end", &start, &output(&start), &ended)?;
    }
    Ok(())
}

fn left_open(run: &mut Run) -> Outcome {
    for _ in 0..run.times(4) {
        let mut random = run.next_case();
        let file = over_long(&mut random, 100_000);
        let ended = child::on(Input::LeftOpen(file.clone()));
        prints("the program, left open", &file, &output(&file), &ended)?;
    }
    Ok(())
}

fn in_pieces(file: &[u8], pieces: Vec<Vec<u8>>, pause: u64) -> Outcome {
    let ended = child::on(Input::Pieces(pieces, Duration::from_millis(pause)));
    prints("the program, in pieces", file, &output(file), &ended)
}

fn tiny_pieces(run: &mut Run) -> Outcome {
    let k1 = file_k(&samples::log_rules());
    in_pieces(&k1, k1.chunks(1).map(<[u8]>::to_vec).collect(), 1)?;
    for _ in 0..run.times(6) {
        let mut random = run.next_case();
        let file = generate::small_file(&mut random).to_mixed_bytes(&mut random);
        let (mut pieces, mut at) = (Vec::new(), 0);
        while at < file.len() {
            let end = file.len().min(at + random.between(1, 9));
            pieces.push(file[at..end].to_vec());
            at = end;
        }
        in_pieces(&file, pieces, 1)?;
    }
    // The longest file, in pieces that end anywhere in a field.
    let file = longest_file(&mut run.next_case());
    in_pieces(&file, file.chunks(997).map(<[u8]>::to_vec).collect(), 2)
}

fn two_pieces(run: &mut Run) -> Outcome {
    let file = file_k(&samples::log_rules());
    for cut in 0..=file.len() {
        run.next_case();
        let (one, two) = file.split_at(cut);
        in_pieces(&file, vec![one.to_vec(), two.to_vec()], 2)?;
    }
    Ok(())
}

/// A closed input and a directory: nothing is printed, and standard error says why.
fn unreadable(run: &mut Run) -> Outcome {
    for line in ["exec \"$0\" <&-", "exec \"$0\" </"] {
        run.next_case();
        let ended = child::by_shell(line, &[]);
        require(
            by_itself(ended.status) && ended.output.is_empty() && !ended.errors.is_empty(),
            "it ends by itself, with a word about it to standard error alone",
            ending(&ended),
        )?;
    }
    Ok(())
}

/// The program ends, by itself or, where nobody reads its pipe, by that signal.
fn unwritable(run: &mut Run) -> Outcome {
    const BROKEN_PIPE: i32 = 13;
    let file = file_k(&[]);
    for _ in 0..run.times(5) {
        run.next_case();
        let ended = child::unread(&file);
        let signal = ended.status.and_then(|status| status.signal());
        require(
            by_itself(ended.status) || signal == Some(BROKEN_PIPE),
            "it ends by itself or by a broken pipe",
            ending(&ended),
        )?;
    }
    for line in ["exec \"$0\" >&-", "exec \"$0\" >/dev/full"] {
        run.next_case();
        let ended = child::by_shell(line, &file);
        require(by_itself(ended.status), "it ends by itself", ending(&ended))?;
    }
    Ok(())
}
