// Reading: random files, each kind of damage, limits, cuts and lengths.

use reference::damage::{self, Damaged, Limit, LIMITS};
use reference::file::{read, File, LAST_TAG, LONGEST, LONGEST_FIELD};
use reference::generate;
use reference::random::Random;
use reference::refusal::Refusal;

use crate::answer;
use crate::around::{file_with, AROUND};
use crate::calls;
use crate::harness::{require, same_answer, Outcome, Run, Suite};
use crate::lent::Lent;

pub fn suites() -> Vec<Suite> {
    let suite = |name, run| Suite { name, run };
    vec![
        suite("reading: valid files", valid_files),
        suite("reading: 1, one or two bytes left", one_or_two_left),
        suite("reading: 1, body cut", body_cut),
        suite("reading: 2, unknown tag", unknown_tag),
        suite("reading: 3, wrong length", wrong_length),
        suite("reading: 4, out of order", out_of_order),
        suite("reading: 5, predicate above 2", unknown_predicate),
        suite("reading: 6, one over a limit", over_limit),
        suite("reading: 7, test not ended", not_ended),
        suite("reading: limits reached exactly", at_limit),
        suite("reading: 12, 13, 19, 20 and 21 main writes", around_20),
        suite("reading: cut at every length", cut_at_every_length),
        suite(
            "reading: longest file cut at every length",
            longest_file_cut,
        ),
        suite("reading: bytes changed", bytes_changed),
        suite("reading: bytes put in and taken out", bytes_shifted),
        suite("reading: fields changed", fields_changed),
        suite("reading: fields in any order", any_fields),
        suite("reading: every order of up to five tags", every_order),
        suite("reading: huge lengths", huge_lengths),
        suite("reading: over-long files", over_long),
        suite("reading: every file of up to two bytes", short_files),
        suite("reading: every tag with many lengths", headers),
        suite("reading: random bytes", random_bytes),
    ]
}

fn counts(file: &File) -> u64 {
    file.rules.len() as u64 + 256 * file.tests.len() as u64
}

fn expected_reading(file: &[u8]) -> u64 {
    answer::of(read(file).map(|file| counts(&file)))
}

fn same_reading(random: &mut Random, file: &[u8]) -> Outcome {
    let lent = Lent::new(random, file);
    let got = calls::read(&lent);
    same_answer("read", file, expected_reading(file), got)?;
    lent.unchanged("file")
}

/// The library against a refusal that is known from how the file was made, and the reference too.
fn same_refusal(random: &mut Random, file: &[u8], refusal: Refusal) -> Outcome {
    let known = answer::of(Err(refusal));
    same_answer(
        "read, of the reference",
        file,
        known,
        expected_reading(file),
    )?;
    same_reading(random, file)
}

fn valid_files(run: &mut Run) -> Outcome {
    for _ in 0..run.times(15_000) {
        let mut random = run.next_case();
        let file = generate::file(&mut random);
        let bytes = file.to_mixed_bytes(&mut random);
        let known = counts(&file);
        same_answer(
            "read, of the reference",
            &bytes,
            known,
            expected_reading(&bytes),
        )?;
        same_reading(&mut random, &bytes)?;
    }
    Ok(())
}

fn damaged(run: &mut Run, cases: u64, make: fn(&mut Random) -> Damaged) -> Outcome {
    for _ in 0..run.times(cases) {
        let mut random = run.next_case();
        let damaged = make(&mut random);
        same_refusal(&mut random, &damaged.bytes, damaged.refusal)?;
    }
    Ok(())
}

fn one_or_two_left(run: &mut Run) -> Outcome {
    damaged(run, 10_000, damage::one_or_two_left)
}

fn body_cut(run: &mut Run) -> Outcome {
    damaged(run, 10_000, damage::body_cut)
}

fn unknown_tag(run: &mut Run) -> Outcome {
    damaged(run, 10_000, damage::unknown_tag)
}

fn wrong_length(run: &mut Run) -> Outcome {
    damaged(run, 10_000, damage::wrong_length)
}

fn out_of_order(run: &mut Run) -> Outcome {
    damaged(run, 10_000, damage::out_of_order)
}

fn unknown_predicate(run: &mut Run) -> Outcome {
    damaged(run, 10_000, damage::unknown_predicate)
}

fn over_limit(run: &mut Run) -> Outcome {
    fn of_any_limit(random: &mut Random) -> Damaged {
        let limit: Limit = random.pick(&LIMITS);
        damage::over_limit(random, limit)
    }
    damaged(run, 10_000, of_any_limit)
}

fn not_ended(run: &mut Run) -> Outcome {
    damaged(run, 10_000, damage::not_ended)
}

fn at_limit(run: &mut Run) -> Outcome {
    for _ in 0..run.times(1_000) {
        for limit in LIMITS {
            let mut random = run.next_case();
            let bytes = damage::at_limit(&mut random, limit);
            same_reading(&mut random, &bytes)?;
        }
    }
    for pairs_only in [false, true] {
        for _ in 0..run.times(50) {
            let mut random = run.next_case();
            let file = generate::full_file(&mut random, pairs_only);
            let bytes = file.to_mixed_bytes(&mut random);
            let full = counts(&generate::full_file(&mut random, true));
            same_answer(
                "read, of the reference",
                &bytes,
                full,
                expected_reading(&bytes),
            )?;
            same_reading(&mut random, &bytes)?;
        }
    }
    Ok(())
}

/// Accepted up to 20, and the 21st refused where it stands, whatever is before and behind.
fn around_20(run: &mut Run) -> Outcome {
    for main in AROUND {
        for _ in 0..run.times(200) {
            let mut random = run.next_case();
            let (file, bytes, refusal) = file_with(&mut random, main);
            match refusal {
                Some(refusal) => same_refusal(&mut random, &bytes, refusal)?,
                None => {
                    let known = counts(&file);
                    let of_reference = expected_reading(&bytes);
                    same_answer("read, of the reference", &bytes, known, of_reference)?;
                    same_reading(&mut random, &bytes)?;
                }
            }
        }
    }
    require(
        LONGEST == 22_448,
        "the longest file has 22,448 bytes",
        LONGEST.to_string(),
    )
}

/// The first `length` bytes, with the rest of the file behind them.
fn same_reading_cut(lent: &mut Lent, length: usize) -> Outcome {
    lent.cut(length);
    let file = lent.content();
    same_answer("read", file, expected_reading(file), calls::read(lent))
}

fn cut_everywhere(run: &mut Run, files: u64, make: fn(&mut Random) -> Vec<u8>) -> Outcome {
    for _ in 0..run.times(files) {
        let mut random = run.next_case();
        let bytes = make(&mut random);
        let mut lent = Lent::new(&mut random, &bytes);
        for length in 0..=bytes.len() {
            run.next_case();
            same_reading_cut(&mut lent, length)?;
        }
        lent.unchanged("file")?;
    }
    Ok(())
}

fn cut_at_every_length(run: &mut Run) -> Outcome {
    cut_everywhere(run, 250, |random| {
        generate::small_file(random).to_mixed_bytes(random)
    })
}

fn longest_file_cut(run: &mut Run) -> Outcome {
    cut_everywhere(run, 1, |random| {
        generate::full_file(random, true).to_wide_bytes()
    })
}

fn changed(run: &mut Run, cases: u64, make: fn(&mut Random, &File) -> Vec<u8>) -> Outcome {
    for _ in 0..run.times(cases) {
        let mut random = run.next_case();
        let file = if random.one_in(10) {
            generate::file(&mut random)
        } else {
            generate::small_file(&mut random)
        };
        let bytes = make(&mut random, &file);
        same_reading(&mut random, &bytes)?;
    }
    Ok(())
}

fn bytes_changed(run: &mut Run) -> Outcome {
    changed(run, 20_000, damage::bytes_changed)
}

fn bytes_shifted(run: &mut Run) -> Outcome {
    changed(run, 20_000, damage::bytes_shifted)
}

fn fields_changed(run: &mut Run) -> Outcome {
    changed(run, 20_000, damage::fields_changed)
}

fn any_fields(run: &mut Run) -> Outcome {
    for _ in 0..run.times(20_000) {
        let mut random = run.next_case();
        let bytes = damage::any_fields(&mut random);
        same_reading(&mut random, &bytes)?;
    }
    Ok(())
}

/// All sequences of up to five fields, of the ten tags and an unknown one.
fn every_order(run: &mut Run) -> Outcome {
    const TAGS: usize = LAST_TAG as usize + 1;
    for length in 0..=5 {
        for number in 0..TAGS.pow(length) {
            let mut random = run.next_case();
            let (mut bytes, mut left) = (Vec::new(), number);
            for _ in 0..length {
                let tag = (left % TAGS) as u8 + 1;
                left /= TAGS;
                damage::field(&mut random, tag).append_to(&mut bytes);
            }
            same_reading(&mut random, &bytes)?;
        }
    }
    Ok(())
}

fn huge_lengths(run: &mut Run) -> Outcome {
    for _ in 0..run.times(2_000) {
        let mut random = run.next_case();
        let bytes = damage::huge_length(&mut random);
        same_reading(&mut random, &bytes)?;
    }
    Ok(())
}

/// Files longer than any accepted one, also up to a field past the longest: the same refusal.
fn over_long(run: &mut Run) -> Outcome {
    for _ in 0..run.times(1_000) {
        let mut random = run.next_case();
        let bytes = damage::over_long(&mut random);
        let start = &bytes[..bytes.len().min(LONGEST + LONGEST_FIELD)];
        let whole = expected_reading(&bytes);
        require(
            read(&bytes).is_err(),
            "a file over the longest is refused",
            answer::show(whole),
        )?;
        same_answer(
            "read, of the reference",
            start,
            whole,
            expected_reading(start),
        )?;
        same_reading(&mut random, &bytes)?;
        same_reading(&mut random, start)?;
    }
    Ok(())
}

fn short_files(run: &mut Run) -> Outcome {
    let mut random = run.next_case();
    same_reading(&mut random, &[])?;
    for first in 0..=255 {
        run.next_case();
        same_reading(&mut random, &[first])?;
        for second in 0..=255 {
            run.next_case();
            same_reading(&mut random, &[first, second])?;
        }
    }
    Ok(())
}

/// A first field of each tag and many lengths, its body missing, short, there, or followed.
fn headers(run: &mut Run) -> Outcome {
    const LENGTHS: [u16; 24] = [
        0, 1, 2, 3, 4, 5, 6, 9, 10, 11, 12, 13, 14, 255, 256, 257, 259, 261, 266, 267, 2560, 32768,
        65534, 65535,
    ];
    for tag in 0..=255 {
        for length in LENGTHS {
            for body in [0, 1, 2, 3, 4, 5, 6, 9, 10, 11, 12] {
                let mut random = run.next_case();
                let mut bytes = vec![tag];
                bytes.extend(length.to_be_bytes());
                bytes.extend(random.bytes(body));
                same_reading(&mut random, &bytes)?;
            }
        }
    }
    Ok(())
}

fn random_bytes(run: &mut Run) -> Outcome {
    for _ in 0..run.times(10_000) {
        let mut random = run.next_case();
        let length = random.below(40);
        let mut bytes = random.bytes(length);
        if random.one_in(2) {
            for byte in bytes.iter_mut() {
                *byte %= LAST_TAG + 2;
            }
        }
        same_reading(&mut random, &bytes)?;
    }
    Ok(())
}
