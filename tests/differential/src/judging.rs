// Judging a test: the counts of its schedules, the smallest bad one, and the verdict.

use reference::checks::Check;
use reference::counts::{self, expected, FEW};
use reference::crashes;
use reference::damage::{self, LIMITS};
use reference::file::{File, Test, MOST_CHECKS, MOST_INITIAL, MOST_MAIN, MOST_RULES, MOST_TESTS};
use reference::generate::{self, Values};
use reference::judge::{bad_schedules, judge_test, numbered, readable, smallest, Judgement};
use reference::log::{self, MOST_MAIN_PUTS};
use reference::random::Random;
use reference::refusal::Refusal;
use reference::samples;
use reference::schedule::flags;
use reference::smallest::{self as made, four_not_three};
use reference::writes::{
    block, rule, write, Block, Name, Predicate, Rule, Write, EMPTY, PREDICATES,
};

use crate::answer;
use crate::around::{file_with, AROUND};
use crate::calls;
use crate::harness::{fail, require, same_answer, Outcome, Run, Suite};
use crate::lent::Lent;

pub fn suites() -> Vec<Suite> {
    let suite = |name, run| Suite { name, run };
    vec![
        suite("judge: the bench sheet", bench_sheet),
        suite("judge: writes that meet, rules that match", telling_files),
        suite("judge: small tests in which all things meet", tangled_files),
        suite("judge: logs", logs),
        suite("judge: head around tail", heads_around_tails),
        suite("judge: one bad schedule", chains),
        suite("judge: random files", random_files),
        suite(
            "judge: no main writes, checks at their limits",
            no_main_writes,
        ),
        suite("judge: bad from the start", bad_from_the_start),
        suite("judge: every rule on every two labels", every_two_labels),
        suite("judge: 12 main writes", twelve_main_writes),
        suite("judge: 13 to 19 main writes", up_to_19_main_writes),
        suite("judge: 20 main writes", most_main_writes),
        suite(
            "judge: 13 to 20 main writes that all meet",
            tangled_up_to_20_main_writes,
        ),
        suite("judge: long ranges", long_ranges),
        suite(
            "judge: 13 to 20 main writes, schedule by schedule",
            schedule_by_schedule,
        ),
        suite(
            "judge: 13 to 20 main writes, against Rust by open checks",
            against_open_checks,
        ),
        suite("judge: logs of 9 and 10 puts", long_logs),
        suite("judge: traces as long as the paper's", as_in_the_paper),
        suite("judge: 12, 13, 19, 20 and 21 main writes", around_20),
        suite(
            "judge: the schedule shown, and the verdict's",
            schedules_shown,
        ),
        suite("judge: smallest schedules that are known", known_schedules),
        suite("judge: fewer flags by a greater number", fewer_flags),
        suite("judge: bad with no flag", no_flags),
        suite("judge: many of as few flags", as_few_flags),
        suite(
            "judge: two writes, and those that they depend on",
            two_blocks,
        ),
        suite(
            "judge: smallest schedules at the limits",
            smallest_at_limits,
        ),
        suite(
            "judge: judge and verdict show the same schedule",
            judge_and_verdict,
        ),
        suite("judge: 32 rules", most_rules),
        suite("judge: full files", full_files),
        suite("judge: files at the limits", files_at_limits),
        suite("judge: 8, cyclic rules", cyclic_rules),
        suite("judge: damaged files", damaged_files),
    ]
}

/// The judgement that an answer of the routine stands for.
fn judgement_of(answer: u64) -> Judgement {
    const COUNT: u64 = (1 << 21) - 1;
    Judgement {
        valid: answer & COUNT,
        bad: answer >> 21 & COUNT,
        shown: answer >> 42,
    }
}

/// The counts and the schedule shown are the expected ones.
fn same_judgement(file: &[u8], number: u64, expected: &Judgement, got: u64) -> Outcome {
    let found = judgement_of(got);
    if found == *expected {
        return Ok(());
    }
    fail(
        &format!("judge test {number}"),
        &[("file", file)],
        format!("{expected:?}"),
        format!("{found:?} ({})", answer::show(got)),
    )
}

/// 0 if no schedule is bad, else 1 + the number of the one that the judge shows.
fn same_verdict(file: &[u8], number: u64, expected: &Judgement, got: u64) -> Outcome {
    let known = match expected.bad {
        0 => 0,
        _ => 1 + expected.shown,
    };
    same_answer(&format!("verdict on test {number}"), file, known, got)
}

/// Both routines on one test.
fn same_on(lent: &Lent, file: &Result<File, Refusal>, number: u64) -> Outcome {
    let bytes = lent.content();
    let (judged, verdict) = (calls::judge(lent, number), calls::verdict(lent, number));
    let test = file
        .as_ref()
        .map_err(|refusal| *refusal)
        .and_then(|file| Ok((&file.rules, numbered(file, number)?)));
    match test {
        Ok((rules, test)) => {
            let known = expected(rules, test);
            same_judgement(bytes, number, &known, judged)?;
            same_verdict(bytes, number, &known, verdict)?;
        }
        Err(refusal) => {
            let refused = answer::of(Err(refusal));
            same_answer(&format!("judge test {number}"), bytes, refused, judged)?;
            same_answer(
                &format!("verdict on test {number}"),
                bytes,
                refused,
                verdict,
            )?;
        }
    }
    lent.unchanged("file")
}

/// A file in old and new tags.
fn lend(random: &mut Random, file: &File) -> Lent {
    let bytes = file.to_mixed_bytes(random);
    Lent::new(random, &bytes)
}

/// Both routines on a file of one test whose judgement is known.
fn same_as_known(random: &mut Random, file: &File, known: &Judgement) -> Outcome {
    let lent = lend(random, file);
    same_judgement(lent.content(), 1, known, calls::judge(&lent, 1))?;
    same_verdict(lent.content(), 1, known, calls::verdict(&lent, 1))?;
    lent.unchanged("file")
}

fn same_on_each(random: &mut Random, bytes: &[u8], numbers: &[u64]) -> Outcome {
    let lent = Lent::new(random, bytes);
    let file = readable(bytes);
    numbers.iter().try_for_each(|&n| same_on(&lent, &file, n))
}

/// Numbers of which a file of this many tests has all, none, and some far off.
fn numbers(tests: usize) -> Vec<u64> {
    const FAR: [u64; 6] = [255, 257, 1 << 16 | 1, 1 << 32 | 1, 1 << 63 | 1, u64::MAX];
    (0..=tests as u64 + 1)
        .chain([MOST_TESTS as u64, MOST_TESTS as u64 + 1])
        .chain(FAR)
        .collect()
}

fn same_on_file(random: &mut Random, file: &File) -> Outcome {
    let bytes = file.to_mixed_bytes(random);
    same_on_each(random, &bytes, &numbers(file.tests.len()))
}

fn same_on_first(random: &mut Random, file: &File) -> Outcome {
    let bytes = file.to_mixed_bytes(random);
    same_on_each(random, &bytes, &[1])
}

fn bench_sheet(run: &mut Run) -> Outcome {
    let both = samples::log_rules();
    // K1, K2 and K3: in K2 either superblock alone is bad.
    for (rules, valid, bad, shown) in [
        (&both[..], 7, 0, 0),
        (&[], 16, 8, 2),
        (&both[..1], 9, 1, 12),
    ] {
        let mut random = run.next_case();
        let file = File {
            rules: rules.to_vec(),
            tests: vec![samples::test_k()],
        };
        let bytes = file.to_bytes();
        let found = judgement_of(calls::judge(&Lent::new(&mut random, &bytes), 1));
        let known = Judgement { valid, bad, shown };
        require(found == known, &format!("{known:?}"), format!("{found:?}"))?;
        same_on_file(&mut random, &file)?;
    }
    // K12, as [6] of document 02 has it, and the other lines of that, at any address.
    for (first, second, holds) in [
        (5, 5, true),
        (1, 257, false),
        (300, 200, false),
        (0, 0, true),
        (300, 300, true),
        (6, 5, false),
        (256, 255, false),
    ] {
        for at in 0..=255 {
            let mut random = run.next_case();
            let file = File {
                rules: vec![],
                tests: vec![Test {
                    main: vec![Write {
                        address: at,
                        name: 2,
                        epoch: 0,
                        block: Block { first, second },
                    }],
                    checks: vec![Check::Range { at }],
                    ..Test::default()
                }],
            };
            let lent = lend(&mut random, &file);
            let expected = if holds { 0 } else { 1 + 1 };
            same_answer(
                "verdict",
                lent.content(),
                expected,
                calls::verdict(&lent, 1),
            )?;
            same_on_file(&mut random, &file)?;
        }
    }
    Ok(())
}

/// How often a suite met each kind of test.
#[derive(Default)]
struct Kinds {
    all: u64,
    holds: u64,
    some_bad: u64,
    some_invalid: u64,
}

impl Kinds {
    fn count(&mut self, file: &File) {
        for test in &file.tests {
            self.add(test, &expected(&file.rules, test));
        }
    }

    fn add(&mut self, test: &Test, judgement: &Judgement) {
        self.all += 1;
        self.holds += u64::from(judgement.bad == 0);
        self.some_bad += u64::from(0 < judgement.bad && judgement.bad < judgement.valid);
        self.some_invalid += u64::from(judgement.valid < 1 << test.main.len());
    }

    /// Fails unless a tenth of the tests are of each kind.
    fn spread(&self, run: &mut Run) -> Outcome {
        let counts = [self.holds, self.some_bad, self.some_invalid];
        let note = format!(
            "of {} tests {} hold, {} are partly bad, {} have invalid schedules",
            self.all, counts[0], counts[1], counts[2]
        );
        run.note(note.clone());
        let each = counts.iter().all(|count| count * 10 >= self.all);
        require(each, "a tenth of each kind at least", note)
    }
}

fn spread_files(run: &mut Run, cases: u64, make: fn(&mut Random) -> File) -> Outcome {
    let mut kinds = Kinds::default();
    for _ in 0..run.times(cases) {
        let mut random = run.next_case();
        let file = make(&mut random);
        kinds.count(&file);
        same_on_file(&mut random, &file)?;
    }
    kinds.spread(run)
}

fn telling_files(run: &mut Run) -> Outcome {
    spread_files(run, 12_000, crashes::file)
}

fn tangled_files(run: &mut Run) -> Outcome {
    let mut kinds = Kinds::default();
    for _ in 0..run.times(40_000) {
        let mut random = run.next_case();
        let file = crashes::tangled_file(&mut random);
        let known = judge_test(&file.rules, &file.tests[0]);
        kinds.add(&file.tests[0], &known);
        same_as_known(&mut random, &file, &known)?;
    }
    kinds.spread(run)
}

fn logs(run: &mut Run) -> Outcome {
    spread_files(run, 1_000, crashes::log_file)
}

fn heads_around_tails(run: &mut Run) -> Outcome {
    spread_files(run, 3_000, crashes::range_file)
}

fn chains(run: &mut Run) -> Outcome {
    for _ in 0..run.times(500) {
        let mut random = run.next_case();
        let (file, bad) = crashes::chain(&mut random);
        let lent = lend(&mut random, &file);
        let known = Judgement {
            valid: file.tests[0].main.len() as u64 + 1,
            bad: 1,
            shown: bad,
        };
        let found = judgement_of(calls::judge(&lent, 1));
        require(found == known, &format!("{known:?}"), format!("{found:?}"))?;
        same_answer("verdict", lent.content(), 1 + bad, calls::verdict(&lent, 1))?;
        same_on_file(&mut random, &file)?;
    }
    Ok(())
}

/// Cyclic rules, too many of everything, and large tests are among them.
fn random_files(run: &mut Run) -> Outcome {
    for _ in 0..run.times(1_500) {
        let mut random = run.next_case();
        let file = generate::file(&mut random);
        same_on_file(&mut random, &file)?;
    }
    Ok(())
}

/// Each check form alone, on blocks at the limits of ranges and pointers: one schedule, good or bad.
fn no_main_writes(run: &mut Run) -> Outcome {
    const HALVES: [u16; 13] = [0, 1, 2, 3, 5, 254, 255, 256, 257, 300, 511, 65534, 65535];
    for first in HALVES {
        for second in HALVES {
            let block = Block { first, second };
            for form in 0..run.times(3) {
                let mut random = run.next_case();
                let test = one_check(&mut random, block, form % 3);
                let file = File {
                    rules: vec![],
                    tests: vec![test],
                };
                same_on_file(&mut random, &file)?;
            }
        }
    }
    Ok(())
}

/// A test with this block at some address and most of the disk filled, and one check on it, of each
/// form in turn.
fn one_check(random: &mut Random, block: Block, form: u64) -> Test {
    let write = |address, block| Write {
        address,
        name: 0,
        epoch: 0,
        block,
    };
    let at = random.pick(&[0, 1, 2, 7, 254, 255]);
    let full = Block {
        first: 0,
        second: 1,
    };
    let mut initial = vec![write(at, block)];
    // Blocks on both sides of the ends of the range and of the disk.
    for near in [0, 1, 2, 3, 4, 5, 253, 254, 255] {
        if near != at && !random.one_in(6) {
            initial.push(write(near, full));
        }
    }
    let other = random.pick(&[at, 0, 5, 255]);
    let same = random.pick(&[block, full]);
    let check = match form {
        0 => Check::Range { at },
        1 => Check::Pointer { at },
        _ => Check::Pair {
            a: at,
            v: same,
            b: other,
            w: random.pick(&[block, full]),
        },
    };
    Test {
        initial,
        main: vec![],
        checks: vec![check],
    }
}

/// Tests whose initial disk is inconsistent: the schedule 0 is bad, and often the only bad one.
fn bad_from_the_start(run: &mut Run) -> Outcome {
    let mut only = 0;
    for _ in 0..run.times(1_000) {
        let mut random = run.next_case();
        let values = Values::small(&mut random);
        let main = crashes::main_count(&mut random);
        let mut test = crashes::test(&mut random, &values, main);
        // What the address at the first main write holds at the start is objected to.
        let at = test.main.first().map_or(0, |write| write.address);
        test.checks.insert(
            0,
            Check::Pair {
                a: at,
                v: test.initial_disk()[at as usize],
                b: 77,
                w: Block {
                    first: 7,
                    second: 7,
                },
            },
        );
        test.checks.truncate(MOST_CHECKS);
        let file = File {
            rules: crashes::acyclic_rules(&mut random, &values, 6),
            tests: vec![test],
        };
        only += u64::from(expected(&file.rules, &file.tests[0]).bad == 1);
        same_on_file(&mut random, &file)?;
    }
    run.note(format!("in {only} nothing else is bad"));
    require(
        only > 20,
        "some with no other bad schedule",
        only.to_string(),
    )
}

/// Two main writes of any two labels, and each rule or none.
fn every_two_labels(run: &mut Run) -> Outcome {
    for names in [[1, 2], [1, 257], [256, 65_535]] {
        every_two_labels_of(run, names)?;
    }
    Ok(())
}

fn every_two_labels_of(run: &mut Run, names: [Name; 2]) -> Outcome {
    const EPOCHS: [u32; 6] = [0, 1, 65_535, 65_536, i32::MAX as u32 + 1, u32::MAX];
    let mut rules: Vec<Vec<Rule>> = vec![vec![]];
    for name in names {
        for second in names {
            rules.extend(PREDICATES.map(|predicate| {
                vec![Rule {
                    name,
                    predicate,
                    second,
                }]
            }));
        }
    }
    let mut labels = Vec::new();
    for name in names {
        labels.extend(EPOCHS.map(|epoch| (name, epoch)));
    }
    for rules in &rules {
        for &one in &labels {
            for &two in &labels {
                let mut random = run.next_case();
                let file = File {
                    rules: rules.clone(),
                    tests: vec![two_writes(one, two)],
                };
                same_on_first(&mut random, &file)?;
            }
        }
    }
    Ok(())
}

/// A test of two writes, the first of which has to be there if the second is.
fn two_writes(one: (Name, u32), two: (Name, u32)) -> Test {
    let write = |address, (name, epoch)| Write {
        address,
        name,
        epoch,
        block: Block {
            first: 1,
            second: address as u16,
        },
    };
    Test {
        initial: vec![],
        main: vec![write(1, one), write(2, two)],
        checks: vec![Check::Pointer { at: 2 }, Check::Range { at: 2 }],
    }
}

fn twelve_main_writes(run: &mut Run) -> Outcome {
    let mut kinds = Kinds::default();
    for _ in 0..run.times(800) {
        let mut random = run.next_case();
        let values = Values::small(&mut random);
        let file = File {
            rules: crashes::acyclic_rules(&mut random, &values, 12),
            tests: vec![crashes::test(&mut random, &values, 12)],
        };
        kinds.count(&file);
        same_on_first(&mut random, &file)?;
    }
    kinds.spread(run)
}

/// Tests of all kinds with these numbers of main writes in turn, by diagrams.
fn of_every_kind(run: &mut Run, cases: u64, mains: &[usize]) -> Outcome {
    let mut kinds = Kinds::default();
    for _ in 0..run.times(cases) {
        for &main in mains {
            let mut random = run.next_case();
            let file = crashes::file_of(&mut random, main);
            kinds.count(&file);
            same_on_first(&mut random, &file)?;
        }
    }
    kinds.spread(run)
}

fn up_to_19_main_writes(run: &mut Run) -> Outcome {
    of_every_kind(run, 150, &[13, 14, 15, 16, 17, 18, 19])
}

fn most_main_writes(run: &mut Run) -> Outcome {
    of_every_kind(run, 1_200, &[MOST_MAIN])
}

fn tangled_up_to_20_main_writes(run: &mut Run) -> Outcome {
    let mut kinds = Kinds::default();
    for _ in 0..run.times(600) {
        let mut random = run.next_case();
        let main = random.between(FEW + 1, MOST_MAIN);
        let file = crashes::tangled_file_of(&mut random, main);
        let known = counts::judge_test(&file.rules, &file.tests[0]);
        kinds.add(&file.tests[0], &known);
        same_as_known(&mut random, &file, &known)?;
    }
    kinds.spread(run)
}

/// Up to 12 main writes schedule by schedule, beyond by diagrams.
fn long_ranges(run: &mut Run) -> Outcome {
    let mut kinds = Kinds::default();
    for i in 0..run.times(4_000) {
        let mut random = run.next_case();
        let main = match i % 8 {
            0 => random.between(FEW + 1, MOST_MAIN),
            1 => random.between(9, FEW),
            _ => random.between(0, 8),
        };
        let file = crashes::long_ranges_file_of(&mut random, main);
        let known = expected(&file.rules, &file.tests[0]);
        kinds.add(&file.tests[0], &known);
        same_as_known(&mut random, &file, &known)?;
    }
    kinds.spread(run)
}

/// A few tests by going through all their schedules, up to 1,048,576; the diagrams, by which there are
/// many more, say the same.
fn schedule_by_schedule(run: &mut Run) -> Outcome {
    for (main, cases) in [(13, 4), (16, 2), (19, 2), (MOST_MAIN, 10)] {
        for _ in 0..run.times(cases) {
            let mut random = run.next_case();
            let file = crashes::file_of(&mut random, main);
            let (rules, test) = (&file.rules[..], &file.tests[0]);
            let known = judge_test(rules, test);
            let by_diagrams = counts::judge_test(rules, test);
            let same = known == by_diagrams;
            require(same, &format!("{known:?}"), format!("{by_diagrams:?}"))?;
            same_as_known(&mut random, &file, &known)?;
        }
    }
    Ok(())
}

/// Many more, by a judge that finds the smallest in another way than the reference.
fn against_open_checks(run: &mut Run) -> Outcome {
    let mut kinds = Kinds::default();
    for i in 0..run.times(6_000) {
        let mut random = run.next_case();
        let main = random.between(FEW + 1, MOST_MAIN);
        let file = match i % 2 {
            0 => crashes::tangled_file_of(&mut random, main),
            _ => crashes::file_of(&mut random, main),
        };
        let lent = lend(&mut random, &file);
        let known = judgement_of(fast::judge::judge_settled(lent.content(), 1));
        kinds.add(&file.tests[0], &known);
        same_judgement(lent.content(), 1, &known, calls::judge(&lent, 1))?;
        same_verdict(lent.content(), 1, &known, calls::verdict(&lent, 1))?;
        lent.unchanged("file")?;
    }
    kinds.spread(run)
}

/// Under its rules a log's schedules are: up to some superblock all, and behind it any log blocks.
/// Without rules those are good that have all log blocks up to the last superblock.
fn long_logs(run: &mut Run) -> Outcome {
    for puts in [9, MOST_MAIN_PUTS] {
        for before in 0..=32 {
            let mut random = run.next_case();
            let initial = generate::puts(&mut random, before);
            let main = generate::puts(&mut random, puts);
            let all = 1u64 << (2 * puts);
            let good = (1u64 << puts) + puts as u64 * (1 << (puts - 1));
            for (rules, valid, bad) in [
                (&samples::log_rules()[..], (2 << puts) - 1, 0),
                (&[], all, all - good),
            ] {
                let file = File {
                    rules: rules.to_vec(),
                    tests: vec![log::test_of(&initial, &main)],
                };
                let lent = lend(&mut random, &file);
                let found = judgement_of(calls::judge(&lent, 1));
                require(
                    (found.valid, found.bad) == (valid, bad),
                    &format!("{valid} valid and {bad} bad schedules of {puts} puts"),
                    format!("{found:?}"),
                )?;
                same_on_first(&mut random, &file)?;
            }
        }
    }
    Ok(())
}

/// The writes of the paper's litmus tests: those of Table 1, their mean and the most that there were.
fn as_in_the_paper(run: &mut Run) -> Outcome {
    of_every_kind(run, 60, &[2, 6, 1, 7, 7, 5, 5, 5, 6, 9, 7, MOST_MAIN])
}

/// Judged up to 20, and by reading refused beyond, wherever in the file the test is.
fn around_20(run: &mut Run) -> Outcome {
    for main in AROUND {
        for _ in 0..run.times(60) {
            let mut random = run.next_case();
            let (file, bytes, refusal) = file_with(&mut random, main);
            if let Some(refusal) = refusal {
                let lent = Lent::new(&mut random, &bytes);
                let (known, bytes) = (answer::of(Err(refusal)), lent.content());
                same_answer("judge test 1", bytes, known, calls::judge(&lent, 1))?;
                same_answer("verdict on test 1", bytes, known, calls::verdict(&lent, 1))?;
            }
            same_on_file(&mut random, &file)?;
        }
    }
    Ok(())
}

/// The bad schedule shown, by all bad schedules one after the other: the fewest flags, then the
/// smallest number. The verdict's is the same; 0 where there is none.
fn schedules_shown(run: &mut Run) -> Outcome {
    let (mut many, mut not_lowest) = (0, 0);
    const NUMBERS: [(usize, u64); 6] = [(3, 50), (7, 100), (12, 800), (13, 40), (19, 3), (20, 5)];
    for (main, cases) in NUMBERS {
        for _ in 0..run.times(cases) {
            let mut random = run.next_case();
            let values = Values::small(&mut random);
            let most = random.pick(&[0, 2, 12]);
            let file = File {
                rules: crashes::acyclic_rules(&mut random, &values, most),
                tests: vec![crashes::test(&mut random, &values, main)],
            };
            let bad = bad_schedules(&file.rules, &file.tests[0]);
            let shown = smallest(&bad);
            many += u64::from(shown.map_or(0, flags) > 1);
            not_lowest += u64::from(shown != bad.first().copied());
            let lent = lend(&mut random, &file);
            let known = shown.map_or(0, |schedule| 1 + schedule);
            same_answer("verdict", lent.content(), known, calls::verdict(&lent, 1))?;
            let judged = calls::judge(&lent, 1) >> 42;
            let known = shown.unwrap_or(0);
            same_answer("judge's schedule", lent.content(), known, judged)?;
        }
    }
    let note = format!("{many} of more than one flag, {not_lowest} are not the smallest number");
    run.note(note.clone());
    require(many >= 20, "20 of more than one at least", note)
}

/// Both routines on a file of one test whose judgement is known, with bytes beside the file and with
/// none.
fn shown_by_both(random: &mut Random, file: &File, known: &Judgement) -> Outcome {
    same_as_known(random, file, known)?;
    let lent = Lent::exact(&file.to_mixed_bytes(random));
    same_judgement(lent.content(), 1, known, calls::judge(&lent, 1))?;
    same_verdict(lent.content(), 1, known, calls::verdict(&lent, 1))?;
    lent.unchanged("file")
}

/// Tests that are made for the schedule shown, of so many main writes.
type Made = fn(&mut Random, usize) -> File;

/// Tests of 2 to 12 main writes schedule by schedule, of 13 to 20 by diagrams, and two of 20 schedule by
/// schedule. Of those of few writes most are what they are made for.
fn smallest_of(
    run: &mut Run,
    make: Made,
    what: &str,
    is_telling: impl Fn(&[u64]) -> bool,
) -> Outcome {
    let (mut few, mut telling) = (0, 0);
    for i in 0..run.times(3_000) {
        let mut random = run.next_case();
        let main = match i % 8 {
            0 => random.between(FEW + 1, MOST_MAIN),
            1 => MOST_MAIN,
            2 => random.between(9, FEW),
            _ => random.between(2, 8),
        };
        let file = make(&mut random, main);
        let (rules, test) = (&file.rules[..], &file.tests[0]);
        if test.main.len() <= FEW {
            few += 1;
            telling += u64::from(is_telling(&bad_schedules(rules, test)));
        }
        shown_by_both(&mut random, &file, &expected(rules, test))?;
    }
    for _ in 0..run.times(2) {
        let mut random = run.next_case();
        let file = make(&mut random, MOST_MAIN);
        let known = judge_test(&file.rules, &file.tests[0]);
        shown_by_both(&mut random, &file, &known)?;
    }
    let note = format!("of {few} tests of up to {FEW} writes {telling} {what}");
    run.note(note.clone());
    require(telling * 2 > few, "more than half of them", note)
}

fn fewer_flags(run: &mut Run) -> Outcome {
    let what = "have a bad schedule of a smaller number";
    smallest_of(run, made::fewer_flags, what, |bad| {
        smallest(bad) != bad.first().copied()
    })
}

fn no_flags(run: &mut Run) -> Outcome {
    let what = "are bad with no flag";
    smallest_of(run, made::bad_at_start, what, |bad| bad.first() == Some(&0))
}

fn as_few_flags(run: &mut Run) -> Outcome {
    let what = "have several of as few flags";
    smallest_of(run, made::ties, what, |bad| {
        let fewest = smallest(bad).map(flags);
        bad.iter().filter(|&&s| Some(flags(s)) == fewest).count() > 1
    })
}

fn two_blocks(run: &mut Run) -> Outcome {
    let what = "need three flags or more";
    smallest_of(run, made::two_blocks, what, |bad| {
        smallest(bad).map_or(0, flags) >= 3
    })
}

/// No, one and the most main writes, and what is near; the first and the last blocks, numbers at the
/// limits of disks and ranges, empty blocks, few addresses.
fn smallest_at_limits(run: &mut Run) -> Outcome {
    let (mut kinds, mut empty, mut full) = (Kinds::default(), 0, 0);
    for main in [0, 1, 2, 5, 8, FEW, 13, 19, MOST_MAIN] {
        for _ in 0..run.times(200) {
            let mut random = run.next_case();
            let file = made::at_limits(&mut random, main);
            let test = &file.tests[0];
            let known = expected(&file.rules, test);
            kinds.add(test, &known);
            empty += u64::from(known.bad > 0 && known.shown == 0);
            full +=
                u64::from(test.checks.len() == MOST_CHECKS && test.initial.len() == MOST_INITIAL);
            shown_by_both(&mut random, &file, &known)?;
        }
    }
    kinds.spread(run)?;
    let note = format!(
        "of {} tests {} hold, {empty} are bad with no flag, {full} have the most of the others",
        kinds.all, kinds.holds
    );
    run.note(note.clone());
    require(
        empty * 40 > kinds.all && full * 40 > kinds.all,
        "a fortieth of each at least",
        note,
    )
}

/// Judge and verdict against each other: the same refusal, or the same schedule. The bytes lent are of
/// just the file's length, and stay as they are.
fn judge_and_verdict(run: &mut Run) -> Outcome {
    const MADE: [(Made, usize); 7] = [
        (made::fewer_flags, 2),
        (made::bad_at_start, 0),
        (made::ties, 1),
        (made::two_blocks, 2),
        (made::at_limits, 0),
        (crashes::tangled_file_of, 0),
        (crashes::file_of, 0),
    ];
    let (mut refused, mut holds, mut fails) = (0, 0, 0);
    for i in 0..run.times(20_000) {
        let mut random = run.next_case();
        let (make, least) = random.pick(&MADE);
        let main = random.between(least, MOST_MAIN);
        let mut file = make(&mut random, main);
        let (mut bytes, mut number) = (file.to_mixed_bytes(&mut random), 1);
        match i % 12 {
            0 => bytes = damage::any(&mut random).bytes,
            1 => bytes.truncate(random.below(bytes.len())),
            2 => number = random.pick(&[0, 2, 17, u64::MAX]),
            3 => {
                file.rules = generate::nearly_cyclic_rules(&mut random);
                bytes = file.to_mixed_bytes(&mut random);
            }
            _ => {}
        }
        let lent = Lent::exact(&bytes);
        let (judged, verdict) = (calls::judge(&lent, number), calls::verdict(&lent, number));
        let found = judgement_of(judged);
        let known = match judged {
            answer if answer >> 63 == 1 => {
                refused += 1;
                answer
            }
            _ if found.bad == 0 => {
                holds += 1;
                require(found.shown == 0, "0 shown", found.shown.to_string())?;
                0
            }
            _ => {
                fails += 1;
                1 + found.shown
            }
        };
        same_answer("verdict, beside judge", &bytes, known, verdict)?;
        lent.unchanged("file")?;
    }
    let note = format!("{refused} refused, {holds} hold, {fails} fail");
    run.note(note.clone());
    let each = [refused, holds, fails].iter().all(|&count| count > 1_000);
    require(each, "1000 of each at least", note)
}

/// The judgements of some tests, which the request and the definition tell at once.
fn known_schedules(run: &mut Run) -> Outcome {
    let both = samples::log_rules();
    let mut same = |rules: &[Rule], test: Test, shown: Option<u64>| {
        let mut random = run.next_case();
        let file = File {
            rules: rules.to_vec(),
            tests: vec![test],
        };
        let lent = lend(&mut random, &file);
        let bytes = lent.content();
        let verdict = shown.map_or(0, |schedule| 1 + schedule);
        same_answer("verdict", bytes, verdict, calls::verdict(&lent, 1))?;
        let judged = judgement_of(calls::judge(&lent, 1));
        let (is_bad, number) = (u64::from(judged.bad > 0), judged.shown);
        same_answer("judge: is one bad", bytes, verdict.min(1), is_bad)?;
        same_answer("judge's schedule", bytes, shown.unwrap_or(0), number)?;
        let known = counts::judge_test(rules, &file.tests[0]);
        shown_by_both(&mut random, &file, &known)
    };
    same(&[], four_not_three(), Some(4))?;
    // A log: without its log block a superblock is bad, and with that if the one before is not there.
    for puts in 1..=MOST_MAIN_PUTS {
        let puts: Vec<Block> = (1..=puts).map(|key| block(key as u16, 1)).collect();
        let test = log::test_of(&[block(0, 42)], &puts);
        let second = (puts.len() > 1).then_some(0b1100);
        same(&both, test.clone(), None)?;
        same(&[], test.clone(), Some(0b10))?;
        same(&both[1..], test.clone(), Some(0b10))?;
        same(&both[..1], test, second)?;
    }
    // Every two of 20 writes are the only two that are bad together, or one is the only one.
    let (old, new) = (block(1, 1), block(2, 2));
    let writes = |new| (0..MOST_MAIN as u8).map(move |at| write(at, 1, at as u32, new));
    let test = |checks| Test {
        initial: writes(old).collect(),
        main: writes(new).collect(),
        checks,
    };
    let not_both = |a, b, w| Check::Pair { a, v: new, b, w };
    for i in 0..MOST_MAIN as u8 {
        for j in 0..MOST_MAIN as u8 {
            let w = if i == j { EMPTY } else { old };
            let shown = 1u64 << i | 1 << j;
            same(&[], test(vec![not_both(i, j, w)]), Some(shown))?;
        }
    }
    // Each after all before it: all up to the one, or up to the later of the two.
    let in_order = [rule(1, Predicate::Greater, 1)];
    for i in 0..MOST_MAIN as u8 {
        let up_to = |last: u8| Some((2 << last) - 1);
        let (of_one, of_both) = (not_both(i / 2, i, EMPTY), not_both(i, i / 2, old));
        same(&in_order, test(vec![of_one]), up_to(i / 2))?;
        same(&in_order, test(vec![of_both]), up_to(i))?;
        same(&in_order, test(vec![not_both(i, i, new)]), None)?;
    }
    // Bad with none flagged, and with any.
    let never = Check::Pair {
        a: 77,
        v: EMPTY,
        b: 78,
        w: new,
    };
    same(&[], test(vec![never]), Some(0))?;
    same(&in_order, test(vec![never]), Some(0))?;
    // All of some writes are bad alone: the first of them.
    for i in 0..MOST_MAIN as u8 - 8 {
        let checks = (i..i + 8).rev().map(|at| not_both(at, at, EMPTY));
        same(&[], test(checks.collect()), Some(1 << i))?;
    }
    Ok(())
}

/// One test, and rules of which the last of 32 often decides.
fn most_rules(run: &mut Run) -> Outcome {
    let mut decided = 0;
    for _ in 0..run.times(1_000) {
        let mut random = run.next_case();
        let values = Values::small(&mut random);
        let main = random.between(2, 6);
        let test = crashes::test(&mut random, &values, main);
        let rules = crashes::acyclic_rules(&mut random, &values, 4);
        let rules = crashes::padded(&mut random, &values, &rules);
        let without = judge_test(&rules[..MOST_RULES - 1], &test);
        decided += u64::from(judge_test(&rules, &test) != without);
        let file = File {
            rules,
            tests: vec![test],
        };
        same_on_first(&mut random, &file)?;
    }
    run.note(format!("the last rule decides {decided}"));
    require(
        decided > 50,
        "some where the last decides",
        decided.to_string(),
    )
}

/// Everything at its limit: rules, tests, writes and checks.
fn full_files(run: &mut Run) -> Outcome {
    for _ in 0..run.times(10) {
        let mut random = run.next_case();
        let values = Values::small(&mut random);
        let rules = crashes::acyclic_rules(&mut random, &values, 8);
        let mut file = File {
            rules: crashes::padded(&mut random, &values, &rules),
            tests: vec![],
        };
        while file.tests.len() < MOST_TESTS {
            let mut test = generate::test_of(&mut random, &values, MOST_INITIAL, MOST_MAIN, 0);
            let start = test.initial_disk();
            while test.checks.len() < MOST_CHECKS {
                let check = generate::check(&mut random, &values);
                if check.holds(&start) {
                    test.checks.push(check);
                }
            }
            file.tests.push(test);
        }
        same_on_file(&mut random, &file)?;
    }
    Ok(())
}

fn files_at_limits(run: &mut Run) -> Outcome {
    for _ in 0..run.times(40) {
        for limit in LIMITS {
            let mut random = run.next_case();
            let bytes = damage::at_limit(&mut random, limit);
            same_on_each(&mut random, &bytes, &numbers(MOST_TESTS))?;
        }
    }
    Ok(())
}

/// Refused after reading and before 9, whatever the test.
fn cyclic_rules(run: &mut Run) -> Outcome {
    let mut refused = 0;
    for _ in 0..run.times(3_000) {
        let mut random = run.next_case();
        let mut file = crashes::file(&mut random);
        file.rules = generate::nearly_cyclic_rules(&mut random);
        if random.one_in(4) {
            file.tests.clear();
        }
        refused += u64::from(readable(&file.to_bytes()).is_err());
        same_on_file(&mut random, &file)?;
    }
    run.note(format!("{refused} refused"));
    require(refused > 500, "500 refused", refused.to_string())
}

/// Refused by reading, whatever the test.
fn damaged_files(run: &mut Run) -> Outcome {
    for _ in 0..run.times(5_000) {
        let mut random = run.next_case();
        let damaged = damage::any(&mut random);
        same_on_each(&mut random, &damaged.bytes, &[1, 0, 17, u64::MAX])?;
    }
    Ok(())
}
