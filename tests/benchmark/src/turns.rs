// The turns of the validity test, by [3] of document 02: a turn looks up the row of a flagged write,
// what it depends on, and none is begun after one that shows an unflagged dependency. Copies of the
// test, and of the way that the verdict asks it, over tables that note what is looked up; over plain
// tables the same copies are timed.

use std::cell::RefCell;
use std::ops::Index;

use reference::file::{self, File};
use reference::samples::log_rules;
use reference::schedule::{dependencies, valid};

use crate::inputs;
use crate::measure::{medians, Call};

/// What the copies ask of the crate of that name; a test of the documents compares the words with
/// the crate's, and those of the four copies below.
mod relation {
    pub fn highest(mask: u64) -> usize {
        63 - mask.leading_zeros() as usize
    }

    pub fn without(mask: u64, other: u64) -> u64 {
        mask & !other
    }
}

/// For each write of a test the mask of the writes that it depends on, as the judge has them.
type Rows = [u64; 64];

fn rows_of(on: &[Vec<usize>]) -> Rows {
    let mut rows = [0; 64];
    for (row, on) in rows.iter_mut().zip(on) {
        *row = on.iter().map(|&j| 1 << j).sum();
    }
    rows
}

/// `judge_schedules::is_valid`.
fn is_valid(rows: &impl Index<usize, Output = u64>, _n: usize, s: u64) -> bool {
    let mut left = s;
    while left != 0 {
        let i = relation::highest(left);
        let row = rows[i];
        if row & s != row {
            return false;
        }
        left = relation::without(left, 1 << i);
    }
    true
}

/// `judge_schedules::with_rows`. What it looks up is no turn of the test.
fn with_rows(rows: &Rows, _n: usize, s: u64) -> u64 {
    let mut set = s;
    let mut left = s;
    while left != 0 {
        let i = relation::highest(left);
        set |= rows[i];
        left = relation::without(left, 1 << i);
    }
    set
}

/// `judge_schedules::bring`. It is handed what it asks, so that the questions can be noted.
fn bring(
    rows: &Rows,
    n: usize,
    i: usize,
    mut is_valid: impl FnMut(&Rows, usize, u64) -> bool,
) -> u64 {
    let mut set: u64 = 1 << i;
    while !is_valid(rows, n, set) {
        set = with_rows(rows, n, set);
    }
    set
}

/// `judge_schedules::complete`, in the same way.
fn complete(rows: &mut Rows, n: usize, mut bring: impl FnMut(&Rows, usize, usize) -> u64) {
    for i in 0..n {
        rows[i] = bring(rows, n, i);
    }
}

/// These two together.
fn complete_by(rows: &mut Rows, n: usize, mut ask: impl FnMut(&Rows, usize, u64) -> bool) {
    complete(rows, n, |rows, n, i| bring(rows, n, i, &mut ask));
}

/// What the test would be without the early end.
fn every_write(rows: &impl Index<usize, Output = u64>, _n: usize, s: u64) -> bool {
    let mut all = true;
    let mut left = s;
    while left != 0 {
        let i = relation::highest(left);
        let row = rows[i];
        all &= row & s == row;
        left = relation::without(left, 1 << i);
    }
    all
}

/// A table that notes whose row is looked up.
struct Noted {
    rows: Rows,
    seen: RefCell<Vec<usize>>,
}

impl Index<usize> for Noted {
    type Output = u64;

    fn index(&self, i: usize) -> &u64 {
        self.seen.borrow_mut().push(i);
        &self.rows[i]
    }
}

/// A test whether a schedule is valid, over such a table.
type Test = fn(&Noted, usize, u64) -> bool;

/// A question, its answer and its turns: the writes whose rows were looked up, in order.
struct Asked {
    schedule: u64,
    answer: bool,
    turns: Vec<usize>,
    /// How many of them were begun after one that shows an unflagged dependency. A completed row
    /// shows what the dependencies depend on too: where none is late by it, none is by the plain one.
    late: usize,
}

fn ask(test: Test, rows: &Rows, n: usize, schedule: u64) -> Asked {
    let noted = Noted {
        rows: *rows,
        seen: RefCell::default(),
    };
    let answer = test(&noted, n, schedule);
    let turns = noted.seen.into_inner();
    let broken = turns.iter().position(|&i| rows[i] & !schedule != 0);
    Asked {
        schedule,
        answer,
        late: broken.map_or(0, |first| turns.len() - 1 - first),
        turns,
    }
}

/// A test asked about all schedules of some writes, in rising number.
fn ask_all(test: Test, on: &[Vec<usize>]) -> Vec<Asked> {
    let rows = rows_of(on);
    let schedules = 0..1 << on.len();
    schedules.map(|s| ask(test, &rows, on.len(), s)).collect()
}

/// A test asked as the verdict asks it, in order.
fn ask_brought(test: Test, on: &[Vec<usize>]) -> Vec<Asked> {
    let mut found = Vec::new();
    complete_by(&mut rows_of(on), on.len(), |rows, n, s| {
        let question = ask(test, rows, n, s);
        let answer = question.answer;
        found.push(question);
        answer
    });
    found
}

/// A test, and what it is asked about.
#[derive(Clone, Copy, Debug, PartialEq)]
enum Form {
    Every,
    Ending,
    Brought,
}

const FORMS: [Form; 3] = [Form::Every, Form::Ending, Form::Brought];

impl Form {
    /// What it asks of some writes. Panics where an answer is not the reference's.
    fn asked(self, on: &[Vec<usize>]) -> Vec<Asked> {
        let found = match self {
            Form::Every => ask_all(every_write, on),
            Form::Ending => ask_all(is_valid, on),
            Form::Brought => ask_brought(is_valid, on),
        };
        for question in &found {
            let s = question.schedule;
            assert_eq!(question.answer, valid(on, s), "{self:?}, schedule {s}");
        }
        found
    }

    /// The same over plain tables, to be timed.
    fn call(self, on: &[Vec<usize>]) -> Call {
        let (rows, n) = (rows_of(on), on.len());
        let all = 0..1u64 << n;
        match self {
            Form::Every => Box::new(move || {
                let valid = all.clone().filter(|&s| every_write(&rows, n, s));
                valid.count() as u64
            }),
            Form::Ending => Box::new(move || {
                let valid = all.clone().filter(|&s| is_valid(&rows, n, s));
                valid.count() as u64
            }),
            Form::Brought => {
                let mut table = rows;
                Box::new(move || {
                    table[..n].copy_from_slice(&rows[..n]);
                    complete_by(&mut table, n, is_valid);
                    table[..n].iter().sum()
                })
            }
        }
    }

    fn words(self, questions: usize) -> String {
        match self {
            Form::Every => "every flagged write, whatever the first shows".to_string(),
            Form::Ending => "up to the first broken one".to_string(),
            Form::Brought => {
                format!("the same, asked of what each write brings: {questions} questions")
            }
        }
    }
}

fn begun(asked: &[Asked]) -> usize {
    asked.iter().map(|question| question.turns.len()).sum()
}

fn late(asked: &[Asked]) -> usize {
    asked.iter().map(|question| question.late).sum()
}

/// The tests of the table, each in a file of its own.
fn files() -> [(&'static str, File); 4] {
    [
        ("test K, K1's rules", inputs::k_file(&log_rules())),
        ("log of 6 puts, its rules", inputs::log_file(&log_rules())),
        ("log of 6 puts, no rules", inputs::log_file(&[])),
        ("12 writes, 16 checks, many rules", inputs::dense_file()),
    ]
    .map(|(input, bytes)| {
        (
            input,
            file::read(&bytes).expect("a file that reading accepts"),
        )
    })
}

/// The table of turns.
pub fn print() {
    println!(
        "The test whether a schedule is valid, in Rust copies: rows looked up (turns), mean of"
    );
    println!("the questions; rows looked up after one that shows an unflagged dependency, sum of");
    println!(
        "all; and the time of a question. The first two forms are asked about all schedules of"
    );
    println!(
        "a test, one after another. The third is what the verdict asks: about each write with"
    );
    println!("what it depends on, until that is valid. The time of these questions has in it how");
    println!("they are made, from one to the next.");
    println!();
    println!("| input | valid | test of a schedule | turns | begun too late | time |");
    println!("|---|---:|---|---:|---:|---:|");
    for (input, file) in files() {
        print_forms(input, &dependencies(&file.rules, &file.tests[0].main));
    }
    println!();
}

fn print_forms(input: &str, on: &[Vec<usize>]) {
    let total = 1u64 << on.len();
    let valid = (0..total).filter(|&s| valid(on, s)).count();
    let [mut a, mut b, mut c] = FORMS.map(|form| form.call(on));
    let times = medians([&mut a, &mut b, &mut c]);
    for (form, time) in FORMS.into_iter().zip(times) {
        let asked = form.asked(on);
        let late = late(&asked);
        assert!(form == Form::Every || late == 0, "{form:?}, {input}");
        let questions = asked.len() as f64;
        println!(
            "| {input} | {valid} of {total} | {} | {:.2} | {late} | {:.2} ns |",
            form.words(asked.len()),
            begun(&asked) as f64 / questions,
            time / questions * 1e9
        );
    }
}

#[cfg(test)]
mod tests {
    use super::*;
    use crate::verdicts::random_file;
    use reference::crashes;
    use reference::file::MOST_MAIN;
    use reference::random::Random;
    use reference::schedule::flagged;

    /// The files of the table, and random ones.
    fn many_files() -> Vec<File> {
        let named = files().map(|(_, file)| file);
        named.into_iter().chain((0..200).map(random_file)).collect()
    }

    /// What the main writes depend on in each test of these files, cut to so many writes.
    fn for_each_test(most: usize, mut look: impl FnMut(&[Vec<usize>])) {
        for file in many_files() {
            for mut test in file.tests {
                test.main.truncate(most);
                look(&dependencies(&file.rules, &test.main));
            }
        }
    }

    /// For what is asked about all schedules: of more writes there are too many.
    fn for_each_short_test(look: impl FnMut(&[Vec<usize>])) {
        for_each_test(inputs::MAIN, look);
    }

    /// Random tests of more writes.
    fn for_each_long_test(mut look: impl FnMut(&mut Random, &[Vec<usize>])) {
        for seed in 0..400 {
            let mut random = Random::new(seed);
            let main = random.between(inputs::MAIN + 1, MOST_MAIN);
            let file = crashes::file_of(&mut random, main);
            let on = dependencies(&file.rules, &file.tests[0].main);
            look(&mut random, &on);
        }
    }

    /// For what the verdict asks: those of the files as they are, and these.
    fn for_each_whole_test(mut look: impl FnMut(&[Vec<usize>])) {
        for_each_test(MOST_MAIN, &mut look);
        for_each_long_test(|_, on| look(on));
    }

    #[test]
    fn no_turn_is_begun_after_a_broken_one() {
        for_each_short_test(|on| assert_eq!(late(&Form::Ending.asked(on)), 0));
        for_each_whole_test(|on| assert_eq!(late(&Form::Brought.asked(on)), 0));
    }

    /// So the count would notice a test that goes on.
    #[test]
    fn without_the_early_end_turns_begin_too_late() {
        let [_, (_, file), ..] = files();
        let on = dependencies(&file.rules, &file.tests[0].main);
        let all = Form::Every.asked(&on);
        // Each write is flagged in half of the schedules.
        assert_eq!(begun(&all), 12 * 4096 / 2);
        assert_ne!(late(&all), 0);
        assert_ne!(late(&ask_brought(every_write, &on)), 0);
    }

    /// A schedule with all that its flagged writes depend on flagged too, and after how many rounds.
    fn grown(on: &[Vec<usize>], mut schedule: u64) -> (u64, usize) {
        let mut rounds = 0;
        while !valid(on, schedule) {
            let needs = (0..on.len()).filter(|&i| flagged(schedule, i));
            schedule = needs
                .flat_map(|i| &on[i])
                .fold(schedule, |all, j| all | 1 << j);
            rounds += 1;
        }
        (schedule, rounds)
    }

    /// What the copy of `complete` makes of the rows.
    fn completed(on: &[Vec<usize>]) -> Rows {
        let mut rows = rows_of(on);
        complete_by(&mut rows, on.len(), is_valid);
        rows
    }

    /// Of longer tests some schedules, and the valid ones that these grow to. By the completed rows
    /// the same ones are valid.
    #[test]
    fn up_to_20_writes_the_answers_are_the_references() {
        let mut kinds = [0; 2];
        for_each_long_test(|random, on| {
            let (rows, brought, n) = (rows_of(on), completed(on), on.len());
            for _ in 0..100 {
                let some = random.number() % (1 << n);
                for s in [some, grown(on, some).0] {
                    let expected = valid(on, s);
                    assert_eq!(is_valid(&rows, n, s), expected, "schedule {s}");
                    assert_eq!(is_valid(&brought, n, s), expected, "schedule {s}");
                    kinds[expected as usize] += 1;
                }
            }
        });
        assert!(kinds.iter().all(|&count| count > 10_000), "{kinds:?}");
    }

    /// Whether a write has an unflagged dependency.
    fn is_broken(on: &[Vec<usize>], schedule: u64, i: usize) -> bool {
        on[i].iter().any(|&j| !flagged(schedule, j))
    }

    /// The turns that the meaning asks for: the flagged writes, the highest first, up to the first
    /// one that is broken.
    fn expected_turns(n: usize, schedule: u64, broken: impl Fn(usize) -> bool) -> Vec<usize> {
        let mut turns = Vec::new();
        for i in (0..n).rev().filter(|&i| flagged(schedule, i)) {
            turns.push(i);
            if broken(i) {
                break;
            }
        }
        turns
    }

    /// Counts of the questions: answered no at the first turn, at a later one, answered yes.
    fn count_kind(kinds: &mut [u64; 3], question: &Asked) {
        let kind = match (question.answer, question.turns.len()) {
            (true, _) => 2,
            (false, turns) => (turns > 1) as usize,
        };
        kinds[kind] += 1;
    }

    #[test]
    fn the_turns_are_those_up_to_the_first_broken_write() {
        let mut kinds = [0; 3];
        for_each_short_test(|on| {
            for (s, question) in (0..).zip(Form::Ending.asked(on)) {
                let expected = expected_turns(on.len(), s, |i| is_broken(on, s, i));
                assert_eq!((question.schedule, &question.turns), (s, &expected));
                count_kind(&mut kinds, &question);
            }
        });
        assert!(kinds.iter().all(|&count| count > 10_000), "{kinds:?}");
    }

    /// What the verdict asks, write by write: the last question about each is answered yes.
    fn asked_by_write(on: &[Vec<usize>]) -> Vec<Vec<Asked>> {
        let mut writes = vec![Vec::new()];
        for question in Form::Brought.asked(on) {
            let last = question.answer;
            writes.last_mut().expect("a write").push(question);
            if last {
                writes.push(Vec::new());
            }
        }
        let left = writes.pop().expect("a write");
        assert!(left.is_empty() && writes.len() == on.len());
        writes
    }

    /// The same where the verdict asks. The rows of the writes before are completed by then.
    #[test]
    fn the_verdicts_turns_are_those_up_to_the_first_broken_write() {
        let mut kinds = [0; 3];
        for_each_whole_test(|on| {
            for (i, questions) in asked_by_write(on).iter().enumerate() {
                for question in questions {
                    let s = question.schedule;
                    let expected = expected_turns(on.len(), s, |j| {
                        is_broken(on, s, j) || j < i && grown(on, 1 << j).0 & !s != 0
                    });
                    assert_eq!(question.turns, expected, "write {i}, schedule {s}");
                    count_kind(&mut kinds, question);
                }
            }
        });
        assert!(kinds.iter().all(|&count| count > 100), "{kinds:?}");
    }

    /// What all valid schedules flag that flag a write is valid itself: it is what the write brings.
    #[test]
    fn what_a_write_brings_is_the_smallest_valid_schedule_with_it() {
        let mut more = 0;
        for_each_short_test(|on| {
            let brought = completed(on);
            let all: Vec<u64> = (0..1 << on.len()).filter(|&s| valid(on, s)).collect();
            for i in 0..on.len() {
                let with = all.iter().filter(|&&s| flagged(s, i));
                let common = with.fold(u64::MAX, |common, s| common & s);
                assert!(valid(on, common) && flagged(common, i));
                assert_eq!(brought[i], common, "write {i}");
                more += (brought[i] != rows_of(on)[i] | 1 << i) as u64;
            }
            assert!(brought[on.len()..].iter().all(|&row| row == 0));
        });
        // More than itself and its row.
        assert!(more > 50, "{more}");
    }

    /// By growing it, where all schedules are too many.
    #[test]
    fn up_to_20_writes_a_write_brings_what_it_grows_to() {
        for_each_whole_test(|on| {
            let brought = completed(on);
            for i in 0..on.len() {
                assert_eq!(brought[i], grown(on, 1 << i).0, "write {i}");
            }
        });
    }

    /// One question more than its dependencies are deep, at most; and three, at most, about a write that
    /// depends only on writes before it: by itself, with its row, with what these bring.
    #[test]
    fn few_questions_are_asked_about_a_write() {
        let mut before = [0; 4];
        for_each_whole_test(|on| {
            for (i, questions) in asked_by_write(on).iter().enumerate() {
                let (many, (_, rounds)) = (questions.len(), grown(on, 1 << i));
                assert_eq!(questions[0].schedule, 1 << i);
                assert!(many <= rounds + 1, "write {i}: {many}");
                if on[i].iter().all(|&j| j < i) {
                    assert!(many <= 3, "write {i}: {many}");
                    before[many] += 1;
                }
            }
        });
        assert!(before[1..].iter().all(|&count| count > 10), "{before:?}");
        // The most: each of 20 writes depends on the one behind it.
        let chain = (1..=20).map(|i| (i..20).take(1).collect());
        let questions = Form::Brought.asked(&chain.collect::<Vec<Vec<usize>>>());
        assert_eq!(questions.len(), 20 * 21 / 2);
    }
}
