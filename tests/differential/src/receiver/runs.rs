// Whole runs: long lists of calls, each compared with the reference, with a cut after every store,
// where the disk left is compared with what the book says.

use reference::book::{Book, Call};
use reference::cache::{self, DISK, STATE};
use reference::checks::consistent;
use reference::counts;
use reference::crashes;
use reference::damage;
use reference::file::Test;
use reference::generate::{self, Values};
use reference::random::Random;
use reference::samples;
use reference::schedule::{dependencies, disk_of, valid};
use reference::states::Source;
use reference::writes::{disk_from_bytes, disk_to_bytes, Block, Disk, Rule, Write, EMPTY_DISK};

use super::hand_in::same_hand_in;
use super::storing::{DRAIN, STEP};
use super::OTHER_LENGTHS;
use crate::answer;
use crate::calls;
use crate::harness::{fail, require, same_answer_on, Failure, Outcome, Run, Suite};
use crate::lent::Lent;

pub fn suites() -> Vec<Suite> {
    let suite = |name, run| Suite { name, run };
    vec![
        suite("runs: the bench sheet", bench_sheet),
        suite("runs: long lists of calls", long_lists),
        suite("runs: until the state is full", full_states),
        suite("runs: tests that hold", tests_that_hold),
    ]
}

/// A run on its way: the library's state and disk, and the book.
struct Replay {
    rules: Vec<Rule>,
    at_opening: Disk,
    state: Lent,
    disk: Lent,
    book: Book,
    /// A test that holds under the rules, whose main trace the run is given.
    test: Option<Test>,
    stores: u64,
    consistent_cuts: u64,
}

impl Replay {
    /// Opens a cache in place of any bytes.
    fn open(random: &mut Random, source: &Source, at_opening: &Disk) -> Result<Replay, Failure> {
        let before = random.bytes(STATE);
        let file = source.file(random);
        let (mut state, file) = (Lent::new(random, &before), Lent::new(random, &file));
        let inputs = [("file", file.content())];
        same_answer_on("open", &inputs, 0, calls::open(&mut state, &file))?;
        state.became("state", &source.opened())?;
        Ok(Replay {
            rules: source.rules.clone(),
            at_opening: *at_opening,
            state,
            disk: Lent::new(random, &disk_to_bytes(at_opening)),
            book: Book::new(&source.rules),
            test: None,
            stores: 0,
            consistent_cuts: 0,
        })
    }

    fn hand_in(&mut self, write: &Write) -> Result<u32, Failure> {
        let refused = same_hand_in(&mut self.state, write)?;
        self.book.enter(&Call::HandIn(*write), refused != 0);
        self.cut()?;
        Ok(refused)
    }

    /// A step stores exactly one while any waits, and answers its place.
    fn step(&mut self) -> Result<u64, Failure> {
        let before = self.book.clone();
        self.book.enter(&Call::Step, false);
        let flagged = (0..before.flags.len()).find(|&i| before.flags[i] != self.book.flags[i]);
        let expected = flagged.map_or(0, |i| i as u64 + 1);
        let place = STEP.same(&mut self.state, &mut self.disk)?;
        same_answer_on("step, by the book", &[], expected, place)?;
        require(
            (place == 0) == (before.waiting() == 0),
            "0 exactly if none waits",
            place.to_string(),
        )?;
        self.stores += u64::from(place != 0);
        self.cut()?;
        Ok(place)
    }

    /// A drain is its steps: these are made on a copy, with a cut after each, and lead to the same.
    fn drain(&mut self) -> Outcome {
        let waiting = self.book.waiting() as u64;
        let mut steps = Replay {
            rules: self.rules.clone(),
            at_opening: self.at_opening,
            state: self.state.clone(),
            disk: self.disk.clone(),
            book: self.book.clone(),
            test: self.test.clone(),
            ..*self
        };
        while steps.step()? != 0 {}
        let stored = DRAIN.same(&mut self.state, &mut self.disk)?;
        same_answer_on("drain, by the book", &[], waiting, stored)?;
        self.book.enter(&Call::Drain, false);
        require(
            self.book == steps.book,
            "a drain's steps in the book",
            format!("{:?}", self.book.flags),
        )?;
        let left = (self.state.content(), self.disk.content());
        let by_steps = (steps.state.content(), steps.disk.content());
        require(left == by_steps, "what its steps leave", "else".to_string())?;
        (self.stores, self.consistent_cuts) = (steps.stores, steps.consistent_cuts);
        self.cut()
    }

    /// A call that is refused: an opening, or one that is lent another state or disk.
    fn refused_call(&mut self, random: &mut Random) -> Outcome {
        let call = match random.below(4) {
            0 => self.refused_opening(random)?,
            1 => {
                let mut other = other_state(random);
                same_hand_in(&mut other, &any_write(random))?;
                Call::HandIn(any_write(random))
            }
            2 => {
                let mut other = other_state(random);
                random
                    .pick(&[STEP, DRAIN])
                    .same(&mut other, &mut self.disk)?;
                random.pick(&[Call::Step, Call::Drain])
            }
            _ => {
                let length = random.pick(&OTHER_LENGTHS);
                let bytes = random.bytes(length);
                let mut other = Lent::new(random, &bytes);
                random
                    .pick(&[STEP, DRAIN])
                    .same(&mut self.state, &mut other)?;
                random.pick(&[Call::Step, Call::Drain])
            }
        };
        self.book.enter(&call, true);
        self.state.unchanged("state")?;
        self.disk.unchanged("disk")?;
        self.cut()
    }

    fn refused_opening(&mut self, random: &mut Random) -> Result<Call, Failure> {
        let file = match random.below(4) {
            0 => crashes::file(random).to_mixed_bytes(random),
            1 => vec![3, 0, 3, 1, 0, 1],
            _ => damage::any(random).bytes,
        };
        let refused = cache::open(&file, &mut vec![0; STATE]).map(|()| 0);
        let lent = Lent::new(random, &file);
        let got = calls::open(&mut self.state, &lent);
        same_answer_on("open", &[("file", &file)], answer::of(refused), got)?;
        Ok(Call::Open)
    }

    /// The supply is cut here: the disk left is that of the book's stored writes, in the order they
    /// came, these are a valid schedule, and a test that holds finds it consistent.
    fn cut(&mut self) -> Outcome {
        let state = self.state.content();
        let kept = (cache::accepted(state), cache::stored(state));
        require(
            kept == (self.book.writes.clone(), self.book.flags.clone()),
            "the book's writes and flags",
            format!("{kept:?}"),
        )?;
        let schedule = self.book.schedule();
        let on = dependencies(&self.rules, &self.book.writes);
        require(
            valid(&on, schedule),
            "a valid schedule",
            format!("{schedule:#x}"),
        )?;
        let left = disk_from_bytes(self.disk.content());
        if left != disk_of(&self.at_opening, &self.book.writes, schedule) {
            return fail(
                "a cut",
                &[("state", state), ("disk", self.disk.content())],
                format!("the disk at opening with the stored writes of {schedule:#x}"),
                "another".to_string(),
            );
        }
        self.test_is_consistent(&left)
    }

    /// Unless a stored write depends on a main write that is still to come.
    fn test_is_consistent(&mut self, left: &Disk) -> Outcome {
        let test = match &self.test {
            Some(test) => test,
            None => return Ok(()),
        };
        let accepted = self.book.writes.len();
        let on = dependencies(&self.rules, &test.main);
        let reaches_beyond =
            (0..accepted).any(|i| self.book.flags[i] && on[i].iter().any(|&j| j >= accepted));
        if reaches_beyond {
            return Ok(());
        }
        self.consistent_cuts += 1;
        require(
            consistent(&test.checks, left),
            "a consistent disk",
            format!("{test:?} after {:?}", self.book.flags),
        )
    }
}

/// A state of another length, or one that is not sound.
fn other_state(random: &mut Random) -> Lent {
    let length = random.pick(&OTHER_LENGTHS);
    let bytes = match random.below(2) {
        0 => random.bytes(length),
        _ => random.bytes(STATE),
    };
    Lent::new(random, &bytes)
}

fn any_write(random: &mut Random) -> Write {
    let values = Values::small(random);
    generate::write(random, &values)
}

/// K9 and K11: both are accepted, and place 2 is stored first.
fn bench_sheet(run: &mut Run) -> Outcome {
    let write = |address, name, epoch, first, second| Write {
        address,
        name,
        epoch,
        block: Block { first, second },
    };
    let less = Rule {
        name: 1,
        predicate: reference::writes::Predicate::Less,
        second: 1,
    };
    for (rules, writes) in [
        (
            samples::log_rules().to_vec(),
            [write(0, 2, 1, 1, 3), write(2, 1, 1, 1, 81)],
        ),
        (vec![less], [write(5, 1, 1, 0, 1), write(6, 1, 2, 0, 2)]),
    ] {
        let mut random = run.next_case();
        let mut source = Source::new(&mut random);
        source.rules = rules;
        let mut replay = Replay::open(&mut random, &source, &EMPTY_DISK)?;
        for write in &writes {
            let refused = replay.hand_in(write)?;
            require(refused == 0, "accepted", refused.to_string())?;
        }
        for expected in [2, 1, 0] {
            let place = replay.step()?;
            require(place == expected, &expected.to_string(), place.to_string())?;
        }
    }
    Ok(())
}

fn long_lists(run: &mut Run) -> Outcome {
    let (mut stores, mut accepted, mut refused) = (0, 0, 0);
    for _ in 0..run.times(500) {
        let mut random = run.next_case();
        let source = Source::new(&mut random);
        let at_opening = disk_from_bytes(&random.bytes(DISK));
        let mut replay = Replay::open(&mut random, &source, &at_opening)?;
        let handing = random.between(2, 12);
        for _ in 0..random.below(80) {
            run.next_case();
            match random.below(4 + handing) {
                0 | 1 => {
                    replay.step()?;
                }
                2 if random.one_in(3) => replay.drain()?,
                3 => replay.refused_call(&mut random)?,
                _ => match replay.hand_in(&source.write(&mut random))? {
                    0 => accepted += 1,
                    _ => refused += 1,
                },
            }
        }
        stores += replay.stores;
    }
    run.note(format!(
        "{accepted} accepted, {refused} refused, {stores} stores"
    ));
    require(
        accepted > 3_000 && refused > 1_000 && stores > 2_000,
        "many of each",
        format!("{accepted} {refused} {stores}"),
    )
}

/// 64 writes and more, then all stored, by steps or by a drain.
fn full_states(run: &mut Run) -> Outcome {
    for i in 0..run.times(12) {
        let mut random = run.next_case();
        let mut source = Source::new(&mut random);
        source.values = Values::wide(&mut random);
        source.rules = match i % 3 {
            0 => vec![],
            1 => crashes::acyclic_rules(&mut random, &source.values, 32),
            _ => samples::log_rules().to_vec(),
        };
        let mut replay = Replay::open(&mut random, &source, &EMPTY_DISK)?;
        let puts = generate::puts(&mut random, 32);
        let puts = reference::log::test_of(&puts, &[]).initial;
        let mut next = puts.iter();
        for _ in 0..200 {
            run.next_case();
            let write = match next.next() {
                Some(write) if i % 3 == 2 => *write,
                _ => source.write(&mut random),
            };
            replay.hand_in(&write)?;
            if replay.book.writes.len() == 64 {
                break;
            }
        }
        replay.hand_in(&source.write(&mut random))?;
        if i % 2 == 0 {
            replay.step()?;
            replay.drain()?;
        } else {
            while replay.step()? != 0 {}
        }
        require(
            replay.book.waiting() == 0,
            "none waits",
            replay.book.waiting().to_string(),
        )?;
    }
    Ok(())
}

/// Demand 3's second half: the main trace of a test that holds, handed in with steps, drains and
/// refused calls in between.
fn tests_that_hold(run: &mut Run) -> Outcome {
    let mut cuts = 0;
    for _ in 0..run.times(4_000) {
        let mut random = run.next_case();
        let file = match random.below(4) {
            0 => crashes::log_file(&mut random),
            1 => crashes::range_file(&mut random),
            _ => crashes::file(&mut random),
        };
        let test = &file.tests[0];
        let holds = || counts::expected(&file.rules, test).bad == 0;
        if test.main.len() < 2 || test.checks.is_empty() || !holds() {
            continue;
        }
        let mut source = Source::new(&mut random);
        source.rules = file.rules.clone();
        let mut replay = Replay::open(&mut random, &source, &test.initial_disk())?;
        replay.test = Some(test.clone());
        let mut main = test.main.iter();
        let mut is_going = true;
        while is_going {
            match random.below(6) {
                0 | 1 => {
                    replay.step()?;
                }
                2 if random.one_in(3) => replay.drain()?,
                3 if random.one_in(3) => replay.refused_call(&mut random)?,
                // The trace ends where a write is refused: others would not begin it.
                _ => is_going = matches!(main.next(), Some(w) if replay.hand_in(w)? == 0),
            }
        }
        replay.drain()?;
        cuts += replay.consistent_cuts;
    }
    run.note(format!("{cuts} consistent cuts"));
    require(cuts > 8_000, "many cuts", cuts.to_string())
}
