// Whole runs: the cache's bytes against the book, which never sees them.

use crate::book::{Book, Call};
use crate::cache::{self, drain, hand_in, open, sound, step, DISK, STATE};
use crate::checks::consistent;
use crate::counts::expected;
use crate::crashes::acyclic_rules;
use crate::file::File;
use crate::generate::{self, Values};
use crate::random::Random;
use crate::schedule::{dependencies, disk_of, valid};
use crate::writes::{disk_from_bytes, disk_to_bytes, Disk, Rule};

struct Run {
    state: Vec<u8>,
    disk: Vec<u8>,
    book: Book,
    rules: Vec<Rule>,
    at_opening: Disk,
}

impl Run {
    fn new(rules: &[Rule], at_opening: &Disk) -> Run {
        let file = File {
            rules: rules.to_vec(),
            tests: vec![],
        };
        let mut state = vec![0xEE; STATE];
        assert_eq!(open(&file.to_bytes(), &mut state), Ok(()));
        Run {
            state,
            disk: disk_to_bytes(at_opening),
            book: Book::new(rules),
            rules: rules.to_vec(),
            at_opening: *at_opening,
        }
    }

    /// Makes a call, enters it, and compares. True if it was refused.
    fn call(&mut self, call: &Call) -> bool {
        let before = (self.state.clone(), self.disk.clone());
        let waiting = self.book.waiting();
        let refused = match call {
            Call::Open => open(&[1], &mut self.state).is_err(),
            Call::HandIn(write) => hand_in(&mut self.state, write).is_err(),
            Call::Step => {
                let place = step(&mut self.state, &mut self.disk).unwrap();
                assert_eq!(place == 0, waiting == 0);
                false
            }
            Call::Drain => {
                assert_eq!(drain(&mut self.state, &mut self.disk), Ok(waiting));
                false
            }
        };
        if refused {
            assert_eq!(before, (self.state.clone(), self.disk.clone()));
        }
        self.book.enter(call, refused);
        assert!(sound(&self.state));
        assert_eq!(cache::accepted(&self.state), self.book.writes);
        assert_eq!(cache::stored(&self.state), self.book.flags);
        let schedule = self.book.schedule();
        assert!(valid(
            &dependencies(&self.rules, &self.book.writes),
            schedule
        ));
        let expected = disk_of(&self.at_opening, &self.book.writes, schedule);
        assert_eq!(disk_from_bytes(&self.disk), expected);
        refused
    }
}

#[test]
fn random_runs() {
    let (mut accepted, mut refused) = (0, 0);
    for seed in 0..400 {
        let mut random = Random::new(seed);
        let values = Values::small(&mut random);
        let rules = acyclic_rules(&mut random, &values, 4);
        let mut run = Run::new(&rules, &disk_from_bytes(&random.bytes(DISK)));
        for _ in 0..random.below(60) {
            let call = match random.below(8) {
                0 => Call::Open,
                1 | 2 => Call::Step,
                3 if random.one_in(4) => Call::Drain,
                _ => Call::HandIn(generate::write(&mut random, &values)),
            };
            let was_refused = run.call(&call);
            if let Call::HandIn(_) = call {
                if was_refused {
                    refused += 1;
                } else {
                    accepted += 1;
                }
            }
        }
    }
    assert!(accepted > 1000 && refused > 1000, "{accepted} {refused}");
}

#[test]
fn the_sixty_fifth_write() {
    let mut random = Random::new(3);
    let values = Values::wide(&mut random);
    let mut run = Run::new(&[], &crate::writes::EMPTY_DISK);
    for i in 0..70 {
        let refused = run.call(&Call::HandIn(generate::write(&mut random, &values)));
        assert_eq!(refused, i >= 64);
    }
    run.call(&Call::Step);
    run.call(&Call::Drain);
    assert_eq!(run.book.waiting(), 0);
}

/// Tests that hold stay consistent at every cut, under demand 3's conditions.
#[test]
fn tests_that_hold_stay_consistent() {
    let mut held = 0;
    for seed in 0..2000 {
        let mut random = Random::new(seed);
        let values = Values::small(&mut random);
        let rules = acyclic_rules(&mut random, &values, 4);
        let test = generate::test(&mut random, &values);
        if test.main.len() < 2 || expected(&rules, &test).bad > 0 {
            continue;
        }
        let on = dependencies(&rules, &test.main);
        let mut run = Run::new(&rules, &test.initial_disk());
        let mut next = 0;
        while next < test.main.len() {
            if random.one_in(3) {
                run.call(&Call::Step);
            } else if run.call(&Call::HandIn(test.main[next])) {
                break;
            } else {
                next += 1;
            }
            let reaches_beyond =
                (0..next).any(|i| run.book.flags[i] && on[i].iter().any(|&j| j >= next));
            if !reaches_beyond {
                assert!(
                    consistent(&test.checks, &disk_from_bytes(&run.disk)),
                    "seed {seed}"
                );
                held += 1;
            }
        }
    }
    assert!(held > 500, "{held}");
}
