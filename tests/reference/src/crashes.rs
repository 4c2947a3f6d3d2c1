// Tests whose verdict hangs on the rules and on each write: writes that meet at an address, rules
// that match, checks that hold at the start and that a crash can break.

use crate::checks::Check;
use crate::cyclic::cyclic;
use crate::file::{File, Test, MOST_CHECKS, MOST_MAIN, MOST_RULES};
use crate::generate::{self, Values};
use crate::log;
use crate::random::Random;
use crate::samples::log_rules;
use crate::schedule::dependencies;
use crate::writes::{block, write, Block, Name, Predicate, Rule, Write, EMPTY, PREDICATES};

/// Up to `most` rules that are not cyclic.
pub fn acyclic_rules(random: &mut Random, values: &Values, most: usize) -> Vec<Rule> {
    let mut rules = Vec::new();
    for _ in 0..random.between(0, most) {
        rules.push(generate::rule(random, values));
        if cyclic(&rules) {
            rules.pop();
        }
    }
    rules
}

/// As many rules as a file can have: these, and others that have none of the names, in any
/// order, so that one which matters is often the last. They are of one byte if all those names are.
pub fn padded(random: &mut Random, values: &Values, rules: &[Rule]) -> Vec<Rule> {
    let largest = values.names.iter().copied().max().unwrap_or(0);
    let unused: Vec<Name> = (0..=largest.clamp(255, 1023))
        .filter(|n| !values.names.contains(n))
        .collect();
    let mut all = rules.to_vec();
    while all.len() < MOST_RULES {
        let i = random.below(unused.len() - 1);
        all.push(Rule {
            name: unused[i],
            predicate: random.pick(&PREDICATES),
            second: unused[random.between(i + 1, unused.len() - 1)],
        });
    }
    random.shuffle(&mut all);
    let matters = |rule: &Rule| values.names.contains(&rule.name);
    if random.one_in(2) {
        if let Some(i) = all.iter().position(matters) {
            all.swap(i, MOST_RULES - 1);
        }
    }
    all
}

/// So many names: 1, 2 and so on, or any that are alike.
fn few_names(random: &mut Random, count: usize) -> Vec<Name> {
    match random.one_in(2) {
        true => generate::names(random, count),
        false => (1..=count as Name).collect(),
    }
}

/// A check about where writes of the test go and what they leave there.
fn check_of(random: &mut Random, values: &Values, test: &Test) -> Check {
    let writes: Vec<&Write> = test.initial.iter().chain(&test.main).collect();
    if writes.is_empty() || random.one_in(5) {
        return generate::check(random, values);
    }
    let (one, two) = (random.pick(&writes), random.pick(&writes));
    match random.below(4) {
        0 => Check::Range { at: one.address },
        1 => Check::Pointer { at: one.address },
        _ => Check::Pair {
            a: one.address,
            v: one.block,
            b: two.address,
            w: two.block,
        },
    }
}

/// Checks for a test that has its writes: of those that are drawn, the ones that hold at the start
/// or, in few of the tests, any.
pub fn add_checks(random: &mut Random, values: &Values, test: &mut Test, drawn: usize) {
    let start = test.initial_disk();
    let any = random.one_in(8);
    for _ in 0..drawn {
        let check = check_of(random, values, test);
        if test.checks.len() < MOST_CHECKS && (any || check.holds(&start)) {
            test.checks.push(check);
        }
    }
}

/// A test with this number of main writes.
pub fn test(random: &mut Random, values: &Values, main: usize) -> Test {
    let initial = random.below(8);
    let mut test = generate::test_of(random, values, initial, main, 0);
    let drawn = match random.below(8) {
        0 => random.between(8, 40),
        _ => random.between(1, 5),
    };
    add_checks(random, values, &mut test, drawn);
    test
}

/// A number of main writes: each occurs, the large ones rarely.
pub fn main_count(random: &mut Random) -> usize {
    if random.one_in(16) {
        random.between(0, MOST_MAIN)
    } else {
        random.between(1, 7)
    }
}

/// Rules that are not cyclic and a few tests.
pub fn file(random: &mut Random) -> File {
    let values = Values::small(random);
    let most = if random.one_in(8) { 32 } else { 6 };
    let rules = acyclic_rules(random, &values, most);
    let mut tests = Vec::new();
    for _ in 0..random.between(1, 3) {
        let main = main_count(random);
        tests.push(test(random, &values, main));
    }
    File { rules, tests }
}

/// A file of one test with this many main writes, of any kind: few values or many, a rule for each
/// write or none, all writes to one or two addresses or each to its own, logs, ranges, and checks
/// that ask for what rules guarantee.
pub fn file_of(random: &mut Random, main: usize) -> File {
    let mut values = match random.below(3) {
        0 => Values::wide(random),
        _ => Values::small(random),
    };
    match random.below(6) {
        0 => values.addresses.truncate(random.between(1, 2)),
        1 => values.addresses = random.bytes(40),
        2 => values.epochs = (0..random.between(1, 20) as u32).collect(),
        _ => {}
    }
    let most = random.pick(&[0, 2, 4, 12, 32]);
    let rules = acyclic_rules(random, &values, most);
    let guarding = random.between(1, 8);
    let test = match random.below(6) {
        0 if main > 0 => guarded_test(random, &values, main, guarding),
        1 => return range_file_of(random, main),
        2 if main > 0 && main % 2 == 0 => return log_file_of(random, main / 2),
        _ => test(random, &values, main),
    };
    File {
        rules,
        tests: vec![test],
    }
}

/// A log under its rules, some of them, or these and another one.
pub fn log_file(random: &mut Random) -> File {
    let after = random.between(1, log::MOST_MAIN_PUTS);
    log_file_of(random, after)
}

/// Likewise, with so many main puts.
pub fn log_file_of(random: &mut Random, after: usize) -> File {
    let before = random.below(4);
    let initial = generate::puts(random, before);
    let main = generate::puts(random, after);
    let mut rules = log_rules().to_vec();
    if random.one_in(2) {
        rules.remove(random.below(2));
    }
    if random.one_in(2) {
        let values = Values {
            names: vec![log::LOG, log::SUPERBLOCK],
            ..Values::small(random)
        };
        rules.push(generate::rule(random, &values));
        if cyclic(&rules) {
            rules.pop();
        }
    }
    random.shuffle(&mut rules);
    File {
        rules,
        tests: vec![log::test_of(&initial, &main)],
    }
}

/// Rules that are not cyclic and a test of a range: main writes leave heads and tails that are equal
/// or one apart where a range check looks, and fill blocks between them, or empty them.
pub fn range_file(random: &mut Random) -> File {
    let main = random.between(1, 5);
    range_file_of(random, main)
}

/// Likewise, with this many main writes.
pub fn range_file_of(random: &mut Random, main: usize) -> File {
    const NEAR: [u8; 9] = [1, 2, 3, 4, 5, 252, 253, 254, 255];
    let at = random.pick(&[0, 7, 255]);
    let names = few_names(random, 3);
    let values = Values {
        names,
        addresses: NEAR.iter().copied().filter(|&near| near != at).collect(),
        halves: vec![0, 1],
        ..Values::small(random)
    };
    let full = Block {
        first: 0,
        second: 1,
    };
    let mut initial = Vec::new();
    for &address in &values.addresses {
        if !random.one_in(12) {
            let write = generate::write(random, &values);
            let block = full;
            initial.push(Write {
                address,
                block,
                ..write
            });
        }
    }
    let main = (0..main)
        .map(|_| {
            let write = generate::write(random, &values);
            match random.below(3) {
                0 => write,
                _ => Write {
                    address: at,
                    block: generate::head_and_tail(random),
                    ..write
                },
            }
        })
        .collect();
    File {
        rules: acyclic_rules(random, &values, 6),
        tests: vec![Test {
            initial,
            main,
            checks: vec![Check::Range { at }],
        }],
    }
}

/// A test of this many main writes and of ranges over long rows of blocks that are there, some of them
/// up to the disk's last block. Of the main writes some are heads and tails about the row's ends, at
/// addresses before, in and behind it, and some change a block of it, or take one away.
pub fn long_ranges_file_of(random: &mut Random, main: usize) -> File {
    let many = random.between(1, 60) as u16;
    let from = match random.below(4) {
        0 => 256 - many,
        1 => random.below(3) as u16,
        _ => random.between(0, 256 - many as usize) as u16,
    };
    let in_row = |random: &mut Random| (from as usize + random.below(many as usize)) as u8;
    let near = |random: &mut Random, at: u16| match random.below(8) {
        0 => at + 1,
        1 => at.saturating_sub(1),
        _ => at,
    };
    let ends = |random: &mut Random| {
        let middle = in_row(random) as u16;
        let head = random.pick(&[from, from, middle]);
        let tail = random.pick(&[from + many, from + many, middle]);
        block(near(random, head), near(random, tail))
    };
    let places: Vec<u8> = (0..random.between(1, 3))
        .map(|_| match random.below(3) {
            0 => random.byte(),
            1 => from.saturating_sub(1) as u8,
            _ => in_row(random),
        })
        .collect();
    let names = few_names(random, 3);
    let label = |random: &mut Random| (random.pick(&names), random.below(3) as u32);
    let mut initial: Vec<Write> = (from..from + many)
        .filter(|_| !random.one_in(60))
        .map(|at| write(at as u8, 1, 0, block(7, at)))
        .collect();
    for &place in &places {
        initial.push(write(place, 1, 0, ends(random)));
    }
    let main = (0..main)
        .map(|_| {
            let (name, epoch) = label(random);
            match random.below(4) {
                0 => write(in_row(random), name, epoch, EMPTY),
                1 => write(in_row(random), name, epoch, block(1, 1)),
                _ => write(random.pick(&places), name, epoch, ends(random)),
            }
        })
        .collect();
    let checks = (0..random.between(1, 4))
        .map(|_| Check::Range {
            at: random.pick(&places),
        })
        .collect();
    let values = Values {
        names: names.clone(),
        ..Values::small(random)
    };
    let most = random.pick(&[0, 2, 6]);
    File {
        rules: acyclic_rules(random, &values, most),
        tests: vec![Test {
            initial,
            main,
            checks,
        }],
    }
}

/// Rules that are not cyclic and a small test in which all things meet: up to eight main writes, of
/// few names and epochs, to few blocks.
pub fn tangled_file(random: &mut Random) -> File {
    let main = random.between(0, 8);
    tangled_file_of(random, main)
}

/// Likewise, with this many main writes: what these leave are heads, tails and targets among the
/// blocks that they write to, themselves too, or nothing, or what another one leaves; and each check
/// is about these blocks.
pub fn tangled_file_of(random: &mut Random, main: usize) -> File {
    let from = random.pick(&[0u16, 0, 1, 7, 250]);
    let many = random.between(1, 6) as u16;
    let mut halves: Vec<u16> = (from..=from + many).collect();
    if random.one_in(4) {
        halves.push(random.pick(&[0, 1, 256, 257, 65_535]));
    }
    let few = random.between(1, 4);
    let values = Values {
        names: few_names(random, few),
        addresses: (from..from + many).map(|address| address as u8).collect(),
        epochs: (0..random.between(1, 4) as u32).collect(),
        halves,
    };
    let initial = random.below(5);
    let mut test = generate::test_of(random, &values, initial, main, 0);
    for i in 0..main {
        test.main[i].block = match random.below(6) {
            0 => EMPTY,
            1 => random.pick(&test.main).block,
            _ => test.main[i].block,
        };
    }
    let drawn = match random.below(4) {
        0 => random.between(2, 12),
        _ => random.between(1, 3),
    };
    add_checks(random, &values, &mut test, drawn);
    let most = random.pick(&[0, 2, 6, 12]);
    File {
        rules: acyclic_rules(random, &values, most),
        tests: vec![test],
    }
}

/// Main writes of rising epochs to one address, each depending on those before it, so that the
/// valid schedules are the starts of the trace; and one of these, the last in half of the cases,
/// leaves the only block that the check objects to. With it the number of that schedule.
pub fn chain(random: &mut Random) -> (File, u64) {
    let (name, address, other) = (generate::name(random), random.byte(), random.byte());
    let from = random.number() as u32 >> 1;
    let count = random.between(1, MOST_MAIN);
    let main: Vec<Write> = (0..count)
        .map(|i| Write {
            address,
            name,
            epoch: from + i as u32,
            block: Block {
                first: i as u16,
                second: 1,
            },
        })
        .collect();
    let bad = if random.one_in(2) {
        count
    } else {
        random.between(1, count)
    };
    // No write leaves (65535, 65535) anywhere.
    let never = Block {
        first: u16::MAX,
        second: u16::MAX,
    };
    let file = File {
        rules: vec![Rule {
            name,
            predicate: Predicate::Greater,
            second: name,
        }],
        tests: vec![Test {
            initial: vec![],
            checks: vec![Check::Pair {
                a: address,
                v: main[bad - 1].block,
                b: other,
                w: never,
            }],
            main,
        }],
    };
    (file, (1 << bad) - 1)
}

/// A test that asks for what some acyclic rules guarantee, by a pair check for each two writes that
/// one of them matches: rules that are enough can be found, and often all of these are needed.
pub fn guarded_test(random: &mut Random, values: &Values, main: usize, most: usize) -> Test {
    let mut addresses: Vec<u8> = (0..=255).collect();
    random.shuffle(&mut addresses);
    let main: Vec<Write> = (0..main)
        .map(|i| Write {
            address: addresses[i],
            block: Block {
                first: 1,
                second: i as u16,
            },
            ..generate::write(random, values)
        })
        .collect();
    let mut rules = Vec::new();
    for _ in 0..random.between(1, most) {
        let (one, two) = (random.pick(&main), random.pick(&main));
        let relates = |p: &&Predicate| p.relates(one.epoch, two.epoch);
        rules.extend(PREDICATES.iter().find(relates).map(|&predicate| Rule {
            name: one.name,
            predicate,
            second: two.name,
        }));
        if cyclic(&rules) {
            rules.pop();
        }
    }
    let mut checks = Vec::new();
    for (i, on) in dependencies(&rules, &main).iter().enumerate() {
        checks.extend(on.iter().map(|&j| Check::Pair {
            a: main[i].address,
            v: main[i].block,
            b: main[j].address,
            w: main[j].block,
        }));
    }
    random.shuffle(&mut checks);
    checks.truncate(MOST_CHECKS);
    Test {
        initial: vec![],
        main,
        checks,
    }
}
