// What the routines are measured on.

use reference::cache::{self, DISK, STATE};
use reference::checks::Check;
use reference::counts;
use reference::crashes;
use reference::file::{File, Test, LONGEST, LONGEST_NARROW};
use reference::file::{MOST_CHECKS, MOST_INITIAL, MOST_MAIN, MOST_TESTS};
use reference::generate::{self, Values};
use reference::judge::judge_test;
use reference::log;
use reference::random::Random;
use reference::samples::{log_rules, test_k};
use reference::writes::{block, rule, write, Block, Name, Predicate, Rule, Write};

/// The main writes of a test, but for those of 20 and the longest file: as many as finding takes.
pub const MAIN: usize = 12;

fn file_of(rules: &[Rule], tests: Vec<Test>) -> Vec<u8> {
    let rules = rules.to_vec();
    File { rules, tests }.to_bytes()
}

/// Test K of the bench sheet.
pub fn k_file(rules: &[Rule]) -> Vec<u8> {
    file_of(rules, vec![test_k()])
}

/// A log of six puts, after one that is there.
pub fn log_file(rules: &[Rule]) -> Vec<u8> {
    file_of(rules, vec![log_test(6)])
}

/// A log of ten puts: 20 writes.
pub fn long_log_file(rules: &[Rule]) -> Vec<u8> {
    file_of(rules, vec![log_test(10)])
}

fn log_test(puts: u16) -> Test {
    let puts: Vec<Block> = (1..=puts).map(|key| block(key, 80 + key)).collect();
    log::test_of(&[block(0, 42)], &puts)
}

/// The addresses of settings, of marks, and of ranges of settings, which no main write changes.
const SETTINGS: u8 = 20;
const MARKS: u8 = 40;
const RANGES: u8 = 60;

/// Four marks, each for two settings: eight settings are written, then the marks. The marks and
/// their settings have names of their own. A mark points to its first setting, a range has both, and
/// with a new mark both are new. Nothing is broken before the first mark.
fn settings_test() -> Test {
    let (old, new) = (block(1, 1), block(2, 2));
    let first = |k: u8| (SETTINGS + 2 * k) as u16;
    let setting = |i: u8, block| write(SETTINGS + i, Name::from(i / 2), 0, block);
    let mark = |k: u8, number| write(MARKS + k, 10 + Name::from(k), 0, block(number, first(k)));
    let range = |k: u8| write(RANGES + k, 20, 0, block(first(k), first(k) + 2));
    let new_mark_has = |i: u8| Check::Pair {
        a: MARKS + i / 2,
        v: block(1, first(i / 2)),
        b: SETTINGS + i,
        w: new,
    };
    Test {
        initial: (0..8)
            .map(|i| setting(i, old))
            .chain((0..4).map(|k| mark(k, 0)))
            .chain((0..4).map(range))
            .collect(),
        main: (0..8)
            .map(|i| setting(i, new))
            .chain((0..4).map(|k| mark(k, 1)))
            .collect(),
        checks: (0..4)
            .map(|k| Check::Pointer { at: MARKS + k })
            .chain((0..4).map(|k| Check::Range { at: RANGES + k }))
            .chain((0..8).map(new_mark_has))
            .collect(),
    }
}

/// 12 main writes and 16 checks under the first so many of four rules, one for each mark.
pub fn settings_file(rules: Name) -> Vec<u8> {
    let rules: Vec<Rule> = (0..rules)
        .map(|k| rule(10 + k, Predicate::Equal, k))
        .collect();
    file_of(&rules, vec![settings_test()])
}

/// The names of a mark and of its settings.
const FIRST: Name = 1;
const SECOND: Name = 2;
const THIRD: Name = 3;
const MARK: Name = 4;

/// Five marks, each for three settings: 15 settings are written, then the marks, where there were
/// none. A mark is a range of its first setting, which is not there before; with a mark the others
/// are new. A pointer of the first mark is never broken.
fn marks_test() -> Test {
    let (old, new) = (block(1, 1), block(2, 2));
    let setting = |k: u8, name: Name| SETTINGS + 3 * k + (name - FIRST) as u8;
    let range = |k: u8| {
        let first = setting(k, FIRST) as u16;
        block(first, first + 1)
    };
    let settings = || (0..5).flat_map(|k| [FIRST, SECOND, THIRD].map(|name| (k, name)));
    let is_new = |(k, name): (u8, Name)| Check::Pair {
        a: MARKS + k,
        v: range(k),
        b: setting(k, name),
        w: new,
    };
    let mut checks = vec![Check::Pointer { at: MARKS }];
    checks.extend((0..5).map(|k| Check::Range { at: MARKS + k }));
    checks.extend(settings().filter(|&(_, name)| name != FIRST).map(is_new));
    Test {
        initial: settings()
            .filter(|&(_, name)| name != FIRST)
            .map(|(k, name)| write(setting(k, name), name, 0, old))
            .collect(),
        main: settings()
            .map(|(k, name)| write(setting(k, name), name, k as u32, new))
            .chain((0..5).map(|k| write(MARKS + k, MARK, k as u32, range(k))))
            .collect(),
        checks,
    }
}

/// 20 main writes and 16 checks under the first so many of three rules: a mark after its first and
/// its second setting, the third setting after the second.
pub fn marks_file(rules: usize, tests: usize) -> Vec<u8> {
    let all = [(MARK, FIRST), (MARK, SECOND), (THIRD, SECOND)];
    let rules: Vec<Rule> = all[..rules]
        .iter()
        .map(|&(name, second)| rule(name, Predicate::Equal, second))
        .collect();
    file_of(&rules, vec![marks_test(); tests])
}

/// So many main writes and 16 checks that every schedule keeps, without rules: each write ends a list
/// by a block that points to itself, where there was none, and four ranges are filled from the start.
pub fn holding_file(main: usize) -> Vec<u8> {
    let filled = |i: u8| write(SETTINGS + i, 1, 0, block(1, 1));
    let range = |k: u8| {
        let head = SETTINGS as u16;
        write(RANGES + k, 2, 0, block(head, head + 4))
    };
    let end = |i: u8| write(100 + i, 3, 0, block(i as u16, 100 + i as u16));
    let test = Test {
        initial: (0..4).map(filled).chain((0..4).map(range)).collect(),
        main: (0..main as u8).map(end).collect(),
        checks: (0..12)
            .map(|i| Check::Pointer { at: 100 + i })
            .chain((0..4).map(|k| Check::Range { at: RANGES + k }))
            .collect(),
    };
    file_of(&[], vec![test])
}

/// What a range of so many blocks from address 1 on has: blocks that are there, and at address 0 head
/// and tail.
fn filled_range(blocks: u16) -> impl Iterator<Item = Write> {
    let filled = (1..=blocks as u8).map(|at| write(at, 1, 0, block(7, 7)));
    filled.chain([write(0, 2, 0, block(1, 1 + blocks))])
}

/// 20 main writes and 16 checks of which many sets of schedules have to be told apart, and in each of
/// these long ranges are looked at: five pairs, whose blocks are both changed and both put back, and
/// eleven times a range of 53 blocks.
pub fn ranges_file(tests: usize) -> Vec<u8> {
    let (old, new) = (block(1, 1), block(2, 2));
    let pair = |g: u8| (100 + 2 * g, 101 + 2 * g);
    let test = Test {
        initial: (0..5)
            .flat_map(|g| [pair(g).0, pair(g).1].map(|at| write(at, 3, 0, old)))
            .chain(filled_range(53))
            .collect(),
        main: (0..5)
            .flat_map(|g| {
                let (a, b) = pair(g);
                [(a, new), (b, new), (a, old), (b, old)].map(|(at, to)| write(at, 3, 0, to))
            })
            .collect(),
        checks: (0..5)
            .map(|g| Check::Pair {
                a: pair(g).0,
                v: old,
                b: pair(g).1,
                w: old,
            })
            .chain([Check::Range { at: 0 }; 11])
            .collect(),
    };
    file_of(&[], vec![test; tests])
}

/// 20 main writes, 16 checks and no rules, bad before the first write: a pointer leads to nothing.
pub fn bad_at_start_file() -> Vec<u8> {
    let mut test = marks_test();
    let at = RANGES;
    test.initial.push(write(at, 9, 0, block(1, at as u16 + 1)));
    test.checks[0] = Check::Pointer { at };
    file_of(&[], vec![test])
}

/// 20 main writes, each after all before it, and 16 checks: the last write is bad, and so all are flagged
/// in the only bad schedule. The other checks ask for what the rule guarantees.
pub fn chain_file() -> Vec<u8> {
    let new = block(2, 2);
    let last = MOST_MAIN as u8 - 1;
    let after = |i: u8, b: u8| Check::Pair {
        a: i,
        v: new,
        b,
        w: new,
    };
    let test = Test {
        initial: vec![],
        main: (0..=last).map(|i| write(i, 1, i as u32, new)).collect(),
        checks: (1..MOST_CHECKS as u8)
            .map(|i| after(i, i - 1))
            .chain([after(last, 200)])
            .collect(),
    };
    file_of(&[rule(1, Predicate::Greater, 1)], vec![test])
}

/// 20 main writes of empty blocks where ranges are, without rules: each write is to a check's own block,
/// and each takes a block away, but no range has one. All hold.
pub fn emptied_ranges_file() -> Vec<u8> {
    let at = |i: usize| RANGES + (i % MOST_CHECKS) as u8;
    let test = Test {
        initial: vec![],
        main: (0..MOST_MAIN)
            .map(|i| write(at(i), 1, 0, block(0, 0)))
            .collect(),
        checks: (0..MOST_CHECKS)
            .map(|i| Check::Range { at: at(i) })
            .collect(),
    };
    file_of(&[], vec![test])
}

/// Ten main writes of a superblock and ten that take blocks away which are not in its range, without
/// rules, and 16 times that range, of some 60 blocks. All hold.
pub fn emptied_beside_file() -> Vec<u8> {
    let superblock = |i: u16| write(0, 1, 0, block(1, 63 - i % 2));
    let emptied = |i: u16| write(100 + i as u8, 1, 0, block(0, 0));
    let test = Test {
        initial: filled_range(63).collect(),
        main: (0..10).flat_map(|i| [superblock(i), emptied(i)]).collect(),
        checks: vec![Check::Range { at: 0 }; MOST_CHECKS],
    };
    file_of(&[], vec![test])
}

/// 12 main writes of one superblock, each after the one before, and 16 times its range of some 60
/// blocks: 13 schedules are valid.
pub fn superblocks_file() -> Vec<u8> {
    let test = Test {
        initial: filled_range(63).collect(),
        main: (0..MAIN as u16)
            .map(|i| write(0, 1, i as u32, block(1, 63 - i % 2)))
            .collect(),
        checks: vec![Check::Range { at: 0 }; MOST_CHECKS],
    };
    file_of(&[rule(1, Predicate::Greater, 1)], vec![test])
}

/// The longest file with names of one byte that reading accepts, with rules that are not cyclic; in some
/// of its tests the rules leave hundreds of schedules valid, some hold and some fail. Every fourth test
/// asks of what a write leaves that it is that, and holds.
pub fn longest_narrow_file() -> Vec<u8> {
    longest().to_bytes()
}

/// The same with names above 255: no file is longer.
pub fn longest_file() -> Vec<u8> {
    let mut file = longest();
    let above = |name| 256 + name;
    rename(&mut file.rules, &mut [], above);
    for test in &mut file.tests {
        rename(&mut [], &mut test.initial, above);
        rename(&mut [], &mut test.main, above);
    }
    let bytes = file.to_bytes();
    assert_eq!(bytes.len(), LONGEST);
    bytes
}

/// Gives rules and writes other names.
fn rename(rules: &mut [Rule], writes: &mut [Write], other: fn(Name) -> Name) {
    let of_rules = rules.iter_mut().flat_map(|r| [&mut r.name, &mut r.second]);
    let of_writes = writes.iter_mut().map(|write| &mut write.name);
    for name in of_rules.chain(of_writes) {
        *name = other(*name);
    }
}

fn longest() -> File {
    let longest = |seed| {
        let mut random = Random::new(seed);
        let values = Values::narrow(&mut random);
        let few = crashes::acyclic_rules(&mut random, &values, 8);
        let rules = crashes::padded(&mut random, &values, &few);
        let mut test = |k: usize| {
            let mut test = generate::test_of(&mut random, &values, MOST_INITIAL, MOST_MAIN, 0);
            while test.checks.len() < MOST_CHECKS {
                let (one, other) = (random.pick(&test.main), random.pick(&test.main));
                let two = if k % 4 == 0 { one } else { other };
                let (a, v) = (one.address, one.block);
                let (b, w) = (two.address, two.block);
                test.checks.push(Check::Pair { a, v, b, w });
            }
            test
        };
        let tests: Vec<Test> = (0..MOST_TESTS).map(&mut test).collect();
        let judged = |test| counts::judge_test(&rules, test);
        let judged: Vec<_> = tests.iter().map(judged).collect();
        let valid: u64 = judged.iter().map(|judgement| judgement.valid).sum();
        let hold = judged.iter().filter(|judgement| judgement.bad == 0).count();
        let file = File { rules, tests };
        let is_telling = (2000..3000).contains(&valid) && (1..MOST_TESTS).contains(&hold);
        (is_telling && file.to_bytes().len() == LONGEST_NARROW).then_some(file)
    };
    (0..).find_map(longest).expect("seeds without end")
}

/// A random test of 12 main writes and 16 checks that holds with hundreds of valid schedules, under
/// rules of which many match.
pub fn dense_file() -> Vec<u8> {
    let dense = |seed| {
        let mut random = Random::new(seed);
        let values = Values::narrow(&mut random);
        let rules = crashes::acyclic_rules(&mut random, &values, 16);
        let mut test = generate::test_of(&mut random, &values, 16, MAIN, 0);
        let start = test.initial_disk();
        for _ in 0..200 {
            let check = generate::check(&mut random, &values);
            if test.checks.len() < MOST_CHECKS && check.holds(&start) {
                test.checks.push(check);
            }
        }
        let judgement = judge_test(&rules, &test);
        let is_dense = rules.len() >= 6
            && test.checks.len() == MOST_CHECKS
            && judgement.bad == 0
            && (300..1500).contains(&judgement.valid);
        let tests = vec![test];
        is_dense.then(|| File { rules, tests }.to_bytes())
    };
    (0..).find_map(dense).expect("seeds without end")
}

/// 16 tests of 12 main writes with 16 candidates. Every schedule but those of no and of all writes
/// is bad, so that only sets which lead from each name to each other do: they are cyclic.
pub fn hopeless_file() -> Vec<u8> {
    let there = block(0, 1);
    let test = |turn: usize| {
        let write = |i: usize| Write {
            address: i as u8,
            name: ((i + turn) % 4) as Name,
            epoch: 0,
            block: there,
        };
        let both_or_none = |i: usize| Check::Pair {
            a: i as u8,
            v: there,
            b: ((i + 1) % MAIN) as u8,
            w: there,
        };
        Test {
            initial: vec![],
            main: (0..MAIN).map(write).collect(),
            checks: (0..MAIN).map(both_or_none).collect(),
        }
    };
    let file = File {
        rules: vec![],
        tests: (0..MOST_TESTS).map(test).collect(),
    };
    file.to_bytes()
}

/// Writes of one epoch to blocks of their own, with these names, and a check for each two of them
/// that the second is there if the first is.
fn tied(names: &[Name], ties: &[(usize, usize)]) -> Test {
    let there = block(0, 1);
    let tie = |&(one, two): &(usize, usize)| Check::Pair {
        a: one as u8,
        v: there,
        b: two as u8,
        w: there,
    };
    Test {
        initial: vec![],
        main: (0..)
            .zip(names)
            .map(|(address, &name)| write(address, name, 0, there))
            .collect(),
        checks: ties.iter().map(tie).collect(),
    }
}

/// 13 logs, which have ten candidates, and three writes that ask for each other, which have six: no
/// acyclic set does.
pub fn logs_and_impossible_file() -> Vec<u8> {
    let mut tests = vec![log_test(6); 13];
    tests.push(tied(&[11, 12, 13], &[(0, 1), (1, 2), (2, 0)]));
    file_of(&[], tests)
}

/// 16 tests of 12 main writes, of four names in turn, with 16 candidates: each write asks for the one
/// before it of its four, so that three rules do. Seven ranges are filled from the start.
pub fn chains_file() -> Vec<u8> {
    let ties: Vec<(usize, usize)> = (0..MAIN)
        .filter(|i| i % 4 != 0)
        .map(|i| (i, i - 1))
        .collect();
    let names: Vec<Name> = (0..MAIN).map(|i| (i % 4) as Name).collect();
    let mut test = tied(&names, &ties);
    test.initial = (0..8)
        .map(|i| write(SETTINGS + i, 9, 0, block(1, 1)))
        .collect();
    for at in RANGES..RANGES + 7 {
        let range = block(SETTINGS as u16, SETTINGS as u16 + 8);
        test.initial.push(write(at, 9, 0, range));
        test.checks.insert(0, Check::Range { at });
    }
    file_of(&[], vec![test; MOST_TESTS])
}

/// Eight tests of two main writes with names of their own, and so 16 candidates: one of the writes
/// asks for the other, so that eight rules do.
pub fn couples_file() -> Vec<u8> {
    let couple = |k: Name| tied(&[2 * k, 2 * k + 1], &[(1, 0)]);
    file_of(&[], (0..8).map(couple).collect())
}

/// A cache's rules, and 64 writes that it accepts.
pub struct Load {
    rules: Vec<Rule>,
    pub writes: Vec<Write>,
}

/// 32 puts under the log's rules.
pub fn log_load() -> Load {
    let puts: Vec<Block> = (1..=32).map(|key| block(key, 80 + key)).collect();
    Load {
        rules: log_rules().to_vec(),
        writes: log::test_of(&puts, &[]).initial,
    }
}

/// Eight names, each of which depends on the lower ones of its epoch and some on their own earlier
/// ones: 32 rules.
pub fn dense_load() -> Load {
    load_of([Predicate::Greater; 4], |i| (i / 8) as u32)
}

/// The same with an epoch that changes from write to write.
pub fn changing_load() -> Load {
    load_of([Predicate::Greater; 4], |i| ((i + i / 8) % 8) as u32)
}

/// The same as the first, but that some depend on their own later ones: there are both > and < rules
/// that lead from a name to itself.
pub fn both_ways_load() -> Load {
    let [greater, less] = [Predicate::Greater, Predicate::Less];
    load_of([greater, greater, less, less], |i| (i / 8) as u32)
}

fn load_of(on_itself: [Predicate; 4], epoch: fn(u8) -> u32) -> Load {
    let mut rules = Vec::new();
    for name in 0..8 {
        rules.extend((0..name).map(|second| rule(name, Predicate::Equal, second)));
    }
    rules.extend((4..8).zip(on_itself).map(|(name, p)| rule(name, p, name)));
    Load {
        rules,
        writes: (0..64)
            .map(|i| write(3 * i, Name::from(i % 8), epoch(i), block(i as u16, 1)))
            .collect(),
    }
}

/// 64 names: each of the first 32 depends, within an epoch, on one of the last, which come later.
pub fn names_load() -> Load {
    Load {
        rules: (0..32)
            .map(|name| rule(name, Predicate::Equal, name + 32))
            .collect(),
        writes: (0..64)
            .map(|i| write(3 * i, Name::from(i), (i % 32) as u32, block(i as u16, 1)))
            .collect(),
    }
}

/// The same with names above 255 that agree in their low byte.
pub fn wide_names_load() -> Load {
    let mut load = names_load();
    rename(&mut load.rules, &mut load.writes, |name| (name + 1) << 8);
    load
}

/// One name, whose writes depend on those of lower epochs, which come in no order, by each of 32 rules.
pub fn one_name_load() -> Load {
    const NAME: Name = 7;
    let epoch = |i: u8| (37 * i as u32 + 5) % 64;
    Load {
        rules: vec![rule(NAME, Predicate::Greater, NAME); 32],
        writes: (0..64)
            .map(|i| write(3 * i, NAME, epoch(i), block(i as u16, 1)))
            .collect(),
    }
}

/// The state with the first so many writes accepted, and so many of them stored.
pub fn state_of(load: &Load, accepted: usize, stored: usize) -> Vec<u8> {
    let file = File {
        rules: load.rules.clone(),
        tests: vec![],
    };
    let (mut state, mut disk) = (vec![0; STATE], vec![0; DISK]);
    cache::open(&file.to_bytes(), &mut state).expect("rules that are not cyclic");
    for write in &load.writes[..accepted] {
        cache::hand_in(&mut state, write).expect("a write that is accepted");
    }
    for _ in 0..stored {
        cache::step(&mut state, &mut disk).expect("a sound state");
    }
    state
}

/// A disk whose log fills it, without the key 7.
pub fn full_log() -> Vec<u8> {
    let mut disk = Vec::new();
    disk.extend(block(1, 256).to_bytes());
    for address in 1..256 {
        disk.extend(block(8, address).to_bytes());
    }
    disk
}

#[cfg(test)]
mod tests {
    use super::*;
    use reference::file::read;
    use reference::judge::Judgement;

    /// The counts and the schedule shown of a file of one test, which has 20 main writes and 16 checks.
    fn judged(bytes: &[u8]) -> (u64, u64, u64) {
        let file = read(bytes).expect("a file that reading accepts");
        let test = &file.tests[0];
        assert_eq!(test.main.len(), MOST_MAIN);
        assert_eq!(test.checks.len(), MOST_CHECKS);
        let Judgement { valid, bad, shown } = counts::judge_test(&file.rules, test);
        (valid, bad, shown)
    }

    /// The inputs for the schedule shown are what their rows say.
    #[test]
    fn bad_with_none_with_all_and_never() {
        let all = 1 << MOST_MAIN;
        assert_eq!(judged(&bad_at_start_file()), (all, all, 0));
        assert_eq!(judged(&chain_file()), (21, 1, all - 1));
        assert_eq!(judged(&emptied_ranges_file()), (all, 0, 0));
        assert_eq!(judged(&emptied_beside_file()), (all, 0, 0));
    }

    /// All hand-ins of each load and then all steps, in Rust, answer and leave what the reference's do;
    /// and so do drains on the way.
    #[test]
    fn loads_in_rust() {
        for load in [
            log_load(),
            dense_load(),
            changing_load(),
            both_ways_load(),
            names_load(),
            wide_names_load(),
            one_name_load(),
        ] {
            let (mut state, mut disk) = (state_of(&load, 0, 0), [0; DISK]);
            for (place, write) in (1..=64).zip(&load.writes) {
                let (address, name, epoch) = (write.address, write.name, write.epoch);
                let content = u32::from_be_bytes(write.block.to_bytes());
                let answer = fast::cache::hand_in(&mut state, address, name, epoch, content);
                assert_eq!(answer, place);
            }
            assert_eq!(state, state_of(&load, 64, 0));
            let (mut same, mut same_disk) = (state.clone(), disk);
            for left in (0..=64).rev() {
                if left % 16 == 0 {
                    let (mut one, mut two) = (state.clone(), state.clone());
                    let (mut one_disk, mut two_disk) = (disk, disk);
                    let answer = fast::cache::drain(&mut one, &mut one_disk);
                    assert_eq!(answer, left);
                    assert_eq!(cache::drain(&mut two, &mut two_disk), Ok(left as usize));
                    assert_eq!((one, one_disk), (two, two_disk));
                }
                let answer = fast::cache::step(&mut state, &mut disk);
                let expected = cache::step(&mut same, &mut same_disk);
                assert_eq!(Ok(answer as usize), expected);
                assert_eq!((&state, disk), (&same, same_disk));
            }
        }
    }
}
