// Tests for the bad schedule that is shown: how many flags break each check is chosen beforehand, and
// the writes that do come early or late in the trace.

use crate::checks::Check;
use crate::crashes::{acyclic_rules, add_checks};
use crate::cyclic::cyclic;
use crate::file::{File, Test, MOST_CHECKS, MOST_INITIAL, MOST_MAIN, MOST_RULES};
use crate::generate::{self, Values};
use crate::random::Random;
use crate::writes::{block, rule, write, Block, Label, Name, Predicate, Write, EMPTY, PREDICATES};

/// How a block comes to be one that breaks a check: it is so from the start, or a main write leaves it
/// so that depends on so many others, one behind the other.
#[derive(Clone, Copy, Debug, PartialEq, Eq)]
pub enum Way {
    Start,
    Write(usize),
}

use Way::Start;

impl Way {
    fn flags(self) -> usize {
        match self {
            Start => 0,
            Way::Write(steps) => 1 + steps,
        }
    }

    /// Any way of so many flags.
    fn of(flags: usize) -> Way {
        match flags {
            0 => Start,
            _ => Way::Write(flags - 1),
        }
    }
}

/// Two ways of so many flags together.
fn both(random: &mut Random, flags: usize) -> (Way, Way) {
    let own = random.between(0, flags);
    (Way::of(own), Way::of(flags - own))
}

/// A file of one test in the making. Each write and each check has its own addresses, names and epochs
/// as long as `again` isn't called.
struct Making {
    file: File,
    /// Addresses and names that nothing has yet. Rules lead from newer names to older ones.
    addresses: Vec<u8>,
    names: Vec<Name>,
}

impl Making {
    fn new(random: &mut Random) -> Making {
        let mut addresses: Vec<u8> = (0..=255).collect();
        random.shuffle(&mut addresses);
        let names = generate::many_names(random);
        // The first and the last address are often among the first to be taken.
        for end in [0, 255] {
            let last = addresses.len() - 1;
            let near = last - random.below(6);
            if random.one_in(2) {
                let at = addresses.iter().position(|&address| address == end);
                addresses.swap(at.unwrap_or(near), near);
            }
        }
        Making {
            file: File {
                rules: vec![],
                tests: vec![Test::default()],
            },
            addresses,
            names,
        }
    }

    fn test(&mut self) -> &mut Test {
        &mut self.file.tests[0]
    }

    fn main(&self) -> &[Write] {
        &self.file.tests[0].main
    }

    fn address(&mut self) -> u8 {
        self.addresses.pop().expect("an address that is free")
    }

    /// Adds a main write that depends by a rule on those of this label.
    fn write(
        &mut self,
        random: &mut Random,
        address: u8,
        block: Block,
        on: Option<Label>,
    ) -> Label {
        const FROM: [u32; 3] = [100, 1 << 16, u32::MAX - 100];
        let name = self.names.pop().expect("a name that is free");
        let predicate = random.pick(&PREDICATES);
        let apart = random.between(1, 3) as u32;
        let epoch = match (on, predicate) {
            (None, _) => random.pick(&FROM),
            (Some(on), Predicate::Equal) => on.epoch,
            (Some(on), Predicate::Greater) => on.epoch.saturating_add(apart),
            (Some(on), Predicate::Less) => on.epoch.saturating_sub(apart),
        };
        if let Some(on) = on {
            self.file.rules.push(rule(name, predicate, on.name));
        }
        let new = write(address, name, epoch, block);
        self.test().main.push(new);
        new.label()
    }

    /// A block that is `before` at the start, and `then` by this way.
    fn leave(&mut self, random: &mut Random, address: u8, before: Block, then: Block, way: Way) {
        let at_start = if way == Start { then } else { before };
        if !at_start.is_empty() || random.one_in(8) {
            let (name, epoch) = (generate::name(random), random.byte() as u32);
            self.test()
                .initial
                .push(write(address, name, epoch, at_start));
        }
        if let Way::Write(steps) = way {
            // Two chains may have their ends in common.
            let mut on = None;
            if steps > 0 && !self.main().is_empty() && random.one_in(6) {
                on = Some(random.pick(self.main()).label());
            }
            for _ in 0..steps {
                let (at, second) = (self.address(), random.byte() as u16);
                on = Some(self.write(random, at, block(9, second), on));
            }
            self.write(random, address, then, on);
        }
    }

    /// A check of any form that fails exactly where its own block and another one have gone these
    /// ways.
    fn check(&mut self, random: &mut Random, own: Way, other: Way) {
        let (a, b) = (self.address(), self.address());
        let full = block(random.between(1, 3) as u16, random.byte() as u16);
        let check = match random.below(3) {
            0 => {
                let mut blocks = [EMPTY, full, block(0, 7), block(u16::MAX, u16::MAX)];
                random.shuffle(&mut blocks);
                let [v, not_v, w, not_w] = blocks;
                self.leave(random, a, not_v, v, own);
                self.leave(random, b, w, not_w, other);
                Check::Pair { a, v, b, w }
            }
            1 => {
                let before = random.pick(&[EMPTY, block(1, a as u16)]);
                let target = block(random.between(1, 3) as u16, b as u16);
                self.leave(random, a, before, target, own);
                self.leave(random, b, full, EMPTY, other);
                Check::Pointer { at: a }
            }
            _ => {
                let before = random.pick(&[EMPTY, block(5, 5), block(300, 300)]);
                let range = block(b as u16, b as u16 + 1);
                self.leave(random, a, before, range, own);
                self.leave(random, b, full, EMPTY, other);
                Check::Range { at: a }
            }
        };
        self.test().checks.push(check);
    }

    /// A check that fails by its own block alone.
    fn check_of_one(&mut self, random: &mut Random, own: Way) {
        let a = self.address();
        let (bad, check) = match random.below(3) {
            0 => (
                block(1, random.pick(&[256, 257, u16::MAX])),
                Check::Pointer { at: a },
            ),
            1 => (block(2, 1), Check::Range { at: a }),
            _ => (
                random.pick(&[block(0, 256), block(255, 257), block(1, u16::MAX)]),
                Check::Range { at: a },
            ),
        };
        self.leave(random, a, EMPTY, bad, own);
        self.test().checks.push(check);
    }

    /// A range that is broken by each of some main writes, which take a block of it away.
    fn row(&mut self, random: &mut Random, own: Way, others: usize, steps: usize) {
        let a = self.address();
        let from = random.below(256 - others) as u16;
        let row = from..from + others as u16;
        self.addresses.retain(|&at| !row.contains(&(at as u16)));
        self.leave(random, a, EMPTY, block(row.start, row.end), own);
        for b in row {
            if b != a as u16 {
                let full = block(7, b);
                self.leave(random, b as u8, full, EMPTY, Way::Write(steps));
            }
        }
        self.test().checks.push(Check::Range { at: a });
    }

    /// Another main write to the address of one that is there. It may depend on one of the others, or
    /// one of these on it.
    fn again(&mut self, random: &mut Random) {
        let (one, two) = (random.pick(self.main()), random.pick(self.main()));
        let start = self.file.tests[0].initial_disk()[one.address as usize];
        let block = random.pick(&[EMPTY, start, two.block]);
        let on = random.one_in(3).then(|| two.label());
        let new = self.write(random, one.address, block, on);
        if random.one_in(2) {
            let from = random.pick(self.main());
            let relates = |p: &&Predicate| p.relates(from.epoch, new.epoch);
            let predicate = PREDICATES.iter().find(relates);
            let predicate = *predicate.expect("one of the three");
            self.file.rules.push(rule(from.name, predicate, new.name));
            if cyclic(&self.file.rules) {
                self.file.rules.pop();
            }
        }
    }

    /// More main writes, up to so many.
    fn fill(&mut self, random: &mut Random, main: usize) {
        while self.main().len() < main {
            if self.main().is_empty() || random.one_in(2) {
                let at = self.address();
                self.write(random, at, block(9, 9), None);
            } else {
                self.again(random);
            }
        }
    }

    /// The writes in any order. Rules go by labels, so that it does not matter to them.
    fn shuffled(mut self, random: &mut Random) -> File {
        random.shuffle(&mut self.test().main);
        self.made(random)
    }

    /// The writes in the order in which they came.
    fn made(mut self, random: &mut Random) -> File {
        random.shuffle(&mut self.test().checks);
        random.shuffle(&mut self.file.rules);
        self.file.rules.truncate(MOST_RULES);
        let test = &self.file.tests[0];
        assert!(test.main.len() <= MOST_MAIN && test.initial.len() <= MOST_INITIAL);
        assert!(test.checks.len() <= MOST_CHECKS);
        self.file
    }
}

/// A test of so many main writes, two or more: more flags are bad by a lower number than fewer
/// flags, mostly.
pub fn fewer_flags(random: &mut Random, main: usize) -> File {
    let mut making = Making::new(random);
    let mut flags = random.between(2, 6.min(main - 1).max(2));
    while flags > 0 && making.main().len() + flags <= main {
        let (own, other) = both(random, flags);
        making.check(random, own, other);
        flags = random.between(usize::from(flags > 1), flags - 1);
    }
    making.fill(random, main);
    making.made(random)
}

/// Three writes of which the first two together are bad, and so is the third alone: 4 is shown, not 3.
pub fn four_not_three() -> Test {
    let (old, new) = (block(1, 1), block(2, 2));
    Test {
        initial: vec![write(2, 1, 0, old)],
        main: vec![
            write(1, 1, 0, new),
            write(2, 1, 0, new),
            write(3, 1, 0, new),
        ],
        checks: vec![
            Check::Pair {
                a: 1,
                v: new,
                b: 2,
                w: old,
            },
            Check::Pair {
                a: 3,
                v: new,
                b: 4,
                w: new,
            },
        ],
    }
}

/// A test of so many main writes that is bad with none of them, and perhaps with others.
pub fn bad_at_start(random: &mut Random, main: usize) -> File {
    let mut making = Making::new(random);
    if random.one_in(3) {
        making.check_of_one(random, Start);
    } else {
        making.check(random, Start, Start);
    }
    for _ in 0..random.below(4) {
        let flags = random.between(1, 4);
        if making.main().len() + flags > main {
            break;
        }
        let (own, other) = both(random, flags);
        making.check(random, own, other);
    }
    making.fill(random, main);
    // A write to a block that is looked at mends it: then nothing else is bad.
    let test = making.test();
    if !test.initial.is_empty() && !test.main.is_empty() && random.one_in(2) {
        let at = random.pick(&test.initial).address;
        let i = random.below(test.main.len());
        test.main[i].address = at;
    }
    making.shuffled(random)
}

/// A test of so many main writes in which many schedules are bad by as few flags.
pub fn ties(random: &mut Random, main: usize) -> File {
    let mut making = Making::new(random);
    let flags = random.between(1, 3.min(main.max(1)));
    if random.one_in(3) && main > flags {
        // Each write of a row with its own one, or with those behind it.
        let own = random.pick(&[Start, Way::Write(0)]);
        let steps = flags.saturating_sub(1 + own.flags());
        let others = ((main - own.flags()) / (1 + steps)).min(12);
        making.row(random, own, others, steps);
    }
    while making.main().len() + flags <= main && making.test().checks.len() < MOST_CHECKS {
        if random.one_in(6) {
            making.check_of_one(random, Way::of(flags));
        } else {
            let (own, other) = both(random, flags);
            making.check(random, own, other);
        }
    }
    if random.one_in(3) {
        making.fill(random, main);
    }
    making.shuffled(random)
}

/// A test of so many main writes, two or more: each check is made to fail only with two writes to
/// different blocks, and each of these has others behind it, which may be the same; what is filled in
/// behind may change that.
pub fn two_blocks(random: &mut Random, main: usize) -> File {
    let mut making = Making::new(random);
    let most = random.between(1, 3);
    while making.main().len() + 2 <= main {
        let room = main - making.main().len() - 2;
        let one = random.between(0, room.min(3 * most));
        let two = random.between(0, (room - one).min(2 * most));
        making.check(random, Way::Write(one), Way::Write(two));
        if random.one_in(4) {
            break;
        }
    }
    making.fill(random, main);
    making.shuffled(random)
}

/// A test of so many main writes about the first and the last blocks, whose numbers are at the limits
/// of disks and ranges, with none, one or the most initial writes, and often the most checks.
pub fn at_limits(random: &mut Random, main: usize) -> File {
    const ROW: u16 = 256 - 60;
    let mut addresses = vec![0, 255, 1, 254, ROW as u8];
    random.shuffle(&mut addresses);
    addresses.truncate(random.between(1, 5));
    let values = Values {
        names: random.pick(&[[0, 1, 255], [0, 256, 65_535]]).to_vec(),
        addresses,
        epochs: vec![0, 1, u32::MAX - 1, u32::MAX],
        halves: vec![0, 1, 2, 254, 255, 256, 257, ROW, u16::MAX],
    };
    let ranges = [
        block(0, 256),
        block(ROW, 256),
        block(ROW, 257),
        block(255, 256),
        block(1, 0),
        block(256, 255),
        block(u16::MAX, u16::MAX),
        block(1, 256),
        block(0, 1),
    ];
    let initial = random.pick(&[0, 1, MOST_INITIAL]);
    let mut test = generate::test_of(random, &values, initial, main, 0);
    if initial == MOST_INITIAL && random.one_in(2) {
        // A row of blocks up to the end of the disk.
        for (at, write) in (ROW..256).zip(&mut test.initial) {
            (write.address, write.block) = (at as u8, block(7, at));
        }
    }
    for write in &mut test.main {
        match random.below(4) {
            0 => write.block = EMPTY,
            1 => write.block = random.pick(&ranges),
            _ => {}
        }
    }
    let drawn = random.pick(&[1, 4, 120]);
    add_checks(random, &values, &mut test, drawn);
    let most = random.pick(&[0, 2, 12, MOST_RULES]);
    File {
        rules: acyclic_rules(random, &values, most),
        tests: vec![test],
    }
}
