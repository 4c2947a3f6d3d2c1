// Random files, rules and tests: mostly of few names, addresses and epochs, so that rules match,
// writes meet at one address and checks say something; sometimes at the limits exactly.

use crate::checks::Check;
use crate::file::{bytes_of, Field, File, Test, Width};
use crate::file::{INITIAL, MAIN, RULE, WIDE_INITIAL, WIDE_MAIN, WIDE_RULE};
use crate::file::{MOST_CHECKS, MOST_INITIAL, MOST_MAIN, MOST_RULES, MOST_TESTS};
use crate::log;
use crate::random::Random;
use crate::writes::{Block, Name, Predicate, Rule, Write, PREDICATES};

/// The values that a file draws from.
#[derive(Clone, Debug)]
pub struct Values {
    pub names: Vec<Name>,
    pub addresses: Vec<u8>,
    pub epochs: Vec<u32>,
    /// For the two numbers of a block.
    pub halves: Vec<u16>,
}

impl Values {
    pub fn random(random: &mut Random) -> Values {
        if random.one_in(4) {
            Values::wide(random)
        } else {
            Values::small(random)
        }
    }

    /// A few values of each kind, among them those at the ends of their ranges.
    pub fn small(random: &mut Random) -> Values {
        let mut values = Values::narrow(random);
        if random.one_in(2) {
            values.names = names(random, values.names.len());
        }
        values
    }

    /// Likewise, with names of one byte.
    pub fn narrow(random: &mut Random) -> Values {
        const NAMES: [Name; 7] = [0, 1, 2, 3, 127, 128, 255];
        const ADDRESSES: [u8; 9] = [0, 1, 2, 3, 4, 5, 128, 254, 255];
        const EPOCHS: [u32; 5] = [0, 1, 0x7FFF_FFFE, 0x0000_FFFF, 0xFFFF_FFFC];
        const HALVES: [u16; 12] = [0, 0, 1, 2, 3, 4, 5, 254, 255, 256, 257, 65535];
        let few = random.between(1, 4);
        let names = some(random, &NAMES, few);
        let few = random.between(1, 6);
        let addresses = some(random, &ADDRESSES, few);
        let from = random.pick(&EPOCHS);
        let few = random.between(1, 4) as u32;
        let epochs = (0..few).map(|i| from + i).collect();
        let few = random.between(2, 6);
        let halves = some(random, &HALVES, few);
        Values {
            names,
            addresses,
            epochs,
            halves,
        }
    }

    /// Many values from the whole ranges.
    pub fn wide(random: &mut Random) -> Values {
        const MANY: usize = 40;
        Values {
            names: names(random, MANY),
            addresses: random.bytes(MANY),
            epochs: (0..MANY).map(|_| random.number() as u32).collect(),
            halves: (0..MANY).map(|_| random.number() as u16).collect(),
        }
    }
}

/// Any name: of one byte, not far above 255, or of the whole range.
pub fn name(random: &mut Random) -> Name {
    match random.below(4) {
        0 | 1 => random.byte() as Name,
        2 => random.between(256, 1023) as Name,
        _ => random.number() as Name,
    }
}

/// So many names, at most 256: of one byte, any, or such that they agree in their low byte, agree in
/// their high byte, or are each other's bytes exchanged. A name that is cut to a byte, or whose bytes
/// are taken in another order, is then often the name of another one.
pub fn names(random: &mut Random, count: usize) -> Vec<Name> {
    const LOWS: [u8; 5] = [0, 1, 2, 128, 255];
    let kind = random.below(5);
    let fixed = match random.below(3) {
        0 => random.byte(),
        _ => random.pick(&LOWS),
    };
    // The other byte rises: from 0 on, across 255, or from anywhere.
    let any = random.byte();
    let from = random.pick(&[0, 0, 1, 254, any]);
    let other = |i: usize| from.wrapping_add(i as u8);
    (0..count)
        .map(|i| match kind {
            0 => random.byte() as Name,
            1 => name(random),
            2 => Name::from_be_bytes([fixed, other(i)]),
            3 if i % 2 == 1 => Name::from_be_bytes([other(i / 2), fixed]),
            3 => Name::from_be_bytes([fixed, other(i / 2)]),
            _ => Name::from_be_bytes([other(i), fixed]),
        })
        .collect()
}

/// Names spelled at random: each in two bytes, each in as few as will do, or now so and now so.
fn spelling(random: &mut Random) -> impl FnMut(Width) -> Width + '_ {
    let wide_in_four = random.pick(&[0, 1, 2, 2, 3, 4]);
    move |least| match random.below(4) < wide_in_four {
        true => Width::Two,
        false => least,
    }
}

impl File {
    /// The fields, with old and new tags mixed.
    pub fn mixed_fields(&self, random: &mut Random) -> Vec<Field> {
        self.spelled_fields(&mut spelling(random))
    }

    pub fn to_mixed_bytes(&self, random: &mut Random) -> Vec<u8> {
        bytes_of(&self.mixed_fields(random))
    }
}

impl Test {
    /// The fields, with old and new tags mixed.
    pub fn mixed_fields(&self, random: &mut Random) -> Vec<Field> {
        let file = File {
            rules: vec![],
            tests: vec![self.clone()],
        };
        file.mixed_fields(random)
    }
}

/// A field of tag 01, 02 or 03 as one of 08, 09 or 0A, any other one as it is: by its bytes alone, for
/// an old name is the new one with a zero byte before it.
pub fn widened(field: &Field) -> Field {
    let (tag, names): (u8, &[usize]) = match field.tag {
        INITIAL => (WIDE_INITIAL, &[1]),
        MAIN => (WIDE_MAIN, &[1]),
        RULE => (WIDE_RULE, &[2, 0]),
        _ => return field.clone(),
    };
    let mut body = field.body.clone();
    for &at in names {
        body.insert(at, 0);
    }
    Field::new(tag, body)
}

/// Fields of which some are widened: all of them, or any.
pub fn some_widened(random: &mut Random, fields: &[Field]) -> Vec<Field> {
    let all = random.one_in(4);
    fields
        .iter()
        .map(|field| match all || random.one_in(2) {
            true => widened(field),
            false => field.clone(),
        })
        .collect()
}

/// Some of the items, in any order, perhaps with repeats.
fn some<T: Copy>(random: &mut Random, items: &[T], count: usize) -> Vec<T> {
    (0..count).map(|_| random.pick(items)).collect()
}

/// A count up to `most`: mostly small, sometimes 0 or `most` itself.
pub fn count(random: &mut Random, most: usize) -> usize {
    match random.below(12) {
        0 => 0,
        1 => most,
        2 => random.between(0, most),
        _ => random.between(0, most.min(4)),
    }
}

pub fn block(random: &mut Random, values: &Values) -> Block {
    Block {
        first: random.pick(&values.halves),
        second: random.pick(&values.halves),
    }
}

/// A head and a tail that are equal, or one apart in either order; most tails are at the limits of
/// a disk, of a block's numbers, or small.
pub fn head_and_tail(random: &mut Random) -> Block {
    const TAILS: [u16; 12] = [1, 2, 3, 5, 254, 255, 256, 257, 258, 300, 65_534, 65_535];
    let tail = random.pick(&TAILS);
    let head = match random.below(3) {
        0 => tail - 1,
        1 => tail,
        _ => tail.saturating_add(1),
    };
    Block {
        first: head,
        second: tail,
    }
}

pub fn write(random: &mut Random, values: &Values) -> Write {
    Write {
        address: random.pick(&values.addresses),
        name: random.pick(&values.names),
        epoch: random.pick(&values.epochs),
        block: block(random, values),
    }
}

pub fn rule(random: &mut Random, values: &Values) -> Rule {
    Rule {
        name: random.pick(&values.names),
        predicate: random.pick(&PREDICATES),
        second: random.pick(&values.names),
    }
}

pub fn check(random: &mut Random, values: &Values) -> Check {
    let at = random.pick(&values.addresses);
    match random.below(3) {
        0 => Check::Range { at },
        1 => Check::Pointer { at },
        _ => Check::Pair {
            a: at,
            v: block(random, values),
            b: random.pick(&values.addresses),
            w: block(random, values),
        },
    }
}

/// A test with these numbers of initial writes, main writes and checks.
pub fn test_of(
    random: &mut Random,
    values: &Values,
    initial: usize,
    main: usize,
    checks: usize,
) -> Test {
    Test {
        initial: (0..initial).map(|_| write(random, values)).collect(),
        main: (0..main).map(|_| write(random, values)).collect(),
        checks: (0..checks).map(|_| check(random, values)).collect(),
    }
}

pub fn test(random: &mut Random, values: &Values) -> Test {
    if random.one_in(6) {
        return log_test(random);
    }
    let initial = count(random, MOST_INITIAL);
    let main = count(random, MOST_MAIN);
    let checks = count(random, MOST_CHECKS);
    test_of(random, values, initial, main, checks)
}

/// A program of puts.
pub fn puts(random: &mut Random, count: usize) -> Vec<Block> {
    let put = |_| Block {
        first: random.below(3) as u16,
        second: random.between(1, 99) as u16,
    };
    (0..count).map(put).collect()
}

/// A test of the reading log.
pub fn log_test(random: &mut Random) -> Test {
    let (before, after) = (random.below(4), random.below(4));
    let initial = puts(random, before);
    let main = puts(random, after);
    log::test_of(&initial, &main)
}

pub fn rules_of(random: &mut Random, values: &Values, rules: usize) -> Vec<Rule> {
    (0..rules).map(|_| rule(random, values)).collect()
}

/// Any file that reading accepts.
pub fn file(random: &mut Random) -> File {
    let values = Values::random(random);
    let rules = count(random, MOST_RULES);
    let tests = count(random, MOST_TESTS);
    File {
        rules: rules_of(random, &values, rules),
        tests: (0..tests).map(|_| test(random, &values)).collect(),
    }
}

/// A small file: at most a few fields of each kind.
pub fn small_file(random: &mut Random) -> File {
    let values = Values::random(random);
    let rules = random.below(4);
    let tests = random.below(4);
    let mut file = File {
        rules: rules_of(random, &values, rules),
        tests: Vec::new(),
    };
    for _ in 0..tests {
        let (initial, main, checks) = (random.below(4), random.below(4), random.below(4));
        file.tests
            .push(test_of(random, &values, initial, main, checks));
    }
    file
}

/// A file with every count at its limit; with pair checks only, and all names in two bytes, it is as
/// long as a file can be.
pub fn full_file(random: &mut Random, pairs_only: bool) -> File {
    let values = Values::random(random);
    let mut file = File {
        rules: rules_of(random, &values, MOST_RULES),
        tests: Vec::new(),
    };
    for _ in 0..MOST_TESTS {
        let mut test = test_of(random, &values, MOST_INITIAL, MOST_MAIN, 0);
        while test.checks.len() < MOST_CHECKS {
            let check = check(random, &values);
            if !pairs_only || matches!(check, Check::Pair { .. }) {
                test.checks.push(check);
            }
        }
        file.tests.push(test);
    }
    file
}

/// Rules that are or nearly are cyclic: rings over the names, some with an edge left out, some that
/// share a name, with further rules strewn in.
pub fn nearly_cyclic_rules(random: &mut Random) -> Vec<Rule> {
    let mut names = many_names(random);
    let mut rules = Vec::new();
    let mut shared = None;
    for _ in 0..random.between(1, 3) {
        let longest = if random.one_in(16) { 31 } else { 5 };
        let mut ring = names.split_off(names.len() - random.between(1, longest));
        if let Some(name) = shared {
            ring.push(name);
        }
        rules.extend(ring_of_rules(random, &ring));
        shared = if random.one_in(4) {
            None
        } else {
            Some(random.pick(&ring))
        };
    }
    let used: Vec<Name> = rules
        .iter()
        .flat_map(|r: &Rule| [r.name, r.second])
        .collect();
    if !used.is_empty() {
        for _ in 0..random.below(3) {
            rules.push(Rule {
                name: random.pick(&used),
                predicate: random.pick(&PREDICATES),
                second: random.pick(&used),
            });
        }
    }
    random.shuffle(&mut rules);
    rules.truncate(MOST_RULES);
    rules
}

/// Predicates for the rules of a set: one, two or all of them, = often more often.
pub fn some_predicates(random: &mut Random) -> &'static [Predicate] {
    use Predicate::{Equal, Greater, Less};
    const KINDS: [&[Predicate]; 8] = [
        &[Equal],
        &[Greater],
        &[Less],
        &[Equal, Greater],
        &[Equal, Less],
        &[Equal, Equal, Equal, Greater],
        &[Equal, Equal, Equal, Less],
        &[Equal, Greater, Less],
    ];
    random.pick(&KINDS)
}

/// 256 different names in no order: those of one byte, or of both kinds.
pub fn many_names(random: &mut Random) -> Vec<Name> {
    let mut names: Vec<Name> = match random.below(2) {
        0 => (0..=255).collect(),
        _ => alike_names(random),
    };
    random.shuffle(&mut names);
    names
}

/// 256 names in some order, four after another being equal modulo 64: of one byte, or of both kinds,
/// of which many are equal modulo 256.
pub fn alike_names(random: &mut Random) -> Vec<Name> {
    const NARROW: [Name; 4] = [0, 64, 128, 192];
    const BOTH: [Name; 8] = [0, 64, 0x100, 0x140, 0x200, 0x8000, 0xFF00, 0xFFC0];
    let mut lowest: Vec<Name> = (0..64).collect();
    random.shuffle(&mut lowest);
    let mut above = if random.one_in(2) {
        NARROW.to_vec()
    } else {
        BOTH.to_vec()
    };
    let mut names = Vec::new();
    for name in lowest {
        random.shuffle(&mut above);
        names.extend(above[..4].iter().map(|above| name + above));
    }
    names
}

/// So many epochs, 1 to 256, from the whole of their range: all equal, few, neighbours, different in
/// one byte only, at the ends, any; rising, falling or in no order.
pub fn epoch_column(random: &mut Random, count: usize) -> Vec<u32> {
    const ENDS: [u32; 6] = [0, 1, 0x7FFF_FFFF, 0x8000_0000, u32::MAX - 1, u32::MAX];
    let count = count as u32;
    let last = u32::MAX - (count - 1);
    let any = random.number() as u32 % last;
    let from = random.pick(&[0, 1, 0xFFE0, 0x00FF_FFE0, 0x7FFF_FFE0, last, last, any]);
    let shift = random.pick(&[8, 16, 24]);
    let few = random.between(2, 3) as u32;
    let kind = random.below(7);
    let mut epochs: Vec<u32> = (0..count)
        .map(|i| match kind {
            0 => from,
            1 => from + i % few,
            2 => from + i,
            3 => i << shift,
            4 => random.pick(&ENDS),
            _ => random.number() as u32,
        })
        .collect();
    match random.below(3) {
        0 => epochs.sort_unstable(),
        1 => epochs.sort_unstable_by(|one, two| two.cmp(one)),
        _ => random.shuffle(&mut epochs),
    }
    epochs
}

/// A ring of rules over these names, in half of the cases with one rule left out, and with both,
/// one or none of > and <.
fn ring_of_rules(random: &mut Random, names: &[Name]) -> Vec<Rule> {
    let predicates = some_predicates(random);
    let mut rules: Vec<Rule> = (0..names.len())
        .map(|i| Rule {
            name: names[i],
            predicate: random.pick(predicates),
            second: names[(i + 1) % names.len()],
        })
        .collect();
    if random.one_in(2) {
        rules.remove(random.below(names.len()));
    }
    rules
}

/// So many rules about names many of which are equal modulo 64, all of which lead one way along the
/// names but for a few.
pub fn alike_rules(random: &mut Random, count: usize) -> Vec<Rule> {
    let mut names = alike_names(random);
    names.truncate(random.pick(&[1, 2, 3, 4, 4, 8, 16, 33]));
    let predicates = some_predicates(random);
    let back = random.pick(&[0, 0, 1, 3]);
    let mut rules = Vec::new();
    while rules.len() < count {
        let (a, b) = (random.below(names.len()), random.below(names.len()));
        let one_way = (names[a.min(b)], names[a.max(b)]);
        let (name, second) = match rules.len() < back {
            true => (one_way.1, one_way.0),
            false => one_way,
        };
        let predicate = random.pick(predicates);
        // One of = alone would lead round.
        if a != b || predicate != Predicate::Equal || random.one_in(100) {
            rules.push(Rule {
                name,
                predicate,
                second,
            });
        }
    }
    random.shuffle(&mut rules);
    rules
}

/// Rules that lead round, from each of these names to the next, with these predicates in any order.
pub fn round(random: &mut Random, names: &[Name], predicates: &[Predicate]) -> Vec<Rule> {
    let mut predicates = predicates.to_vec();
    random.shuffle(&mut predicates);
    let rule = |(i, predicate)| Rule {
        name: names[i],
        predicate,
        second: names[(i + 1) % names.len()],
    };
    predicates.into_iter().enumerate().map(rule).collect()
}
