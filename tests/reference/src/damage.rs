// Damaged files: for each refusal of reading, files made so that it is known beforehand which
// refusal they get, and further damage whose effect is not known beforehand.
//
// A damaged field may have further damage that stands later in the document's list, and anything
// may follow it: neither changes the refusal.

use crate::file::{body_length, bytes_of, predicate_at, Field, File, Test, LAST_TAG, LONGEST};
use crate::file::{END, INITIAL, MAIN, PAIR, POINTER, RANGE, RULE};
use crate::file::{MOST_CHECKS, MOST_INITIAL, MOST_MAIN, MOST_RULES, MOST_TESTS};
use crate::file::{WIDE_INITIAL, WIDE_MAIN, WIDE_RULE};
use crate::generate::{self, Values};
use crate::random::Random;
use crate::refusal::{self, Refusal};

/// A file with the refusal that it must get.
#[derive(Clone, Debug)]
pub struct Damaged {
    pub bytes: Vec<u8>,
    pub refusal: Refusal,
}

const RULE_TAGS: [u8; 2] = [RULE, WIDE_RULE];
const INITIAL_TAGS: [u8; 2] = [INITIAL, WIDE_INITIAL];
const MAIN_TAGS: [u8; 2] = [MAIN, WIDE_MAIN];
const CHECK_TAGS: [u8; 3] = [RANGE, PAIR, POINTER];
const TEST_TAGS: [u8; 8] = [
    INITIAL,
    MAIN,
    RANGE,
    PAIR,
    POINTER,
    END,
    WIDE_INITIAL,
    WIDE_MAIN,
];

fn is_rule(field: &Field) -> bool {
    RULE_TAGS.contains(&field.tag)
}

/// The tag of what this one is, in names of the other width; others are as they are.
fn other_spelling(tag: u8) -> u8 {
    for [narrow, wide] in [RULE_TAGS, INITIAL_TAGS, MAIN_TAGS] {
        if tag == narrow {
            return wide;
        }
        if tag == wide {
            return narrow;
        }
    }
    tag
}

fn any_tag(random: &mut Random) -> u8 {
    random.between(1, LAST_TAG as usize) as u8
}

/// A known tag, or one beside them.
fn tag_or_beside(random: &mut Random) -> u8 {
    random.between(0, LAST_TAG as usize + 1) as u8
}

/// A field with a right length and any body; of an unknown tag, with no body.
pub fn field(random: &mut Random, tag: u8) -> Field {
    let mut body = random.bytes(body_length(tag).unwrap_or(0));
    if let Some(at) = predicate_at(tag) {
        body[at] %= 3;
    }
    Field::new(tag, body)
}

/// Any predicate, of a rule whose body has one.
fn any_predicate(random: &mut Random, field: &mut Field) {
    if let Some(predicate) = predicate_at(field.tag).and_then(|at| field.body.get_mut(at)) {
        *predicate = random.byte();
    }
}

/// A file with at least one field that has this property, and the index of such a field.
fn file_with(random: &mut Random, has: impl Fn(&Field) -> bool) -> (Vec<Field>, usize) {
    loop {
        let file = if random.one_in(20) {
            generate::file(random)
        } else {
            generate::small_file(random)
        };
        let fields = file.mixed_fields(random);
        let found: Vec<usize> = (0..fields.len()).filter(|&i| has(&fields[i])).collect();
        if !found.is_empty() {
            let index = random.pick(&found);
            return (fields, index);
        }
    }
}

/// The damaged field after `before`, and after it the rest, other bytes, or nothing.
fn assemble(
    random: &mut Random,
    number: u32,
    before: &[Field],
    damaged: &Field,
    after: &[Field],
) -> Damaged {
    let mut bytes = bytes_of(before);
    let place = bytes.len();
    damaged.append_to(&mut bytes);
    match random.below(4) {
        0 => {}
        1 => {
            let length = random.below(30);
            bytes.extend(random.bytes(length));
        }
        _ => bytes.extend(bytes_of(after)),
    }
    Damaged {
        bytes,
        refusal: refusal::at(number, place),
    }
}

/// Likewise, where the damaged field may have any of the damage listed after 6.
fn assemble_with_more(
    random: &mut Random,
    number: u32,
    before: &[Field],
    damaged: &Field,
    after: &[Field],
) -> Damaged {
    let mut damaged = damaged.clone();
    if random.one_in(4) {
        any_predicate(random, &mut damaged);
    }
    if random.one_in(4) {
        damaged.length = any_length(random);
    }
    if random.one_in(4) {
        let length = random.below(damaged.body.len() + 1);
        damaged.body.truncate(length);
        return assemble(random, number, before, &damaged, &[]);
    }
    assemble(random, number, before, &damaged, after)
}

fn any_length(random: &mut Random) -> u16 {
    const LENGTHS: [u16; 15] = [0, 1, 2, 3, 4, 5, 6, 9, 10, 11, 12, 255, 256, 65534, 65535];
    if random.one_in(4) {
        random.number() as u16
    } else {
        random.pick(&LENGTHS)
    }
}

/// 1, one or two bytes left.
pub fn one_or_two_left(random: &mut Random) -> Damaged {
    let (fields, k) = file_with(random, |_| true);
    let k = if random.one_in(4) { fields.len() } else { k };
    let mut bytes = bytes_of(&fields[..k]);
    let place = bytes.len();
    let left = random.between(1, 2);
    if k == fields.len() || random.one_in(2) {
        bytes.extend(random.bytes(left));
    } else {
        let mut next = Vec::new();
        fields[k].append_to(&mut next);
        bytes.extend(&next[..left]);
    }
    Damaged {
        bytes,
        refusal: refusal::at(refusal::CUT, place),
    }
}

/// 1, body cut.
pub fn body_cut(random: &mut Random) -> Damaged {
    let (fields, k) = file_with(random, |f| !f.body.is_empty());
    let mut cut = fields[k].clone();
    if random.one_in(2) {
        any_predicate(random, &mut cut);
    }
    let length = random.below(cut.body.len());
    cut.body.truncate(length);
    let mut bytes = bytes_of(&fields[..k]);
    let place = bytes.len();
    cut.append_to(&mut bytes);
    Damaged {
        bytes,
        refusal: refusal::at(refusal::CUT, place),
    }
}

/// 2, unknown tag.
pub fn unknown_tag(random: &mut Random) -> Damaged {
    let (fields, k) = file_with(random, |_| true);
    let mut damaged = fields[k].clone();
    let first = LAST_TAG + 1;
    damaged.tag = match random.below(4) {
        0 => 0,
        1 => first,
        2 => 255,
        _ => random.between(first as usize, 255) as u8,
    };
    assemble_with_more(
        random,
        refusal::UNKNOWN_TAG,
        &fields[..k],
        &damaged,
        &fields[k + 1..],
    )
}

/// 3, wrong length.
pub fn wrong_length(random: &mut Random) -> Damaged {
    let (fields, k) = file_with(random, |_| true);
    let mut damaged = fields[k].clone();
    let right = damaged.length;
    while damaged.length == right {
        damaged.length = match random.below(5) {
            0 => right.wrapping_add(1),
            1 => right.wrapping_sub(1),
            2 => right ^ 1 << random.below(16),
            // What would be right in names of the other width.
            3 => body_length(other_spelling(damaged.tag)).unwrap_or(0) as u16,
            _ => any_length(random),
        };
    }
    if random.one_in(4) {
        any_predicate(random, &mut damaged);
    }
    match random.below(4) {
        0 => {
            let length = random.below(damaged.body.len() + 1);
            damaged.body.truncate(length);
            assemble(random, refusal::WRONG_LENGTH, &fields[..k], &damaged, &[])
        }
        1 if damaged.length < 100 => {
            damaged.body = random.bytes(damaged.length as usize);
            assemble(
                random,
                refusal::WRONG_LENGTH,
                &fields[..k],
                &damaged,
                &fields[k + 1..],
            )
        }
        _ => assemble(
            random,
            refusal::WRONG_LENGTH,
            &fields[..k],
            &damaged,
            &fields[k + 1..],
        ),
    }
}

/// 4, out of order: a rule once a test has begun, an 01 after its test's 02 or check, an 02 after
/// its test's check, each in either of its tags. In some of the files the field is over its limit too.
pub fn out_of_order(random: &mut Random) -> Damaged {
    let values = Values::random(random);
    let tag = random.pick(&[RULE, INITIAL, MAIN]);
    let at_limit = random.one_in(4);
    let mut file = generate::small_file(random);
    let mut test = generate::test(random, &values);
    match tag {
        RULE if at_limit => file.rules = generate::rules_of(random, &values, MOST_RULES),
        INITIAL if at_limit => {
            test.initial = generate::test_of(random, &values, MOST_INITIAL, 0, 0).initial
        }
        MAIN if at_limit => test.main = generate::test_of(random, &values, 0, MOST_MAIN, 0).main,
        _ => {}
    }
    if tag != RULE {
        let least_main = usize::from(tag == INITIAL && random.one_in(2));
        let least_checks = 1 - least_main;
        while test.main.len() < least_main {
            test.main.push(generate::write(random, &values));
        }
        while test.checks.len() < least_checks {
            test.checks.push(generate::check(random, &values));
        }
    }
    // From where to where in the test, by index among its fields, `tag` is out of order.
    let fields = test.mixed_fields(random);
    let (first, last) = match tag {
        RULE if file.tests.is_empty() => (1, fields.len()),
        RULE => (0, fields.len()),
        INITIAL => (test.initial.len() + 1, fields.len() - 1),
        _ => (test.initial.len() + test.main.len() + 1, fields.len() - 1),
    };
    let k = random.between(first, last);
    let mut before = file.mixed_fields(random);
    before.extend_from_slice(&fields[..k]);
    let tag = random.pick(&[tag, other_spelling(tag)]);
    let damaged = field(random, tag);
    assemble_with_more(
        random,
        refusal::OUT_OF_ORDER,
        &before,
        &damaged,
        &fields[k..],
    )
}

/// 5, predicate above 2.
pub fn unknown_predicate(random: &mut Random) -> Damaged {
    let (fields, k) = file_with(random, is_rule);
    let mut damaged = fields[k].clone();
    let at = predicate_at(damaged.tag).expect("a rule");
    damaged.body[at] = match random.below(3) {
        0 => 3,
        1 => 255,
        _ => random.between(3, 255) as u8,
    };
    assemble(
        random,
        refusal::UNKNOWN_PREDICATE,
        &fields[..k],
        &damaged,
        &fields[k + 1..],
    )
}

#[derive(Clone, Copy, Debug, PartialEq, Eq)]
pub enum Limit {
    Rules,
    Tests,
    Initial,
    Main,
    Checks,
}

pub const LIMITS: [Limit; 5] = [
    Limit::Rules,
    Limit::Tests,
    Limit::Initial,
    Limit::Main,
    Limit::Checks,
];

/// The fields of a file up to where this limit is reached exactly: after the last rule, after the
/// last test's end, or within a test.
fn fields_up_to(random: &mut Random, limit: Limit) -> Vec<Field> {
    let values = Values::random(random);
    let mut file = generate::small_file(random);
    let mut test = Test::default();
    match limit {
        Limit::Rules => {
            file.rules = generate::rules_of(random, &values, MOST_RULES);
            file.tests.clear();
        }
        Limit::Tests => {
            while file.tests.len() < MOST_TESTS {
                let (initial, main, checks) = (random.below(2), random.below(2), random.below(2));
                file.tests
                    .push(generate::test_of(random, &values, initial, main, checks));
            }
        }
        Limit::Initial => test = generate::test_of(random, &values, MOST_INITIAL, 0, 0),
        Limit::Main => {
            let initial = generate::count(random, MOST_INITIAL);
            test = generate::test_of(random, &values, initial, MOST_MAIN, 0);
        }
        Limit::Checks => {
            let initial = generate::count(random, MOST_INITIAL);
            let main = generate::count(random, MOST_MAIN);
            test = generate::test_of(random, &values, initial, main, MOST_CHECKS);
        }
    }
    let mut fields = file.mixed_fields(random);
    let mut within = test.mixed_fields(random);
    within.pop();
    fields.extend(within);
    fields
}

/// The tags of the fields that are one over this limit.
fn tags_over(limit: Limit) -> &'static [u8] {
    match limit {
        Limit::Rules => &RULE_TAGS,
        Limit::Tests => &TEST_TAGS,
        Limit::Initial => &INITIAL_TAGS,
        Limit::Main => &MAIN_TAGS,
        Limit::Checks => &CHECK_TAGS,
    }
}

/// 6, one over this limit.
pub fn over_limit(random: &mut Random, limit: Limit) -> Damaged {
    let fields = fields_up_to(random, limit);
    let tag = random.pick(tags_over(limit));
    let damaged = field(random, tag);
    assemble_with_more(
        random,
        refusal::OVER_LIMIT,
        &fields,
        &damaged,
        &[Field::end()],
    )
}

/// A file that reaches this limit exactly, and is accepted.
pub fn at_limit(random: &mut Random, limit: Limit) -> Vec<u8> {
    let mut fields = fields_up_to(random, limit);
    if !matches!(limit, Limit::Rules | Limit::Tests) {
        fields.push(Field::end());
    }
    bytes_of(&fields)
}

/// 7, test not ended.
pub fn not_ended(random: &mut Random) -> Damaged {
    let (fields, k) = file_with(random, |f| !is_rule(f) && f.tag != END);
    let bytes = bytes_of(&fields[..k + 1]);
    let place = bytes.len();
    Damaged {
        bytes,
        refusal: refusal::at(refusal::TEST_NOT_ENDED, place),
    }
}

/// Any damage whose refusal is known.
pub fn any(random: &mut Random) -> Damaged {
    match random.below(8) {
        0 => one_or_two_left(random),
        1 => body_cut(random),
        2 => unknown_tag(random),
        3 => wrong_length(random),
        4 => out_of_order(random),
        5 => unknown_predicate(random),
        6 => {
            let limit = random.pick(&LIMITS);
            over_limit(random, limit)
        }
        _ => not_ended(random),
    }
}

/// A few bytes changed.
pub fn bytes_changed(random: &mut Random, file: &File) -> Vec<u8> {
    let bytes = file.to_mixed_bytes(random);
    change_bytes(random, bytes)
}

fn change_bytes(random: &mut Random, mut bytes: Vec<u8>) -> Vec<u8> {
    if bytes.is_empty() {
        return bytes;
    }
    for _ in 0..random.between(1, 4) {
        let at = random.below(bytes.len());
        bytes[at] = match random.below(4) {
            0 => random.byte(),
            1 => tag_or_beside(random),
            _ => bytes[at] ^ 1 << random.below(8),
        };
    }
    bytes
}

/// A few bytes put in or taken out.
pub fn bytes_shifted(random: &mut Random, file: &File) -> Vec<u8> {
    let mut bytes = file.to_mixed_bytes(random);
    for _ in 0..random.between(1, 3) {
        if bytes.is_empty() || random.one_in(2) {
            let at = random.below(bytes.len() + 1);
            bytes.insert(at, tag_or_beside(random));
        } else {
            bytes.remove(random.below(bytes.len()));
        }
    }
    bytes
}

/// Fields put in, taken out, doubled, exchanged, or given another tag or length.
pub fn fields_changed(random: &mut Random, file: &File) -> Vec<u8> {
    let mut fields = file.mixed_fields(random);
    for _ in 0..random.between(1, 3) {
        let k = random.below(fields.len() + 1);
        let tag = any_tag(random);
        if k == fields.len() || random.one_in(3) {
            let new = field(random, tag);
            fields.insert(k, new);
            continue;
        }
        match random.below(5) {
            0 => {
                fields.remove(k);
            }
            1 => fields.insert(k, fields[k].clone()),
            2 => fields.swap(k, random.below(k + 1)),
            3 => {
                let tag = tag_or_beside(random);
                fields[k].tag = random.pick(&[tag, other_spelling(fields[k].tag)]);
            }
            _ => fields[k].length = any_length(random),
        }
    }
    bytes_of(&fields)
}

/// Fields of known tags in any order.
pub fn any_fields(random: &mut Random) -> Vec<u8> {
    let mut fields = Vec::new();
    for _ in 0..random.below(12) {
        let tag = any_tag(random);
        fields.push(field(random, tag));
    }
    bytes_of(&fields)
}

/// A field that claims a huge body, which in half of the cases is there.
pub fn huge_length(random: &mut Random) -> Vec<u8> {
    const LENGTHS: [u16; 6] = [65535, 65534, 32768, 32767, 256, 2560];
    let (mut fields, k) = file_with(random, |_| true);
    let length = random.pick(&LENGTHS);
    fields[k].length = length;
    if random.one_in(2) {
        fields[k].body.resize(length as usize, random.byte());
    }
    bytes_of(&fields)
}

/// A file longer than any that reading accepts.
pub fn over_long(random: &mut Random) -> Vec<u8> {
    let longer = match random.below(4) {
        0 => random.between(1, 2),
        1 => random.between(3, 16),
        _ => random.between(1, 60_000),
    };
    let length = LONGEST + longer;
    let mut bytes = Vec::new();
    match random.below(4) {
        // The longest file, with more behind it.
        0 | 1 => bytes = generate::full_file(random, true).to_wide_bytes(),
        // Damage somewhere in the longest file.
        2 => {
            let mut file = generate::full_file(random, true);
            if random.one_in(2) {
                file.tests.truncate(random.below(MOST_TESTS));
            }
            bytes = change_bytes(random, file.to_wide_bytes());
        }
        _ => {}
    }
    while bytes.len() < length {
        if random.one_in(8) {
            bytes.push(random.byte());
        } else {
            let tag = any_tag(random);
            field(random, tag).append_to(&mut bytes);
        }
    }
    bytes.truncate(length);
    bytes
}
