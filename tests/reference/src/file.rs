// The file: its fields, reading it, and writing one.

use crate::checks::Check;
use crate::refusal::{self, Refusal};
use crate::schedule::disk_of;
use crate::writes::{Block, Disk, Name, Predicate, Rule, Write, EMPTY_DISK};

pub const INITIAL: u8 = 1;
pub const MAIN: u8 = 2;
pub const RULE: u8 = 3;
pub const RANGE: u8 = 4;
pub const PAIR: u8 = 5;
pub const POINTER: u8 = 6;
pub const END: u8 = 7;
// [2] of document 02: the same as 1, 2 and 3, with names of two bytes.
pub const WIDE_INITIAL: u8 = 8;
pub const WIDE_MAIN: u8 = 9;
pub const WIDE_RULE: u8 = 10;

/// The largest tag that is known; all from 1 on are.
pub const LAST_TAG: u8 = WIDE_RULE;

pub const HEADER: usize = 3;

pub const MOST_RULES: usize = 32;
pub const MOST_TESTS: usize = 16;
pub const MOST_INITIAL: usize = 64;
pub const MOST_MAIN: usize = 20;
pub const MOST_CHECKS: usize = 16;

/// The lengths of a rule's and a write's field in the tags of document 01, and of a pair's.
pub const RULE_FIELD: usize = HEADER + 3;
pub const WRITE_FIELD: usize = HEADER + 10;
const PAIR_FIELD: usize = HEADER + 10;
/// Those in the tags of [2] of document 02.
pub const WIDE_RULE_FIELD: usize = HEADER + 5;
pub const WIDE_WRITE_FIELD: usize = HEADER + 11;

/// The length of the longest field.
pub const LONGEST_FIELD: usize = WIDE_WRITE_FIELD;

/// The length of the longest file that reading accepts.
pub const LONGEST: usize = longest(WIDE_RULE_FIELD, WIDE_WRITE_FIELD);

/// The length of the longest one of document 01's tags.
pub const LONGEST_NARROW: usize = longest(RULE_FIELD, WRITE_FIELD);

const fn longest(rule: usize, write: usize) -> usize {
    let test = (MOST_INITIAL + MOST_MAIN) * write + MOST_CHECKS * PAIR_FIELD + HEADER;
    MOST_RULES * rule + MOST_TESTS * test
}

#[derive(Clone, Debug, Default, PartialEq, Eq)]
pub struct File {
    pub rules: Vec<Rule>,
    pub tests: Vec<Test>,
}

#[derive(Clone, Debug, Default, PartialEq, Eq)]
pub struct Test {
    pub initial: Vec<Write>,
    pub main: Vec<Write>,
    pub checks: Vec<Check>,
}

impl Test {
    /// The empty disk after all initial writes.
    pub fn initial_disk(&self) -> Disk {
        disk_of(&EMPTY_DISK, &self.initial, u64::MAX)
    }
}

/// How many bytes the names of a field have.
#[derive(Clone, Copy, Debug, PartialEq, Eq)]
pub enum Width {
    One,
    Two,
}

impl Width {
    fn bytes(self) -> usize {
        match self {
            Width::One => 1,
            Width::Two => 2,
        }
    }

    /// The least in which all these names can be written.
    fn least(names: &[Name]) -> Width {
        match names.iter().all(|&name| name <= 255) {
            true => Width::One,
            false => Width::Two,
        }
    }
}

/// What a field is, in whichever of its tags.
#[derive(Clone, Copy, Debug, PartialEq, Eq)]
enum Kind {
    Rule(Width),
    Initial(Width),
    Main(Width),
    Range,
    Pair,
    Pointer,
    End,
}

fn kind_of(tag: u8) -> Option<Kind> {
    Some(match tag {
        INITIAL => Kind::Initial(Width::One),
        MAIN => Kind::Main(Width::One),
        RULE => Kind::Rule(Width::One),
        RANGE => Kind::Range,
        PAIR => Kind::Pair,
        POINTER => Kind::Pointer,
        END => Kind::End,
        WIDE_INITIAL => Kind::Initial(Width::Two),
        WIDE_MAIN => Kind::Main(Width::Two),
        WIDE_RULE => Kind::Rule(Width::Two),
        _ => return None,
    })
}

impl Kind {
    fn body_length(self) -> usize {
        match self {
            Kind::Rule(width) => 1 + 2 * width.bytes(),
            Kind::Initial(width) | Kind::Main(width) => 9 + width.bytes(),
            Kind::Range | Kind::Pointer => 1,
            Kind::Pair => 10,
            Kind::End => 0,
        }
    }
}

/// The body length of a known tag.
pub fn body_length(tag: u8) -> Option<usize> {
    kind_of(tag).map(Kind::body_length)
}

/// Where a rule's body has its predicate; other tags have none.
pub fn predicate_at(tag: u8) -> Option<usize> {
    match kind_of(tag) {
        Some(Kind::Rule(width)) => Some(width.bytes()),
        _ => None,
    }
}

/// Reads a file: its rules and tests, or the refusal.
pub fn read(bytes: &[u8]) -> Result<File, Refusal> {
    read_with_places(bytes).map(|(file, _)| file)
}

/// Reads a file, and gives beside it the offset of each test's first field.
pub fn read_with_places(bytes: &[u8]) -> Result<(File, Vec<usize>), Refusal> {
    let mut file = File::default();
    let mut places = Vec::new();
    // The test that has begun and has not ended.
    let mut begun: Option<Test> = None;
    let mut at = 0;
    while at < bytes.len() {
        let rest = &bytes[at..];
        let refused = |number| Err(refusal::at(number, at));
        if rest.len() < HEADER {
            return refused(refusal::CUT);
        }
        let tag = rest[0];
        let length = u16::from_be_bytes([rest[1], rest[2]]) as usize;
        let kind = match kind_of(tag) {
            Some(kind) => kind,
            None => return refused(refusal::UNKNOWN_TAG),
        };
        if out_of_order(kind, &file, &begun) {
            return refused(refusal::OUT_OF_ORDER);
        }
        if over_limit(kind, &file, &begun) {
            return refused(refusal::OVER_LIMIT);
        }
        if length != kind.body_length() {
            return refused(refusal::WRONG_LENGTH);
        }
        if rest.len() < HEADER + length {
            return refused(refusal::CUT);
        }
        let body = &rest[HEADER..HEADER + length];
        if let Kind::Rule(width) = kind {
            match rule_of(body, width) {
                Some(rule) => file.rules.push(rule),
                None => return refused(refusal::UNKNOWN_PREDICATE),
            }
        } else {
            let mut test = match begun.take() {
                Some(test) => test,
                None => {
                    places.push(at);
                    Test::default()
                }
            };
            match kind {
                Kind::Initial(width) => test.initial.push(write_of(body, width)),
                Kind::Main(width) => test.main.push(write_of(body, width)),
                Kind::Range => test.checks.push(Check::Range { at: body[0] }),
                Kind::Pair => test.checks.push(pair_of(body)),
                Kind::Pointer => test.checks.push(Check::Pointer { at: body[0] }),
                Kind::Rule(_) | Kind::End => {}
            }
            if kind == Kind::End {
                file.tests.push(test);
            } else {
                begun = Some(test);
            }
        }
        at += HEADER + length;
    }
    if begun.is_some() {
        return Err(refusal::at(refusal::TEST_NOT_ENDED, bytes.len()));
    }
    Ok((file, places))
}

fn out_of_order(kind: Kind, file: &File, begun: &Option<Test>) -> bool {
    match (kind, begun) {
        (Kind::Rule(_), begun) => begun.is_some() || !file.tests.is_empty(),
        (Kind::Initial(_), Some(test)) => !test.main.is_empty() || !test.checks.is_empty(),
        (Kind::Main(_), Some(test)) => !test.checks.is_empty(),
        _ => false,
    }
}

/// A limit counts old and new tags together.
fn over_limit(kind: Kind, file: &File, begun: &Option<Test>) -> bool {
    match (kind, begun) {
        (Kind::Rule(_), _) => file.rules.len() == MOST_RULES,
        (_, None) => file.tests.len() == MOST_TESTS,
        (Kind::Initial(_), Some(test)) => test.initial.len() == MOST_INITIAL,
        (Kind::Main(_), Some(test)) => test.main.len() == MOST_MAIN,
        (Kind::End, Some(_)) => false,
        (_, Some(test)) => test.checks.len() == MOST_CHECKS,
    }
}

/// The name that these bytes are, one or two, big-endian.
fn name_of(bytes: &[u8]) -> Name {
    let add = |name: usize, &byte: &u8| 256 * name + byte as usize;
    bytes.iter().fold(0, add) as Name
}

/// A name in so many bytes, which it fits into.
fn name_bytes(name: Name, width: Width) -> Vec<u8> {
    match width {
        Width::One => vec![u8::try_from(name).expect("a name of one byte")],
        Width::Two => name.to_be_bytes().to_vec(),
    }
}

/// The rule of a body of tag 03 or 0A, if its predicate is known.
pub fn rule_of(body: &[u8], width: Width) -> Option<Rule> {
    let (name, rest) = body.split_at(width.bytes());
    Predicate::from_byte(rest[0]).map(|predicate| Rule {
        name: name_of(name),
        predicate,
        second: name_of(&rest[1..]),
    })
}

/// The body of tag 03 or 0A.
pub fn rule_body(rule: &Rule, width: Width) -> Vec<u8> {
    let mut body = name_bytes(rule.name, width);
    body.push(rule.predicate.to_byte());
    body.extend(name_bytes(rule.second, width));
    body
}

/// The write of a body of tag 01 or 02, or of 08 or 09.
pub fn write_of(body: &[u8], width: Width) -> Write {
    let (name, rest) = body[1..].split_at(width.bytes());
    Write {
        address: body[0],
        name: name_of(name),
        epoch: u32::from_be_bytes([rest[0], rest[1], rest[2], rest[3]]),
        block: Block::from_bytes(&rest[4..8]),
    }
}

/// The body of tag 01 or 02, or of 08 or 09.
pub fn write_body(write: &Write, width: Width) -> Vec<u8> {
    let mut body = vec![write.address];
    body.extend(name_bytes(write.name, width));
    body.extend(write.epoch.to_be_bytes());
    body.extend(write.block.to_bytes());
    body
}

fn pair_of(body: &[u8]) -> Check {
    Check::Pair {
        a: body[0],
        v: Block::from_bytes(&body[1..5]),
        b: body[5],
        w: Block::from_bytes(&body[6..10]),
    }
}

/// A field as it stands in a file; its length need not be that of its body.
#[derive(Clone, Debug, PartialEq, Eq)]
pub struct Field {
    pub tag: u8,
    pub length: u16,
    pub body: Vec<u8>,
}

impl Field {
    pub fn new(tag: u8, body: Vec<u8>) -> Field {
        Field {
            tag,
            length: body.len() as u16,
            body,
        }
    }

    /// A rule in the shortest field: 0A only where a name exceeds 255.
    pub fn of_rule(rule: &Rule) -> Field {
        Field::of_rule_in(rule, Field::least_of_rule(rule))
    }

    fn of_rule_in(rule: &Rule, width: Width) -> Field {
        let tag = match width {
            Width::One => RULE,
            Width::Two => WIDE_RULE,
        };
        Field::new(tag, rule_body(rule, width))
    }

    fn least_of_rule(rule: &Rule) -> Width {
        Width::least(&[rule.name, rule.second])
    }

    fn of_write_in(write: &Write, width: Width, tags: [u8; 2]) -> Field {
        let tag = match width {
            Width::One => tags[0],
            Width::Two => tags[1],
        };
        Field::new(tag, write_body(write, width))
    }

    pub fn of_check(check: &Check) -> Field {
        match *check {
            Check::Range { at } => Field::new(RANGE, vec![at]),
            Check::Pointer { at } => Field::new(POINTER, vec![at]),
            Check::Pair { a, v, b, w } => {
                let mut body = vec![a];
                body.extend(v.to_bytes());
                body.push(b);
                body.extend(w.to_bytes());
                Field::new(PAIR, body)
            }
        }
    }

    pub fn end() -> Field {
        Field::new(END, Vec::new())
    }

    pub fn append_to(&self, bytes: &mut Vec<u8>) {
        bytes.push(self.tag);
        bytes.extend(self.length.to_be_bytes());
        bytes.extend(&self.body);
    }
}

/// How wide the names of each field are, given the least width that will do.
type Spelling<'a> = &'a mut dyn FnMut(Width) -> Width;

impl Test {
    pub fn fields(&self) -> Vec<Field> {
        self.spelled_fields(&mut |least| least)
    }

    fn spelled_fields(&self, spelling: Spelling) -> Vec<Field> {
        let mut fields = Vec::new();
        for (writes, tags) in [
            (&self.initial, [INITIAL, WIDE_INITIAL]),
            (&self.main, [MAIN, WIDE_MAIN]),
        ] {
            for write in writes {
                let width = spelling(Width::least(&[write.name]));
                fields.push(Field::of_write_in(write, width, tags));
            }
        }
        fields.extend(self.checks.iter().map(Field::of_check));
        fields.push(Field::end());
        fields
    }
}

impl File {
    /// The shortest fields: those of document 01, and [2]'s only where a name exceeds 255.
    pub fn fields(&self) -> Vec<Field> {
        self.spelled_fields(&mut |least| least)
    }

    pub fn to_bytes(&self) -> Vec<u8> {
        bytes_of(&self.fields())
    }

    /// With all names in two bytes.
    pub fn to_wide_bytes(&self) -> Vec<u8> {
        bytes_of(&self.spelled_fields(&mut |_| Width::Two))
    }

    pub fn spelled_fields(&self, spelling: Spelling) -> Vec<Field> {
        let mut fields = Vec::new();
        for rule in &self.rules {
            let width = spelling(Field::least_of_rule(rule));
            fields.push(Field::of_rule_in(rule, width));
        }
        for test in &self.tests {
            fields.extend(test.spelled_fields(spelling));
        }
        fields
    }
}

pub fn bytes_of(fields: &[Field]) -> Vec<u8> {
    let mut bytes = Vec::new();
    for field in fields {
        field.append_to(&mut bytes);
    }
    bytes
}
