// Reading: one pass over the headers that keeps where each test begins and what it has; then a test
// is decoded once, into columns.

use crate::refused;
use crate::rules::Rules;

pub const MOST_RULES: usize = 32;
pub const MOST_TESTS: usize = 16;
pub const MOST_MAIN: usize = 20;
pub const MOST_CHECKS: usize = 16;
const MOST_INITIAL: usize = 64;

/// The three bytes before a body, as the low bytes of a number. Of what has names there are two: with
/// names of one byte, and of two.
const INITIAL: [u32; 2] = [header(1, 10), header(8, 11)];
const MAIN: [u32; 2] = [header(2, 10), header(9, 11)];
const RULE: [u32; 2] = [header(3, 3), header(10, 5)];
const RANGE: u32 = header(4, 1);
const PAIR: u32 = header(5, 10);
const POINTER: u32 = header(6, 1);
const END: [u8; 3] = [7, 0, 0];

const HEADER: usize = 3;
const RULE_FIELD: usize = HEADER + 3;
const WIDE_RULE_FIELD: usize = HEADER + 5;
const WRITE_FIELD: usize = HEADER + 10;
const WIDE_WRITE_FIELD: usize = HEADER + 11;
const PAIR_FIELD: usize = HEADER + 10;
/// The length of a range's or a pointer's field.
const ADDRESS_FIELD: usize = HEADER + 1;

const fn header(tag: u8, length: u8) -> u32 {
    u32::from_le_bytes([tag, 0, length, 0])
}

/// Where a test begins, and how many fields of each kind it has. In few bytes: a scan is moved.
#[derive(Clone, Copy, Default)]
pub struct Place {
    at: u16,
    main_at: u16,
    checks_at: u16,
    initial: u8,
    main: u8,
    checks: u8,
}

impl Place {
    fn begun(&self) -> bool {
        (self.initial, self.main, self.checks) != (0, 0, 0)
    }
}

pub struct Scan {
    pub rules: usize,
    rules_length: u16,
    pub tests: usize,
    pub places: [Place; MOST_TESTS],
}

impl Scan {
    /// The most main writes of a test.
    pub fn most_main(&self) -> usize {
        let counts = self.places[..self.tests].iter().map(|place| place.main);
        counts.max().unwrap_or(0) as usize
    }
}

/// The main writes of a test, in columns.
pub struct Main {
    pub count: usize,
    pub address: [u8; MOST_MAIN],
    pub name: [u16; MOST_MAIN],
    pub epoch: [u32; MOST_MAIN],
    pub block: [u32; MOST_MAIN],
}

#[derive(Clone, Copy)]
pub enum Check {
    Range { at: u8 },
    Pair { a: u8, v: u32, b: u8, w: u32 },
    Pointer { at: u8 },
}

/// One test, decoded.
pub struct Test {
    pub disk: [u32; 256],
    pub main: Main,
    pub checks: [Check; MOST_CHECKS],
    pub check_count: usize,
}

#[inline(always)]
pub fn half(bytes: &[u8]) -> u16 {
    u16::from_be_bytes([bytes[0], bytes[1]])
}

#[inline(always)]
pub fn word(bytes: &[u8]) -> u32 {
    u32::from_be_bytes([bytes[0], bytes[1], bytes[2], bytes[3]])
}

/// The header of a field that has a body, with no more than one look at the bytes.
#[inline(always)]
fn header_of(field: &[u8]) -> u32 {
    u32::from_le_bytes([field[0], field[1], field[2], field[3]]) & 0xFF_FFFF
}

/// Some fields one after another: how many, and how long they are together.
#[derive(Clone, Copy, Default)]
struct Fields {
    count: usize,
    length: usize,
}

impl Fields {
    /// Adds the whole fields with this header and length that come next, up to a limit. Says whether
    /// there are any.
    #[inline(always)]
    fn add<const FIELD: usize>(
        &mut self,
        bytes: &[u8],
        header: u32,
        most: usize,
        is_right: impl Fn(&[u8]) -> bool,
    ) -> bool {
        let next = &bytes[self.length..];
        let fields = next.chunks_exact(FIELD).take(most - self.count);
        let count = fields
            .take_while(|field| header_of(field) == header && is_right(field))
            .count();
        self.count += count;
        self.length += FIELD * count;
        count > 0
    }
}

/// The rules that a file begins with. Mostly all are of one tag: runs of either are taken in turn.
fn run_of_rules(bytes: &[u8]) -> Fields {
    let mut rules = Fields::default();
    loop {
        rules.add::<RULE_FIELD>(bytes, RULE[0], MOST_RULES, |field| field[4] <= 2);
        if !rules.add::<WIDE_RULE_FIELD>(bytes, RULE[1], MOST_RULES, |field| field[5] <= 2) {
            return rules;
        }
    }
}

/// The writes of one kind that bytes begin with, likewise.
#[inline(always)]
fn run_of_writes(bytes: &[u8], [narrow, wide]: [u32; 2], most: usize) -> Fields {
    let mut writes = Fields::default();
    loop {
        writes.add::<WRITE_FIELD>(bytes, narrow, most, |_| true);
        if !writes.add::<WIDE_WRITE_FIELD>(bytes, wide, most, |_| true) {
            return writes;
        }
    }
}

/// How many whole checks are there one after another, up to the limit, and their length.
fn run_of_checks(bytes: &[u8]) -> (u8, usize) {
    let (mut count, mut length) = (0, 0);
    while count < MOST_CHECKS as u8 && bytes.len() >= length + ADDRESS_FIELD {
        let field = match header_of(&bytes[length..]) {
            PAIR => PAIR_FIELD,
            RANGE | POINTER => ADDRESS_FIELD,
            _ => break,
        };
        if bytes.len() < length + field {
            break;
        }
        count += 1;
        length += field;
    }
    (count, length)
}

/// The places of a file's tests, or the refusal. Fields are taken in the order in which an accepted
/// file has them; the first that is not taken is one to refuse, and only then it is asked why.
pub fn scan(file: &[u8]) -> Result<Scan, u64> {
    let rules = run_of_rules(file);
    let mut scan = Scan {
        rules: rules.count,
        rules_length: rules.length as u16,
        tests: 0,
        places: [Place::default(); MOST_TESTS],
    };
    let mut at = rules.length;
    while at < file.len() {
        if scan.tests == MOST_TESTS {
            return Err(refusal(file, at, &scan, &Place::default()));
        }
        let initial = run_of_writes(&file[at..], INITIAL, MOST_INITIAL);
        let main_at = at + initial.length;
        let main = run_of_writes(&file[main_at..], MAIN, MOST_MAIN);
        let checks_at = main_at + main.length;
        let (checks, length) = run_of_checks(&file[checks_at..]);
        let place = Place {
            at: at as u16,
            main_at: main_at as u16,
            checks_at: checks_at as u16,
            initial: initial.count as u8,
            main: main.count as u8,
            checks,
        };
        at = checks_at + length;
        if !file[at..].starts_with(&END) {
            return Err(refusal(file, at, &scan, &place));
        }
        at += HEADER;
        scan.places[scan.tests] = place;
        scan.tests += 1;
    }
    Ok(scan)
}

/// Why the field at `at` is not taken, after the rules and tests of the scan and what the test has.
#[cold]
fn refusal(file: &[u8], at: usize, scan: &Scan, test: &Place) -> u64 {
    let rest = &file[at..];
    if rest.is_empty() {
        return refused(7, at);
    }
    if rest.len() < HEADER {
        return refused(1, at);
    }
    let is_full = |count: u8, most: usize| scan.tests == MOST_TESTS || count as usize == most;
    let (body, out_of_order, over) = match rest[0] {
        tag @ (1 | 8) => (
            10 + (tag / 8) as u16,
            test.main + test.checks > 0,
            is_full(test.initial, MOST_INITIAL),
        ),
        tag @ (2 | 9) => (
            10 + (tag / 8) as u16,
            test.checks > 0,
            is_full(test.main, MOST_MAIN),
        ),
        tag @ (3 | 10) => (
            3 + 2 * (tag / 8) as u16,
            test.begun() || scan.tests > 0,
            scan.rules == MOST_RULES,
        ),
        4 | 6 => (1, false, is_full(test.checks, MOST_CHECKS)),
        5 => (10, false, is_full(test.checks, MOST_CHECKS)),
        7 => (0, false, scan.tests == MOST_TESTS),
        _ => return refused(2, at),
    };
    let number = if out_of_order {
        4
    } else if over {
        6
    } else if u16::from_be_bytes([rest[1], rest[2]]) != body {
        3
    } else if rest.len() < HEADER + body as usize {
        1
    } else {
        // Only a rule's predicate is left to be wrong.
        5
    };
    refused(number, at)
}

/// Rules + 256 * tests.
#[inline(never)]
pub fn read(file: &[u8]) -> u64 {
    match scan(file) {
        Ok(scan) => (scan.rules + 256 * scan.tests) as u64,
        Err(refusal) => refusal,
    }
}

/// Takes fields of this header and length from the front, as long as there are any.
#[inline(always)]
fn each_of<const FIELD: usize>(fields: &mut &[u8], header: u32, mut visit: impl FnMut(&[u8])) {
    while fields.len() >= FIELD && fields[0] == header as u8 {
        let (field, rest) = fields.split_at(FIELD);
        visit(field);
        *fields = rest;
    }
}

/// The rules of a scanned file: name, predicate, second name.
#[inline(always)]
pub fn each_rule(file: &[u8], scan: &Scan, mut visit: impl FnMut(u16, u8, u16)) {
    let mut fields = &file[..scan.rules_length as usize];
    while !fields.is_empty() {
        each_of::<RULE_FIELD>(&mut fields, RULE[0], |field| {
            visit(field[3] as u16, field[4], field[5] as u16)
        });
        each_of::<WIDE_RULE_FIELD>(&mut fields, RULE[1], |field| {
            visit(half(&field[3..]), field[5], half(&field[6..]))
        });
    }
}

/// The writes of scanned fields of one kind: address, name, epoch, block.
#[inline(always)]
fn each_write(
    mut fields: &[u8],
    [narrow, wide]: [u32; 2],
    mut visit: impl FnMut(u8, u16, u32, u32),
) {
    while !fields.is_empty() {
        each_of::<WRITE_FIELD>(&mut fields, narrow, |field| {
            let (epoch, block) = (word(&field[5..]), word(&field[9..]));
            visit(field[3], field[4] as u16, epoch, block)
        });
        each_of::<WIDE_WRITE_FIELD>(&mut fields, wide, |field| {
            let (epoch, block) = (word(&field[6..]), word(&field[10..]));
            visit(field[3], half(&field[4..]), epoch, block)
        });
    }
}

impl Rules {
    /// Adds the rules of a scanned file.
    pub fn fill(&mut self, file: &[u8], scan: &Scan) {
        each_rule(file, scan, |name, predicate, second| {
            self.push(name, predicate, second)
        });
    }
}

impl Main {
    pub const NONE: Main = Main {
        count: 0,
        address: [0; MOST_MAIN],
        name: [0; MOST_MAIN],
        epoch: [0; MOST_MAIN],
        block: [0; MOST_MAIN],
    };

    /// Decodes the main writes of a scanned test.
    pub fn fill(&mut self, file: &[u8], place: &Place) {
        self.count = place.main as usize;
        let fields = &file[place.main_at as usize..place.checks_at as usize];
        let mut i = 0;
        each_write(fields, MAIN, |address, name, epoch, block| {
            self.address[i] = address;
            self.name[i] = name;
            self.epoch[i] = epoch;
            self.block[i] = block;
            i += 1;
        });
    }
}

impl Test {
    /// To be filled where it stands: it is too long to be moved.
    pub const NONE: Test = Test {
        disk: [0; 256],
        main: Main::NONE,
        checks: [Check::Range { at: 0 }; MOST_CHECKS],
        check_count: 0,
    };

    /// Decodes a scanned test.
    pub fn fill(&mut self, file: &[u8], place: &Place) {
        let initial = &file[place.at as usize..place.main_at as usize];
        each_write(initial, INITIAL, |address, _, _, block| {
            self.disk[address as usize] = block;
        });
        self.main.fill(file, place);
        self.check_count = place.checks as usize;
        let mut fields = &file[place.checks_at as usize..];
        for check in self.checks.iter_mut().take(self.check_count) {
            let body = &fields[HEADER..];
            let length;
            (*check, length) = match fields[0] {
                4 => (Check::Range { at: body[0] }, ADDRESS_FIELD),
                6 => (Check::Pointer { at: body[0] }, ADDRESS_FIELD),
                _ => (pair_of(&body[..10]), PAIR_FIELD),
            };
            fields = &fields[length..];
        }
    }
}

fn pair_of(body: &[u8]) -> Check {
    Check::Pair {
        a: body[0],
        v: word(&body[1..5]),
        b: body[5],
        w: word(&body[6..10]),
    }
}
