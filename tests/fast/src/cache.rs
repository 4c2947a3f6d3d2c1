// The cache: each call decodes the state once, into columns, with needs as masks.

use crate::file::{each_rule, half, scan, word, MOST_RULES};
use crate::refused;
use crate::rules::{has_ring, Rules, MOST_WRITES};
use crate::sources::members;

pub const SIZE: usize = 1024;
const RULES_AT: usize = 4;
const RULE_SIZE: usize = 5;
const WRITES_AT: usize = RULES_AT + RULE_SIZE * MOST_RULES;
const WRITE_SIZE: usize = 12;
/// Where a write's entry has its epoch, its block and its flag.
const EPOCH: usize = 3;
const BLOCK: usize = 7;
const FLAG: usize = 11;

/// A state of the right layout, with acyclic rules.
struct State {
    rules: Rules,
    count: usize,
    address: [u8; MOST_WRITES],
    name: [u16; MOST_WRITES],
    epoch: [u32; MOST_WRITES],
    stored: u64,
    /// For each write what it needs. Of the earlier writes to its address only the last is there:
    /// this one needs the others in turn, so that rings, sound states and what is ready are the
    /// same.
    needs: [u64; MOST_WRITES],
    /// Are there two writes to one address?
    meet: bool,
}

fn is_zero(bytes: &[u8]) -> bool {
    bytes.iter().fold(0, |all, byte| all | byte) == 0
}

/// The first so many writes.
fn first(count: usize) -> u64 {
    match count {
        MOST_WRITES => u64::MAX,
        _ => (1 << count) - 1,
    }
}

impl State {
    /// To be filled where it stands.
    const NONE: State = State {
        rules: Rules::NONE,
        count: 0,
        address: [0; MOST_WRITES],
        name: [0; MOST_WRITES],
        epoch: [0; MOST_WRITES],
        stored: 0,
        needs: [0; MOST_WRITES],
        meet: false,
    };

    /// Decodes a state. Is false if it is not sound, whatever its needs are.
    fn decode(&mut self, bytes: &[u8]) -> bool {
        let (rule_count, count) = (bytes[0] as usize, bytes[1] as usize);
        if rule_count > MOST_RULES || count > MOST_WRITES || bytes[3] != 0 {
            return false;
        }
        let rules_end = RULES_AT + RULE_SIZE * rule_count;
        let used_end = WRITES_AT + WRITE_SIZE * count;
        self.count = count;
        is_zero(&bytes[rules_end..WRITES_AT])
            && is_zero(&bytes[used_end..])
            && self.decode_rules(&bytes[RULES_AT..rules_end])
            && self.decode_writes(&bytes[WRITES_AT..used_end])
            && self.stored.count_ones() == bytes[2] as u32
    }

    /// Is false if a predicate is not known, or the rules are cyclic.
    fn decode_rules(&mut self, entries: &[u8]) -> bool {
        for entry in entries.chunks_exact(RULE_SIZE) {
            if entry[2] > 2 {
                return false;
            }
            self.rules.push(half(entry), entry[2], half(&entry[3..]));
        }
        !self.rules.cyclic()
    }

    /// Is false if an entry is not of the right layout.
    fn decode_writes(&mut self, entries: &[u8]) -> bool {
        let mut flags = 0;
        let columns = self.address.iter_mut().zip(&mut self.name);
        let columns = columns.zip(&mut self.epoch);
        let entries = entries.chunks_exact(WRITE_SIZE);
        for (i, (((address, name), epoch), entry)) in columns.zip(entries).enumerate() {
            *address = entry[0];
            *name = half(&entry[1..]);
            *epoch = word(&entry[EPOCH..]);
            let flag = entry[FLAG];
            flags |= flag;
            self.stored |= (flag as u64 & 1) << i;
        }
        flags <= 1
    }

    fn fill_needs(&mut self) {
        // The place, from 1, of the last write to each address.
        let mut last = [0u8; 256];
        let count = self.count;
        for (i, &address) in self.address[..count].iter().enumerate() {
            let last = &mut last[address as usize];
            if *last != 0 {
                self.needs[i] = 1 << (*last - 1);
                self.meet = true;
            }
            *last = i as u8 + 1;
        }
        let (name, epoch) = (&self.name[..count], &self.epoch[..count]);
        self.rules
            .add_dependencies(name, epoch, &mut self.needs[..count]);
    }

    /// Is the state of the first so many writes sound, as far as needs are concerned?
    fn needs_are_sound(&self, count: usize) -> bool {
        let (mut unstored, mut forward) = (0, 0);
        for (i, row) in self.needs[..count].iter().enumerate() {
            unstored |= row & (self.stored >> i & 1).wrapping_neg();
            forward |= row >> i;
        }
        // Acyclic rules alone make no ring, and rows that point to earlier writes do not.
        let may_have_ring = self.meet && forward != 0;
        unstored & !self.stored == 0 && !(may_have_ring && has_ring(&self.needs[..count]))
    }

    /// Is a state sound? Then this is its parts.
    fn is_sound(&mut self, bytes: &[u8]) -> bool {
        if !self.decode(bytes) {
            return false;
        }
        self.fill_needs();
        self.needs_are_sound(self.count)
    }

    /// Appends a waiting write, where there is a place.
    fn append(&mut self, address: u8, name: u16, epoch: u32) {
        let i = self.count;
        self.address[i] = address;
        self.name[i] = name;
        self.epoch[i] = epoch;
        self.count += 1;
    }

    /// Takes the last write, i, out of what the others need, and gives those that needed it.
    fn take_out(&mut self, i: usize) -> u64 {
        let mut on_it = 0;
        for (j, row) in self.needs[..i].iter_mut().enumerate() {
            on_it |= (*row >> i & 1) << j;
            *row &= !(1 << i);
        }
        on_it
    }

    /// Does a write need one of these, perhaps through others? A new write closes a ring only
    /// through itself: if it needs what depends on it.
    fn reaches(&self, i: usize, wanted: u64) -> bool {
        let (mut reached, mut left) = (self.needs[i], self.needs[i]);
        while wanted != 0 && left != 0 {
            let j = left.trailing_zeros() as usize;
            left = (left & (left - 1)) | self.needs[j] & !reached;
            reached |= self.needs[j];
        }
        reached & wanted != 0
    }

    /// Stores a write and marks it.
    fn store(&mut self, i: usize, bytes: &mut [u8], disk: &mut [u8]) {
        let entry = &mut bytes[WRITES_AT + WRITE_SIZE * i..][..WRITE_SIZE];
        let at = 4 * self.address[i] as usize;
        disk[at..at + 4].copy_from_slice(&entry[BLOCK..FLAG]);
        entry[FLAG] = 1;
        bytes[2] += 1;
        self.stored |= 1 << i;
    }

    fn waiting(&self) -> u64 {
        first(self.count) & !self.stored
    }

    fn is_ready(&self, i: usize) -> bool {
        self.needs[i] & !self.stored == 0
    }

    /// Stores the earliest write that is ready, and answers its place from 1, or 0.
    fn step(&mut self, bytes: &mut [u8], disk: &mut [u8]) -> u64 {
        match members(self.waiting()).find(|&i| self.is_ready(i)) {
            Some(i) => {
                self.store(i, bytes, disk);
                i as u64 + 1
            }
            None => 0,
        }
    }

    /// Stores all that wait, in the order of steps, and answers how many. A write that was not
    /// ready is looked at again only after another one is stored.
    #[inline(always)]
    fn drain(&mut self, mut store: impl FnMut(&mut State, usize)) -> u64 {
        let waiting = self.waiting();
        let (mut left, mut unready) = (waiting, 0);
        while left != 0 {
            let i = left.trailing_zeros() as usize;
            left &= left - 1;
            if self.is_ready(i) {
                store(self, i);
                left |= unready;
                unready = 0;
            } else {
                unready |= 1 << i;
            }
        }
        waiting.count_ones() as u64
    }
}

#[inline(never)]
pub fn open(bytes: &mut [u8], file: &[u8]) -> u64 {
    if bytes.len() != SIZE {
        return refused(14, 0);
    }
    let scan = match scan(file) {
        Ok(scan) => scan,
        Err(refusal) => return refusal,
    };
    if scan.tests > 0 {
        return refused(22, 0);
    }
    let mut rules = Rules::NONE;
    rules.fill(file, &scan);
    if rules.cyclic() {
        return refused(8, 0);
    }
    bytes.fill(0);
    bytes[0] = scan.rules as u8;
    let mut at = RULES_AT;
    each_rule(file, &scan, |name, predicate, second| {
        let entry = &mut bytes[at..at + RULE_SIZE];
        entry[..2].copy_from_slice(&name.to_be_bytes());
        entry[2] = predicate;
        entry[3..].copy_from_slice(&second.to_be_bytes());
        at += RULE_SIZE;
    });
    0
}

#[inline(never)]
pub fn hand_in(bytes: &mut [u8], address: u8, name: u16, epoch: u32, block: u32) -> u64 {
    if bytes.len() != SIZE {
        return refused(14, 0);
    }
    let mut state = State::NONE;
    if !state.decode(bytes) {
        return refused(15, 0);
    }
    let i = state.count;
    let is_full = i == MOST_WRITES;
    if !is_full {
        state.append(address, name, epoch);
    }
    // The needs are filled with the new write; the state is sound or not without it.
    state.fill_needs();
    let on_it = if is_full { 0 } else { state.take_out(i) };
    if !state.needs_are_sound(i) {
        return refused(15, 0);
    }
    if is_full {
        return refused(16, 0);
    }
    if on_it & state.stored != 0 {
        return refused(17, 0);
    }
    if state.reaches(i, on_it) {
        return refused(18, 0);
    }
    let entry = &mut bytes[WRITES_AT + WRITE_SIZE * i..][..FLAG];
    entry[0] = address;
    entry[1..EPOCH].copy_from_slice(&name.to_be_bytes());
    entry[EPOCH..BLOCK].copy_from_slice(&epoch.to_be_bytes());
    entry[BLOCK..].copy_from_slice(&block.to_be_bytes());
    bytes[1] += 1;
    i as u64 + 1
}

#[inline(never)]
pub fn step(bytes: &mut [u8], disk: &mut [u8]) -> u64 {
    if bytes.len() != SIZE || disk.len() != SIZE {
        return refused(14, 0);
    }
    let mut state = State::NONE;
    if !state.is_sound(bytes) {
        return refused(15, 0);
    }
    state.step(bytes, disk)
}

/// Looks at the state once, and not at each step.
#[inline(never)]
pub fn drain(bytes: &mut [u8], disk: &mut [u8]) -> u64 {
    if bytes.len() != SIZE || disk.len() != SIZE {
        return refused(14, 0);
    }
    let mut state = State::NONE;
    if !state.is_sound(bytes) {
        return refused(15, 0);
    }
    state.drain(|state, i| state.store(i, bytes, disk))
}

/// The places in the order in which a drain of a sound state stores them.
#[cfg(test)]
pub fn order_of_drain(bytes: &[u8]) -> Option<Vec<u64>> {
    let mut order = Vec::new();
    let mut state = State::NONE;
    state.is_sound(bytes).then(|| {
        state.drain(|state, i| {
            state.stored |= 1 << i;
            order.push(i as u64 + 1);
        });
        order
    })
}
