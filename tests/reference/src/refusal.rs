// Turned-down calls: a refusal's number and place.

pub const CUT: u32 = 1;
pub const UNKNOWN_TAG: u32 = 2;
pub const WRONG_LENGTH: u32 = 3;
pub const OUT_OF_ORDER: u32 = 4;
pub const UNKNOWN_PREDICATE: u32 = 5;
pub const OVER_LIMIT: u32 = 6;
pub const TEST_NOT_ENDED: u32 = 7;
pub const CYCLIC_RULES: u32 = 8;
pub const NO_SUCH_TEST: u32 = 9;
pub const FILE_HAS_RULES: u32 = 10;
pub const TOO_MANY_CANDIDATES: u32 = 11;
pub const BUFFER_TOO_SHORT: u32 = 12;
pub const NO_SET_DOES: u32 = 13;
pub const NOT_1024_BYTES: u32 = 14;
pub const NOT_SOUND: u32 = 15;
pub const STATE_FULL: u32 = 16;
pub const LATE: u32 = 17;
pub const RING_OF_NEEDS: u32 = 18;
pub const NOT_WHOLE_PUTS: u32 = 19;
pub const EMPTY_PUT: u32 = 20;
pub const LOG_DAMAGED: u32 = 21;
pub const FILE_HAS_TESTS: u32 = 22;
pub const TOO_MANY_TO_FIND: u32 = 24;

#[derive(Clone, Copy, Debug, PartialEq, Eq)]
pub struct Refusal {
    pub number: u32,
    pub place: usize,
}

/// A refusal of reading, which has a place.
pub fn at(number: u32, place: usize) -> Refusal {
    Refusal { number, place }
}

/// Any other refusal, whose place is 0.
pub fn plain(number: u32) -> Refusal {
    Refusal { number, place: 0 }
}
