// Answers of the libraries as one number: what was accepted, or 2^63 + number * 2^32 + place.

use reference::refusal::Refusal;

const REFUSED: u64 = 1 << 63;

pub fn of(answer: Result<u64, Refusal>) -> u64 {
    match answer {
        Ok(value) => value,
        Err(refusal) => REFUSED + ((refusal.number as u64) << 32) + refusal.place as u64,
    }
}

/// An answer in words.
pub fn show(answer: u64) -> String {
    if answer & REFUSED == 0 {
        format!("accepted, {answer} ({answer:#x})")
    } else {
        let number = (answer & !REFUSED) >> 32;
        let place = answer & 0xFFFF_FFFF;
        format!("refused, number {number}, place {place} ({answer:#x})")
    }
}
