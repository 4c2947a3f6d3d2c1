// What the judging program prints for a file: the file is scanned once, and each test decoded once.

use crate::file::{scan, Test};
use crate::judge::settled;
use crate::refused;
use crate::rules::Rules;

/// No text is longer.
const LEAST_BUFFER: usize = 400;

/// A text that is written to the front of a buffer.
struct Text<'a> {
    buffer: &'a mut [u8],
    length: usize,
}

impl Text<'_> {
    fn put(&mut self, bytes: &[u8]) {
        self.buffer[self.length..self.length + bytes.len()].copy_from_slice(bytes);
        self.length += bytes.len();
    }

    fn put_number(&mut self, number: u64) {
        let mut digits = [0; 20];
        let (mut from, mut left) = (digits.len(), number);
        loop {
            from -= 1;
            digits[from] = b'0' + (left % 10) as u8;
            left /= 10;
            if left == 0 {
                break;
            }
        }
        self.put(&digits[from..]);
    }
}

/// The length of the text, which is written to the buffer.
#[inline(never)]
pub fn judge_lines(file: &[u8], buffer: &mut [u8]) -> u64 {
    if buffer.len() < LEAST_BUFFER {
        return refused(12, 0);
    }
    let mut text = Text { buffer, length: 0 };
    if let Err(refusal) = put_lines(file, &mut text) {
        text.put(b"refused ");
        text.put_number(refusal >> 32 & 0x7FFF_FFFF);
        text.put(b" ");
        text.put_number(refusal & 0xFFFF_FFFF);
        text.put(b"\n");
    }
    text.length as u64
}

/// Puts a line for each test, or gives the refusal and puts nothing.
fn put_lines(file: &[u8], text: &mut Text) -> Result<(), u64> {
    let scan = scan(file)?;
    let mut rules = Rules::NONE;
    rules.fill(file, &scan);
    if rules.cyclic() {
        return Err(refused(8, 0));
    }
    for (number, place) in (1..).zip(&scan.places[..scan.tests]) {
        let mut test = Test::NONE;
        test.fill(file, place);
        let judged = settled(&rules, &test);
        for figure in [number, judged.valid, judged.bad] {
            text.put_number(figure);
            text.put(b" ");
        }
        text.put(if judged.bad == 0 {
            b"holds\n"
        } else {
            b"fails\n"
        });
    }
    Ok(())
}
