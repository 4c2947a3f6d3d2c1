// Buffers lent to the libraries, with bytes on both sides that no call may change.

use reference::random::Random;

use crate::harness::{fail, hexadecimal, Outcome};

const MARGIN: usize = 32;

#[derive(Clone)]
pub struct Lent {
    bytes: Vec<u8>,
    /// All bytes as they were when last looked at.
    before: Vec<u8>,
    from: usize,
    length: usize,
}

impl Lent {
    /// A copy of `content`, with margins that a read past the end would take for something.
    pub fn new(random: &mut Random, content: &[u8]) -> Lent {
        let mut bytes = margin(random);
        bytes.extend(content);
        bytes.extend(margin(random));
        Lent {
            before: bytes.clone(),
            bytes,
            from: MARGIN,
            length: content.len(),
        }
    }

    /// A copy of `content` with nothing beside it: an allocation of just its length.
    pub fn exact(content: &[u8]) -> Lent {
        Lent {
            bytes: content.to_vec(),
            before: content.to_vec(),
            from: 0,
            length: content.len(),
        }
    }

    /// Lends less: the first `length` bytes. The rest stays behind them.
    pub fn cut(&mut self, length: usize) {
        self.length = length;
    }

    pub fn pointer(&self) -> *const u8 {
        self.bytes[self.from..].as_ptr()
    }

    /// For a call that may write.
    pub fn buffer(&mut self) -> *mut u8 {
        self.bytes[self.from..].as_mut_ptr()
    }

    pub fn len(&self) -> usize {
        self.length
    }

    /// What is lent, as it was before the call.
    pub fn content(&self) -> &[u8] {
        &self.before[self.from..self.from + self.length]
    }

    /// What is lent, as the call has left it.
    pub fn left(&self) -> &[u8] {
        &self.bytes[self.from..self.from + self.length]
    }

    /// Fails if the call changed any byte, lent or beside it.
    pub fn unchanged(&self, name: &str) -> Outcome {
        self.compare(name, &self.before)
    }

    /// Fails unless the call left `expected`, and all bytes beside it as they were. That is then
    /// what is lent to the next call.
    pub fn became(&mut self, name: &str, expected: &[u8]) -> Outcome {
        let mut after = self.before.clone();
        after[self.from..self.from + self.length].copy_from_slice(expected);
        self.compare(name, &after)?;
        self.before = after;
        Ok(())
    }

    fn compare(&self, name: &str, expected: &[u8]) -> Outcome {
        if self.bytes == expected {
            return Ok(());
        }
        let changed = (0..expected.len())
            .filter(|&i| self.bytes[i] != expected[i])
            .map(|i| i as i64 - self.from as i64);
        fail(
            &format!(
                "a call lent {name} of {} bytes, {} bytes on each side",
                self.length, self.from
            ),
            &[(name, &self.before)],
            hexadecimal(expected),
            format!(
                "{}, different at {:?}",
                hexadecimal(&self.bytes),
                changed.collect::<Vec<i64>>()
            ),
        )
    }
}

fn margin(random: &mut Random) -> Vec<u8> {
    match random.below(3) {
        0 => vec![0; MARGIN],
        1 => [7, 0, 0].repeat(MARGIN)[..MARGIN].to_vec(),
        _ => random.bytes(MARGIN),
    }
}
