// Names, which have two bytes, as small numbers: in the order in which they come, from 1.

/// As many names as there can be: two of each of 32 rules.
pub const MOST_NAMES: usize = 64;

/// Four times as many as there are names, so that few of them meet.
const SLOTS: usize = 256;

/// Above all numbers, and a power of 2, so that numbers need not be compared with it.
const NUMBERS: usize = (MOST_NAMES + 1).next_power_of_two();

/// A table by both bytes of a name. One whose slot another name has, has the next that is free.
pub struct Names {
    /// The number in each slot, or 0.
    slots: [u8; SLOTS],
    /// The name of each number.
    names: [u16; NUMBERS],
    pub count: usize,
}

impl Names {
    pub const NONE: Names = Names {
        slots: [0; SLOTS],
        names: [0; NUMBERS],
        count: 0,
    };

    /// The slot of a name, or a free one, and the number there.
    #[inline(always)]
    fn look_up(&self, name: u16) -> (usize, u8) {
        // Names with one high byte, such as all of one byte, never meet.
        let mut slot = (name ^ name >> 8) as usize % SLOTS;
        loop {
            let number = self.slots[slot];
            if number == 0 || self.names[number as usize % NUMBERS] == name {
                return (slot, number);
            }
            slot = (slot + 1) % SLOTS;
        }
    }

    /// The number of a name, or 0.
    #[inline(always)]
    pub fn number(&self, name: u16) -> u8 {
        self.look_up(name).1
    }

    /// The number of a name, which is added if it is not there. There is a number left for it.
    #[inline(always)]
    pub fn numbered(&mut self, name: u16) -> u8 {
        let (slot, number) = self.look_up(name);
        if number != 0 {
            return number;
        }
        self.count += 1;
        self.names[self.count % NUMBERS] = name;
        self.slots[slot] = self.count as u8;
        self.count as u8
    }
}
