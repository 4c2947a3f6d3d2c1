// Writes, rules and disks: blocks, labels, and what a write depends on.

pub const BLOCKS: usize = 256;

#[derive(Clone, Copy, Debug, PartialEq, Eq)]
pub struct Block {
    pub first: u16,
    pub second: u16,
}

pub const EMPTY: Block = Block {
    first: 0,
    second: 0,
};

impl Block {
    pub fn is_empty(self) -> bool {
        self == EMPTY
    }

    /// Four bytes, big-endian.
    pub fn from_bytes(bytes: &[u8]) -> Block {
        Block {
            first: u16::from_be_bytes([bytes[0], bytes[1]]),
            second: u16::from_be_bytes([bytes[2], bytes[3]]),
        }
    }

    pub fn to_bytes(self) -> [u8; 4] {
        let first = self.first.to_be_bytes();
        let second = self.second.to_be_bytes();
        [first[0], first[1], second[0], second[1]]
    }
}

pub fn block(first: u16, second: u16) -> Block {
    Block { first, second }
}

pub type Disk = [Block; BLOCKS];

pub const EMPTY_DISK: Disk = [EMPTY; BLOCKS];

/// The disk of 1,024 bytes, block a at 4a.
pub fn disk_from_bytes(bytes: &[u8]) -> Disk {
    let mut disk = EMPTY_DISK;
    for (a, block) in disk.iter_mut().enumerate() {
        *block = Block::from_bytes(&bytes[4 * a..4 * a + 4]);
    }
    disk
}

pub fn disk_to_bytes(disk: &Disk) -> Vec<u8> {
    disk.iter().flat_map(|block| block.to_bytes()).collect()
}

/// The name of a structure: [2] of document 02 made it two bytes.
pub type Name = u16;

#[derive(Clone, Copy, Debug, PartialEq, Eq)]
pub struct Label {
    pub name: Name,
    pub epoch: u32,
}

#[derive(Clone, Copy, Debug, PartialEq, Eq)]
pub struct Write {
    pub address: u8,
    pub name: Name,
    pub epoch: u32,
    pub block: Block,
}

impl Write {
    pub fn label(&self) -> Label {
        Label {
            name: self.name,
            epoch: self.epoch,
        }
    }
}

pub fn write(address: u8, name: Name, epoch: u32, block: Block) -> Write {
    Write {
        address,
        name,
        epoch,
        block,
    }
}

#[derive(Clone, Copy, Debug, PartialEq, Eq, PartialOrd, Ord)]
pub enum Predicate {
    Equal,
    Greater,
    Less,
}

pub const PREDICATES: [Predicate; 3] = [Predicate::Equal, Predicate::Greater, Predicate::Less];

impl Predicate {
    pub fn from_byte(byte: u8) -> Option<Predicate> {
        match byte {
            0 => Some(Predicate::Equal),
            1 => Some(Predicate::Greater),
            2 => Some(Predicate::Less),
            _ => None,
        }
    }

    pub fn to_byte(self) -> u8 {
        match self {
            Predicate::Equal => 0,
            Predicate::Greater => 1,
            Predicate::Less => 2,
        }
    }

    pub fn relates(self, one: u32, two: u32) -> bool {
        match self {
            Predicate::Equal => one == two,
            Predicate::Greater => one > two,
            Predicate::Less => one < two,
        }
    }
}

#[derive(Clone, Copy, Debug, PartialEq, Eq)]
pub struct Rule {
    pub name: Name,
    pub predicate: Predicate,
    pub second: Name,
}

impl Rule {
    pub fn matches(&self, one: Label, two: Label) -> bool {
        self.name == one.name
            && self.second == two.name
            && self.predicate.relates(one.epoch, two.epoch)
    }
}

pub fn rule(name: Name, predicate: Predicate, second: Name) -> Rule {
    Rule {
        name,
        predicate,
        second,
    }
}

/// Does a write labelled `one` depend on a write labelled `two`?
pub fn depends_on(rules: &[Rule], one: Label, two: Label) -> bool {
    rules.iter().any(|rule| rule.matches(one, two))
}
