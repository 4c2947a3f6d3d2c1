// What main writes depend on, for choosing them one by one so that every choice leads to a valid
// schedule.

use crate::file::{Main, MOST_MAIN};
use crate::rules::{close, Rules};
use crate::sources::members;

/// What flagging each main write flags: itself, and what it depends on, directly or not.
pub fn flagged_by(rules: &Rules, main: &Main) -> [u64; MOST_MAIN] {
    let count = main.count;
    let mut flags = [0; MOST_MAIN];
    rules.add_dependencies(
        &main.name[..count],
        &main.epoch[..count],
        &mut flags[..count],
    );
    if flags != [0; MOST_MAIN] {
        close(&mut flags[..count]);
    }
    for (i, row) in flags[..count].iter_mut().enumerate() {
        *row |= 1 << i;
    }
    flags
}

/// The dependencies of main writes, closed: what flagging one flags, and what leaving one out leaves
/// out, itself among them.
pub struct Order {
    pub flags: [u64; MOST_MAIN],
    pub bars: [u64; MOST_MAIN],
}

impl Order {
    pub fn of(rules: &Rules, main: &Main) -> Order {
        let flags = flagged_by(rules, main);
        let mut bars = [0; MOST_MAIN];
        for (i, row) in flags[..main.count].iter().enumerate() {
            members(*row).for_each(|j| bars[j] |= 1 << i);
        }
        Order { flags, bars }
    }

    pub fn of_no_rules() -> Order {
        let itself: [u64; MOST_MAIN] = std::array::from_fn(|i| 1 << i);
        Order {
            flags: itself,
            bars: itself,
        }
    }
}
