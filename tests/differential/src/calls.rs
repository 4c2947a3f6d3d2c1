// Calls of the proved routines with lent buffers. A suite is run only if its routines are linked.

use reference::writes::{Block, Write};

use crate::lent::Lent;

fn linked<F>(routine: Option<F>) -> F {
    routine.expect("a routine that is linked")
}

pub fn read(file: &Lent) -> u64 {
    unsafe { linked(library::READ)(file.pointer(), file.len()) }
}

pub fn locate(file: &Lent, test: u64) -> u64 {
    unsafe { linked(library::LOCATE)(file.pointer(), file.len(), test) }
}

pub fn cyclic(file: &Lent) -> u64 {
    unsafe { linked(library::CYCLIC)(file.pointer(), file.len()) }
}

pub fn judge(file: &Lent, test: u64) -> u64 {
    unsafe { linked(library::JUDGE)(file.pointer(), file.len(), test) }
}

pub fn verdict(file: &Lent, test: u64) -> u64 {
    unsafe { linked(library::VERDICT)(file.pointer(), file.len(), test) }
}

pub fn judge_lines(file: &Lent, out: &mut Lent) -> u64 {
    let routine = linked(library::JUDGE_LINES);
    unsafe { routine(file.pointer(), file.len(), out.buffer(), out.len()) }
}

pub fn find(file: &Lent, buffer: &mut Lent) -> u64 {
    let routine = linked(library::FIND);
    unsafe { routine(file.pointer(), file.len(), buffer.buffer(), buffer.len()) }
}

pub fn trace(initial: &Lent, main: &Lent, buffer: &mut Lent) -> u64 {
    let routine = linked(library::TRACE);
    unsafe {
        routine(
            initial.pointer(),
            initial.len(),
            main.pointer(),
            main.len(),
            buffer.buffer(),
            buffer.len(),
        )
    }
}

pub fn open(state: &mut Lent, file: &Lent) -> u64 {
    let routine = linked(library::OPEN);
    unsafe { routine(state.buffer(), state.len(), file.pointer(), file.len()) }
}

pub fn hand_in(state: &mut Lent, write: &Write) -> u64 {
    let routine = linked(library::HAND_IN);
    let Write {
        address,
        name,
        epoch,
        block: Block { first, second },
    } = *write;
    unsafe {
        routine(
            state.buffer(),
            state.len(),
            address,
            name,
            epoch,
            first,
            second,
        )
    }
}

pub fn step(state: &mut Lent, disk: &mut Lent) -> u64 {
    let routine = linked(library::STEP);
    unsafe { routine(state.buffer(), state.len(), disk.buffer(), disk.len()) }
}

pub fn drain(state: &mut Lent, disk: &mut Lent) -> u64 {
    let routine = linked(library::DRAIN);
    unsafe { routine(state.buffer(), state.len(), disk.buffer(), disk.len()) }
}

pub fn get(disk: &Lent, key: u16) -> u64 {
    unsafe { linked(library::GET)(disk.pointer(), disk.len(), key) }
}
