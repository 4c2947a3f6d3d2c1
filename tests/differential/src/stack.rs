// A stack of its own for a call, painted before it, to see how far down the call has written.

use std::arch::asm;

use crate::harness::{require, same_answer_on, Outcome, Run};

const PAINT: u64 = 0xA5C3_96F0_5A3C_690F;

/// The most stack that calls of a routine have used.
pub struct Deepest {
    /// Far more than any call may use.
    words: Vec<u64>,
    bytes: usize,
    /// Bytes that a call may use.
    most: usize,
}

impl Deepest {
    pub fn new(most: usize) -> Deepest {
        Deepest {
            words: vec![PAINT; most],
            bytes: 0,
            most,
        }
    }

    /// Makes a call on the painted stack; its answer must be the expected one.
    pub fn call(
        &mut self,
        name: &str,
        routine: Option<*const ()>,
        arguments: [u64; 7],
        expected: u64,
    ) -> Outcome {
        let routine = routine.expect("a routine that is linked");
        let got = unsafe { self.answer(routine, arguments) };
        same_answer_on(name, &[], expected, got)
    }

    /// Calls a C function of up to seven numbers. What it uses is counted with its return address and
    /// its seventh argument.
    ///
    /// # Safety
    /// The function takes these arguments.
    unsafe fn answer(&mut self, function: *const (), arguments: [u64; 7]) -> u64 {
        // The stack's end, on a multiple of 16 as a call needs it.
        let end = self.words.as_mut_ptr_range().end as usize & !15;
        let answer: u64;
        asm!(
            "xchg rsp, r12",
            "sub rsp, 16",
            "mov [rsp], {seventh}",
            "call {function}",
            "mov rsp, r12",
            seventh = in(reg) arguments[6],
            function = in(reg) function,
            inout("r12") end => _,
            in("rdi") arguments[0],
            in("rsi") arguments[1],
            in("rdx") arguments[2],
            in("rcx") arguments[3],
            in("r8") arguments[4],
            in("r9") arguments[5],
            lateout("rax") answer,
            clobber_abi("C"),
        );
        // What the call used is painted again.
        let untouched = self.words.iter().take_while(|&&word| word == PAINT).count();
        let used = &mut self.words[untouched..];
        self.bytes = self.bytes.max(8 * used.len());
        used.fill(PAINT);
        answer
    }

    pub fn within_limit(&self, run: &mut Run) -> Outcome {
        let note = format!("{} bytes at most", self.bytes);
        run.note(note.clone());
        let most = self.most;
        require(self.bytes <= most, &format!("{most} bytes at most"), note)
    }
}
