// The proved libraries' C functions: each is there if the archives define it, and None if not. All
// answer one number, by document 01 or 2^63 + the refusal's number * 2^32 + its place. A slice is
// passed as a pointer and a length.

macro_rules! routines {
    ($($(#[$note:meta])* $feature:literal $name:ident = $symbol:ident($($type:ty),*);)*) => {
        extern "C" {
            $(
                #[cfg(feature = $feature)]
                fn $symbol($(_: $type),*) -> u64;
            )*
        }
        $(
            $(#[$note])*
            #[cfg(feature = $feature)]
            pub const $name: Option<unsafe extern "C" fn($($type),*) -> u64> = Some($symbol);
            #[cfg(not(feature = $feature))]
            pub const $name: Option<unsafe extern "C" fn($($type),*) -> u64> = None;
        )*
    };
}

type Bytes = *const u8;
type Buffer = *mut u8;

routines! {
    /// Of a file: rules + 256 * tests.
    "read" READ = pelzhondy_read(Bytes, usize);
    /// Of a file and a test's number: the offset of the test's first field + 2^16 * initial writes
    /// + 2^24 * main writes + 2^32 * checks.
    "locate" LOCATE = pelzhondy_locate(Bytes, usize, u64);
    /// Of a file: 1 if its rules are cyclic, else 0.
    "cyclic" CYCLIC = pelzhondy_cyclic(Bytes, usize);
    /// Of a file and a test's number: valid + 2^21 * bad + 2^42 * the smallest bad schedule's number.
    "judge" JUDGE = pelzhondy_judge(Bytes, usize, u64);
    /// Of a file and a test's number: 0 if the test holds, else 1 + the smallest bad schedule's number.
    "verdict" VERDICT = pelzhondy_verdict(Bytes, usize, u64);
    /// Of a file and a buffer: the length of what the judging program prints, written there.
    "judge_lines" JUDGE_LINES = pelzhondy_judge_lines(Bytes, usize, Buffer, usize);
    /// Of a file and a buffer: the number of rules found, whose fields are written there.
    "find" FIND = pelzhondy_find(Bytes, usize, Buffer, usize);
    /// Of an initial and a main program and a buffer: the length of their test, written there.
    "trace" TRACE = pelzhondy_trace(Bytes, usize, Bytes, usize, Buffer, usize);
    /// Of a state and a file: 0.
    "open" OPEN = pelzhondy_open(Buffer, usize, Bytes, usize);
    /// Of a state and a write's address, name, epoch, first and second number: its place, from 1.
    "hand_in" HAND_IN = pelzhondy_hand_in(Buffer, usize, u8, u16, u32, u16, u16);
    /// Of a state and a disk: the place of the write that was stored, or 0.
    "step" STEP = pelzhondy_step(Buffer, usize, Buffer, usize);
    /// Of a state and a disk: how many writes were stored.
    "drain" DRAIN = pelzhondy_drain(Buffer, usize, Buffer, usize);
    /// Of a disk and a key: the value, or 65,536 for none.
    "get" GET = pelzhondy_get(Bytes, usize, u16);
}
