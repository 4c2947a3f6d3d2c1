// The rows of the table: a proved routine and its counterpart, ready to be called again and again.

use reference::file::{LONGEST, LONGEST_NARROW};
use reference::samples::log_rules;
use reference::writes::Write;

use crate::inputs::{self, Load};
use crate::measure::Call;

pub struct Row {
    pub routine: &'static str,
    pub input: String,
    /// How often a call of each side calls its routine.
    pub calls: u32,
    pub proved: Call,
    pub rust: Call,
}

/// Rows of routines that the libraries have, or the name of one that they have not.
pub enum Part {
    Missing(&'static str),
    Rows(Vec<Row>),
}

pub fn parts() -> Vec<Part> {
    fn part<F>(name: &'static str, routine: Option<F>, rows: fn(F) -> Vec<Row>) -> Part {
        routine.map_or(Part::Missing(name), |routine| Part::Rows(rows(routine)))
    }
    vec![
        part("judge", library::JUDGE, judge),
        part("verdict", library::VERDICT, verdict),
        part("judge_lines", library::JUDGE_LINES, lines),
        part("read", library::READ, read),
        part("find", library::FIND, find),
        part("hand-in", library::HAND_IN, hand_in),
        part("step", library::STEP, step),
        part("drain", library::DRAIN, drain),
        part("get", library::GET, get),
    ]
}

type OnTest = unsafe extern "C" fn(*const u8, usize, u64) -> u64;
type Read = unsafe extern "C" fn(*const u8, usize) -> u64;
type OnFile = unsafe extern "C" fn(*const u8, usize, *mut u8, usize) -> u64;
type OnState = unsafe extern "C" fn(*mut u8, usize, *mut u8, usize) -> u64;
type HandIn = unsafe extern "C" fn(*mut u8, usize, u8, u16, u32, u16, u16) -> u64;
type Get = unsafe extern "C" fn(*const u8, usize, u16) -> u64;

fn on_tests(routine: &'static str, proved: OnTest, rust: fn(&[u8], u64) -> u64) -> Vec<Row> {
    let row = |input: &str, file: Vec<u8>| {
        let same = file.clone();
        Row {
            routine,
            input: input.to_string(),
            calls: 1,
            proved: Box::new(move || unsafe { proved(file.as_ptr(), file.len(), 1) }),
            rust: Box::new(move || rust(&same, 1)),
        }
    };
    vec![
        row("log of 6 puts, its rules", inputs::log_file(&log_rules())),
        row("log of 6 puts, no rules", inputs::log_file(&[])),
        row("12 writes, 16 checks, many rules", inputs::dense_file()),
        row("12 writes, 16 checks, no rules", inputs::settings_file(0)),
        row("12 writes, 16 checks, 3 rules", inputs::settings_file(3)),
        row("12 writes, 16 checks, all hold", inputs::holding_file(12)),
        row(
            "12 writes of a superblock, 16 long ranges",
            inputs::superblocks_file(),
        ),
        row(
            "log of 10 puts, its rules",
            inputs::long_log_file(&log_rules()),
        ),
        row("log of 10 puts, no rules", inputs::long_log_file(&[])),
        row("20 writes, 16 checks, no rules", inputs::marks_file(0, 1)),
        row("20 writes, 16 checks, 3 rules", inputs::marks_file(3, 1)),
        row("20 writes, 16 checks, all hold", inputs::holding_file(20)),
        row("20 writes, 5 pairs, 11 long ranges", inputs::ranges_file(1)),
        row(
            "20 writes, 16 checks, bad with none",
            inputs::bad_at_start_file(),
        ),
        row(
            "20 writes in a chain, 16 checks, bad with all",
            inputs::chain_file(),
        ),
        row(
            "20 writes of empty blocks, 16 ranges, all hold",
            inputs::emptied_ranges_file(),
        ),
        row(
            "10 superblocks, 10 empty blocks, 16 long ranges, all hold",
            inputs::emptied_beside_file(),
        ),
    ]
}

fn judge(proved: OnTest) -> Vec<Row> {
    let ways: [(&'static str, fn(&[u8], u64) -> u64); 3] = [
        ("judge", fast::judge::judge),
        ("judge, Rust 64 at a time", fast::judge::judge_by_words),
        ("judge, Rust by open checks", fast::judge::judge_settled),
    ];
    let rows = ways.map(|(routine, rust)| on_tests(routine, proved, rust));
    rows.into_iter().flatten().collect()
}

fn verdict(proved: OnTest) -> Vec<Row> {
    let ways: [(&'static str, fn(&[u8], u64) -> u64); 3] = [
        ("verdict", fast::judge::verdict),
        ("verdict, Rust by open checks", fast::judge::verdict_settled),
        (
            "verdict, Rust by two blocks",
            fast::judge::verdict_by_blocks,
        ),
    ];
    let rows = ways.map(|(routine, rust)| on_tests(routine, proved, rust));
    rows.into_iter().flatten().collect()
}

/// A row of a routine that writes to a buffer.
fn on_file(
    routine: &'static str,
    input: &str,
    file: Vec<u8>,
    proved: OnFile,
    rust: fn(&[u8], &mut [u8]) -> u64,
) -> Row {
    let same = file.clone();
    let mut buffer = [0; 400];
    Row {
        routine,
        input: input.to_string(),
        calls: 1,
        proved: Box::new(move || unsafe {
            proved(file.as_ptr(), file.len(), buffer.as_mut_ptr(), buffer.len())
        }),
        rust: Box::new(move || rust(&same, &mut buffer)),
    }
}

/// The longest files in words, with their lengths as the tables write numbers: that of names of one
/// byte, and the longest of all.
fn longest_files() -> [(String, Vec<u8>); 2] {
    let in_words = |which: &str, length: usize| {
        let (thousands, rest) = (length / 1000, length % 1000);
        format!("{which}, {thousands},{rest:03} bytes, 16 tests")
    };
    [
        (
            in_words("longest file of old tags", LONGEST_NARROW),
            inputs::longest_narrow_file(),
        ),
        (in_words("longest file", LONGEST), inputs::longest_file()),
    ]
}

fn lines(proved: OnFile) -> Vec<Row> {
    let text = fast::program::judge_lines;
    let row = |input: &str, file| on_file("program's text", input, file, proved, text);
    let [old, longest] = longest_files();
    vec![
        row(&old.0, old.1),
        row(&longest.0, longest.1),
        row(
            "16 tests of 20 writes, 16 checks, no rules",
            inputs::marks_file(0, 16),
        ),
        row(
            "16 tests of 20 writes, 5 pairs, 11 long ranges",
            inputs::ranges_file(16),
        ),
    ]
}

fn read(proved: Read) -> Vec<Row> {
    let row = |(input, file): (String, Vec<u8>)| {
        let same = file.clone();
        Row {
            routine: "reading",
            input,
            calls: 1,
            proved: Box::new(move || unsafe { proved(file.as_ptr(), file.len()) }),
            rust: Box::new(move || fast::file::read(&same)),
        }
    };
    longest_files().map(row).into()
}

fn find(proved: OnFile) -> Vec<Row> {
    let row = |input: &str, file| on_file("find", input, file, proved, fast::find::find);
    vec![
        row(
            "16 candidates, 16 tests of 12 writes, none does",
            inputs::hopeless_file(),
        ),
        row(
            "16 candidates, 13 logs and an impossible test",
            inputs::logs_and_impossible_file(),
        ),
        row(
            "16 candidates, 16 tests of 12 writes, 3 rules do",
            inputs::chains_file(),
        ),
        row(
            "16 candidates, 8 tests of 2 writes, 8 rules do",
            inputs::couples_file(),
        ),
    ]
}

/// A call on a state and an empty disk, which are put back before it.
fn on_state(before: &[u8], mut call: impl FnMut(&mut [u8], &mut [u8]) -> u64 + 'static) -> Call {
    let before = before.to_vec();
    let (mut state, mut disk) = (before.clone(), vec![0; 1024]);
    Box::new(move || {
        state.copy_from_slice(&before);
        call(&mut state, &mut disk)
    })
}

fn on_states<const N: usize>(
    routine: &'static str,
    inputs: [(&'static str, Vec<u8>); N],
    calls: u32,
    proved: OnState,
    rust: fn(&mut [u8], &mut [u8]) -> u64,
) -> Vec<Row> {
    let proved = move |state: &mut [u8], disk: &mut [u8]| unsafe {
        proved(
            state.as_mut_ptr(),
            state.len(),
            disk.as_mut_ptr(),
            disk.len(),
        )
    };
    let row = |(input, state): (&'static str, Vec<u8>)| Row {
        routine,
        input: input.to_string(),
        calls,
        proved: on_state(&state, again(calls, proved)),
        rust: on_state(&state, again(calls, rust)),
    };
    inputs.map(row).into()
}

/// So many calls one after another.
fn again(
    calls: u32,
    call: impl Fn(&mut [u8], &mut [u8]) -> u64,
) -> impl Fn(&mut [u8], &mut [u8]) -> u64 {
    move |state, disk| (0..calls).fold(0, |sum, _| sum + call(state, disk))
}

fn step(proved: OnState) -> Vec<Row> {
    let half = |load: &Load| inputs::state_of(load, 64, 32);
    let inputs = [
        (
            "64 writes, half stored, the log's rules",
            half(&inputs::log_load()),
        ),
        (
            "64 writes, half stored, 32 rules",
            half(&inputs::dense_load()),
        ),
        (
            "64 writes, half stored, 32 rules, epochs in no order",
            half(&inputs::changing_load()),
        ),
        (
            "64 writes, half stored, 32 rules with > and <",
            half(&inputs::both_ways_load()),
        ),
        (
            "64 writes of different names, half stored, 32 rules",
            half(&inputs::names_load()),
        ),
        (
            "64 writes of one name, half stored, 32 rules on it",
            half(&inputs::one_name_load()),
        ),
    ];
    let mut rows = on_states("step", inputs, 1, proved, fast::cache::step);
    let full = |load: &Load| inputs::state_of(load, 64, 0);
    let inputs = [
        (
            "mean of 64 and an idle one, the log's rules",
            full(&inputs::log_load()),
        ),
        (
            "mean of 64 and an idle one, 32 rules",
            full(&inputs::dense_load()),
        ),
        (
            "mean of 64 and an idle one, 32 rules, epochs in no order",
            full(&inputs::changing_load()),
        ),
    ];
    rows.extend(on_states("step", inputs, 65, proved, fast::cache::step));
    rows
}

/// One drain against one drain: both look at the state once, and store by steps.
fn drain(proved: OnState) -> Vec<Row> {
    let full = |load: &Load| inputs::state_of(load, 64, 0);
    let inputs = [
        (
            "64 writes wait, the log's rules; a drain of each",
            full(&inputs::log_load()),
        ),
        (
            "64 writes wait, 32 rules; a drain of each",
            full(&inputs::dense_load()),
        ),
        (
            "64 writes wait, 32 rules, epochs in no order; a drain of each",
            full(&inputs::changing_load()),
        ),
    ];
    on_states("drain", inputs, 1, proved, fast::cache::drain)
}

fn hand_in(proved: HandIn) -> Vec<Row> {
    let row = |input: &str, load: &Load| {
        let state = inputs::state_of(load, 63, 0);
        let Write {
            address,
            name,
            epoch,
            block,
        } = load.writes[63];
        Row {
            routine: "hand-in",
            input: input.to_string(),
            calls: 1,
            proved: on_state(&state, move |state, _| unsafe {
                let (first, second) = (block.first, block.second);
                proved(
                    state.as_mut_ptr(),
                    state.len(),
                    address,
                    name,
                    epoch,
                    first,
                    second,
                )
            }),
            rust: on_state(&state, move |state, _| {
                let block = u32::from_be_bytes(block.to_bytes());
                fast::cache::hand_in(state, address, name, epoch, block)
            }),
        }
    };
    vec![
        row("the 64th write, the log's rules", &inputs::log_load()),
        row("the 64th write, 32 rules", &inputs::dense_load()),
        row(
            "the 64th write, 32 rules, epochs in no order",
            &inputs::changing_load(),
        ),
        row(
            "the 64th write, 32 rules with > and <",
            &inputs::both_ways_load(),
        ),
        row(
            "the 64th write, all of different names, 32 rules",
            &inputs::names_load(),
        ),
        row(
            "the 64th write, all of different names alike in a byte, 32 rules",
            &inputs::wide_names_load(),
        ),
        row(
            "the 64th write, all of one name, 32 rules on it",
            &inputs::one_name_load(),
        ),
    ]
}

fn get(proved: Get) -> Vec<Row> {
    const KEY: u16 = 7;
    let disk = inputs::full_log();
    let same = disk.clone();
    vec![Row {
        routine: "get",
        input: "log of 255 blocks, another key".to_string(),
        calls: 1,
        proved: Box::new(move || unsafe { proved(disk.as_ptr(), disk.len(), KEY) }),
        rust: Box::new(move || fast::log::get(&same, KEY)),
    }]
}
