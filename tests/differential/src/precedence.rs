// Which refusal comes first: calls that meet several conditions at once, in every combination of
// each call's list. The answer is known from how the call was made; the reference is asked too.

use reference::cache::{self, DISK, FLAG, STATE, WRITES_AT};
use reference::checks::Check;
use reference::damage;
use reference::file::{
    File, Test, HEADER, MOST_CHECKS, MOST_INITIAL, MOST_MAIN, MOST_RULES, MOST_TESTS,
};
use reference::file::{END, INITIAL, LAST_TAG, MAIN, RANGE, RULE, RULE_FIELD};
use reference::file::{WIDE_INITIAL, WIDE_MAIN, WIDE_RULE};
use reference::find::{self, LEAST_BUFFER, MOST_MAIN as MOST_TO_FIND};
use reference::judge;
use reference::log::{self, MOST_INITIAL_PUTS, MOST_MAIN_PUTS, PUT};
use reference::random::Random;
use reference::refusal::{self, Refusal};
use reference::samples;
use reference::writes::{rule, Block, Name, Predicate, Write};

use crate::answer;
use crate::calls;
use crate::harness::{require, same_answer_on, Inputs, Outcome, Run, Suite};
use crate::lent::Lent;

pub fn suites() -> Vec<Suite> {
    let suite = |name, run| Suite { name, run };
    vec![
        suite("precedence: 1, 2, 4, 6, 3, 1, 5 in one field", reading),
        suite("precedence: reading, 8, 9 of judge and verdict", judging),
        suite(
            "precedence: 12, reading, 8 of lines; reading of cyclic",
            lines,
        ),
        suite("precedence: reading, 10, 24, 12, 11, 13 of find", finding),
        suite("precedence: 14, reading, 22, 8 of open", opening),
        suite("precedence: 14, 15, 16, 17, 18 of hand-in", handing_in),
        suite("precedence: 14, 15 of step and drain", storing),
        suite("precedence: 19, 6, 20, 12 of trace", tracing),
        suite("precedence: 14, 21 of get", getting),
    ]
}

/// The first of these conditions that is met.
fn first(conditions: &[(bool, u32)]) -> Option<Refusal> {
    let met = conditions.iter().find(|(met, _)| *met);
    met.map(|&(_, number)| refusal::plain(number))
}

/// The library's answer and the reference's are this refusal. Where nothing is refused, they agree.
fn same(
    call: &str,
    inputs: Inputs,
    known: Option<Refusal>,
    reference: Result<u64, Refusal>,
    got: u64,
) -> Outcome {
    require(
        reference.err() == known,
        &format!("the reference: {known:?} of {call}"),
        format!("{reference:?}"),
    )?;
    same_answer_on(call, inputs, answer::of(reference), got)
}

/// Whether each of so many conditions is met, in every combination.
fn combinations<const N: usize>() -> impl Iterator<Item = [bool; N]> {
    (0..1u32 << N).map(|set| {
        let mut met = [false; N];
        for (i, met) in met.iter_mut().enumerate() {
            *met = set >> i & 1 == 1;
        }
        met
    })
}

const THERE: Block = Block {
    first: 0,
    second: 1,
};

fn write(address: u8, name: Name, epoch: u32) -> Write {
    Write {
        address,
        name,
        epoch,
        block: THERE,
    }
}

/// A readable file with each damage that reading refuses behind it, and itself.
fn damaged(file: &File) -> Vec<(Vec<u8>, Option<Refusal>)> {
    let bytes = file.to_bytes();
    let end = bytes.len();
    let mut all = vec![(bytes.clone(), None)];
    let mut add = |number, place, more: &[u8]| {
        let mut damaged = bytes.clone();
        damaged.extend(more);
        all.push((damaged, Some(refusal::at(number, place))));
    };
    add(refusal::CUT, end, &[END]);
    add(refusal::CUT, end, &[RULE, 0]);
    add(refusal::CUT, end, &[INITIAL, 0, 10, 1, 2, 3]);
    add(refusal::CUT, end, &[WIDE_INITIAL, 0, 11, 1, 2, 3]);
    add(refusal::UNKNOWN_TAG, end, &[LAST_TAG + 1, 0, 0]);
    add(refusal::WRONG_LENGTH, end, &[END, 0, 1, 0]);
    add(refusal::WRONG_LENGTH, end, &[WIDE_MAIN, 0, 10]);
    add(refusal::TEST_NOT_ENDED, end + 4, &[RANGE, 0, 1, 0]);
    if file.tests.is_empty() {
        add(refusal::UNKNOWN_PREDICATE, end, &[RULE, 0, 3, 1, 3, 2]);
        let wide = [WIDE_RULE, 0, 5, 1, 0, 3, 0, 2];
        add(refusal::UNKNOWN_PREDICATE, end, &wide);
        let more = [RULE, 0, 3, 1, 0, 2].repeat(MOST_RULES + 1 - file.rules.len());
        add(refusal::OVER_LIMIT, RULE_FIELD * MOST_RULES, &more);
    } else {
        add(refusal::OUT_OF_ORDER, end, &[RULE, 0, 3, 1, 0, 2]);
        add(
            refusal::OUT_OF_ORDER,
            end,
            &[WIDE_RULE, 0, 5, 1, 0, 0, 0, 2],
        );
        let more = [END, 0, 0].repeat(MOST_TESTS + 1 - file.tests.len());
        let place = end + more.len() - 3;
        add(refusal::OVER_LIMIT, place, &more);
    }
    all
}

/// The tags of a rule, an initial and a main write, in names of one byte and of two.
const NARROW: [u8; 3] = [RULE, INITIAL, MAIN];
const WIDE: [u8; 3] = [WIDE_RULE, WIDE_INITIAL, WIDE_MAIN];

/// One field that meets several of reading's conditions, the earliest of the list first: in each of its
/// tags, behind fields of the old tags, of the new ones, and of both in turn.
fn reading(run: &mut Run) -> Outcome {
    for before in [[NARROW, NARROW], [WIDE, WIDE], [NARROW, WIDE]] {
        for damaged in [NARROW, WIDE] {
            reading_in(run, before, damaged)?;
        }
    }
    Ok(())
}

fn reading_in(run: &mut Run, before: [[u8; 3]; 2], damaged: [u8; 3]) -> Outcome {
    let mut random = run.next_case();
    let mut fields = |tags: [u8; 2], count: usize| {
        let mut bytes = Vec::new();
        for i in 0..count {
            damage::field(&mut random, tags[i % 2]).append_to(&mut bytes);
        }
        bytes
    };
    let [rule, initial, main] = [0, 1, 2].map(|kind| before.map(|tags| tags[kind]));
    let rules = fields(rule, MOST_RULES);
    let initial = fields(initial, MOST_INITIAL);
    let one_main = fields(main, 1);
    let main = fields(main, MOST_MAIN);
    let checks = fields([RANGE; 2], MOST_CHECKS);
    let tests = fields([END; 2], MOST_TESTS);
    let one_check = fields([RANGE; 2], 1);
    let [a_rule, an_initial, a_main] = damaged;
    // The right length of a rule, and a body of it with a wrong predicate.
    let length = reference::file::body_length(a_rule).unwrap_or(0) as u8;
    let wrong = vec![9; length as usize];
    let rule_of = |claimed: u8, there: usize| [&[a_rule, 0, claimed][..], &wrong[..there]].concat();
    let after = |one: &[u8], two: &[u8]| [one, two].concat();
    // What stands before, and the number of the field behind it.
    let cases: Vec<(Vec<u8>, u32, Vec<Vec<u8>>)> = vec![
        // 1, one or two bytes left, before 2.
        (
            vec![],
            refusal::CUT,
            vec![vec![UNKNOWN], vec![UNKNOWN, 0], vec![0], vec![a_rule, 0]],
        ),
        // 2 before 3 and 1.
        (
            rules.clone(),
            refusal::UNKNOWN_TAG,
            vec![vec![UNKNOWN, 0, 5], vec![0, 255, 255, 1]],
        ),
        // 4 before 6, and both before 3, 1 and 5.
        (
            after(&rules, &one_main),
            refusal::OUT_OF_ORDER,
            every_damage(a_rule),
        ),
        (
            after(&rules, &tests),
            refusal::OUT_OF_ORDER,
            every_damage(a_rule),
        ),
        (
            after(&initial, &one_main),
            refusal::OUT_OF_ORDER,
            every_damage(an_initial),
        ),
        (
            after(&initial, &one_check),
            refusal::OUT_OF_ORDER,
            every_damage(an_initial),
        ),
        (
            after(&main, &one_check),
            refusal::OUT_OF_ORDER,
            every_damage(a_main),
        ),
        // 6 before 3, 1 and 5.
        (rules.clone(), refusal::OVER_LIMIT, every_damage(a_rule)),
        (initial, refusal::OVER_LIMIT, every_damage(an_initial)),
        (main, refusal::OVER_LIMIT, every_damage(a_main)),
        (checks, refusal::OVER_LIMIT, every_damage(RANGE)),
        (tests.clone(), refusal::OVER_LIMIT, every_damage(END)),
        (tests.clone(), refusal::OVER_LIMIT, every_damage(an_initial)),
        (tests.clone(), refusal::OVER_LIMIT, every_damage(a_main)),
        (tests, refusal::OVER_LIMIT, every_damage(RANGE)),
        // 3 before 1, body cut, and 5.
        (
            vec![],
            refusal::WRONG_LENGTH,
            vec![
                rule_of(4, 3),
                rule_of(length + 1, 2),
                rule_of(length - 1, 3),
                rule_of(8 - length, 3),
                vec![a_main, 255, 255],
            ],
        ),
        // 1, body cut, before 5.
        (
            vec![],
            refusal::CUT,
            (0..length as usize)
                .map(|there| rule_of(length, there))
                .collect(),
        ),
        (
            vec![],
            refusal::UNKNOWN_PREDICATE,
            vec![rule_of(length, length as usize)],
        ),
        // Any of them before 7, which waits for the end.
        (
            one_main,
            refusal::CUT,
            vec![
                vec![END],
                vec![END, 0],
                every_damage(a_main).swap_remove(CUT),
            ],
        ),
    ];
    for (before, number, fields) in cases {
        let known = refusal::at(number, before.len());
        for field in fields {
            let mut random = run.next_case();
            let bytes = after(&before, &field);
            let lent = Lent::new(&mut random, &bytes);
            let reference = reference::file::read(&bytes).map(|_| 0);
            let inputs = [("file", &bytes[..])];
            same("read", &inputs, Some(known), reference, calls::read(&lent))?;
            lent.unchanged("file")?;
        }
    }
    Ok(())
}

/// A tag that is not known.
const UNKNOWN: u8 = LAST_TAG + 1;

/// Which one of every damage is a body cut.
const CUT: usize = 3;

/// A field of this tag: as it should be, of a wrong length, cut, and with a wrong predicate.
fn every_damage(tag: u8) -> Vec<Vec<u8>> {
    let length = reference::file::body_length(tag).unwrap_or(0) as u8;
    let field = |claimed: u8, there: u8| {
        let mut bytes = vec![tag, 0, claimed];
        bytes.extend(vec![9; there as usize]);
        bytes
    };
    let mut all = vec![
        field(length, length),
        field(length + 1, length + 1),
        field(length + 1, 0),
    ];
    if length > 0 {
        all.extend([field(length, length - 1), field(length - 1, length)]);
    }
    if let Some(at) = reference::file::predicate_at(tag) {
        let mut right = field(length, length);
        right[HEADER + at] = 0;
        all.push(right);
    }
    all
}

fn judging(run: &mut Run) -> Outcome {
    const NUMBERS: [u64; 5] = [0, 1, 2, 17, u64::MAX];
    for [cyclic, tested] in combinations() {
        let file = File {
            rules: vec![rule(2, Predicate::Equal, if cyclic { 2 } else { 1 })],
            tests: vec![samples::test_k(); usize::from(tested)],
        };
        for (bytes, unread) in damaged(&file) {
            for number in NUMBERS {
                let mut random = run.next_case();
                let lent = Lent::new(&mut random, &bytes);
                let missing = !(tested && number == 1);
                let listed = [
                    (cyclic, refusal::CYCLIC_RULES),
                    (missing, refusal::NO_SUCH_TEST),
                ];
                let known = unread.or_else(|| first(&listed));
                let inputs = [("file", &bytes[..])];
                let judged =
                    judge::judge(&bytes, number).map(|j| j.valid + (j.bad << 21) + (j.shown << 42));
                let verdict = judge::verdict(&bytes, number).map(|verdict| match verdict {
                    judge::Verdict::Holds => 0,
                    judge::Verdict::Fails(schedule) => 1 + schedule,
                });
                same("judge", &inputs, known, judged, calls::judge(&lent, number))?;
                same(
                    "verdict",
                    &inputs,
                    known,
                    verdict,
                    calls::verdict(&lent, number),
                )?;
                // Locating asks for no rules.
                let located = unread.or_else(|| first(&listed[1..]));
                if let Some(known) = located {
                    let got = calls::locate(&lent, number);
                    same_answer_on("locate", &inputs, answer::of(Err(known)), got)?;
                }
                lent.unchanged("file")?;
            }
        }
    }
    Ok(())
}

/// Lines: 12 before all else, then one line of reading's refusal, then one of 8.
fn lines(run: &mut Run) -> Outcome {
    const LEAST: usize = 400;
    for [cyclic, tested] in combinations() {
        let file = File {
            rules: vec![rule(2, Predicate::Equal, if cyclic { 2 } else { 1 })],
            tests: vec![samples::test_k(); usize::from(tested)],
        };
        for (bytes, unread) in damaged(&file) {
            let refused = unread.or_else(|| first(&[(cyclic, refusal::CYCLIC_RULES)]));
            let text = match refused {
                Some(Refusal { number, place }) => format!("refused {number} {place}\n"),
                None if tested => "1 9 1 fails\n".to_string(),
                None => String::new(),
            };
            for length in [0, LEAST - 1, LEAST] {
                let mut random = run.next_case();
                let lent = Lent::new(&mut random, &bytes);
                let mut after = random.bytes(length);
                let mut out = Lent::new(&mut random, &after);
                let got = calls::judge_lines(&lent, &mut out);
                let expected = if length < LEAST {
                    Err(refusal::plain(refusal::BUFFER_TOO_SHORT))
                } else {
                    after[..text.len()].copy_from_slice(text.as_bytes());
                    Ok(text.len() as u64)
                };
                same_answer_on(
                    "judge_lines",
                    &[("file", &bytes)],
                    answer::of(expected),
                    got,
                )?;
                out.became("out", &after)?;
                let asked = unread.map_or(Ok(u64::from(cyclic)), Err);
                let got = calls::cyclic(&lent);
                same_answer_on("cyclic", &[("file", &bytes)], answer::of(asked), got)?;
                lent.unchanged("file")?;
            }
        }
    }
    Ok(())
}

fn finding(run: &mut Run) -> Outcome {
    for [ruled, large, short, many, hopeless] in combinations() {
        // Names of their own for all writes: over 16 candidates, or with two names 4.
        let count = match (large, many) {
            (true, _) => MOST_TO_FIND + 1,
            (false, true) => MOST_TO_FIND,
            (false, false) => 2,
        };
        let name = |i: u8| 255 + Name::from(if many { i } else { i % 2 });
        let main: Vec<Write> = (0..count as u8).map(|i| write(i, name(i), 0)).collect();
        // Each of two writes only with the other: rules would have to be cyclic.
        let both = |a, b| Check::Pair {
            a,
            v: THERE,
            b,
            w: THERE,
        };
        let test = Test {
            initial: vec![],
            main,
            checks: if hopeless {
                vec![both(0, 1), both(1, 0)]
            } else {
                vec![]
            },
        };
        for predicate in [Predicate::Equal, Predicate::Greater] {
            let file = File {
                // Cyclic or not, 10 is all that find says of rules.
                rules: if ruled {
                    vec![rule(1, predicate, 1)]
                } else {
                    vec![]
                },
                tests: vec![test.clone()],
            };
            for (bytes, unread) in damaged(&file) {
                for length in if short {
                    [0, LEAST_BUFFER - 1]
                } else {
                    [LEAST_BUFFER, 200]
                } {
                    let mut random = run.next_case();
                    let known = unread.or_else(|| {
                        first(&[
                            (ruled, refusal::FILE_HAS_RULES),
                            (large, refusal::TOO_MANY_TO_FIND),
                            (short, refusal::BUFFER_TOO_SHORT),
                            (many, refusal::TOO_MANY_CANDIDATES),
                            (hopeless, refusal::NO_SET_DOES),
                        ])
                    });
                    let lent = Lent::new(&mut random, &bytes);
                    let mut after = random.bytes(length);
                    let mut buffer = Lent::new(&mut random, &after);
                    let reference = find::find(&bytes, &mut after).map(|count| count as u64);
                    let got = calls::find(&lent, &mut buffer);
                    same("find", &[("file", &bytes)], known, reference, got)?;
                    lent.unchanged("file")?;
                    buffer.became("buffer", &after)?;
                }
            }
        }
    }
    Ok(())
}

fn opening(run: &mut Run) -> Outcome {
    for [long, tested, cyclic] in combinations() {
        let file = File {
            rules: vec![rule(2, Predicate::Equal, if cyclic { 2 } else { 1 })],
            tests: vec![samples::test_k(); usize::from(tested)],
        };
        for (bytes, unread) in damaged(&file) {
            for other in [STATE - 1, STATE + 1] {
                let mut random = run.next_case();
                let known = match (long, unread) {
                    (false, Some(unread)) => Some(unread),
                    _ => first(&[
                        (long, refusal::NOT_1024_BYTES),
                        (tested, refusal::FILE_HAS_TESTS),
                        (cyclic, refusal::CYCLIC_RULES),
                    ]),
                };
                let lent = Lent::new(&mut random, &bytes);
                let mut after = random.bytes(if long { other } else { STATE });
                let mut state = Lent::new(&mut random, &after);
                let reference = cache::open(&bytes, &mut after).map(|()| 0);
                let got = calls::open(&mut state, &lent);
                same("open", &[("file", &bytes)], known, reference, got)?;
                lent.unchanged("file")?;
                state.became("state", &after)?;
            }
        }
    }
    Ok(())
}

/// Names of which a byte does not tell two apart.
const LOW: Name = 1;
const HIGH: Name = 2;
const OTHER: Name = 257;

/// The write that is handed in, by name LOW: at the address of the one that waits.
const HANDED: Write = Write {
    address: 2,
    name: LOW,
    epoch: 8,
    block: THERE,
};

/// A sound state with (LOW,<,LOW) and (HIGH,=,LOW): with 64 writes, with a stored write that
/// depends on HANDED, with a waiting one at its address that depends on it.
fn state(full: bool, late: bool, ring: bool) -> Vec<u8> {
    let file = File {
        rules: vec![
            rule(LOW, Predicate::Less, LOW),
            rule(HIGH, Predicate::Equal, LOW),
        ],
        tests: vec![],
    };
    let mut state = vec![0; STATE];
    cache::open(&file.to_bytes(), &mut state).expect("rules that are not cyclic");
    let mut hand_in = |write| cache::hand_in(&mut state, &write).expect("a write that is accepted");
    hand_in(write(1, if late { HIGH } else { OTHER }, HANDED.epoch));
    if ring {
        hand_in(write(HANDED.address, LOW, HANDED.epoch - 1));
    }
    if full {
        let already = 1 + u8::from(ring);
        (already..64).for_each(|i| hand_in(write(100 + i, OTHER, 0)));
    }
    let stored = cache::step(&mut state, &mut [0; DISK]);
    assert_eq!(stored, Ok(1));
    state
}

/// Bytes of which each makes a state unsound if it is another: byte 3, the stored count, an unused
/// byte, a flag.
const BYTES: [usize; 4] = [3, 2, 1000, WRITES_AT + FLAG];

/// A state of another length: with a byte taken away, or put behind it.
fn resized(state: &[u8], length: usize) -> Vec<u8> {
    let mut other = state.to_vec();
    other.resize(length, 0);
    other
}

fn handing_in(run: &mut Run) -> Outcome {
    for [long, unsound, full, late, ring] in combinations() {
        for (other, at) in [STATE - 1, STATE + 1]
            .into_iter()
            .flat_map(|n| BYTES.map(|at| (n, at)))
        {
            let mut random = run.next_case();
            let mut before = state(full, late, ring);
            before[at] += 7 * u8::from(unsound);
            let before = resized(&before, if long { other } else { STATE });
            let known = first(&[
                (long, refusal::NOT_1024_BYTES),
                (unsound, refusal::NOT_SOUND),
                (full, refusal::STATE_FULL),
                (late, refusal::LATE),
                (ring, refusal::RING_OF_NEEDS),
            ]);
            let mut after = before.clone();
            let mut lent = Lent::new(&mut random, &before);
            let reference = cache::hand_in(&mut after, &HANDED).map(|()| after[1] as u64);
            let got = calls::hand_in(&mut lent, &HANDED);
            same("hand-in", &[("state", &before)], known, reference, got)?;
            lent.became("state", &after)?;
        }
    }
    Ok(())
}

fn storing(run: &mut Run) -> Outcome {
    type Storing = (
        &'static str,
        fn(&mut Lent, &mut Lent) -> u64,
        fn(&mut [u8], &mut [u8]) -> Result<usize, Refusal>,
    );
    const BOTH: [Storing; 2] = [
        ("step", calls::step, cache::step),
        ("drain", calls::drain, cache::drain),
    ];
    for [long_state, long_disk, unsound] in combinations() {
        for (other, at) in [STATE - 1, STATE + 1]
            .into_iter()
            .flat_map(|n| BYTES.map(|at| (n, at)))
        {
            for (name, proved, of_reference) in BOTH {
                let mut random = run.next_case();
                let mut before = state(false, true, true);
                before[at] += 7 * u8::from(unsound);
                let mut state = resized(&before, if long_state { other } else { STATE });
                let mut disk = random.bytes(if long_disk { other } else { DISK });
                let known = first(&[
                    (long_state || long_disk, refusal::NOT_1024_BYTES),
                    (unsound, refusal::NOT_SOUND),
                ]);
                let mut lent = Lent::new(&mut random, &state);
                let mut lent_disk = Lent::new(&mut random, &disk);
                let got = proved(&mut lent, &mut lent_disk);
                let reference = of_reference(&mut state, &mut disk).map(|count| count as u64);
                let inputs = [("state", lent.content()), ("disk", lent_disk.content())];
                same(name, &inputs, known, reference, got)?;
                lent.became("state", &state)?;
                lent_disk.became("disk", &disk)?;
            }
        }
    }
    Ok(())
}

/// So many puts, with one of (0,0) or not, with some bytes of another behind them or not.
fn program(random: &mut Random, puts: usize, empty: bool, cut: bool) -> Vec<u8> {
    let mut bytes: Vec<u8> = (0..PUT * puts).map(|_| random.byte() | 1).collect();
    if empty && puts > 0 {
        let at = PUT * random.below(puts);
        bytes[at..at + PUT].fill(0);
    }
    if cut {
        // Zeros too: what is cut is no put of (0,0).
        let more = random.between(1, PUT - 1);
        bytes.extend(vec![0; more]);
    }
    bytes
}

fn tracing(run: &mut Run) -> Outcome {
    for [cut_initial, cut_main, over_initial, over_main, empty_initial, empty_main, short] in
        combinations()
    {
        for exact in [false, true] {
            let mut random = run.next_case();
            let initial = if over_initial {
                MOST_INITIAL_PUTS + 1
            } else {
                MOST_INITIAL_PUTS
            };
            let main = if over_main {
                MOST_MAIN_PUTS + 1
            } else {
                MOST_MAIN_PUTS
            };
            let one = program(&mut random, initial, empty_initial, cut_initial);
            let two = program(&mut random, main, empty_main, cut_main);
            let needed = 26 * (initial + main) + 7;
            let length = match (short, exact) {
                (true, true) => needed - 1,
                (true, false) => 0,
                (false, true) => needed,
                (false, false) => needed + 40,
            };
            let known = first(&[
                (cut_initial || cut_main, refusal::NOT_WHOLE_PUTS),
                (over_initial || over_main, refusal::OVER_LIMIT),
                (empty_initial || empty_main, refusal::EMPTY_PUT),
                (short, refusal::BUFFER_TOO_SHORT),
            ]);
            let lent = (Lent::new(&mut random, &one), Lent::new(&mut random, &two));
            let mut after = random.bytes(length);
            let mut buffer = Lent::new(&mut random, &after);
            let reference = log::trace(&one, &two, &mut after).map(|length| length as u64);
            let got = calls::trace(&lent.0, &lent.1, &mut buffer);
            let inputs = [("initial", &one[..]), ("main", &two[..])];
            same("trace", &inputs, known, reference, got)?;
            lent.0.unchanged("initial")?;
            lent.1.unchanged("main")?;
            buffer.became("buffer", &after)?;
        }
    }
    Ok(())
}

fn getting(run: &mut Run) -> Outcome {
    for [long, past, reversed] in combinations() {
        for other in [4, DISK - 1, DISK + 1] {
            let mut random = run.next_case();
            let mut disk = random.bytes(if long { other } else { DISK });
            let tail = if past { 257u16 } else { 256 };
            let head = if reversed { tail + 1 } else { 1 };
            disk[..2].copy_from_slice(&head.to_be_bytes());
            disk[2..4].copy_from_slice(&tail.to_be_bytes());
            let known = first(&[
                (long, refusal::NOT_1024_BYTES),
                (past || reversed, refusal::LOG_DAMAGED),
            ]);
            let lent = Lent::new(&mut random, &disk);
            let reference = log::get(&disk, 7).map(|value| value.map_or(65_536, u64::from));
            same(
                "get",
                &[("disk", &disk)],
                known,
                reference,
                calls::get(&lent, 7),
            )?;
            lent.unchanged("disk")?;
        }
    }
    Ok(())
}
