// Names of two bytes: old files in the new tags, limits reached by both, what find writes and what a
// state holds byte by byte, and names that one byte does not tell apart.

use reference::book::Call;
use reference::cache::{self, DISK, STATE};
use reference::checks::Check;
use reference::counts::expected;
use reference::crashes;
use reference::cyclic::cyclic;
use reference::damage;
use reference::file::{bytes_of, Field, File, Test, HEADER};
use reference::file::{INITIAL, MAIN, MOST_INITIAL, MOST_MAIN, MOST_RULES, RULE};
use reference::file::{WIDE_INITIAL, WIDE_MAIN, WIDE_RULE};
use reference::find::{find, LEAST_BUFFER};
use reference::generate::{self, some_widened, widened, Values};
use reference::random::Random;
use reference::refusal::{self, LATE};
use reference::samples;
use reference::states::{state_of, Source};
use reference::writes::{block, write, Block, Name, Rule, Write};

use crate::answer;
use crate::calls;
use crate::harness::{fail, require, same_answer, same_answer_on, Failure, Outcome, Run, Suite};
use crate::lent::Lent;
use crate::receiver::hand_in::same_hand_in;
use crate::receiver::storing::{lend, DRAIN, STEP};

pub fn suites() -> Vec<Suite> {
    let suite = |name, run| Suite { name, run };
    vec![
        suite("names: old files in new tags", old_files),
        suite("names: old files in new tags, opened", old_files_opened),
        suite("names: each limit by old and new tags", limits_of_both),
        suite("names: what find writes, byte by byte", found_bytes),
        suite("names: rules of both tags found together", found_together),
        suite("names: judged, and cut to a byte", cut_and_judged),
        suite("names: found, and cut to a byte", cut_and_found),
        suite("names: runs, and cut to a byte", cut_and_run),
        suite("names: the bytes of a state", bytes_of_a_state),
        suite("names: states of the layout before", states_before),
    ]
}

/// All answers to a file that do not hang on where its fields are, and what is left in find's buffer.
fn answers(random: &mut Random, file: &[u8], buffer: usize) -> Result<Vec<Vec<u8>>, Failure> {
    let lent = Lent::new(random, file);
    let mut all = vec![calls::read(&lent), calls::cyclic(&lent)];
    for test in [0, 1, 2, 3] {
        all.push(calls::judge(&lent, test));
        all.push(calls::verdict(&lent, test));
        // Without the offset, the lowest 16 bits, but of a refusal.
        let located = calls::locate(&lent, test);
        all.push(if located >> 63 == 1 {
            located
        } else {
            located >> 16
        });
    }
    let mut lines = Lent::exact(&[0xEE; 400]);
    let mut found = Lent::exact(&vec![0xEE; buffer]);
    all.push(calls::judge_lines(&lent, &mut lines));
    all.push(calls::find(&lent, &mut found));
    lent.unchanged("file")?;
    let all = all.iter().flat_map(|answer| answer.to_be_bytes()).collect();
    Ok(vec![all, lines.left().to_vec(), found.left().to_vec()])
}

/// An old file: fields of tags 01 to 07 only, which reading accepts. Many have no rules, and rules can
/// be found for them.
fn old_file(random: &mut Random) -> File {
    let mut values = Values::narrow(random);
    let rules = match random.below(4) {
        0 | 1 => {
            values.names.truncate(2);
            let tests = (0..random.between(1, 3)).map(|_| {
                let main = random.between(2, 5);
                crashes::guarded_test(random, &values, main, 4)
            });
            return File {
                rules: vec![],
                tests: tests.collect(),
            };
        }
        2 => generate::rules_of(random, &values, 3),
        _ => crashes::acyclic_rules(random, &values, 6),
    };
    let tests = (0..random.below(4))
        .map(|_| {
            let main = match random.one_in(8) {
                true => random.between(0, MOST_MAIN),
                false => random.between(0, 6),
            };
            crashes::test(random, &values, main)
        })
        .collect();
    File { rules, tests }
}

/// An old file gets the same answers when any of its fields are in the new tags.
fn old_files(run: &mut Run) -> Outcome {
    let (cases, mut written) = (run.times(1_500), 0);
    for _ in 0..cases {
        let mut random = run.next_case();
        let old = old_file(&mut random).fields();
        require(
            old.iter().all(|field| field.tag < WIDE_INITIAL),
            "an old file",
            format!("{old:?}"),
        )?;
        let buffer = random.pick(&[LEAST_BUFFER, LEAST_BUFFER - 1, 200]);
        let before = answers(&mut random, &bytes_of(&old), buffer)?;
        written += u64::from(before[2] != vec![0xEE; buffer]);
        let all: Vec<Field> = old.iter().map(widened).collect();
        let some = some_widened(&mut random, &old);
        for new in [all, some] {
            let bytes = bytes_of(&new);
            let after = answers(&mut random, &bytes, buffer)?;
            if after != before {
                let shown = [("old file", &bytes_of(&old)[..]), ("new file", &bytes)];
                return fail("all", &shown, format!("{before:x?}"), format!("{after:x?}"));
            }
        }
    }
    run.note(format!("find has written rules for {written}"));
    require(written > cases / 10, "rules for many", written.to_string())
}

/// The state after an opening, too, and that of a refused one.
fn old_files_opened(run: &mut Run) -> Outcome {
    let mut refused = 0;
    for _ in 0..run.times(2_000) {
        let mut random = run.next_case();
        let mut file = old_file(&mut random);
        if !random.one_in(6) {
            file.tests.clear();
        }
        let old = file.fields();
        let new = some_widened(&mut random, &old);
        let before = random.bytes(STATE);
        let mut after = before.clone();
        let known = answer::of(cache::open(&bytes_of(&old), &mut after).map(|()| 0));
        refused += u64::from(known != 0);
        for fields in [old, new] {
            let bytes = bytes_of(&fields);
            let (mut state, lent) = (Lent::new(&mut random, &before), Lent::exact(&bytes));
            same_answer("open", &bytes, known, calls::open(&mut state, &lent))?;
            state.became("state", &after)?;
            lent.unchanged("file")?;
        }
    }
    run.note(format!("{refused} refused"));
    require(refused > 200, "some refused", refused.to_string())
}

/// As many rules, initial and main writes as there can be, so many of them in the old tag; then one
/// more, in either.
fn limits_of_both(run: &mut Run) -> Outcome {
    for (tags, most) in [
        ([RULE, WIDE_RULE], MOST_RULES),
        ([INITIAL, WIDE_INITIAL], MOST_INITIAL),
        ([MAIN, WIDE_MAIN], MOST_MAIN),
    ] {
        for old in 0..=most {
            let mut random = run.next_case();
            let mut order = vec![tags[0]; old];
            order.resize(most, tags[1]);
            random.shuffle(&mut order);
            let fields: Vec<Field> = order
                .iter()
                .map(|&tag| damage::field(&mut random, tag))
                .collect();
            let bytes = bytes_of(&fields);
            let rules = if tags[0] == RULE { most as u64 } else { 0 };
            let whole = [&bytes[..], &[7, 0, 0]].concat();
            let lent = Lent::new(&mut random, &whole);
            same_answer("read", &whole, rules + 256, calls::read(&lent))?;
            let over = answer::of(Err(refusal::at(refusal::OVER_LIMIT, bytes.len())));
            for tag in tags {
                // A field as it should be; and whatever else is wrong with it: 6 comes first.
                let mut last = vec![damage::field(&mut random, tag)];
                for length in [0, 3, 5, 10, 11, 65_535] {
                    let there = random.below(12);
                    let body = random.bytes(there);
                    last.push(Field { tag, length, body });
                }
                for field in last {
                    let mut file = bytes.clone();
                    field.append_to(&mut file);
                    let lent = Lent::new(&mut random, &file);
                    same_answer("read", &file, over, calls::read(&lent))?;
                    lent.unchanged("file")?;
                }
            }
        }
    }
    Ok(())
}

/// Two writes of names and epochs to blocks 1 and 2; with the second there, the first has to be.
fn first_before_second(first: (Name, u32), second: (Name, u32)) -> Test {
    let there = block(0, 1);
    Test {
        initial: vec![],
        main: vec![
            write(1, first.0, first.1, there),
            write(2, second.0, second.1, there),
        ],
        checks: vec![Check::Pair {
            a: 2,
            v: there,
            b: 1,
            w: there,
        }],
    }
}

/// What find leaves in buffers around the least, of a file in whichever tags: these bytes, or 12.
fn finds(run: &mut Run, tests: &[Test], fields: &[u8], count: u64) -> Outcome {
    let file = File {
        rules: vec![],
        tests: tests.to_vec(),
    };
    let short = answer::of(Err(refusal::plain(refusal::BUFFER_TOO_SHORT)));
    for length in [96, LEAST_BUFFER - 1, LEAST_BUFFER, LEAST_BUFFER + 1] {
        let mut random = run.next_case();
        for bytes in [
            file.to_bytes(),
            file.to_wide_bytes(),
            file.to_mixed_bytes(&mut random),
        ] {
            let lent = Lent::new(&mut random, &bytes);
            let mut after = random.bytes(length);
            let mut buffer = Lent::new(&mut random, &after);
            let got = calls::find(&lent, &mut buffer);
            let known = if length < LEAST_BUFFER { short } else { count };
            same_answer(&format!("find into {length} bytes"), &bytes, known, got)?;
            if length >= LEAST_BUFFER {
                after[..fields.len()].copy_from_slice(fields);
            }
            buffer.became("buffer", &after)?;
            lent.unchanged("file")?;
        }
    }
    Ok(())
}

/// 0A rule by rule, only where one of its names exceeds 255. The bytes are written out, and no
/// implementation is asked.
fn found_bytes(run: &mut Run) -> Outcome {
    let rising = |name| first_before_second((name, 0), (name, 1));
    finds(run, &[], &[], 0)?;
    let both = [0x03, 0, 3, 1, 1, 1, 0x0a, 0, 5, 1, 0x2c, 1, 1, 0x2c];
    finds(run, &[rising(1), rising(300)], &both, 2)?;
    finds(run, &[rising(300), rising(1)], &both, 2)?;
    // K with log name 300: (2,=,300), and (300,>,300), which has the larger number than (2,>,2).
    let mut k = samples::test_k();
    for write in k.initial.iter_mut().chain(&mut k.main) {
        write.name = if write.name == 1 { 300 } else { 2 };
    }
    let fields = [10, 0, 5, 0, 2, 0, 1, 0x2c, 10, 0, 5, 1, 0x2c, 1, 1, 0x2c];
    finds(run, &[k], &fields, 2)?;
    for (name, fields) in [
        (255, &[3, 0, 3, 255, 1, 255][..]),
        (256, &[10, 0, 5, 1, 0, 1, 1, 0]),
        (65_535, &[10, 0, 5, 255, 255, 1, 255, 255]),
    ] {
        finds(run, &[rising(name)], fields, 1)?;
    }
    // The first name wide, the second, none; and the order of candidates.
    for (one, two, fields) in [
        (256, 255, &[10, 0, 5, 0, 255, 0, 1, 0][..]),
        (255, 256, &[10, 0, 5, 1, 0, 0, 0, 255]),
        (254, 255, &[3, 0, 3, 255, 0, 254]),
    ] {
        finds(run, &[first_before_second((one, 4), (two, 4))], fields, 1)?;
    }
    // As many as there can be: of a test's candidates (n,>,n) and (n,<,n), cyclic together, eight tests
    // have 16.
    let most: Vec<Test> = (1_000..1_008).map(rising).collect();
    let field = |name: Name| {
        let [high, low] = name.to_be_bytes();
        [10, 0, 5, high, low, 1, high, low]
    };
    let fields: Vec<u8> = (1_000..1_008).flat_map(field).collect();
    finds(run, &most, &fields, 8)
}

/// Tests that each ask for a rule of their own, about names of one byte, of two, or of both: against the
/// reference, and often both tags in one answer.
fn found_together(run: &mut Run) -> Outcome {
    let mut both = 0;
    for _ in 0..run.times(400) {
        let mut random = run.next_case();
        let narrow = random.pick(&[[1, 2], [0, 255], [7, 7]]).to_vec();
        let wide = random
            .pick(&[[257, 258], [256, 65_535], [263, 263]])
            .to_vec();
        let both_kinds = vec![narrow[0], wide[0]];
        let tests = [narrow, wide, both_kinds]
            .map(|names| {
                let values = Values {
                    names,
                    epochs: (0..random.between(1, 2) as u32).collect(),
                    ..Values::small(&mut random)
                };
                let main = random.between(2, 3);
                crashes::guarded_test(&mut random, &values, main, 2)
            })
            .to_vec();
        let file = File {
            rules: vec![],
            tests,
        };
        let bytes = file.to_mixed_bytes(&mut random);
        let lent = Lent::new(&mut random, &bytes);
        let mut after = random.bytes(LEAST_BUFFER);
        let mut buffer = Lent::new(&mut random, &after);
        let known = find(&bytes, &mut after).map(|count| count as u64);
        let got = calls::find(&lent, &mut buffer);
        same_answer("find", &bytes, answer::of(known), got)?;
        buffer.became("buffer", &after)?;
        if let Ok(count) = known {
            let tags = tags_of(&after, count);
            both += u64::from(tags.contains(&RULE) && tags.contains(&WIDE_RULE));
        }
    }
    run.note(format!("{both} with both tags"));
    require(both > 80, "many with both tags", both.to_string())
}

/// The tags of so many fields.
fn tags_of(mut fields: &[u8], count: u64) -> Vec<u8> {
    (0..count)
        .map(|_| {
            let tag = fields[0];
            fields = &fields[HEADER + fields[2] as usize..];
            tag
        })
        .collect()
}

/// What would become of names that are not taken whole: those of rules, and those of writes.
#[derive(Clone, Copy)]
struct Cut {
    of_rules: fn(Name) -> Name,
    of_writes: fn(Name) -> Name,
}

fn whole(name: Name) -> Name {
    name
}

fn low_byte(name: Name) -> Name {
    name & 0xFF
}

/// The low bytes of all names, of rules' names only, of writes' only; writes' bytes exchanged.
const CUTS: [Cut; 4] = [
    Cut {
        of_rules: low_byte,
        of_writes: low_byte,
    },
    Cut {
        of_rules: low_byte,
        of_writes: whole,
    },
    Cut {
        of_rules: whole,
        of_writes: low_byte,
    },
    Cut {
        of_rules: whole,
        of_writes: Name::swap_bytes,
    },
];

impl Cut {
    fn rules(self, rules: &[Rule]) -> Vec<Rule> {
        let cut = |rule: &Rule| Rule {
            name: (self.of_rules)(rule.name),
            second: (self.of_rules)(rule.second),
            ..*rule
        };
        rules.iter().map(cut).collect()
    }

    fn write(self, write: &Write) -> Write {
        Write {
            name: (self.of_writes)(write.name),
            ..*write
        }
    }

    fn test(self, test: &Test) -> Test {
        Test {
            main: test.main.iter().map(|write| self.write(write)).collect(),
            ..test.clone()
        }
    }
}

/// Names that agree in a byte, and rules about them.
fn alike_file(random: &mut Random) -> File {
    let values = Values {
        names: loop {
            let names = generate::names(random, 4);
            if names.iter().any(|&name| name > 255) {
                break names;
            }
        },
        epochs: (0..random.between(1, 3) as u32).collect(),
        ..Values::small(random)
    };
    let main = random.between(2, 6);
    File {
        rules: crashes::acyclic_rules(random, &values, 6),
        tests: vec![crashes::test(random, &values, main)],
    }
}

/// Judge and verdict; and how often another judgement would come of a name that is cut.
fn cut_and_judged(run: &mut Run) -> Outcome {
    let (cases, mut telling) = (run.times(4_000), [0; CUTS.len()]);
    for _ in 0..cases {
        let mut random = run.next_case();
        let file = alike_file(&mut random);
        let known = expected(&file.rules, &file.tests[0]);
        let bytes = file.to_mixed_bytes(&mut random);
        let lent = Lent::new(&mut random, &bytes);
        let judged = known.valid + (known.bad << 21) + (known.shown << 42);
        same_answer("judge", &bytes, judged, calls::judge(&lent, 1))?;
        let verdict = if known.bad == 0 { 0 } else { 1 + known.shown };
        same_answer("verdict", &bytes, verdict, calls::verdict(&lent, 1))?;
        for (count, cut) in telling.iter_mut().zip(CUTS) {
            let (rules, test) = (cut.rules(&file.rules), cut.test(&file.tests[0]));
            let same = !cyclic(&rules) && expected(&rules, &test) == known;
            *count += u64::from(!same);
        }
    }
    run.note(format!("{telling:?} would be others"));
    require(
        telling.iter().all(|&count| count > cases / 20),
        "a twentieth at least that would be another by each cut",
        format!("{telling:?}"),
    )
}

/// Find, and how often other rules would be found.
fn cut_and_found(run: &mut Run) -> Outcome {
    let (cases, mut telling) = (run.times(600), 0);
    for _ in 0..cases {
        let mut random = run.next_case();
        let mut file = alike_file(&mut random);
        let values = Values {
            names: file.tests[0].main.iter().map(|write| write.name).collect(),
            epochs: vec![0, 1],
            ..Values::small(&mut random)
        };
        file.rules.clear();
        file.tests[0] = crashes::guarded_test(&mut random, &values, 4, 4);
        let bytes = file.to_mixed_bytes(&mut random);
        let lent = Lent::new(&mut random, &bytes);
        let mut after = vec![0xEE; LEAST_BUFFER];
        let mut buffer = Lent::new(&mut random, &after);
        let known = find(&bytes, &mut after);
        let got = calls::find(&lent, &mut buffer);
        same_answer("find", &bytes, answer::of(known.map(|n| n as u64)), got)?;
        buffer.became("buffer", &after)?;
        file.tests[0] = CUTS[0].test(&file.tests[0]);
        let cut = find(&file.to_bytes(), &mut [0xEE; LEAST_BUFFER]);
        telling += u64::from(cut != known);
    }
    run.note(format!("{telling} would be others"));
    require(telling > cases / 20, "some others", telling.to_string())
}

/// Hand-ins, steps and drains; and how often a cache of cut names would answer something else.
fn cut_and_run(run: &mut Run) -> Outcome {
    let (mut calls_made, mut telling) = (0, [0; CUTS.len()]);
    for _ in 0..run.times(300) {
        let mut random = run.next_case();
        let mut source = Source::new(&mut random);
        source.values.names = generate::names(&mut random, 4);
        source.rules = crashes::acyclic_rules(&mut random, &source.values, 6);
        let (mut state, mut disk) = lend(&mut random, &source.opened());
        let mut cut = CUTS.map(|cut| CutRun::new(&source.rules, cut));
        for _ in 0..random.below(40) {
            calls_made += 1;
            let (call, got) = match random.below(4) {
                0 => (Call::Step, STEP.same(&mut state, &mut disk)?),
                1 if random.one_in(4) => (Call::Drain, DRAIN.same(&mut state, &mut disk)?),
                _ => {
                    let write = source.write(&mut random);
                    (
                        Call::HandIn(write),
                        same_hand_in(&mut state, &write)?.into(),
                    )
                }
            };
            for (cut, telling) in cut.iter_mut().zip(&mut telling) {
                *telling += u64::from(cut.differs(&call, got));
            }
        }
    }
    run.note(format!("of {calls_made} calls {telling:?} would be others"));
    require(
        telling.iter().all(|&count| count > 20),
        "some that would be others by each cut",
        format!("{telling:?}"),
    )
}

/// What the reference does with names that are cut, beside a run with whole ones.
struct CutRun {
    cut: Cut,
    state: Vec<u8>,
    disk: Vec<u8>,
}

impl CutRun {
    fn new(rules: &[Rule], cut: Cut) -> CutRun {
        CutRun {
            cut,
            state: state_of(&cut.rules(rules), &[], &[]),
            disk: vec![0; DISK],
        }
    }

    /// Whether its answer is another one: a step's place, a drain's count, a hand-in's refusal or 0.
    fn differs(&mut self, call: &Call, got: u64) -> bool {
        let answer = match call {
            Call::HandIn(write) => {
                let refused = cache::hand_in(&mut self.state, &self.cut.write(write)).err();
                Ok(refused.map_or(0, |refusal| refusal.number as usize))
            }
            Call::Step => cache::step(&mut self.state, &mut self.disk),
            Call::Drain => cache::drain(&mut self.state, &mut self.disk),
            Call::Open => return false,
        };
        answer != Ok(got as usize)
    }
}

/// Rules and writes of any names, put into the bytes of a state by hand.
fn bytes_of_a_state(run: &mut Run) -> Outcome {
    const NAMES: [Name; 9] = [0, 1, 2, 255, 256, 257, 511, 512, 65_535];
    for i in 0..run.times(600) {
        let mut random = run.next_case();
        let mut values = Values::wide(&mut random);
        if i % 2 == 0 {
            values.names = NAMES.to_vec();
        }
        let most = random.pick(&[0, 4, MOST_RULES]);
        let rules = crashes::acyclic_rules(&mut random, &values, most);
        let file = File {
            rules,
            tests: vec![],
        };
        let bytes = file.to_mixed_bytes(&mut random);
        let mut known = vec![0; STATE];
        known[0] = file.rules.len() as u8;
        for (i, rule) in file.rules.iter().enumerate() {
            let ([a, b], [c, d]) = (rule.name.to_be_bytes(), rule.second.to_be_bytes());
            known[4 + 5 * i..9 + 5 * i].copy_from_slice(&[a, b, rule.predicate.to_byte(), c, d]);
        }
        let before = random.bytes(STATE);
        let mut state = Lent::new(&mut random, &before);
        let lent = Lent::new(&mut random, &bytes);
        same_answer("open", &bytes, 0, calls::open(&mut state, &lent))?;
        state.became("state", &known)?;
        let mut disk = Lent::new(&mut random, &[0; DISK]);
        for place in 1..=random.between(1, 8) {
            let new = generate::write(&mut random, &values);
            // Half of them are stored at once.
            if calls::hand_in(&mut state, &new) >> 63 == 1 {
                state.unchanged("state")?;
                break;
            }
            let at = 164 + 12 * (place - 1);
            let [high, low] = new.name.to_be_bytes();
            let Block { first, second } = new.block;
            known[at..at + 3].copy_from_slice(&[new.address, high, low]);
            known[at + 3..at + 7].copy_from_slice(&new.epoch.to_be_bytes());
            known[at + 7..at + 9].copy_from_slice(&first.to_be_bytes());
            known[at + 9..at + 11].copy_from_slice(&second.to_be_bytes());
            known[1] += 1;
            state.became("state", &known)?;
            if random.one_in(2) {
                let stored = STEP.same(&mut state, &mut disk)? as usize;
                require(stored > 0, "one is stored", stored.to_string())?;
                known[164 + 12 * (stored - 1) + 11] = 1;
                known[2] += 1;
                same_bytes(state.content(), &known)?;
            }
        }
    }
    Ok(())
}

fn same_bytes(state: &[u8], known: &[u8]) -> Outcome {
    require(
        state == known,
        "a state put together by hand",
        format!("{state:x?}"),
    )
}

/// A state of the layout before [2]: some are sound in this one, and mean other rules. (2,=,1) has become
/// (512,>,0).
fn states_before(run: &mut Run) -> Outcome {
    let mut random = run.next_case();
    let mut before = vec![0; STATE];
    before[0] = 1;
    before[4..7].copy_from_slice(&[2, 0, 1]);
    let there = block(1, 2);
    let (mut state, mut disk) = lend(&mut random, &before);
    // No rule is kept about 2 and 1: the log block of a stored superblock is not late.
    for (name, epoch) in [(2, 1), (512, 2)] {
        same_hand_in(&mut state, &write(name as u8, name, epoch, there))?;
        STEP.same(&mut state, &mut disk)?;
    }
    let answer = calls::hand_in(&mut state, &write(7, 1, 1, there));
    same_answer_on("hand-in", &[("state", state.content())], 3, answer)?;
    // One is kept about 512 and 0.
    let late = answer::of(Err(refusal::plain(LATE)));
    let answer = calls::hand_in(&mut state, &write(7, 0, 1, there));
    same_answer_on("hand-in", &[("state", state.content())], late, answer)
}
