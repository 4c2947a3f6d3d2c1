// The sample files: what a tester would write, and what goes wrong with one.

use crate::checks::Check;
use crate::file::{bytes_of, File, Test};
use crate::generate::widened;
use crate::log;
use crate::writes::{block, rule, write, Block, Name, Predicate, Rule};

use Predicate::{Equal, Greater, Less};

pub struct Sample {
    pub name: &'static str,
    pub bytes: Vec<u8>,
}

/// The log's rules: a superblock after its log block, and after the earlier superblocks.
pub fn log_rules() -> [Rule; 2] {
    [
        rule(log::SUPERBLOCK, Equal, log::LOG),
        rule(log::SUPERBLOCK, Greater, log::SUPERBLOCK),
    ]
}

/// Test K of the bench sheet.
pub fn test_k() -> Test {
    log::test_of(&[block(0, 42)], &[block(1, 81), block(2, 37)])
}

/// One ignition of a lorry with a trailer: six wheels, after two readings that are there.
fn rig() -> Test {
    let wheels = [(0, 830), (1, 825), (2, 910), (3, 905), (4, 899), (5, 640)];
    let puts: Vec<Block> = wheels.map(|(wheel, kpa)| block(wheel, kpa)).to_vec();
    log::test_of(&[block(0, 835), block(1, 828)], &puts)
}

/// One ignition of a lorry with six trailers, after the same two readings: four wheels of the lorry,
/// and of each trailer the wheel with the lowest pressure. Its 20 writes are the most of a test.
fn rig6() -> Test {
    let lorry = [(0, 830), (1, 825), (2, 910), (3, 905)];
    let trailers = [
        (10, 899),
        (20, 884),
        (30, 640),
        (40, 902),
        (50, 871),
        (60, 893),
    ];
    let puts: Vec<Block> = lorry
        .iter()
        .chain(&trailers)
        .map(|&(wheel, kpa)| block(wheel, kpa))
        .collect();
    log::test_of(&[block(0, 835), block(1, 828)], &puts)
}

const SETTING: Name = 10;
const MARK: Name = 11;

/// A setting in two blocks, 20 and 21, and a mark at 22 that it is complete: with the mark there,
/// both are.
fn setting() -> Test {
    let (old, new, complete) = (block(1, 1), block(2, 2), block(0, 1));
    let complete_has = |b| Check::Pair {
        a: 22,
        v: complete,
        b,
        w: new,
    };
    Test {
        initial: vec![write(20, SETTING, 0, old), write(21, SETTING, 0, old)],
        main: vec![
            write(20, SETTING, 1, new),
            write(21, SETTING, 1, new),
            write(22, MARK, 1, complete),
        ],
        checks: vec![complete_has(20), complete_has(21)],
    }
}

const RECORD: Name = 30;
const DIRECTORY: Name = 31;

/// Directory blocks 40 and 41 with pointers to records at 100 and 101, each moved once.
fn directory() -> Test {
    let points_to = |record| block(0, record);
    Test {
        initial: vec![
            write(100, RECORD, 0, block(7, 1)),
            write(40, DIRECTORY, 0, points_to(100)),
        ],
        main: vec![
            write(101, RECORD, 1, block(7, 2)),
            write(41, DIRECTORY, 1, points_to(101)),
            write(102, RECORD, 2, block(7, 3)),
            write(40, DIRECTORY, 2, points_to(102)),
        ],
        checks: vec![Check::Pointer { at: 40 }, Check::Pointer { at: 41 }],
    }
}

/// A log whose superblock promises a block that was never written: bad before anything is stored.
fn worn() -> Test {
    Test {
        initial: vec![write(0, log::SUPERBLOCK, 0, block(1, 2))],
        main: vec![write(1, log::LOG, 0, block(0, 42))],
        checks: vec![Check::Range { at: 0 }],
    }
}

/// A log of three readings whose head is moved, so that older readings no longer count.
fn trimmed(head: u16) -> Test {
    let readings = [block(0, 830), block(1, 825), block(2, 640)];
    Test {
        main: vec![write(0, log::SUPERBLOCK, 3, block(head, 4))],
        ..log::test_of(&readings, &[])
    }
}

/// A record at address 8, read anew, and a mark at 9 that it is there.
fn marked_record(of_old: Name, of_record: Name, of_mark: Name) -> Test {
    let (old, new, there) = (block(7, 41), block(7, 42), block(0, 1));
    Test {
        initial: vec![write(8, of_old, 0, old)],
        main: vec![write(8, of_record, 1, new), write(9, of_mark, 1, there)],
        checks: vec![Check::Pair {
            a: 9,
            v: there,
            b: 8,
            w: new,
        }],
    }
}

/// Records and marks of a rig: the lorry's, names 1 and 2; its trailer's, 257 and 258; and the trailer's
/// again by a firmware that keeps names in a byte, and so has the record as 1. Rules and writes are in
/// the old tags where these will do, but for the lorry's mark.
fn rig_names() -> Vec<u8> {
    let file = File {
        rules: vec![rule(2, Equal, 1), rule(258, Equal, 257)],
        tests: vec![
            marked_record(1, 1, 2),
            marked_record(257, 257, 258),
            marked_record(257, 1, 258),
        ],
    };
    let lorrys_mark = file.rules.len() + 2;
    let mut fields = file.fields();
    fields[lorrys_mark] = widened(&fields[lorrys_mark]);
    bytes_of(&fields)
}

fn file(rules: &[Rule], tests: &[Test]) -> Vec<u8> {
    let file = File {
        rules: rules.to_vec(),
        tests: tests.to_vec(),
    };
    file.to_bytes()
}

pub fn samples() -> Vec<Sample> {
    let sample = |name, bytes| Sample { name, bytes };
    let both = log_rules();
    let setting_rule = rule(MARK, Equal, SETTING);
    let directory_rule = rule(DIRECTORY, Equal, RECORD);
    let all_rules = [both[0], both[1], setting_rule, directory_rule];
    let all_tests = [
        test_k(),
        rig(),
        setting(),
        directory(),
        worn(),
        Test::default(),
    ];
    let k1 = file(&both, &[test_k()]);
    let mut swapped = test_k().fields();
    swapped.swap(0, 2);
    vec![
        sample("k1.bin", k1.clone()),
        sample("k2.bin", file(&[], &[test_k()])),
        sample("k3.bin", file(&both[..1], &[test_k()])),
        sample("rig.bin", file(&both, &[rig()])),
        sample("rig-no-rules.bin", file(&[], &[rig()])),
        sample("rig6.bin", file(&both, &[rig6()])),
        sample("rig6-no-rules.bin", file(&[], &[rig6()])),
        sample("pair.bin", file(&[setting_rule], &[setting()])),
        sample("pair-no-rules.bin", file(&[], &[setting()])),
        sample("pointer.bin", file(&[directory_rule], &[directory()])),
        sample("pointer-no-rules.bin", file(&[], &[directory()])),
        sample("names.bin", rig_names()),
        sample("trim.bin", file(&both, &[trimmed(4), trimmed(5)])),
        sample("several.bin", file(&all_rules, &all_tests)),
        sample(
            "cyclic.bin",
            file(&[rule(1, Greater, 2), rule(2, Less, 1)], &[test_k()]),
        ),
        sample("truncated.bin", k1[..60].to_vec()),
        sample("not-ended.bin", k1[..k1.len() - 3].to_vec()),
        sample("out-of-order.bin", bytes_of(&swapped)),
    ]
}
