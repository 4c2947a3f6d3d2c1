// What the random tests of judging have in them.

use crate::checks::Check;
use crate::crashes::tangled_file;
use crate::cyclic::cyclic;
use crate::file::Test;
use crate::judge::judge_test;
use crate::random::Random;
use crate::schedule::dependencies;
use crate::writes::Write;

const FILES: u64 = 4000;

/// Whether a write of the test, with this check on its block, is so.
fn some(test: &Test, is_so: impl Fn(&Check, &Write) -> bool) -> bool {
    let at = |check: &Check| match *check {
        Check::Range { at } | Check::Pointer { at } => at,
        Check::Pair { a, .. } => a,
    };
    let checks = &test.checks;
    checks.iter().any(|check| {
        let mut own = test.main.iter().filter(|w| w.address == at(check));
        own.any(|write| is_so(check, write))
    })
}

/// All that a judge could trip over comes often: checks that look at their own block again, blocks
/// that are emptied or written anew, dependencies on earlier and on later writes.
#[test]
fn all_things_meet() {
    let mut kinds = [0; 10];
    for seed in 0..FILES {
        let file = tangled_file(&mut Random::new(seed));
        assert!(!cyclic(&file.rules) && file.tests.len() == 1);
        let test = &file.tests[0];
        assert!(test.main.len() <= 8);
        let on = dependencies(&file.rules, &test.main);
        let depends = |is_so: fn(usize, usize) -> bool| {
            (0..on.len()).any(|i| on[i].iter().any(|&j| is_so(i, j)))
        };
        let before = |i: usize| &test.main[..i];
        let indices = || 0..test.main.len();
        let main = &test.main;
        let judgement = judge_test(&file.rules, test);
        let all = [
            some(test, |check, write| {
                let own = write.address as u16 == write.block.second;
                matches!(check, Check::Pointer { .. }) && own && !write.block.is_empty()
            }),
            some(test, |check, write| {
                let range = write.block.first..write.block.second;
                matches!(check, Check::Range { .. }) && range.contains(&(write.address as u16))
            }),
            some(test, |check, write| match *check {
                Check::Pair { a, v, b, .. } => a == b && v == write.block,
                _ => false,
            }),
            main.iter().any(|write| write.block.is_empty()),
            indices().any(|i| before(i).iter().any(|w| w.address == main[i].address)),
            indices().any(|i| {
                let same = |w: &Write| w.address == main[i].address && w.block == main[i].block;
                before(i).iter().any(same)
            }),
            depends(|i, j| j < i),
            depends(|i, j| i < j),
            judgement.bad == 0,
            0 < judgement.bad && judgement.bad < judgement.valid,
        ];
        for (count, is_so) in kinds.iter_mut().zip(all) {
            *count += u64::from(is_so);
        }
    }
    assert!(kinds.iter().all(|&count| count > FILES / 20), "{kinds:?}");
}
