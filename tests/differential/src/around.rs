// Files around both limits of main writes: 12 of a test to find rules for, 20 of any test.

use reference::crashes;
use reference::file::{bytes_of, File, Test, MOST_INITIAL, MOST_MAIN};
use reference::generate::{self, Values};
use reference::random::Random;
use reference::refusal::{self, Refusal};

/// Numbers of main writes on both sides of the limits.
pub const AROUND: [usize; 5] = [12, 13, 19, 20, 21];

/// A file in which one test has so many main writes, perhaps with smaller tests before and behind
/// it, under rules that are not cyclic; its bytes, with old and new tags mixed; and the refusal of
/// reading, if it has too many.
pub fn file_with(random: &mut Random, main: usize) -> (File, Vec<u8>, Option<Refusal>) {
    let values = Values::random(random);
    let mut file = File {
        rules: crashes::acyclic_rules(random, &values, 4),
        tests: some_tests(random, &values),
    };
    let before = file.fields().len();
    let initial = generate::count(random, MOST_INITIAL);
    let checks = random.below(5);
    file.tests
        .push(generate::test_of(random, &values, initial, main, checks));
    file.tests.extend(some_tests(random, &values));
    let fields = file.mixed_fields(random);
    let refused = (main > MOST_MAIN).then(|| {
        let up_to_20 = &fields[..before + initial + MOST_MAIN];
        refusal::at(refusal::OVER_LIMIT, bytes_of(up_to_20).len())
    });
    (file, bytes_of(&fields), refused)
}

fn some_tests(random: &mut Random, values: &Values) -> Vec<Test> {
    (0..random.below(3))
        .map(|_| {
            let (initial, main, checks) = (random.below(3), random.below(4), random.below(3));
            generate::test_of(random, values, initial, main, checks)
        })
        .collect()
}
