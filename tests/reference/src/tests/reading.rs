// Reading: the generators' files against what they were made of, and the order of the refusals.

use crate::damage::{self, Damaged, LIMITS};
use crate::file::{bytes_of, read, read_with_places, Field, File};
use crate::file::{LONGEST, LONGEST_FIELD, LONGEST_NARROW};
use crate::generate;
use crate::random::Random;
use crate::refusal::at;

#[test]
fn valid_files_read_back() {
    for seed in 0..2000 {
        let mut random = Random::new(seed);
        let file = generate::file(&mut random);
        for bytes in [
            file.to_bytes(),
            file.to_wide_bytes(),
            file.to_mixed_bytes(&mut random),
        ] {
            assert_eq!(read(&bytes).as_ref(), Ok(&file), "seed {seed}");
        }
    }
}

#[test]
fn places_are_the_first_fields() {
    for seed in 0..500 {
        let file = generate::file(&mut Random::new(seed));
        let (_, places) = read_with_places(&file.to_bytes()).unwrap();
        for (i, place) in places.into_iter().enumerate() {
            let before = File {
                rules: file.rules.clone(),
                tests: file.tests[..i].to_vec(),
            };
            assert_eq!(before.to_bytes().len(), place, "seed {seed}");
        }
    }
}

#[test]
fn damaged_files_get_the_refusal_they_were_made_for() {
    type Maker = fn(&mut Random) -> Damaged;
    let makers: [(u32, Maker); 7] = [
        (1, damage::one_or_two_left),
        (1, damage::body_cut),
        (2, damage::unknown_tag),
        (3, damage::wrong_length),
        (4, damage::out_of_order),
        (5, damage::unknown_predicate),
        (7, damage::not_ended),
    ];
    for (number, maker) in makers {
        for seed in 0..2000 {
            let damaged = maker(&mut Random::new(seed));
            assert_eq!(damaged.refusal.number, number);
            assert_eq!(
                read(&damaged.bytes),
                Err(damaged.refusal),
                "refusal {number}, seed {seed}"
            );
        }
    }
}

#[test]
fn limits_exactly_and_by_one() {
    for limit in LIMITS {
        for seed in 0..500 {
            let mut random = Random::new(seed);
            let bytes = damage::at_limit(&mut random, limit);
            assert!(read(&bytes).is_ok(), "{limit:?}, seed {seed}");
            let damaged = damage::over_limit(&mut random, limit);
            assert_eq!(damaged.refusal.number, 6);
            assert_eq!(
                read(&damaged.bytes),
                Err(damaged.refusal),
                "{limit:?}, seed {seed}"
            );
        }
    }
}

#[test]
fn the_longest_file() {
    assert_eq!((LONGEST, LONGEST_NARROW), (22_448, 21_040));
    let mut bytes = generate::full_file(&mut Random::new(1), true).to_wide_bytes();
    assert_eq!(bytes.len(), LONGEST);
    assert!(read(&bytes).is_ok());
    bytes.extend([7, 0]);
    assert_eq!(read(&bytes), Err(at(1, LONGEST)));
    bytes.push(0);
    assert_eq!(read(&bytes), Err(at(6, LONGEST)));
}

/// 20 main writes are accepted, and the 21st is refused where it stands.
#[test]
fn twenty_main_writes() {
    let mut random = Random::new(8);
    let values = generate::Values::small(&mut random);
    for (initial, before) in [(0, 0), (3, 0), (64, 2)] {
        let tests = vec![generate::test_of(&mut random, &values, 1, 20, 1); before];
        let mut fields = File {
            rules: generate::rules_of(&mut random, &values, 2),
            tests,
        }
        .fields();
        fields.extend(generate::test_of(&mut random, &values, initial, 20, 0).fields());
        let accepted = bytes_of(&fields);
        assert_eq!(read(&accepted).unwrap().tests[before].main.len(), 20);
        fields.pop();
        let place = bytes_of(&fields).len();
        fields.push(damage::field(&mut random, 2));
        fields.push(Field::end());
        assert_eq!(read(&bytes_of(&fields)), Err(at(6, place)));
    }
}

#[test]
fn the_start_of_an_over_long_file_decides() {
    for seed in 0..300 {
        let bytes = damage::over_long(&mut Random::new(seed));
        assert!(bytes.len() > LONGEST);
        let whole = read(&bytes);
        assert!(whole.is_err(), "seed {seed}");
        let start = &bytes[..bytes.len().min(LONGEST + LONGEST_FIELD)];
        assert_eq!(read(start), whole, "seed {seed}");
    }
}

#[test]
fn the_order_of_the_refusals() {
    // A field is refused by the first condition of the list that it meets.
    assert_eq!(read(&[11]), Err(at(1, 0)));
    assert_eq!(read(&[11, 0]), Err(at(1, 0)));
    assert_eq!(read(&[11, 0, 0]), Err(at(2, 0)));
    assert_eq!(read(&[0, 255, 255]), Err(at(2, 0)));
    assert_eq!(read(&[7, 0, 0, 3, 0, 9]), Err(at(4, 3)));
    assert_eq!(read(&[4, 0, 1, 0, 2, 0, 10]), Err(at(4, 4)));
    assert_eq!(read(&[4, 0, 1, 0, 1, 0, 10]), Err(at(4, 4)));
    assert_eq!(read(&[3, 0, 4, 1, 9, 1]), Err(at(3, 0)));
    assert_eq!(read(&[3, 0, 3, 1, 9]), Err(at(1, 0)));
    assert_eq!(read(&[3, 0, 3, 1, 9, 1]), Err(at(5, 0)));
    assert_eq!(read(&[4, 0, 1, 0]), Err(at(7, 4)));
    assert_eq!(read(&[7, 0, 1]), Err(at(3, 0)));
    // After sixteen tests every field but a rule is the seventeenth's first.
    let tests = [7, 0, 0].repeat(16);
    for tag in [1, 2, 4, 5, 6, 7, 8, 9] {
        assert_eq!(read(&[&tests[..], &[tag, 9, 9]].concat()), Err(at(6, 48)));
    }
    for rule in [3, 10] {
        assert_eq!(read(&[&tests[..], &[rule, 9, 9]].concat()), Err(at(4, 48)));
    }
    assert_eq!(read(&[&tests[..], &[11, 9, 9]].concat()), Err(at(2, 48)));
    assert_eq!(read(&[&tests[..], &[8, 9]].concat()), Err(at(1, 48)));
    // A rule over the limit once a test has begun is out of order; before that it is over.
    let rules = [3, 0, 3, 1, 0, 2].repeat(32);
    for rule in [3, 10] {
        assert_eq!(read(&[&rules[..], &[rule, 9, 9]].concat()), Err(at(6, 192)));
        assert_eq!(
            read(&[&rules[..], &[7, 0, 0, rule, 9, 9]].concat()),
            Err(at(4, 195))
        );
    }
}
