//! Built tanks.

use super::{all_but, OF_CANDIDATE};
use cases::built::{self, Asked, AMPLE};
use cases::built_lines;
use cases::plants::case_a;
use cases::random::Random;
use cases::request::{LOAD, TANK_FLOW};
use cases::tanks::OnLines;
use comparison::built::*;
use comparison::compare::{agree, expected, Operation};
use comparison::counts::{in_parts, settle, Found};
use comparison::requests;
use library::number::*;
use library::BUILT_PAGE;

const TANKS: usize = 50_000;
/// By the library alone, on spans of a few indices.
const EXAMINED: usize = 4_000;
const MOST_EXAMINED: u32 = 5;

/// Tanks for plants that are mostly covered, and for plants of every kind, damaged
/// ones among them.
#[test]
fn any_tanks() {
    let tanks = OnLines::find();
    let found = in_parts(30_000, TANKS, |seed, share| {
        let mut random = Random::new(seed);
        let mut found = Found::default();
        for turn in 0..share {
            let bytes = match turn % 2 {
                0 => {
                    let plant = built::covered(&mut random);
                    built::random(&mut random, plant).bytes()
                }
                _ => requests::any(&mut random, &tanks, Operation::Built),
            };
            let length = page_length(&mut random);
            found.add(compare_built(&bytes, length));
        }
        found
    });
    let not_given = [&[NO_DESIGN], &OF_CANDIDATE[..]].concat();
    let mut wanted = all_but(&not_given, 50);
    wanted.extend([(SPAN, 500), (BUILT_SIZE, 500)]);
    wanted.extend([(SHEET, 3_000), (LOST, 5_000), (SHORT_PAGE, 500)]);
    settle("built tanks", &found, &wanted);
}

/// Each of these requests, in parts.
fn each(all: &[Asked]) -> Found {
    in_parts(0, all.len(), |part, share| {
        let mut found = Found::default();
        for asked in all.iter().skip(part as usize * share).take(share) {
            found.add(compare_built(&asked.bytes(), BUILT_PAGE));
        }
        found
    })
}

/// Each rule just met and just missed.
#[test]
fn made_to_measure() {
    let mut total = 0;
    for (name, cases) in built_lines::made_to_measure() {
        let found = each(&cases);
        settle(&format!("built tanks, {name}"), &found, &[(SHEET, 3)]);
        total += cases.len();
    }
    assert!(total >= 50_000, "{total}");
}

/// A span's answer is what the library's own examinations come to.
#[test]
fn tanks_beside_examinations() {
    let found = in_parts(31_000, EXAMINED, |seed, share| {
        let mut random = Random::new(seed);
        let mut found = Found::default();
        for _ in 0..share {
            found.add(compare_examined(&sound(&mut random, MOST_EXAMINED)));
        }
        found
    });
    let wanted = [(SHEET, 1_000), (LOST, 1_000)];
    settle("built tanks beside examinations", &found, &wanted);
}

/// Every length, of this version and of its neighbours, also on a short page; then
/// every word damaged.
#[test]
fn damaged_requests() {
    let mut found = Found::default();
    for bytes in lengths() {
        found.add(compare_built(&bytes, BUILT_PAGE));
        found.add(compare_built(&bytes, BUILT_PAGE - 1));
    }
    let wanted = [
        (LOST, 2),
        (SHORT_PAGE, 2),
        (BAD_LENGTH, 1_500),
        (BAD_VERSION, 3_000),
        (BAD_KIND, 2),
    ];
    settle("built tanks, lengths", &found, &wanted);
    let mut found = Found::default();
    for bytes in damaged_words() {
        found.add(compare_built(&bytes, BUILT_PAGE));
    }
    let mut wanted = vec![
        (SPAN, 10),
        (BUILT_SIZE, 6),
        (PLANT_DATA, 100),
        (OFF_GRID, 10),
    ];
    wanted.extend([(SHEET, 100), (LOST, 100), (BAD_VERSION, 10), (BAD_KIND, 50)]);
    settle("built tanks, damaged words", &found, &wanted);
}

/// Every page length up to twice as long as needed.
#[test]
fn page_lengths() {
    let mut found = Found::default();
    let vertical = case_a().with(TANK_FLOW, 1);
    for asked in [
        Asked::of(case_a(), AMPLE, 50, 180),
        Asked::of(case_a(), [1, 1, 1], 100, 101),
        Asked::of(vertical, [1, 0, 1], 100, 101),
        Asked::of(vertical, AMPLE, 101, 100),
        Asked::of(case_a().with(LOAD, 0), AMPLE, 50, 180),
    ] {
        for length in 0..=2 * BUILT_PAGE {
            found.add(compare_built(&asked.bytes(), length));
        }
    }
    let numbers = [SHEET, LOST, BUILT_SIZE, SPAN, PLANT_DATA];
    let mut wanted: Vec<(u32, usize)> = numbers.map(|number| (number, 9)).to_vec();
    wanted.push((SHORT_PAGE, 40));
    settle("built tanks, page lengths", &found, &wanted);
}

/// Another index is reported with both answers.
#[test]
fn differences_are_reported() {
    let bytes = Asked::of(case_a(), [3_980, 375, 4_012], 99, 101).bytes();
    let mut outcome = expected(Operation::Built, &bytes, BUILT_PAGE);
    let same = agree(Operation::Built, &bytes, BUILT_PAGE, &outcome);
    assert_eq!(same, Ok(SHEET));
    outcome.written[0] += 1;
    let text = agree(Operation::Built, &bytes, BUILT_PAGE, &outcome).unwrap_err();
    for part in ["Built, page of 8", "0 8 [100]", "0 8 [101]"] {
        assert!(text.contains(part), "{text}");
    }
}
