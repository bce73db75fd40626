//! The length of a listing in advance.

use super::{all_but, OF_CANDIDATE};
use cases::groups;
use cases::random::Random;
use cases::tanks::OnLines;
use comparison::compare::Operation;
use comparison::counts::{in_parts, settle, Found};
use comparison::lengths::compare_length;
use comparison::requests;
use comparison::works;
use library::number::*;

const EXAMINED: usize = 20_000;
const CHOSEN: usize = 1_200;
const LINES_OF_WORKS: usize = 1_200;

/// Random requests of one operation; every other one mostly has a design.
fn random_lengths(operation: Operation, seed: u64, count: usize) -> Found {
    let tanks = OnLines::find();
    in_parts(seed, count, |seed, share| {
        let mut random = Random::new(seed);
        let mut found = Found::default();
        for turn in 0..share {
            let bytes = match (operation, turn % 2) {
                (Operation::Line, 0) => {
                    let divided = works::with_design(&mut random);
                    works::bytes(&mut random, operation, &divided)
                }
                (Operation::Choose, 0) => requests::with_design(&mut random).choose_bytes(),
                _ => requests::any(&mut random, &tanks, operation),
            };
            found.add(compare_length(operation, &bytes));
        }
        found
    })
}

#[test]
fn lengths_of_examinations() {
    let found = random_lengths(Operation::Examine, 60_000, EXAMINED);
    let wanted = all_but(&[NO_DESIGN, SHORT_PAGE], 40);
    settle("length, examine", &found, &wanted);
}

#[test]
fn lengths_of_choices() {
    let found = random_lengths(Operation::Choose, 61_000, CHOSEN);
    let not_given = [&[OFF_GRID, SHORT_PAGE], &OF_CANDIDATE[..]].concat();
    let mut wanted = all_but(&not_given, 3);
    wanted.extend([(SHEET, 400), (NO_DESIGN, 100)]);
    settle("length, choose", &found, &wanted);
}

#[test]
fn lengths_of_lines() {
    let found = random_lengths(Operation::Line, 62_000, LINES_OF_WORKS);
    let not_given = [&[OFF_GRID, SHORT_PAGE], &OF_CANDIDATE[..]].concat();
    let mut wanted = all_but(&not_given, 3);
    wanted.extend([
        (SHEET, 300),
        (PLANT_DATA, 100),
        (NO_DESIGN, 150),
        (LINES, 5),
    ]);
    settle("length, line", &found, &wanted);
}

/// The stored cases that a listing is printed of.
#[test]
fn lengths_of_stored_cases() {
    let mut found = Found::default();
    for case in groups::all().cases {
        let operation = match case.operation {
            cases::collection::Operation::Examine => Operation::Examine,
            cases::collection::Operation::Choose => Operation::Choose,
            _ => continue,
        };
        found.add(compare_length(operation, case.request_bytes()));
    }
    let wanted = [
        (SHEET, 1_000),
        (DEPTH, 10),
        (TERM_NITRATE, 100),
        (BULKING, 20),
    ];
    settle("length, stored cases", &found, &wanted);
}

/// Every length of a request, of this version and of its neighbours.
#[test]
fn lengths_for_requests_of_every_length() {
    let mut found = Found::default();
    for bytes in works::lengths() {
        for operation in [Operation::Examine, Operation::Choose, Operation::Line] {
            found.add(compare_length(operation, &bytes));
        }
    }
    let wanted = [
        (SHEET, 1),
        (BAD_LENGTH, 1_000),
        (BAD_VERSION, 4_000),
        (BAD_KIND, 1),
    ];
    settle("length, requests of every length", &found, &wanted);
}
