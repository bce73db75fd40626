//! Looser limits, by the library alone.

use cases::plants::case_a;
use cases::random::Random;
use cases::request::{SITE_SURFACE, WET_WEATHER_FLOW};
use cases::tanks::OnLines;
use comparison::compare::{compare, Operation};
use comparison::counts::{in_parts, settle, Found};
use comparison::looser::{are_accepted, compare_looser, compare_looser_works, loosened, LIMITS};
use comparison::requests;
use comparison::works;
use library::number::{NO_DESIGN, SHEET};
use library::WORKS_PAGE;

const PAIRS: usize = 40_000;
const WORKS: usize = 4_000;

/// Pairs of plants of either way, with terms and doses, many of them on their lines;
/// every other one mostly has a design.
#[test]
fn looser_limits() {
    let tanks = OnLines::find();
    let found = in_parts(70_000, PAIRS, |seed, share| {
        let mut random = Random::new(seed);
        let mut found = Found::default();
        for turn in 0..share {
            let tighter = match turn % 2 {
                0 => requests::with_design(&mut random),
                _ => requests::sound(&mut random, &tanks),
            };
            let looser = loosened(&mut random, &tighter, &LIMITS);
            if are_accepted(&tighter, &looser) {
                found.add(compare_looser(&tighter, &looser));
            }
        }
        found
    });
    settle(
        "looser limits",
        &found,
        &[(SHEET, 15_000), (NO_DESIGN, 3_000)],
    );
}

/// Works in lines with a higher target or a larger depth, which are not split.
#[test]
fn looser_limits_of_works() {
    let found = in_parts(71_000, WORKS, |seed, share| {
        let mut random = Random::new(seed);
        let mut found = Found::default();
        for _ in 0..share {
            let (tighter, split) = works::with_design(&mut random);
            let looser = loosened(&mut random, &tighter, &LIMITS[..2]);
            if are_accepted(&tighter, &looser) {
                found.add(compare_looser_works(&tighter, &looser, &split));
            }
        }
        found
    });
    settle(
        "looser limits of works",
        &found,
        &[(SHEET, 1_000), (NO_DESIGN, 200)],
    );
}

/// Case A with another wet weather flow in three lines, on a site of 385 m2 and of 386:
/// the second line gets a square metre less, and its design is lost.
#[test]
fn a_larger_site_in_lines() {
    let split = works::split(&[500, 100, 400]);
    for (surface, number) in [(385, SHEET), (386, NO_DESIGN)] {
        let plant = case_a()
            .with(WET_WEATHER_FLOW, 605)
            .with(SITE_SURFACE, surface);
        let request = plant.works_bytes(&split);
        assert_eq!(compare(Operation::Works, &request, WORKS_PAGE), Ok(number));
    }
}
