//! Prices of the choice and of a candidate.

use super::{all_but, OF_CANDIDATE};
use cases::price::{tariff, with_count, Asked, Subject};
use cases::price_lines;
use cases::price_orders::quick;
use cases::random::Random;
use cases::request::LOAD;
use cases::tanks::OnLines;
use comparison::compare::{agree, compare, expected, Operation};
use comparison::counts::{in_parts, settle, Found};
use comparison::prices::*;
use comparison::requests;
use library::number::*;
use library::PRICE_PAGE;

const CANDIDATES: usize = 40_000;
const CHOICES: usize = 1_600;
/// By the library's own choices and examinations.
const LISTED: usize = 20_000;

/// Random requests of one call, on pages of several lengths; every other one mostly
/// has a design.
fn any_prices(operation: Operation, seed: u64, count: usize) -> Found {
    let tanks = OnLines::find();
    in_parts(seed, count, |seed, share| {
        let mut random = Random::new(seed);
        let mut found = Found::default();
        for turn in 0..share {
            let request = match turn % 2 {
                0 => {
                    let plant = requests::with_design(&mut random);
                    bytes(&mut random, operation, plant)
                }
                _ => requests::any(&mut random, &tanks, operation),
            };
            let length = page_length(&mut random);
            found.add(compare(operation, &request, length));
        }
        found
    })
}

#[test]
fn any_choices() {
    let found = any_prices(Operation::PriceChoose, 40_000, CHOICES);
    let mut wanted = all_but(&[&[OFF_GRID], &OF_CANDIDATE[..]].concat(), 5);
    wanted.extend([(SHEET, 600), (NO_DESIGN, 100), (TARIFF, 30)]);
    settle("price of the choice", &found, &wanted);
}

#[test]
fn any_candidates() {
    let found = any_prices(Operation::PriceExamine, 41_000, CANDIDATES);
    let mut wanted = all_but(&[NO_DESIGN], 50);
    wanted.extend([(SHEET, 10_000), (TARIFF, 500), (SHORT_PAGE, 500)]);
    settle("price of a candidate", &found, &wanted);
}

/// Each of these requests by both calls, in parts.
fn each(all: &[Asked]) -> Found {
    in_parts(0, all.len(), |part, share| {
        let mut found = Found::default();
        for asked in all.iter().skip(part as usize * share).take(share) {
            for result in compare_both(asked) {
                found.add(result);
            }
        }
        found
    })
}

/// Each rule just met and just missed.
#[test]
fn made_to_measure() {
    let mut total = 0;
    for (name, cases) in price_lines::made_to_measure() {
        let found = each(&cases);
        settle(&format!("price, {name}"), &found, &[(SHEET, 4)]);
        total += 2 * cases.len();
    }
    assert!(total >= 40_000, "{total}");
}

/// A price is what the library's own listing and the plain sum come to.
#[test]
fn prices_beside_listings() {
    let tanks = OnLines::find();
    for (operation, seed) in CALLS.into_iter().zip([42_000, 43_000]) {
        let found = in_parts(seed, LISTED, |seed, share| {
            let mut rng = Random::new(seed);
            let mut found = Found::default();
            for turn in 0..share {
                let plant = match turn % 4 {
                    0 => requests::sound(&mut rng, &tanks),
                    _ => requests::with_design(&mut rng),
                };
                let (plant, tariff) = random(&mut rng, operation, plant);
                found.add(compare_listed(operation, &plant, &tariff));
            }
            found
        });
        let wanted = [(SHEET, 5_000), (TARIFF, 500)];
        let name = format!("{operation:?} beside listings");
        settle(&name, &found, &wanted);
    }
}

/// Every length, of this version and of its neighbours, also on a short page; then
/// every word damaged.
#[test]
fn damaged_requests() {
    let (mut found, mut words) = (Found::default(), Found::default());
    for operation in CALLS {
        for bytes in lengths(operation) {
            found.add(compare(operation, &bytes, PRICE_PAGE));
            found.add(compare(operation, &bytes, PRICE_PAGE - 1));
        }
        for bytes in damaged_words(operation) {
            words.add(compare(operation, &bytes, PRICE_PAGE));
        }
    }
    let wanted = [
        (SHEET, 4),
        (SHORT_PAGE, 4),
        (BAD_LENGTH, 3_000),
        (BAD_VERSION, 6_000),
        (BAD_KIND, 4),
    ];
    settle("price, lengths", &found, &wanted);
    let wanted = [
        (SHEET, 200),
        (TARIFF, 50),
        (PLANT_DATA, 100),
        (NO_DESIGN, 2),
        (OFF_GRID, 10),
        (BAD_VERSION, 10),
        (BAD_KIND, 50),
    ];
    settle("price, damaged words", &words, &wanted);
}

/// Every page length up to more than needed.
#[test]
fn page_lengths() {
    let plant = quick();
    let right = three_bands();
    let mut found = Found::default();
    for (plant, tariff) in [
        (plant, right),
        (plant, with_count(right, 0)),
        (plant.with(LOAD, 0), right),
    ] {
        for operation in CALLS {
            let bytes = request(operation, &plant, &tariff);
            for length in 0..=PRICE_PAGE + 20 {
                found.add(compare(operation, &bytes, length));
            }
        }
    }
    let mut wanted = [SHEET, TARIFF, PLANT_DATA]
        .map(|number| (number, 42))
        .to_vec();
    wanted.push((SHORT_PAGE, 6 * PRICE_PAGE));
    settle("price, page lengths", &found, &wanted);
}

/// Another price is reported with both answers.
#[test]
fn differences_are_reported() {
    let subject = Subject::of(cases::plants::case_a()).unwrap();
    let one = tariff(&[(0, 1)], 0);
    let asked = Asked {
        subject,
        tariff: one,
    };
    let bytes = asked.examine_bytes();
    let mut outcome = expected(Operation::PriceExamine, &bytes, PRICE_PAGE);
    assert_eq!(outcome, asked.examined());
    let same = agree(Operation::PriceExamine, &bytes, PRICE_PAGE, &outcome);
    assert_eq!(same, Ok(SHEET));
    outcome.written[PRICE_PAGE - 8] ^= 1;
    let text = agree(Operation::PriceExamine, &bytes, PRICE_PAGE, &outcome).unwrap_err();
    for part in [
        "PriceExamine, page of 128",
        "127662, 5165]",
        "127662, 5164]",
    ] {
        assert!(text.contains(part), "{text}");
    }
}
