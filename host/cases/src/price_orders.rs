//! Refusals of the data, of the candidate and of the choice beside tariffs that are
//! right and wrong.

use crate::plants::case_a;
use crate::price::{tariff, with_count, with_limit, with_price, Asked, Subject};
use crate::price_lines::each;
use crate::request::*;
use reference::Tariff;

/// Case A with so much nitrogen that few fractions cover it, at the least of them:
/// the reference is quicker.
pub fn quick() -> Request {
    case_a()
        .with_measured(NITROGEN, 49_600)
        .with_candidate(480, 75, 20)
}

/// A right tariff, and one for each reason that makes it wrong; one is wrong in all.
pub fn tariffs() -> [Tariff; 9] {
    let right = tariff(&[(1, 9), (2_060, 5), (3_105, 7), (0, 2)], 17);
    let dear = Tariff {
        surcharge: 501,
        ..right
    };
    [
        right,
        with_count(right, 0),
        with_count(right, 7),
        with_limit(right, 0, 0),
        with_limit(right, 1, 1),
        with_limit(right, 2, 1_000),
        with_price(right, 3, 1_000_001),
        dear,
        with_count(with_price(with_limit(dear, 0, 0), 0, u32::MAX), 9),
    ]
}

/// A fault of a request.
pub type Fault = fn(Request) -> Request;

/// What the data are refused for.
pub const OF_DATA: [Fault; 6] = [
    |plant| plant.with(LOAD, 0),
    |plant| plant.with(SLUDGE_VOLUME_INDEX, 181),
    |plant| plant.with_reading(BOD, MEASURED, f32::NAN.to_bits()),
    |plant| plant.with_measured(SOLIDS, 2_000_001),
    |plant| plant.with_measured(COD, 450_000),
    |plant| plant.with(TERM_COUNT, 5),
];

/// What a candidate is refused for: off the grid, nitrate, nitrification in a term,
/// nitrate in a term, solids, surface and depth.
pub const OF_CANDIDATE: [Fault; 7] = [
    |plant| plant.with(THICKENING, 26),
    |plant| plant.with(FRACTION, 479),
    |plant| with_term(plant, [1, 1, 1, 31, 4, 50_000]),
    |plant| with_term(plant, [1, 1, 12, 31, 12, 9_999]),
    |plant| {
        plant
            .with(TANK_FLOW, 1)
            .with(REMOVAL, 2)
            .with(RETURN_RATIO, 100)
    },
    |plant| plant.with(SITE_SURFACE, 375),
    |plant| plant.with(SITE_DEPTH, 3_500),
];

/// One term more.
pub fn with_term(plant: Request, term: TermWords) -> Request {
    let place = plant.get(TERM_COUNT) as usize;
    let words = (0..).zip(term);
    let changed = words.fold(plant, |changed, (word, value)| {
        changed.with(term_word(place, word), value)
    });
    changed.with(TERM_COUNT, place as u32 + 1)
}

/// The plant with every set of these faults.
fn sets(plant: Request, faults: &[Fault]) -> Vec<Request> {
    let faulty = |set: usize| {
        let chosen = (0..faults.len()).filter(|place| set >> place & 1 == 1);
        chosen.fold(plant, |changed, place| faults[place](changed))
    };
    (0..1 << faults.len()).map(faulty).collect()
}

/// Each plant, with the right tariff and each wrong one.
fn with_tariffs(plants: impl Iterator<Item = Request>) -> Vec<Asked> {
    let subjects: Vec<Subject> = plants.filter_map(Subject::of).collect();
    each(&subjects, &tariffs())
}

/// Every set of faults of the data, in both ways.
pub fn of_data() -> Vec<Asked> {
    let ways = [BY_BOD, BY_COD].into_iter();
    with_tariffs(ways.flat_map(|way| sets(quick().with(WAY, way), &OF_DATA)))
}

/// Every set of faults of the candidate, of which some leave the choice a design.
pub fn of_candidate() -> Vec<Asked> {
    with_tariffs(sets(quick(), &OF_CANDIDATE).into_iter())
}

/// Plants for which nothing on the grid is permitted, each for another reason, and one
/// with a design.
pub fn no_design() -> Vec<Asked> {
    let mut plants = Vec::new();
    for process in 0..=4 {
        for flow in 0..=1 {
            let plant = quick().with(PROCESS, process).with(TANK_FLOW, flow);
            plants.extend([
                plant.with_measured(NITROGEN, 300_000),
                with_term(plant, [1, 1, 1, 31, 4, 50_000]),
                with_term(plant, [1, 1, 12, 31, 12, 1_000]),
                plant.with(SITE_SURFACE, 299),
                plant.with(WET_WEATHER_FLOW, 50_000).with(SITE_SURFACE, 1),
                plant.with_measured(NITROGEN, 46_000),
            ]);
        }
    }
    with_tariffs(plants.into_iter())
}
