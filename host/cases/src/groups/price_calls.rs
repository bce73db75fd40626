//! Prices that are refused, prices of the choice, short pages and malformed requests.

use super::prices::at_both;
use crate::collection::{Collection, Operation, WHOLE_PAGE};
use crate::plants::case_a;
use crate::price::{tariff, Subject};
use crate::price_lines::{about, over_whole_cents, six_with};
use crate::price_orders::{quick, tariffs, with_term, OF_CANDIDATE, OF_DATA};
use crate::request::*;
use reference::price::MOST_SURCHARGE;
use reference::Tariff;

/// Each refusal of the data and of the candidate beside a right tariff and a wrong
/// one; and every wrong tariff where there is a sheet.
pub fn refusals(cases: &mut Collection) {
    let [right, wrong @ ..] = tariffs();
    for (fault, other) in OF_DATA.into_iter().zip(&wrong) {
        let plant = fault(quick());
        cases.price_examine("price, refusal of the data", &plant, &right);
        cases.price_examine("price, refusal of the data", &plant, other);
        cases.price_choose("price of the choice, refusal of the data", &plant, other);
    }
    for (fault, other) in OF_CANDIDATE.into_iter().zip(&wrong) {
        let plant = fault(quick());
        cases.price_examine("price, refusal of the candidate", &plant, &right);
        cases.price_examine("price, refusal of the candidate", &plant, other);
    }
    for other in &wrong {
        cases.price_examine("price, wrong tariff", &quick(), other);
    }
    for place in [0, 1, 3, 5, 6] {
        let other = &wrong[place];
        cases.price_choose("price of the choice, wrong tariff", &quick(), other);
    }
    // by COD 4 is not due
    let by_cod = quick().with(WAY, BY_COD).with_measured(COD, 450_000);
    cases.price_examine("price, 4 not due by COD", &by_cod, &right);
    cases.price_examine("price, 4 not due by COD", &by_cod, &wrong[0]);
}

/// Nothing on the grid is permitted: for the nitrate, for a term, for the surface.
pub fn no_design(cases: &mut Collection) {
    let [right, other, ..] = tariffs();
    for plant in [
        quick().with_measured(NITROGEN, 300_000),
        with_term(quick(), [1, 1, 12, 31, 12, 1_000]),
        quick().with(SITE_SURFACE, 299),
    ] {
        cases.price_choose("price of the choice, no design", &plant, &right);
        cases.price_choose("price of the choice, no design", &plant, &other);
    }
}

/// The choice by tariffs about its volumes: it goes by volume, whatever the tariff.
pub fn choices(cases: &mut Collection, plants: &[Request]) {
    let at_choice = |plant: Request| Subject::of(plant).and_then(Subject::at_choice);
    let volumes = at_choice(case_a()).map_or([1; 2], |chosen| chosen.volumes());
    let mut add = |kind: &'static str, tariff: Tariff| {
        cases.price_choose(kind, &case_a(), &tariff);
    };
    for limit in volumes.into_iter().flat_map(about) {
        let two = tariff(&[(limit, 7), (0, 3)], 0);
        add("price of the choice, limit about a volume", two);
    }
    add("price of the choice, bands", tariff(&[(0, 3)], 1));
    add("price of the choice, bands", six_with(volumes[0], 3));
    let over = |over: u64| over_whole_cents(volumes, 333, 12_345, over);
    let most = tariff(&[(0, 5)], MOST_SURCHARGE);
    for any in [over(0), over(1), Some(most)].into_iter().flatten() {
        add("price of the choice, surcharge", any);
    }
    // only the last tenth of a tank costs anything
    for volume in volumes {
        let steep = tariff(&[(volume - volume / 10, 0), (0, 10)], 0);
        add("price of the choice, cheaper rivals", steep);
    }
    // after Case A each process has a plant in either flow; both ways are taken
    for (process, pair) in plants[1..].chunks_exact(2).enumerate() {
        let plant = pair[process / 2 % 2];
        if let Some(chosen) = at_choice(plant) {
            let three = at_both(chosen.volumes());
            cases.price_choose("price of the choice, each process", &plant, &three);
        }
    }
}

/// Pages that are exact, one byte short and of no bytes, for both calls.
pub fn pages(cases: &mut Collection) {
    let [right, wrong, ..] = tariffs();
    for (operation, bytes) in [
        (
            Operation::PriceExamine,
            case_a().price_examine_bytes(&right),
        ),
        (
            Operation::PriceExamine,
            case_a().price_examine_bytes(&wrong),
        ),
        (Operation::PriceChoose, quick().price_choose_bytes(&right)),
    ] {
        cases.on_page("price, exact page", operation, &bytes, 128);
        cases.on_page("price, short page", operation, &bytes, 127);
    }
    let refused = case_a().with(LOAD, 0);
    let examine = refused.price_examine_bytes(&wrong);
    let choose = refused.price_choose_bytes(&wrong);
    cases.on_page("price, short page", Operation::PriceExamine, &examine, 0);
    cases.on_page("price, short page", Operation::PriceChoose, &choose, 0);
}

/// Both calls.
const CALLS: [Operation; 2] = [Operation::PriceChoose, Operation::PriceExamine];

/// The request of either call, with a wrong tariff.
fn bytes(operation: Operation, plant: Request) -> Vec<u8> {
    let [_, wrong, ..] = tariffs();
    match operation {
        Operation::PriceChoose => plant.price_choose_bytes(&wrong),
        _ => plant.price_examine_bytes(&wrong),
    }
}

/// Wrong lengths, among them the other call's, wrong versions and unknown kinds, before
/// every refusal and before a short page.
pub fn malformed(cases: &mut Collection) {
    let plant = case_a().with(LOAD, 0);
    let [choose, examine] = CALLS.map(|operation| bytes(operation, plant));
    let longer = [&examine[..], &[0]].concat();
    for (operation, request) in [
        (Operation::PriceChoose, &choose[..PRICE_CHOOSE_LENGTH - 1]),
        (Operation::PriceChoose, &examine[..]),
        (
            Operation::PriceExamine,
            &examine[..PRICE_EXAMINE_LENGTH - 1],
        ),
        (Operation::PriceExamine, &choose[..]),
    ] {
        cases.on_page("price, wrong length", operation, request, WHOLE_PAGE);
    }
    cases.on_page("price, wrong length", Operation::PriceExamine, &longer, 0);
    for operation in CALLS {
        let later = bytes(operation, plant.with(VERSION, LATER_VERSION));
        let earlier = bytes(operation, plant.with(VERSION, EARLIER_VERSION));
        cases.on_page("price, wrong version", operation, &later, 0);
        cases.on_page("price, wrong version", operation, &later[..4], WHOLE_PAGE);
        cases.on_page("price, wrong version", operation, &earlier, WHOLE_PAGE);
        let unknown = bytes(operation, plant.with(WAY, 2));
        cases.on_page("price, unknown kind", operation, &unknown, 0);
        let unknown = bytes(operation, plant.with(BOD, 3));
        cases.on_page("price, unknown kind", operation, &unknown, WHOLE_PAGE);
    }
}
