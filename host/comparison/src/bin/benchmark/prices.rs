//! Prices by a tariff of six bands: of the choice beside a choice, of a candidate
//! beside an examination, and per second beside the reference's plain sum.

use super::{choice, chosen, rates, row, share_of_time, Timed, PAGE};
use cases::model;
use cases::price::tariff;
use cases::request::*;
use comparison::prices::at_choice;
use library::number::SHEET;
use library::PRICE_PAGE;
use reference::Tariff;

/// Cents per m3, less for larger tanks.
fn six_bands() -> Tariff {
    let bands = [
        (100, 60_000),
        (500, 45_000),
        (2_500, 34_000),
        (12_500, 27_000),
        (62_500, 22_000),
        (0, 19_000),
    ];
    tariff(&bands, 125)
}

fn price_of_choice(request: &[u8]) -> u32 {
    library::price_choose(request, &mut [0; PRICE_PAGE]).0
}

fn price_of_candidate(request: &[u8]) -> u32 {
    library::price_examine(request, &mut [0; PRICE_PAGE]).0
}

fn examination(request: &[u8]) -> u32 {
    library::examine(request, &mut [0; PAGE]).0
}

/// The requests for the price of the choice and of the candidate.
pub fn requests_of(plant: &Request) -> [Vec<u8>; 2] {
    let tariff = six_bands();
    [
        plant.price_choose_bytes(&tariff),
        plant.price_examine_bytes(&tariff),
    ]
}

/// The plants' requests with the tariff.
fn priced(plants: &[Request], bytes: fn(&Request, &Tariff) -> Vec<u8>) -> Vec<Vec<u8>> {
    let tariff = six_bands();
    plants.iter().map(|plant| bytes(plant, &tariff)).collect()
}

/// The plants with a design at their chosen candidates.
fn at_choices(plants: &[Request]) -> Vec<Request> {
    let designed = plants.iter().filter(|plant| chosen(plant) == SHEET);
    designed.copied().map(at_choice).collect()
}

/// Rates of both calls; the reference searches plainly and adds up single cubic
/// metres.
pub fn rates_of_prices(plants: &[Request]) {
    let choices = priced(plants, Request::price_choose_bytes);
    let candidates = priced(&at_choices(plants), Request::price_examine_bytes);
    let by_reference = |request: &[u8]| model::price_choose(request, PRICE_PAGE).number;
    let found = rates(&choices, price_of_choice, by_reference);
    row("price of the choice", found);
    let by_reference = |request: &[u8]| model::price_examine(request, PRICE_PAGE).number;
    let found = rates(&candidates, price_of_candidate, by_reference);
    row("price of a candidate", found);
}

/// The time of a call with a tariff in hundredths of that of the one without, over
/// all plants.
fn beside(plain: &[Vec<u8>], priced: &[Vec<u8>], calls: [fn(&[u8]) -> u32; 2]) -> f64 {
    let [without, with] = calls;
    let pairs = plain.iter().zip(priced);
    share_of_time(pairs.map(|(plain, priced)| {
        let pair: [Timed; 2] = [(without, &plain[..]), (with, &priced[..])];
        pair
    }))
}

/// The time of a priced choice in hundredths of that of a choice, and how long it may
/// be; that of a priced examination beside an examination is printed too.
pub fn limit(plants: &[Request]) {
    let plain: Vec<Vec<u8>> = plants.iter().map(Request::choose_bytes).collect();
    let with = priced(plants, Request::price_choose_bytes);
    let share = beside(&plain, &with, [choice, price_of_choice]);
    println!("time of a priced choice beside a choice: {share:.0}%");
    let plants = at_choices(plants);
    let plain: Vec<Vec<u8>> = plants.iter().map(Request::examine_bytes).collect();
    let with = priced(&plants, Request::price_examine_bytes);
    let of_candidate = beside(&plain, &with, [examination, price_of_candidate]);
    println!("time of a priced examination beside an examination: {of_candidate:.0}%");
    assert!(
        share <= 110.0,
        "a priced choice is to take at most a tenth more than a choice"
    );
}
