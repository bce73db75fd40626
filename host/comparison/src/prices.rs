//! Prices: how they are compared, random requests, requests of every length and
//! damaged ones, and the library's prices beside its own choices and examinations.

use crate::compare::{agree, figures, hex, listed, numbers, shown, Operation};
use cases::price::{self, tariff, Asked};
use cases::price_orders::quick;
use cases::random::Random;
use cases::request::*;
use library::number::SHEET;
use library::PRICE_PAGE;
use reference::price::{tank, with_surcharge};
use reference::Tariff;

/// Both calls.
pub const CALLS: [Operation; 2] = [Operation::PriceChoose, Operation::PriceExamine];

/// Mostly a page that is just long enough.
pub fn page_length(random: &mut Random) -> usize {
    match random.within(0, 15) {
        0 => random.within(0, PRICE_PAGE as u32 - 1) as usize,
        1 => PRICE_PAGE - 1,
        2 => PRICE_PAGE + random.within(1, 9) as usize,
        3 => 512,
        _ => PRICE_PAGE,
    }
}

/// The plant with the library's choice as its candidate, if it has one.
pub fn at_choice(plant: Request) -> Request {
    let (number, listing) = listed(library::choose, &plant.choose_bytes());
    let figures = figures(&listing);
    match number {
        SHEET => plant.with_candidate(figures[0] as u32, figures[1] as u32, figures[2] as u32),
        _ => plant,
    }
}

/// The bytes of a request for a plant and a tariff.
pub fn request(operation: Operation, plant: &Request, tariff: &Tariff) -> Vec<u8> {
    match operation {
        Operation::PriceChoose => plant.price_choose_bytes(tariff),
        _ => plant.price_examine_bytes(tariff),
    }
}

/// The plant, mostly of moderate volumes, and a tariff about them: those of the
/// choice, or of the candidate.
pub fn random(random: &mut Random, operation: Operation, plant: Request) -> (Request, Tariff) {
    let placed = |plant: Request| match operation {
        Operation::PriceChoose => at_choice(plant),
        _ => plant,
    };
    let plant = placed(price::moderate(random, placed(plant)));
    (plant, price::random(random, &plant))
}

/// The bytes of a random request.
pub fn bytes(random: &mut Random, operation: Operation, plant: Request) -> Vec<u8> {
    let (plant, tariff) = self::random(random, operation, plant);
    request(operation, &plant, &tariff)
}

/// The library's answers of both calls against the reference's.
pub fn compare_both(asked: &Asked) -> [Result<u32, String>; 2] {
    let [choose, examine] = CALLS;
    let page = PRICE_PAGE;
    [
        agree(choose, &asked.choose_bytes(), page, &asked.chosen()),
        agree(examine, &asked.examine_bytes(), page, &asked.examined()),
    ]
}

/// A tariff of three bands, the rest of its entries zeros.
pub fn three_bands() -> Tariff {
    tariff(&[(1_000, 25_000), (2_000, 19_999), (0, 17_500)], 19)
}

/// The requests of both calls for a plant with that tariff.
pub fn requests_of(plant: &Request) -> [Vec<u8>; 2] {
    CALLS.map(|operation| request(operation, plant, &three_bands()))
}

/// Every length up to some bytes more than the longest request, of this version and
/// of its neighbours, in each way and an unknown one.
pub fn lengths(operation: Operation) -> Vec<Vec<u8>> {
    let mut requests = Vec::new();
    for version in [EARLIER_VERSION, NEWEST_VERSION, LATER_VERSION] {
        for way in [BY_BOD, BY_COD, 2] {
            let plant = quick().with(VERSION, version).with(WAY, way);
            for length in 0..=PRICE_EXAMINE_LENGTH + 8 {
                let mut bytes = request(operation, &plant, &three_bands());
                bytes.resize(length, 0);
                requests.push(bytes);
            }
        }
    }
    requests
}

/// A request with every word damaged in turn.
pub fn damaged_words(operation: Operation) -> Vec<Vec<u8>> {
    let whole = request(operation, &quick(), &three_bands());
    let mut requests = Vec::new();
    for start in (0..whole.len()).step_by(4) {
        let mut four = [0; 4];
        four.copy_from_slice(&whole[start..start + 4]);
        let value = u32::from_le_bytes(four);
        for other in damaged(value) {
            let mut bytes = whole.clone();
            bytes[start..start + 4].copy_from_slice(&other.to_le_bytes());
            requests.push(bytes);
        }
    }
    requests
}

/// What may stand in the place of a word: nothing, one less and one more, a changed
/// byte, and the largest.
fn damaged(value: u32) -> [u32; 9] {
    [
        0,
        1,
        value.wrapping_sub(1),
        value.wrapping_add(1),
        value ^ 1 << 8,
        value ^ 1 << 16,
        value ^ 1 << 24,
        value ^ 1 << 31,
        u32::MAX,
    ]
}

/// Places of reactor and settling tank on a sheet.
const VOLUMES: [usize; 2] = [7, 10];

/// What a listing comes to with a tariff: its figures and the plain sum over the
/// volumes on it, or its number, or 22, and zeros.
fn due(number: u32, listing: &[u8], tariff: &Tariff) -> (u32, Vec<u64>) {
    let zeros = vec![0; PRICE_PAGE / 8];
    match (number, tariff.bands()) {
        (SHEET, Ok(bands)) => {
            let mut figures = figures(listing);
            let tanks = VOLUMES.map(|place| tank(&bands, figures[place]));
            figures.push(with_surcharge(tanks.iter().sum(), tariff.surcharge));
            (SHEET, figures)
        }
        (SHEET, Err(wrong)) => (u32::from(wrong), zeros),
        (refused, _) => (refused, zeros),
    }
}

/// The library's price against its own choice or examination, and the plain sum over
/// the volumes that it lists. Gives its number.
pub fn compare_listed(
    operation: Operation,
    plant: &Request,
    tariff: &Tariff,
) -> Result<u32, String> {
    let request = request(operation, plant, tariff);
    let mut page = [0xff; PRICE_PAGE];
    let (number, (plain, listing)) = match operation {
        Operation::PriceChoose => (
            library::price_choose(&request, &mut page).0,
            listed(library::choose, &plant.choose_bytes()),
        ),
        _ => (
            library::price_examine(&request, &mut page).0,
            listed(library::examine, &plant.examine_bytes()),
        ),
    };
    let due = due(plain, &listing, tariff);
    match (number, numbers(&page)) == due {
        true => Ok(number),
        false => Err(format!(
            "{operation:?}: {number} {}, but by its listing {due:?}: {}",
            shown(&page),
            hex(&request)
        )),
    }
}
