//! Two plants alike but for one limit: the library's answers keep what is proved
//! of them.

use crate::compare::{figures, hex, listed, numbers};
use cases::random::Random;
use cases::request::*;
use library::number::{NO_DESIGN, SHEET};
use library::WORKS_PAGE;
use reference::Split;

/// The limits, with their largest values; the last is split among lines.
pub const LIMITS: [(usize, u32); 3] = [
    (NITRATE_TARGET, 50_000),
    (SITE_DEPTH, 10_000),
    (SITE_SURFACE, 100_000),
];

/// Place of the total on a sheet.
const TOTAL: usize = 11;

/// The plant with one of these limits looser: by one, a little or much.
pub fn loosened(random: &mut Random, plant: &Request, limits: &[(usize, u32)]) -> Request {
    let (place, most) = random.pick(limits);
    let limit = plant.get(place);
    let more = match random.within(0, 2) {
        0 => 1,
        1 => random.spread(1, 200),
        _ => random.spread(1, most),
    };
    plant.with(place, limit.saturating_add(more).min(most.max(limit)))
}

/// The number of the looser plant's choice, where the two answers keep the law: a
/// design is not lost, and takes no more volume.
pub fn compare_looser(tighter: &Request, looser: &Request) -> Result<u32, String> {
    let [first, second] =
        [tighter, looser].map(|plant| listed(library::choose, &plant.choose_bytes()));
    let total = |listing: &[u8]| figures(listing).get(TOTAL).copied();
    let is_kept = match (first.0, second.0) {
        (SHEET, SHEET) => total(&second.1) <= total(&first.1),
        (SHEET, _) => false,
        _ => true,
    };
    match is_kept {
        true => Ok(second.0),
        false => Err(format!(
            "looser: {} and {}: {}",
            first.0,
            second.0,
            hex(&looser.choose_bytes())
        )),
    }
}

/// Place of the total among the sums of a works.
const TOTAL_SUM: usize = 5;

/// The same of two works split alike, whose totals are those of all lines.
pub fn compare_looser_works(
    tighter: &Request,
    looser: &Request,
    split: &Split,
) -> Result<u32, String> {
    let [first, second] = [tighter, looser].map(|plant| {
        let mut page = [0; WORKS_PAGE];
        let (number, _) = library::works(&plant.works_bytes(split), &mut page);
        (number, numbers(&page)[TOTAL_SUM])
    });
    let is_kept = first.0 != SHEET || (second.0 == SHEET && second.1 <= first.1);
    match is_kept {
        true => Ok(second.0),
        false => Err(format!(
            "looser works: {first:?} and {second:?}: {}",
            hex(&looser.works_bytes(split))
        )),
    }
}

/// Whether both are accepted, with a design or without.
pub fn are_accepted(tighter: &Request, looser: &Request) -> bool {
    let number = |plant: &Request| listed(library::choose, &plant.choose_bytes()).0;
    [tighter, looser]
        .map(number)
        .iter()
        .all(|n| [SHEET, NO_DESIGN].contains(n))
}
