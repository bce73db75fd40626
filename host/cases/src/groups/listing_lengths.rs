//! Listings of every length: each figure of a sheet with as many digits as it can
//! have, just below a power of ten and from it on, and every refusal, on pages of
//! just the listing's length and one byte shorter.

use crate::collection::{Collection, Operation};
use crate::plants::{anything, case_a, plausible, roomy};
use crate::random::Random;
use crate::request::*;
use reference::{length, Answer};

/// Random plants that are looked through for figures of other lengths.
const LOOKED_AT: usize = 20_000;
/// Sizes of a plant that are looked through for steps.
const SIZES: u32 = 50_000;
/// Figures on a sheet.
const FIGURES: usize = 15;

const COUNTS: [&str; 2] = ["digits of a figure", "digits of a figure, short"];
const BELOW: [&str; 2] = ["below a power of ten", "below a power of ten, short"];
const FROM: [&str; 2] = ["power of ten", "power of ten, short"];
const REFUSALS: [&str; 2] = ["length of a refusal", "length of a refusal, short"];

fn answer(request: &Request) -> Option<Answer> {
    let data = request.decoded().ok()?;
    let answer = reference::examine(&data.plant, &data.readings, data.candidate);
    Some(answer)
}

/// How many digits each figure of the candidate's sheet has; none without a sheet.
fn digits(request: &Request) -> Option<[u32; FIGURES]> {
    match answer(request)? {
        Answer::Sheet(sheet) => Some(sheet.figures().map(|n| n.checked_ilog10().unwrap_or(0) + 1)),
        Answer::Refused(_) => None,
    }
}

/// The request on a page of just its listing's length, and one byte shorter: the
/// kinds of both.
fn on_both_pages(cases: &mut Collection, [just, short]: [&'static str; 2], request: &Request) {
    if let Some(answer) = answer(request) {
        let exact = length(&answer) as u32;
        let bytes = request.examine_bytes();
        cases.on_page(just, Operation::Examine, &bytes, exact);
        cases.on_page(short, Operation::Examine, &bytes, exact - 1);
    }
}

/// Every count of digits that some random plant gives a figure.
pub fn counts(cases: &mut Collection, random: &mut Random) {
    let mut seen = [[false; 21]; FIGURES];
    for turn in 0..LOOKED_AT {
        let request = match turn % 2 {
            0 => plausible(random),
            _ => anything(random),
        };
        let request = request.with(SITE_SURFACE, 100_000).with(SITE_DEPTH, 10_000);
        let digits = digits(&request).unwrap_or([0; FIGURES]);
        let places = digits.iter().enumerate();
        let mut new = places.filter(|(place, count)| !seen[*place][**count as usize]);
        if digits[0] > 0 && new.next().is_some() {
            on_both_pages(cases, COUNTS, &request);
            for (place, count) in digits.into_iter().enumerate() {
                seen[place][count as usize] = true;
            }
        }
    }
}

/// A plant of the same sewage, larger by the size.
fn of_size(size: u32) -> Request {
    roomy()
        .with(LOAD, size)
        .with(FLOW, 4 * size)
        .with(WET_WEATHER_FLOW, size / 2 + 1)
}

/// Neighbouring sizes between which a figure gets a digit more.
pub fn steps(cases: &mut Collection) {
    let mut before = digits(&of_size(1));
    for size in 2..=SIZES {
        let after = digits(&of_size(size));
        let longer = before
            .zip(after)
            .is_some_and(|(a, b)| a.iter().zip(b).any(|(a, b)| *a < b));
        if longer {
            on_both_pages(cases, BELOW, &of_size(size - 1));
            on_both_pages(cases, FROM, &of_size(size));
        }
        before = after;
    }
}

/// Every refusal of a candidate, of one digit and of two.
pub fn refusals(cases: &mut Collection) {
    let thin = roomy().with(REMOVAL, 1).with(SLUDGE_VOLUME_INDEX, 180);
    let strict = [[11, 1, 3, 31, 12, 1_000]];
    let winter = [[11, 1, 3, 31, 4, 1_000]];
    for request in [
        roomy().with(LOAD, 0),
        roomy().with_reading(BOD, MEASURED, f32::NAN.to_bits()),
        roomy().with_measured(BOD, 2_001_000),
        roomy().with_measured(BOD, 100_000),
        roomy().with(FRACTION, 501),
        case_a().with(FRACTION, 200),
        thin.with(RETURN_RATIO, 30),
        roomy().with(SITE_SURFACE, 1),
        roomy().with(SITE_DEPTH, 3_000),
        roomy().with(TERM_COUNT, 5),
        roomy().with_terms(&winter).with(FRACTION, 200),
        case_a().with_terms(&strict),
        roomy().with(SLUDGE_VOLUME_INDEX, 181),
    ] {
        on_both_pages(cases, REFUSALS, &request);
    }
}
