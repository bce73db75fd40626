//! Built tanks: how they are compared, requests of every length and damaged
//! ones, and the library's answers beside its own examinations.

use crate::compare::{agree, expected, hex, listed, Operation};
use crate::requests::figure;
use cases::built::{self, Asked, AMPLE};
use cases::lines::accepted;
use cases::plants::case_a;
use cases::random::Random;
use cases::request::*;
use library::number::SHEET;
use library::BUILT_PAGE;

/// Stands in the counts for tanks that do not hold.
pub const LOST: u32 = 200;

/// The library's answer against the reference's. Gives its number, or `LOST`.
pub fn compare_built(request: &[u8], page_length: usize) -> Result<u32, String> {
    let outcome = expected(Operation::Built, request, page_length);
    let number = agree(Operation::Built, request, page_length, &outcome)?;
    let lost = number == SHEET && outcome.written.iter().any(|byte| *byte != 0);
    Ok(if lost { LOST } else { number })
}

/// Mostly a page that is just long enough.
pub fn page_length(random: &mut Random) -> usize {
    match random.within(0, 15) {
        0 => random.within(0, BUILT_PAGE as u32 - 1) as usize,
        1 => BUILT_PAGE + random.within(1, 9) as usize,
        2 => 512,
        _ => BUILT_PAGE,
    }
}

/// Tanks that hold at 99 and at 101 and not at 100, of Case A.
const NOT_AT_100: [u32; 3] = [3_980, 375, 4_012];

/// Every length up to some bytes more than a line's request, of this version and of
/// its neighbours, in each way and an unknown one.
pub fn lengths() -> Vec<Vec<u8>> {
    let mut requests = Vec::new();
    for version in [EARLIER_VERSION, NEWEST_VERSION, LATER_VERSION] {
        for way in [BY_BOD, BY_COD, 2] {
            let plant = case_a().with(VERSION, version).with(WAY, way);
            let whole = Asked::of(plant, NOT_AT_100, 99, 101).bytes();
            for length in 0..=LINE_LENGTH + 8 {
                let mut bytes = whole.clone();
                bytes.resize(length, 0);
                requests.push(bytes);
            }
        }
    }
    requests
}

/// Case A with every word damaged in turn.
pub fn damaged_words() -> Vec<Vec<u8>> {
    let whole = [
        Asked::of(case_a(), NOT_AT_100, 99, 101),
        Asked::of(case_a(), AMPLE, LEAST_OF_ALL, MOST_INDEX),
    ];
    let mut requests = Vec::new();
    for whole in whole.map(|asked| asked.bytes()) {
        for word in 0..BUILT_WORDS {
            let place = 4 * word..4 * word + 4;
            let mut four = [0; 4];
            four.copy_from_slice(&whole[place.clone()]);
            let value = u32::from_le_bytes(four);
            for other in damaged(value) {
                let mut bytes = whole.clone();
                bytes[place.clone()].copy_from_slice(&other.to_le_bytes());
                requests.push(bytes);
            }
        }
    }
    requests
}

/// The least index of the widest span.
const LEAST_OF_ALL: u32 = reference::built::LEAST_INDEX;

/// What may stand in the place of a word: nothing, one less and one more, a
/// changed byte, and the largest.
fn damaged(value: u32) -> [u32; 9] {
    [
        0,
        1,
        value.wrapping_sub(1),
        value.wrapping_add(1),
        value ^ 1 << 8,
        value ^ 1 << 16,
        value ^ 1 << 24,
        value ^ 1 << 31,
        u32::MAX,
    ]
}

/// Whether a return ratio wins an index, by the library's examination.
fn wins(asked: &Asked, index: u32, ratio: u32) -> bool {
    let request = asked
        .plant
        .with(SLUDGE_VOLUME_INDEX, index)
        .with(RETURN_RATIO, ratio);
    let (number, listing) = listed(library::examine, &request.examine_bytes());
    let within = |label: &str, built: u32| figure(&listing, label).is_some_and(|f| f <= built);
    number == SHEET
        && within("reactor ", asked.existing.reactor)
        && within("surface ", asked.existing.surface)
        && within("depth ", asked.existing.depth)
}

/// The library's answer to a request that is not refused against its own
/// examinations of every index of the span and every return ratio, up to the
/// first index that none of them wins. Gives its number, or `LOST`.
pub fn compare_examined(asked: &Asked) -> Result<u32, String> {
    let mut page = [0xff; BUILT_PAGE];
    let (number, _) = library::built(&asked.bytes(), &mut page);
    let lost = u64::from_le_bytes(page);
    // in horizontal flow ratios above 75 are off the grid
    let is_lost = |index: &u32| !(30..=100).any(|ratio| wins(asked, *index, ratio));
    let due = (asked.span.least..=asked.span.most).find(is_lost);
    match number == SHEET && lost == due.map_or(0, u64::from) {
        true => Ok(if lost == 0 { SHEET } else { LOST }),
        false => Err(format!(
            "Built: {number} {lost}, but by its examinations {due:?}: {}",
            hex(&asked.bytes())
        )),
    }
}

/// Random tanks that are not refused, on a span of at most so many indices.
pub fn sound(random: &mut Random, most: u32) -> Asked {
    loop {
        let plant = built::covered(random);
        let mut asked = built::random(random, plant);
        let (least, last) = (asked.span.least, asked.span.most);
        let valid = LEAST_OF_ALL <= least && least <= last && last <= MOST_INDEX;
        if valid && !asked.sizes().contains(&0) && accepted(&plant).is_some() {
            asked.span.most = last.min(least + most - 1);
            return asked;
        }
    }
}
