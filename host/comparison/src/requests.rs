//! Random requests: plain, on the lines, and damaged.

use crate::compare::Operation;
use crate::logs;
use crate::prices;
use crate::targets;
use crate::works;
use cases::built;
use cases::cod_lines::with_random_way;
use cases::lines::{on_cover, on_dose, random_on_line, with_dose, with_random_terms};
use cases::model::EXPLAIN_PAGE;
use cases::odd;
use cases::plants;
use cases::random::Random;
use cases::request::*;
use cases::tanks::OnLines;

/// Small plants, in which equal totals are common.
fn small(random: &mut Random) -> Request {
    let flow = random.spread(1, 2_000);
    plants::plausible(random)
        .with(FLOW, flow)
        .with(WET_WEATHER_FLOW, flow / 8 + 1)
}

/// A request that is mostly accepted.
pub fn sound(random: &mut Random, tanks: &OnLines) -> Request {
    let plant = match random.within(0, 9) {
        0 | 1 => plants::plausible(random),
        2 => plants::anything(random),
        3 => small(random),
        _ => return random_on_line(random, tanks),
    };
    let plant = with_random_way(random, plant);
    let plant = with_dose(random, plant);
    with_random_terms(random, plant)
}

/// A request to choose that mostly gets a design: equal totals are common in
/// small plants, and a sludge mass that falls with the fraction in plants
/// without solids.
pub fn with_design(random: &mut Random) -> Request {
    let plant = match random.within(0, 2) {
        0 => small(random),
        1 => plants::plausible(random).with_measured(SOLIDS, 0),
        _ => plants::plausible(random),
    };
    let plant = with_random_way(random, plant);
    let plant = with_dose(random, plant);
    let roomy = plant.with(SITE_SURFACE, 100_000).with(SITE_DEPTH, 10_000);
    let line = match random.one_in(4) {
        true => on_dose(roomy, random.within(0, 1)),
        false => on_cover(roomy, 0),
    };
    let covered = with_random_terms(random, line.unwrap_or(roomy));
    match random.within(0, 3) {
        0 => plant,
        1 => covered,
        _ => at_chosen_site(random, covered),
    }
}

/// An odd f32, or any bits at all.
pub fn odd_bits(random: &mut Random) -> u32 {
    match random.within(0, 5) {
        0 => random.pick(&odd::NO_NUMBERS),
        1 => random.pick(&odd::ZEROS),
        2 => random.pick(&odd::HUGE),
        3 => random.pick(&odd::TIES).to_bits(),
        4 => odd::FLOAT_PRODUCT ^ random.within(0, 0xffff),
        _ => random.bits() as u32,
    }
}

/// A reading with an odd f32 or an odd head count.
fn odd_reading(random: &mut Random, request: Request) -> Request {
    let place = random.pick(&READINGS);
    let kind = random.within(0, 2);
    let content = match kind {
        HEADS => random.pick(&[0, 1, 100, 2_000_000, 2_000_001, u32::MAX]),
        _ => odd_bits(random),
    };
    request.with_reading(place, kind, content)
}

/// One plant figure at an edge or past it.
fn edged_plant(random: &mut Random, request: Request) -> Request {
    let (place, least, most) = random.pick(&PLANT_RANGES);
    let below = least.wrapping_sub(1);
    let value = random.pick(&[below, least, most, most + 1, 0, u32::MAX]);
    request.with(place, value)
}

/// A sludge volume index about the line of bulking sludge.
fn edged_index(random: &mut Random, request: Request) -> Request {
    let index = random.pick(&[MOST_INDEX - 1, MOST_INDEX, MOST_INDEX + 1, 190, 200, 201]);
    request.with(SLUDGE_VOLUME_INDEX, index)
}

/// A candidate at an edge of the grid or past it.
pub fn edged_candidate(random: &mut Random, request: Request) -> Request {
    let fraction = random.pick(&[199, 200, 500, 501, 1_000, 350, 350, 350]);
    let ratio = random.pick(&[29, 30, 75, 76, 100, 101, 50, 50, 50, u32::MAX - 99]);
    let time = random.pick(&[19, 20, 25, 26, 22, 22, 22, 0]);
    request.with_candidate(fraction, ratio, time)
}

/// Another version, an unknown kind, or a word of any value.
fn damaged_words(random: &mut Random, request: Request) -> Request {
    let bits = random.bits() as u32;
    match random.within(0, 2) {
        0 => {
            let versions = [0, EARLIER_VERSION, LATER_VERSION, 256, 0x0100_0000, bits];
            request.with(VERSION, random.pick(&versions))
        }
        1 => {
            let (place, last) = random.pick(&KIND_WORDS);
            request.with(place, random.pick(&[last + 1, 255, 256, u32::MAX, bits]))
        }
        _ => request.with(random.within(0, WORDS as u32 - 1) as usize, bits),
    }
}

/// The bytes of a request, or too few or too many of them.
fn damaged_length(random: &mut Random, mut bytes: Vec<u8>) -> Vec<u8> {
    let length = match random.within(0, 3) {
        0 => bytes.len() - 1,
        1 => bytes.len() + 1,
        2 => random.pick(&[0, 1, 3, 4, CHOOSE_LENGTH, EXAMINE_LENGTH, bytes.len() - 4]),
        _ => random.within(0, 300) as usize,
    };
    bytes.resize(length, random.bits() as u8);
    bytes
}

/// A request of which a reading, a figure, the candidate or a word may be odd.
pub fn any_plant(random: &mut Random, tanks: &OnLines) -> Request {
    let request = sound(random, tanks);
    match random.within(0, 15) {
        0 | 1 => odd_reading(random, request),
        2 => edged_plant(random, request),
        3 => edged_candidate(random, request),
        4 => damaged_words(random, request),
        5 => edged_index(random, request),
        _ => request,
    }
}

/// A request's bytes for the operation, now and then damaged.
pub fn any(random: &mut Random, tanks: &OnLines, operation: Operation) -> Vec<u8> {
    let request = any_plant(random, tanks);
    let bytes = match operation {
        Operation::Choose | Operation::Census => request.choose_bytes(),
        Operation::Examine | Operation::Explain => request.examine_bytes(),
        Operation::Load => logs::any(random),
        Operation::Target => targets::any(random),
        Operation::Works | Operation::Line => {
            let works = works::divided(random, request);
            works::bytes(random, operation, &works)
        }
        Operation::Built => built::random(random, request).bytes(),
        Operation::PriceChoose | Operation::PriceExamine => {
            prices::bytes(random, operation, request)
        }
    };
    if random.one_in(32) {
        damaged_length(random, bytes)
    } else {
        bytes
    }
}

/// Mostly a page that is long enough.
pub fn page_length(random: &mut Random) -> usize {
    match random.within(0, 15) {
        0 => random.within(0, 20) as usize,
        1 => EXPLAIN_PAGE - random.within(0, 16) as usize,
        2 => random.within(150, 260) as usize,
        _ => 512,
    }
}

/// A figure of a listing, by its label and the space after it.
pub fn figure(listing: &[u8], label: &str) -> Option<u32> {
    let text = String::from_utf8_lossy(listing);
    let line = text.lines().find_map(|line| line.strip_prefix(label))?;
    line.trim().parse().ok()
}

/// The site cut down to the chosen tank, or one below it.
fn at_chosen_site(random: &mut Random, request: Request) -> Request {
    let mut page = [0; 512];
    let (number, written) = library::choose(&request.choose_bytes(), &mut page);
    if number != library::number::SHEET {
        return request;
    }
    let figure = |label: &str| figure(&page[..written as usize], label);
    let less = random.within(0, 1);
    let surface = figure("surface ").unwrap_or(2) - less;
    let depth = figure("depth ").unwrap_or(3_001) - less;
    match random.within(0, 2) {
        0 => request.with(SITE_SURFACE, surface),
        1 => request.with(SITE_DEPTH, depth),
        _ => request.with(SITE_SURFACE, surface).with(SITE_DEPTH, depth),
    }
}
