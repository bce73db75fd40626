//! Choices in the COD way: with and without a design, moved by the way, and
//! random plants.

use super::choices::fractions;
use super::terms::{searched, with_temperatures};
use crate::cod_lines::in_cod_way;
use crate::collection::{chosen, examined, Collection, Operation};
use crate::lines::{on_cover, on_term_cover, with_dose, with_random_terms};
use crate::plants;
use crate::random::Random;
use crate::request::*;
use reference::stages::InTerm;

/// For each process, in either flow, a plant whose two ways choose other
/// fractions, and one with a design in the COD way alone.
pub fn moved(cases: &mut Collection, random: &mut Random) {
    for process in 0..=4 {
        let mut left = [1, 1];
        while left != [0, 0] {
            let plant = plants::plausible(random)
                .with(PROCESS, process)
                .with(TANK_FLOW, (process + left[0]) % 2);
            let plant = on_cover(plant, 0).unwrap_or(plant);
            let by_cod = in_cod_way(random, plant);
            let Some((fraction, _)) = fractions(&by_cod) else {
                continue;
            };
            let other = fractions(&by_cod.with(WAY, BY_BOD));
            let place = usize::from(other.is_none());
            if left[place] > 0 && other.is_none_or(|(other, _)| other != fraction) {
                left[place] -= 1;
                cases.choose(MOVED[place], by_cod);
            }
        }
    }
}

const MOVED: [&str; 2] = [
    "COD way moves the choice",
    "COD way, design by the COD alone",
];

/// For the simultaneous and the intermittent process a plant of which only the
/// last fractions are covered, and the same with one thousandth more nitrogen;
/// then the same of a term.
pub fn no_design(cases: &mut Collection, random: &mut Random) {
    for process in 1..=2 {
        let (met, missed) = loop {
            let plant = plants::plausible(random)
                .with(PROCESS, process)
                .with(FRACTION, 500);
            let plant = in_cod_way(random, plant);
            let lines = on_cover(plant, 0).zip(on_cover(plant, 1));
            let Some((met, missed)) = lines else {
                continue;
            };
            if examined(&met) == 0 && chosen(&missed) == 5 {
                break (met, missed);
            }
        };
        cases.choose("COD way, last fractions covered", met);
        cases.choose("COD way, no design: nitrate", missed);
        let moved = |random: &mut Random, plant: Request| {
            let plant = in_cod_way(random, plant);
            let plant = with_temperatures(random, plant, (6, 20), (10, 20));
            on_term_cover(plant.with(FRACTION, 500), 0, 0)
        };
        let last = |request: &Request, term: &InTerm| {
            let missed = on_term_cover(*request, 0, 1);
            term.by_bod > 0 && missed.is_some_and(|missed| chosen(&missed) == 5)
        };
        let met = searched(random, process, moved, last);
        cases.choose("COD way, last fractions cover a term", met);
        let missed = on_term_cover(met, 0, 1).unwrap();
        cases.choose("COD way, no design: term", missed);
    }
}

/// A sheet in the COD way on a page that just holds it, and on one that does
/// not.
pub fn pages(cases: &mut Collection) {
    let plant = super::cod::roomy_by_cod();
    for (operation, request) in [
        (Operation::Examine, plant.examine_bytes()),
        (Operation::Choose, plant.choose_bytes()),
    ] {
        let exact = super::pages::listing_length(operation, &request);
        cases.on_page("COD way, exact page", operation, &request, exact);
        cases.on_page("COD way, short page", operation, &request, exact - 1);
    }
}

/// Random plants with doses and terms.
pub fn plain(cases: &mut Collection, random: &mut Random) {
    for turn in 0..18 {
        let plant = match turn % 2 {
            0 => plants::plausible(random),
            _ => plants::anything(random),
        };
        let plant = in_cod_way(random, plant);
        let plant = with_dose(random, plant);
        let request = with_random_terms(random, plant);
        match turn % 3 {
            0 => cases.choose("COD way, random", request),
            _ => cases.examine("COD way, random", request),
        }
    }
}
