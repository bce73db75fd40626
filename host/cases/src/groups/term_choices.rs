//! Choices that a term leaves, moves or takes away, and random terms.

use super::terms::{searched, winter, with_temperatures};
use crate::collection::{chosen, examined, Collection};
use crate::lines::{on_term_cover, with_random_terms};
use crate::plants;
use crate::random::Random;
use crate::request::*;
use reference::stages::InTerm;
use reference::{Answer, Sheet};

/// The chosen sheet of a request.
fn choice(request: &Request) -> Option<Sheet> {
    let data = request.decoded().ok()?;
    match reference::choose(&data.plant, &data.readings) {
        Answer::Sheet(sheet) => Some(sheet),
        Answer::Refused(_) => None,
    }
}

/// A random plant at its choice, with a term that just covers this, and the
/// same with a target lower by one that moves the fraction.
fn moved_choice(random: &mut Random, process: u32) -> (Request, Request) {
    loop {
        let plant = plants::plausible(random).with(PROCESS, process);
        let plant = with_temperatures(random, plant, (9, 14), (10, 16));
        let Some(sheet) = choice(&plant.with(TERM_COUNT, 0)) else {
            continue;
        };
        let chosen = plant.with_candidate(
            sheet.fraction as u32,
            sheet.return_ratio as u32,
            sheet.thickening as u32,
        );
        let Some(met) = on_term_cover(chosen, 0, 0) else {
            continue;
        };
        let Some(missed) = on_term_cover(met, 0, 1) else {
            continue;
        };
        let moves = examined(&met) == 0
            && examined(&missed) == 16
            && choice(&missed).is_some_and(|other| other.fraction != sheet.fraction);
        if moves {
            return (met, missed);
        }
    }
}

/// For each process a term that just leaves the choice, and one that moves it.
pub fn choices(cases: &mut Collection, random: &mut Random) {
    for process in 0..=4 {
        let (met, missed) = moved_choice(random, process);
        cases.choose("term leaves the choice", met);
        cases.choose("term moves the choice", missed);
    }
}

/// For each process a term that only the last fractions cover, and the same
/// with a target lower by one; a term at which only the last fractions
/// nitrify, and one a degree colder.
pub fn no_design(cases: &mut Collection, random: &mut Random) {
    for process in 0..=4 {
        let moved = |random: &mut Random, plant: Request| {
            let plant = with_temperatures(random, plant, (6, 20), (10, 20));
            on_term_cover(plant.with(FRACTION, 500), 0, 0)
        };
        let last = |request: &Request, term: &InTerm| {
            let missed = on_term_cover(*request, 0, 1);
            term.capacity > 0 && missed.is_some_and(|missed| chosen(&missed) == 5)
        };
        let met = searched(random, process, moved, last);
        cases.choose("last fractions cover a term", met);
        cases.choose("no design: term", on_term_cover(met, 0, 1).unwrap());
        let moved = |random: &mut Random, plant: Request| {
            let design = random.within(12, 20);
            let plant = plant.with(DESIGN_TEMPERATURE, design);
            let plant = plant.with_terms(&[winter(design - 7, 50_000)]);
            on_term_cover(plant.with(FRACTION, 500), 0, 0)
        };
        let met = searched(random, process, moved, |_, _| true);
        cases.choose("last fractions nitrify", met);
        let temperature = met.get(term_word(0, TERM_TEMPERATURE));
        let colder = met.with(term_word(0, TERM_TEMPERATURE), temperature - 1);
        cases.choose("no design: nitrification", colder);
    }
}

/// A term that moves the choice, at each place among four.
pub fn four(cases: &mut Collection, random: &mut Random) {
    for process in [0, 2] {
        let (_, moved) = moved_choice(random, process);
        let strict = [0, 1, 2, 3, 4, 5].map(|word| moved.get(term_word(0, word)));
        let same = winter(moved.get(DESIGN_TEMPERATURE), moved.get(NITRATE_TARGET));
        for place in 0..MOST_TERMS {
            let mut terms = [same; MOST_TERMS];
            terms[place] = strict;
            cases.choose("term moves the choice", moved.with_terms(&terms));
        }
    }
}

/// Random plants with random terms.
pub fn plain(cases: &mut Collection, random: &mut Random) {
    for turn in 0..12 {
        let plant = plants::plausible(random);
        let request = with_random_terms(random, plant);
        match turn % 3 {
            0 => cases.choose("random terms", request),
            _ => cases.examine("random terms", request),
        }
    }
}
