//! Seasons of the consent: ranges and number of the terms, the order of
//! refusals, and the search for plants with a term.

use crate::collection::{examined, Collection};
use crate::figures;
use crate::plants::{self, case_a, roomy};
use crate::random::Random;
use crate::request::*;
use reference::stages::InTerm;

/// A winter at this temperature and target.
pub fn winter(temperature: u32, target: u32) -> TermWords {
    [11, 1, 3, 31, temperature, target]
}

/// A term that the plant with room on every side keeps.
const EASY: TermWords = [11, 1, 3, 31, 12, 20_000];

/// The plant with room on every side, with the easy term but for one word.
fn easy_but(word: usize, value: u32) -> Request {
    let plant = roomy().with_terms(&[EASY]);
    plant.with(term_word(0, word), value)
}

/// Each figure of a term at its edges and one past, the last day of each
/// month and the day after it, and the number of terms.
pub fn ranges(cases: &mut Collection) {
    figure_edges(cases);
    date_edges(cases);
    counts(cases);
    past_the_count(cases);
}

fn figure_edges(cases: &mut Collection) {
    for (word, least, most) in TERM_RANGES {
        cases.examine("term past edge", easy_but(word, least - 1));
        cases.examine("term past edge", easy_but(word, most + 1));
        cases.examine("term edge", easy_but(word, most));
    }
    cases.examine("term edge", easy_but(TERM_TARGET, 1_000));
    let coldest = easy_but(TERM_TEMPERATURE, 4).with(DESIGN_TEMPERATURE, 10);
    cases.examine("term edge", coldest.with(FRACTION, 500));
    for (word, value) in EASY.into_iter().enumerate() {
        let long = value + if word % 2 == 0 { 1 << 8 } else { 1 << 16 };
        for odd in [0, long, u32::MAX] {
            cases.examine("term past edge", easy_but(word, odd));
        }
    }
    cases.choose("term past edge", easy_but(TERM_TEMPERATURE, 21));
    cases.choose("term past edge", easy_but(TERM_TARGET, 999));
}

/// Months 0 and 13, the last day of each month and the day after it.
fn date_edges(cases: &mut Collection) {
    for word in [FIRST_MONTH, LAST_MONTH] {
        cases.examine("term past edge", easy_but(word, 13));
        cases.choose("term past edge", easy_but(word, 0));
    }
    let lasts: Vec<(u32, u32)> = (1..).zip(DAYS).collect();
    for four in lasts.chunks(4) {
        let terms: Vec<TermWords> = four.iter().map(|day| from_to(*day, *day)).collect();
        cases.examine("term edge", roomy().with_terms(&terms));
    }
    let year = [from_to((1, 1), (12, 31)), from_to((12, 31), (1, 1))];
    cases.examine("term edge", roomy().with_terms(&year));
    for (month, days) in lasts {
        let after = (month, days + 1);
        let (first, last) = (from_to(after, (7, 1)), from_to((7, 1), after));
        if month % 2 == 0 {
            cases.examine("term past edge", roomy().with_terms(&[first]));
        }
        if month % 2 == 1 || month == 2 || month == 4 {
            cases.examine("term past edge", roomy().with_terms(&[last]));
        }
    }
}

/// The easy term with other days.
fn from_to(first: (u32, u32), last: (u32, u32)) -> TermWords {
    [first.0, first.1, last.0, last.1, 12, 20_000]
}

fn counts(cases: &mut Collection) {
    let four = roomy().with_terms(&[EASY; 4]);
    cases.examine("four terms", four);
    cases.choose("four terms", four);
    for count in [5, 256, 257, 1 << 31, (1 << 31) + 1, u32::MAX] {
        cases.examine("too many terms", four.with(TERM_COUNT, count));
    }
    cases.choose("too many terms", four.with(TERM_COUNT, 5));
    for place in 0..MOST_TERMS {
        let wrong = four.with(term_word(place, TERM_TARGET), 999);
        cases.examine("invalid term of four", wrong);
    }
}

/// Entries from the count on, invalid or such that they would not be kept.
fn past_the_count(cases: &mut Collection) {
    let entries = [[0; TERM_WORDS], [u32::MAX; TERM_WORDS], winter(4, 1_000)];
    for (count, entry) in [(0, 0), (0, 1), (0, 2), (1, 1), (2, 2), (3, 0)] {
        let mut terms = [EASY; MOST_TERMS];
        terms[count..].fill(entries[entry]);
        let request = roomy().with_terms(&terms);
        let request = request.with(TERM_COUNT, count as u32);
        cases.examine("entries past the count", request);
        let one_more = request.with(TERM_COUNT, count as u32 + 1);
        cases.examine("one entry more", one_more);
    }
    let none = roomy().with_terms(&[entries[1]; 4]).with(TERM_COUNT, 0);
    cases.choose("entries past the count", none);
}

/// Two refusals due, of which one is 14, 15 or 16. Case A at 300 loses its
/// nitrification at 8 degrees, and at 11 degrees removes 23,000 of its 36,000.
pub fn order(cases: &mut Collection) {
    order_of_consent(cases);
    let (lost, short, fine) = (winter(8, 50_000), winter(11, 12_999), winter(11, 13_000));
    let tall = case_a().with(TANK_FLOW, 1).with(REMOVAL, 2);
    let solids = tall.with(RETURN_RATIO, 92);
    let surface = case_a().with(SITE_SURFACE, 1);
    let depth = case_a().with(SITE_DEPTH, 3_000);
    for (term, kinds) in [
        (lost, ["6 before 15", "7 before 15", "15 before 8 to 10"]),
        (short, ["6 before 16", "7 before 16", "16 before 8 to 10"]),
    ] {
        let plant = case_a().with_terms(&[term]);
        cases.examine(kinds[0], plant.with(FRACTION, 199));
        cases.examine(kinds[0], plant.with(RETURN_RATIO, 76));
        cases.examine(kinds[1], plant.with(FRACTION, 299));
        for request in [solids, surface, depth] {
            cases.examine(kinds[2], request.with_terms(&[term]));
        }
    }
    for request in [solids, surface, depth] {
        cases.examine("8 to 10 after the terms", request.with_terms(&[fine]));
    }
    for terms in [
        &[short, lost][..],
        &[lost, short],
        &[short, fine, fine, lost],
        &[short, short, lost, fine],
    ] {
        cases.examine("15 before 16", case_a().with_terms(terms));
    }
    for terms in [&[fine, fine, fine, short][..], &[short, fine]] {
        cases.examine("16 of some term", case_a().with_terms(terms));
    }
    for terms in [&[fine, fine, fine, lost][..], &[lost, fine]] {
        cases.examine("15 of some term", case_a().with_terms(terms));
    }
}

/// 1 to 4 before 14, and 14 before 5 to 7.
fn order_of_consent(cases: &mut Collection) {
    let wrong = case_a().with_terms(&[winter(3, 10_000)]);
    let many = case_a().with(TERM_COUNT, 5);
    for request in [
        wrong.with(SITE_DEPTH, 0),
        many.with(DOSE, MOST_DOSE + 1),
        wrong.with_reading(PHOSPHORUS, MEASURED, 0x7fc0_0000),
        many.with_measured(PHOSPHORUS, 5_000_000),
        wrong.with_measured(COD, 440_001),
        many.with_measured(COD, 440_001),
    ] {
        cases.examine("1 to 4 before 14", request);
        cases.choose("1 to 4 before 14", request);
    }
    for request in [wrong, many] {
        cases.examine("14 before 5 to 7", request.with(FRACTION, 199));
        cases.examine("14 before 5 to 7", request.with(FRACTION, 299));
        let none = request.with_measured(NITROGEN, 100_000);
        cases.choose("14 before 5 to 7", none);
    }
}

/// The first term of a request, as the reference has it.
fn first_term(request: &Request) -> Option<InTerm> {
    figures::of_request(request)?.terms[0]
}

/// A random plant of a process, moved on, that gets a sheet at its candidate
/// and has the wanted property of its first term.
pub fn searched(
    random: &mut Random,
    process: u32,
    mut moved: impl FnMut(&mut Random, Request) -> Option<Request>,
    wanted: impl Fn(&Request, &InTerm) -> bool,
) -> Request {
    loop {
        let plant = plants::plausible(random).with(PROCESS, process);
        let Some(found) = moved(random, plant) else {
            continue;
        };
        let Some(term) = first_term(&found) else {
            continue;
        };
        if examined(&found) == 0 && wanted(&found, &term) {
            return found;
        }
    }
}

/// A random temperature of both ranges: the term's, and the design's.
pub fn with_temperatures(
    random: &mut Random,
    plant: Request,
    term: (u32, u32),
    design: (u32, u32),
) -> Request {
    let term = random.within(term.0, term.1);
    let design = random.within(design.0, design.1);
    plant
        .with(DESIGN_TEMPERATURE, design)
        .with_terms(&[winter(term, 20_000)])
}
