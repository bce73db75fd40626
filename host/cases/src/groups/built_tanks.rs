//! Built tanks that just hold or are just lost: at an index, at neighbouring ones and
//! over wider spans.

use crate::built::{winners, Asked, Run, Sizes, AMPLE, DEPTH, SURFACE};
use crate::built_lines::{self as lines, PLACES};
use crate::built_searches as searches;
use crate::collection::Collection;
use crate::model;
use crate::plants::case_a;
use crate::request::*;
use reference::Span;

/// Case A is held with these at 99 and at 101, and lost at 100.
pub const NOT_AT_100: Sizes = [3_980, 375, 4_012];

/// So many of these, at least two, spread evenly from the first to the last.
fn spread<T: Copy>(all: &[T], count: usize) -> Vec<T> {
    let place = |turn: usize| turn * (all.len() - 1) / (count - 1);
    (0..count).map(|turn| all[place(turn)]).collect()
}

/// So many of the series of cases that a maker gives, each of this length.
fn series(all: &[Asked], length: usize, count: usize) -> Vec<&[Asked]> {
    let series: Vec<&[Asked]> = all.chunks_exact(length).collect();
    spread(&series, count)
}

/// Whether every index of the span is held.
fn is_held(asked: &Asked) -> bool {
    let outcome = model::built(&asked.bytes(), model::BUILT_PAGE);
    outcome.number == 0 && outcome.written == [0; model::BUILT_PAGE]
}

/// What is just needed at an index, and one less in each place; each size alone.
pub fn sizes(cases: &mut Collection) {
    let met = lines::sizes_met();
    for series in series(&met, 9, 5) {
        cases.built("built, sizes just met", &series[0]);
        for place in [3, 5, 7] {
            cases.built("built, one size missed", &series[place]);
        }
    }
    end_ratios(cases, &met);
    let single = lines::single_sizes();
    for series in series(&single, 15, 2)[1].chunks_exact(5) {
        cases.built("built, one size alone, missed", &series[0]);
        cases.built("built, one size alone, met", &series[1]);
        cases.built("built, one size alone, met", &series[4]);
    }
}

/// Tanks that are held by the first or the last return ratio of the grid alone.
fn end_ratios(cases: &mut Collection, met: &[Asked]) {
    for (flow, ratio) in [(0, 30), (0, 75), (1, 30), (1, 100)] {
        let of_flow = |asked: &&Asked| asked.plant.get(TANK_FLOW) == flow;
        let by_it = |asked: &&Asked| {
            let run = Run::of(&asked.plant);
            let by = run.map(|run| winners(&run.at(asked.span.least), &asked.sizes()));
            by == Some(vec![ratio])
        };
        if let Some(asked) = met.iter().step_by(9).filter(of_flow).find(by_it) {
            cases.built("built, held by an end ratio", asked);
        }
    }
}

/// Sizes of 0, and ones that are 0 in fewer bits.
pub fn zero_sizes(cases: &mut Collection) {
    for set in 1..1 << 3 {
        let size = |place: usize| if set >> place & 1 == 1 { 0 } else { u32::MAX };
        let asked = Asked::of(case_a(), PLACES.map(size), 100, 101);
        cases.built("built, size of 0", &asked);
    }
    for size in [1, 1 << 8, 1 << 16, 1 << 31] {
        let asked = Asked::of(case_a(), [size; 3], 100, 101);
        cases.built("built, size of a power of 2", &asked);
    }
}

const SPANS: [(u32, u32); 7] = [
    (50, 50),
    (50, 180),
    (180, 180),
    (99, 99),
    (99, 101),
    (100, 100),
    (101, 101),
];
const WRONG_SPANS: [(u32, u32); 13] = [
    (49, 49),
    (49, 50),
    (49, 180),
    (50, 181),
    (180, 181),
    (181, 181),
    (101, 100),
    (180, 50),
    (0, 100),
    (100, 0),
    (100, 100 + (1 << 8)),
    (100, 100 + (1 << 31)),
    (u32::MAX, u32::MAX),
];

/// Spans at the edges of their range and past them; a reactor that holds up to an
/// index, with spans about it.
pub fn spans(cases: &mut Collection) {
    for (least, most) in SPANS {
        let asked = Asked::of(case_a(), NOT_AT_100, least, most);
        cases.built("built, span", &asked);
    }
    for (least, most) in WRONG_SPANS {
        let asked = Asked::of(case_a(), AMPLE, least, most);
        cases.built("built, wrong span", &asked);
    }
    let all = lines::lost_from_an_index();
    // of each series: the widest span; up to the last index held, from it on, after it
    let is_lost_then = |series: &&[Asked]| !is_held(&series[5]) && is_held(&series[1]);
    let lost: Vec<&[Asked]> = all.chunks_exact(8).filter(is_lost_then).collect();
    for series in spread(&lost, 3) {
        for place in [0, 1, 4, 5] {
            cases.built("built, lost from an index on", &series[place]);
        }
    }
}

/// The plant's own index, which is looked at by 1 and 17 alone.
pub fn own_indices(cases: &mut Collection) {
    for (kind, indices) in [
        ("built, own index", [50, 101, 180]),
        ("built, own index refused", [49, 181, 201]),
    ] {
        for index in indices {
            let plant = case_a().with(SLUDGE_VOLUME_INDEX, index);
            cases.built(kind, &Asked::of(plant, NOT_AT_100, 99, 101));
        }
    }
}

/// Neighbouring indices of which some are held and some are lost, and ones that no
/// one return ratio holds; the plant's own index is one of them.
pub fn neighbours(cases: &mut Collection) {
    let lost = searches::lost_in_the_middle();
    for (own, series) in series(&lost, 24, 3).into_iter().enumerate() {
        // eight spans for each own index: the first, all three, the middle, the last
        for place in [0, 2, 3, 5] {
            cases.built("built, lost between two held", &series[8 * own + place]);
        }
    }
    let held = searches::won_in_the_middle();
    for place in [0, 3, 5] {
        cases.built("built, held between two lost", &held[place]);
    }
    let twice = searches::lost_twice();
    for place in [3, 8] {
        cases.built("built, lost twice", &twice[place]);
    }
    let apart = searches::no_common_ratio();
    for series in series(&apart, 10, 4) {
        cases.built("built, no ratio for both", &series[1]);
    }
}

/// What the widest span takes, and one less in each place.
pub fn widest_spans(cases: &mut Collection) {
    let whole = searches::whole_spans();
    for asked in series(&whole, 4, 2).concat() {
        cases.built("built, widest span", &asked);
    }
}

/// A site as large as what is needed, and one that is too small for it.
pub fn sites(cases: &mut Collection) {
    let all = searches::sites();
    // of each series the first tanks are as large as is needed, the last much larger
    let series: Vec<&[Asked]> = all.chunks_exact(5).collect();
    let as_needed = |series: &&[Asked]| {
        let Asked { plant, .. } = series[0];
        let site = [plant.get(SITE_SURFACE), plant.get(SITE_DEPTH)];
        site == [SURFACE, DEPTH].map(|place| series[0].sizes()[place])
    };
    let just: Vec<&[Asked]> = series.iter().copied().filter(as_needed).collect();
    for series in spread(&just, 2) {
        cases.built("built, site just holds", &series[0]);
        cases.built("built, site just holds", &series[4]);
    }
    let last = series.iter().map(|series| series[4]);
    let small: Vec<Asked> = last.filter(|asked| !is_held(asked)).collect();
    for asked in spread(&small, 3) {
        cases.built("built, site too small", &asked);
    }
}

/// Fractions just covered and just not, with a dose and terms and without; solids and
/// diluted sludge volumes that are just allowed and just not.
pub fn permitted(cases: &mut Collection) {
    let mut all = searches::covers();
    let span = Span {
        least: 100,
        most: 101,
    };
    all.retain(|asked| asked.span == span);
    for (terms, dosed) in [(false, false), (false, true), (true, false), (true, true)] {
        let fits = |asked: &&Asked| {
            let of = |word: usize| asked.plant.get(word) > 0;
            (of(TERM_COUNT), of(DOSE)) == (terms, dosed)
        };
        let of_kind = all.iter().filter(fits).copied();
        let (held, lost): (Vec<Asked>, Vec<Asked>) = of_kind.partition(is_held);
        for asked in spread(&held, 2) {
            cases.built("built, covered", &asked);
        }
        for asked in spread(&lost, 2) {
            cases.built("built, not covered", &asked);
        }
    }
    let tanks = searches::solids_and_volumes();
    // of two each the first tanks are as large as is needed
    let as_needed = tanks.iter().step_by(2).copied();
    let (held, lost): (Vec<Asked>, Vec<Asked>) = as_needed.partition(is_held);
    for asked in [spread(&held, 4), spread(&lost, 4)].concat() {
        cases.built("built, solids and volume", &asked);
    }
}
