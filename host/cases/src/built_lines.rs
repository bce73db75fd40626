//! Built tanks that just meet or just miss a rule, found with the reference
//! alone.

use crate::built::*;
use crate::built_searches as searches;
use crate::lines::*;
use crate::plants::{self, case_a};
use crate::random::Random;
use crate::request::*;
use reference::built::LEAST_INDEX;

/// Cases of one kind.
pub type Group = (&'static str, Vec<Asked>);

/// Seed of every search.
const SEED: u64 = 1_010;
/// Plants of each process, tank flow and way.
const EACH: usize = 3;
/// Random plants that are tried for one of them.
const TRIES: usize = 400;
/// The sizes in their places.
pub const PLACES: [usize; 3] = [REACTOR, SURFACE, DEPTH];

/// A plant of these kinds on a large site, whose fraction is just covered and
/// which has permitted candidates at both ends of the widest span.
fn plant_of(random: &mut Random, process: u32, flow: u32, way: u32) -> Option<Request> {
    for _ in 0..TRIES {
        let plant = plants::plausible(random)
            .with(PROCESS, process)
            .with(TANK_FLOW, flow)
            .with(WAY, way)
            .with(SITE_SURFACE, 100_000)
            .with(SITE_DEPTH, 10_000);
        let plant = plants::with_candidate(random, plant);
        let plant = with_dose(random, plant);
        let Some(plant) = on_cover(plant, 0) else {
            continue;
        };
        let ends = [LEAST_INDEX, MOST_INDEX];
        let permitted = |run: Run| ends.iter().all(|index| !run.at(*index).is_empty());
        if Run::of(&plant).is_some_and(permitted) {
            return Some(plant);
        }
    }
    None
}

/// Plants of every process, tank flow and way, and Case A.
pub fn plants() -> Vec<Request> {
    let mut random = Random::new(SEED);
    let mut found = vec![case_a()];
    for process in 0..=4 {
        for flow in 0..=1 {
            for way in [BY_BOD, BY_COD] {
                let more = (0..EACH).filter_map(|_| plant_of(&mut random, process, flow, way));
                found.extend(more);
            }
        }
    }
    found
}

/// A plant, and how it is run.
pub fn runs() -> Vec<(Request, Run)> {
    let run = |plant: Request| Some((plant, Run::of(&plant)?));
    plants().into_iter().filter_map(run).collect()
}

/// One less in a place.
pub fn less(sizes: Sizes, place: usize) -> Sizes {
    with_size(sizes, place, sizes[place] - 1)
}

/// Whether the tanks hold at an index, and no longer with one less in any place.
pub fn is_tight(needs: &[Need], sizes: &Sizes) -> bool {
    let missed = |place: usize| !is_won(needs, &less(*sizes, place));
    is_won(needs, sizes) && PLACES.into_iter().all(missed)
}

/// The first, one in the middle and the last of some.
pub fn some_of<T: Copy>(all: &[T]) -> Vec<T> {
    match all {
        [] | [_] | [_, _] => all.to_vec(),
        _ => vec![all[0], all[all.len() / 2], all[all.len() - 1]],
    }
}

/// Indices that are looked at, both ends among them.
fn indices(random: &mut Random) -> Vec<u32> {
    let any = |_| random.within(LEAST_INDEX + 1, MOST_INDEX - 1);
    let mut found: Vec<u32> = (0..6).map(any).collect();
    found.extend([LEAST_INDEX, MOST_INDEX]);
    found
}

/// What is just needed at an index, where one less in any place is lost.
pub fn sizes_met() -> Vec<Asked> {
    let mut random = Random::new(SEED + 1);
    let mut cases = Vec::new();
    for (plant, run) in runs() {
        for index in indices(&mut random) {
            let needs = run.at(index);
            let mut tight: Vec<Need> = needs.clone();
            tight.retain(|need| is_tight(&needs, &need.sizes));
            for Need { sizes, .. } in some_of(&tight) {
                let more = sizes.map(|size| size + 1);
                for sizes in [sizes, more, more.map(|size| size + (1 << 16))] {
                    cases.push(Asked::of(plant, sizes, index, index));
                }
                for place in PLACES {
                    cases.push(Asked::of(plant, less(sizes, place), index, index));
                    cases.push(Asked::of(plant, less(more, place), index, index));
                }
            }
        }
    }
    cases
}

/// The least of each size that some ratio needs, the others never too small; and
/// one less. The same of the largest, at which every ratio wins.
pub fn single_sizes() -> Vec<Asked> {
    let mut random = Random::new(SEED + 2);
    let mut cases = Vec::new();
    for (plant, run) in runs() {
        for index in indices(&mut random) {
            let needs = run.at(index);
            for place in PLACES {
                let of = needs.iter().map(|need| need.sizes[place]);
                let (Some(least), Some(most)) = (of.clone().min(), of.max()) else {
                    continue;
                };
                for size in [least - 1, least, least + 1, most, most + (1 << 31)] {
                    let sizes = with_size(AMPLE, place, size);
                    cases.push(Asked::of(plant, sizes, index, index));
                }
            }
        }
    }
    cases
}

/// A reactor that holds up to an index, with spans about it.
pub fn lost_from_an_index() -> Vec<Asked> {
    let mut random = Random::new(SEED + 3);
    let mut cases = Vec::new();
    for (plant, run) in runs() {
        let middle = random.within(60, 170);
        for last in [50, 51, middle, 178, 179] {
            let of = |index: u32| run.at(index).iter().map(|need| need.sizes[REACTOR]).min();
            let Some(reactor) = of(last) else {
                continue;
            };
            let sizes = with_size(AMPLE, REACTOR, reactor);
            for (least, most) in [
                (LEAST_INDEX, MOST_INDEX),
                (LEAST_INDEX, last),
                (LEAST_INDEX, last + 1),
                (last, last),
                (last, last + 1),
                (last + 1, last + 1),
                (last + 1, MOST_INDEX),
                (last, MOST_INDEX),
            ] {
                cases.push(Asked::of(plant, sizes, least, most));
            }
        }
    }
    cases
}

/// Each end of a span from below the range to above it.
pub fn span_ends() -> Vec<Asked> {
    let ends = [
        0,
        1,
        49,
        50,
        51,
        99,
        100,
        101,
        179,
        180,
        181,
        200,
        256 + 100,
        (1 << 16) + 100,
        (1 << 31) + 100,
        u32::MAX,
    ];
    let won = [3_980, 375, 4_012]; // at 99 and 101, not at 100
    let mut cases = Vec::new();
    for least in ends {
        for most in ends {
            for sizes in [AMPLE, won, [1, 1, 1], [0, 1, 1]] {
                cases.push(Asked::of(case_a(), sizes, least, most));
            }
        }
    }
    cases
}

/// Every set of sizes that are 0, beside sizes of 1 and of more than 16 bits.
pub fn zero_sizes() -> Vec<Asked> {
    let mut cases = Vec::new();
    for set in 0..1 << 3 {
        for other in [1, 1 << 8, 1 << 16, 1 << 31, u32::MAX] {
            let size = |place: usize| if set >> place & 1 == 1 { 0 } else { other };
            let sizes = PLACES.map(size);
            for plant in [case_a(), case_a().with(LOAD, 0)] {
                for (least, most) in [(100, 101), (50, 180), (101, 100), (49, 50)] {
                    cases.push(Asked::of(plant, sizes, least, most));
                }
            }
        }
    }
    cases
}

/// A fault of a request.
type Fault = fn(Asked) -> Asked;

/// The same request with another plant.
fn with_plant(asked: Asked, change: impl Fn(Request) -> Request) -> Asked {
    let plant = change(asked.plant);
    Asked { plant, ..asked }
}

/// Faults of every kind but the span's.
const FAULTS: [Fault; 9] = [
    |mut asked| {
        asked.existing.depth = 0;
        asked
    },
    |asked| with_plant(asked, |plant| plant.with(LOAD, 0)),
    |asked| with_plant(asked, |plant| plant.with(SLUDGE_VOLUME_INDEX, 181)),
    |asked| {
        with_plant(asked, |plant| {
            plant.with_reading(BOD, MEASURED, f32::NAN.to_bits())
        })
    },
    |asked| with_plant(asked, |plant| plant.with_measured(SOLIDS, 2_000_001)),
    |asked| with_plant(asked, |plant| plant.with_measured(COD, 450_000)),
    |asked| with_plant(asked, |plant| plant.with(TERM_COUNT, 5)),
    |mut asked| {
        asked.existing.fraction = 199;
        asked
    },
    |mut asked| {
        asked.existing.thickening = 26;
        asked
    },
];

/// Every set of faults, in both ways, with right spans and wrong ones.
pub fn orders() -> Vec<Asked> {
    let mut cases = Vec::new();
    for set in 0..1 << FAULTS.len() {
        for way in [BY_BOD, BY_COD] {
            for (least, most) in [(100, 100), (101, 100), (49, 100), (100, 181)] {
                let sound = Asked::of(case_a().with(WAY, way), AMPLE, least, most);
                let chosen = (0..FAULTS.len()).filter(|place| set >> place & 1 == 1);
                cases.push(chosen.fold(sound, |asked, place| FAULTS[place](asked)));
            }
        }
    }
    cases
}

/// Fractions at the edges of the grid, past them, and the same in fewer bits.
const FRACTIONS: [u32; 15] = [
    0,
    1,
    199,
    200,
    201,
    300,
    499,
    500,
    501,
    999,
    1_000,
    1_001,
    300 + (1 << 16),
    300 + (1 << 31),
    u32::MAX,
];
/// Thickening times likewise.
const TIMES: [u32; 12] = [
    0,
    1,
    19,
    20,
    21,
    24,
    25,
    26,
    30,
    20 + (1 << 8),
    20 + (1 << 31),
    u32::MAX,
];

/// Fractions and times at the edges of the grid and past them.
pub fn grid_edges() -> Vec<Asked> {
    let mut cases = Vec::new();
    for fraction in FRACTIONS {
        for time in TIMES {
            for flow in 0..=1 {
                let plant = plants::roomy().with(TANK_FLOW, flow);
                let run_so = plant.with_candidate(fraction, 30, time);
                cases.push(Asked::of(run_so, AMPLE, 100, 102));
                cases.push(Asked::of(run_so, [3_980, 375, 4_012], 100, 100));
            }
        }
    }
    cases
}

/// The plant's own index from below its range to above it, with tanks that hold
/// at all, at some and at none of the span.
pub fn own_indices() -> Vec<Asked> {
    let own = [
        0,
        49,
        50,
        51,
        99,
        100,
        101,
        179,
        180,
        181,
        182,
        200,
        201,
        256 + 100,
        u32::MAX,
    ];
    let spans = [
        (99, 99),
        (100, 100),
        (101, 101),
        (99, 101),
        (50, 180),
        (101, 100),
    ];
    let mut cases = Vec::new();
    for index in own {
        for sizes in [[3_980, 375, 4_012], [4_103, 375, 3_846], AMPLE, [1, 1, 1]] {
            for (least, most) in spans {
                let plant = case_a().with(SLUDGE_VOLUME_INDEX, index);
                cases.push(Asked::of(plant, sizes, least, most));
            }
        }
    }
    cases
}

/// Tanks that just meet or just miss each rule, by what they are about.
pub fn made_to_measure() -> Vec<Group> {
    vec![
        ("sizes just met", sizes_met()),
        ("one size alone", single_sizes()),
        ("lost from an index on", lost_from_an_index()),
        ("ends of the span", span_ends()),
        ("sizes of 0", zero_sizes()),
        ("orders", orders()),
        ("edges of the grid", grid_edges()),
        ("the plant's own index", own_indices()),
        ("lost in the middle", searches::lost_in_the_middle()),
        ("won in the middle", searches::won_in_the_middle()),
        ("lost twice", searches::lost_twice()),
        ("no common ratio", searches::no_common_ratio()),
        ("whole spans", searches::whole_spans()),
        ("sites", searches::sites()),
        ("cover, dose and terms", searches::covers()),
        ("solids and volume", searches::solids_and_volumes()),
    ]
}
