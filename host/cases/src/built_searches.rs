//! Built tanks that hold at some indices and not at others, found by search; and
//! ones about the rules that a candidate is permitted by.

use crate::built::*;
use crate::built_lines::{is_tight, less, runs, some_of, PLACES};
use crate::figures;
use crate::lines::*;
use crate::random::Random;
use crate::request::*;
use crate::tanks::{OnLines, Tank};
use reference::built::LEAST_INDEX;
use reference::sludge::{reactor_solids, reactor_volume};
use reference::stages;

const SEED: u64 = 2_010;
/// Indices that are tried for each plant.
const TRIES: usize = 60;
/// Cases kept of each plant.
const KEPT: usize = 3;
/// How far apart the return ratios may be that two neighbours are won by.
const NEAR: u32 = 2;

/// What is just needed by two ratios that lie near each other, the first at one
/// index and the second at another.
fn near_pairs(first: &[Need], second: &[Need]) -> Vec<Sizes> {
    let mut found = Vec::new();
    for one in first {
        let near = second
            .iter()
            .filter(|two| two.ratio.abs_diff(one.ratio) <= NEAR);
        found.extend(near.map(|two| both(&one.sizes, &two.sizes)));
    }
    found
}

/// Tanks for so many neighbouring indices, the first of which is given, whose
/// needs are as wanted.
type Search = fn(&[Vec<Need>]) -> Vec<Sizes>;

/// Some tanks of each plant that a search finds, with the first index.
fn found_by(seed: u64, count: u32, search: Search) -> Vec<(Request, Sizes, u32)> {
    let mut random = Random::new(seed);
    let mut all = Vec::new();
    for (plant, run) in runs() {
        let mut kept = Vec::new();
        for _ in 0..TRIES {
            let first = random.within(LEAST_INDEX, MOST_INDEX + 1 - count);
            let needs: Vec<Vec<Need>> = (0..count).map(|more| run.at(first + more)).collect();
            let found = search(&needs);
            if !found.is_empty() && kept.len() < KEPT {
                kept.push((plant, random.pick(&found), first));
            }
        }
        all.extend(kept);
    }
    all
}

/// Every span of so many neighbouring indices, and the widest, with the plant's
/// own index at each of them.
fn every_span(found: Vec<(Request, Sizes, u32)>, count: u32) -> Vec<Asked> {
    let mut cases = Vec::new();
    for (plant, sizes, first) in found {
        let end = first + count;
        for own in first..end {
            let plant = plant.with(SLUDGE_VOLUME_INDEX, own);
            for least in first..end {
                cases.extend((least..end).map(|most| Asked::of(plant, sizes, least, most)));
            }
            cases.push(Asked::of(plant, sizes, LEAST_INDEX, MOST_INDEX));
            cases.push(Asked::of(plant, sizes, first, MOST_INDEX));
        }
    }
    cases
}

/// Of three neighbours the one in the middle is lost.
pub fn lost_in_the_middle() -> Vec<Asked> {
    let search: Search = |needs| {
        let mut found = near_pairs(&needs[0], &needs[2]);
        found.retain(|sizes| !is_won(&needs[1], sizes));
        found
    };
    every_span(found_by(SEED, 3, search), 3)
}

/// Of three neighbours the one in the middle alone is won.
pub fn won_in_the_middle() -> Vec<Asked> {
    let search: Search = |needs| {
        let mut found: Vec<Sizes> = needs[1].iter().map(|need| need.sizes).collect();
        found.retain(|sizes| !is_won(&needs[0], sizes) && !is_won(&needs[2], sizes));
        found
    };
    every_span(found_by(SEED + 1, 3, search), 3)
}

/// Of four neighbours the second and the last are lost.
pub fn lost_twice() -> Vec<Asked> {
    let search: Search = |needs| {
        let mut found = near_pairs(&needs[0], &needs[2]);
        found.retain(|sizes| !is_won(&needs[1], sizes) && !is_won(&needs[3], sizes));
        found
    };
    every_span(found_by(SEED + 2, 4, search), 4)
}

/// Two neighbours are won, but by no return ratio both.
pub fn no_common_ratio() -> Vec<Asked> {
    let search: Search = |needs| {
        let mut found = near_pairs(&needs[0], &needs[1]);
        found.retain(|sizes| {
            let second = winners(&needs[1], sizes);
            let first = winners(&needs[0], sizes);
            first.iter().all(|ratio| !second.contains(ratio))
        });
        found
    };
    every_span(found_by(SEED + 3, 2, search), 2)
}

/// What the widest span takes: of each size the least at which no index is lost,
/// the others never too small; of some ratios what all indices need. And one less.
pub fn whole_spans() -> Vec<Asked> {
    let mut cases = Vec::new();
    for (plant, run) in runs() {
        let needs: Vec<Vec<Need>> = (LEAST_INDEX..=MOST_INDEX).map(|i| run.at(i)).collect();
        let mut exact = Vec::new();
        for place in PLACES {
            let least = |needs: &Vec<Need>| needs.iter().map(|need| need.sizes[place]).min();
            let size = needs.iter().filter_map(least).max().unwrap_or(1);
            exact.push(with_size(AMPLE, place, size));
        }
        let all: Vec<Need> = needs.concat();
        for Need { ratio, .. } in some_of(&needs[0]) {
            let of = all.iter().filter(|need| need.ratio == ratio);
            exact.push(of.fold([1; 3], |sizes, need| both(&sizes, &need.sizes)));
        }
        for sizes in exact {
            let one_less = PLACES.map(|place| less(sizes, place));
            for sizes in one_less.into_iter().chain([sizes]) {
                cases.push(Asked::of(plant, sizes, LEAST_INDEX, MOST_INDEX));
            }
        }
    }
    cases
}

/// The plant on a site of this surface and depth, if a site may have them.
fn on_site(plant: Request, surface: u32, depth: u32) -> Option<Request> {
    let inside = (1..=100_000).contains(&surface) && (3_000..=10_000).contains(&depth);
    inside.then(|| plant.with(SITE_SURFACE, surface).with(SITE_DEPTH, depth))
}

/// Sites that are smaller than what is needed, as large, and larger, with tanks
/// that are as large as that, larger, and smaller.
pub fn sites() -> Vec<Asked> {
    let mut random = Random::new(SEED + 4);
    let mut cases = Vec::new();
    for (plant, run) in runs() {
        let index = random.within(LEAST_INDEX, MOST_INDEX);
        let needs = run.at(index);
        let mut tight: Vec<Need> = needs.clone();
        tight.retain(|need| is_tight(&needs, &need.sizes));
        for Need { sizes, .. } in some_of(&tight) {
            let [_, surface, depth] = sizes;
            for (surface, depth) in [
                (surface, depth),
                (surface - 1, depth),
                (surface, depth - 1),
                (surface + 1, depth + 1),
            ] {
                let Some(plant) = on_site(plant, surface, depth) else {
                    continue;
                };
                let more = sizes.map(|size| size + 1);
                for built in [sizes, more, less(sizes, SURFACE), less(sizes, DEPTH), AMPLE] {
                    cases.push(Asked::of(plant, built, index, index));
                }
            }
        }
    }
    cases
}

/// The candidate's cover just met and just missed, by the sewage, by the dose and
/// in up to four terms.
pub fn covers() -> Vec<Asked> {
    let mut random = Random::new(SEED + 5);
    let mut cases = Vec::new();
    for (plant, _) in runs() {
        let count = random.within(1, MOST_TERMS as u32) as usize;
        let terms: Vec<TermWords> = (0..count)
            .map(|_| random_term(&mut random, &plant))
            .collect();
        let seasons = plant.with_terms(&terms);
        let moved = [0, 1].map(|past| {
            let mut moved = vec![
                on_cover(plant, u64::from(past)),
                on_dose(plant, past),
                on_dose(seasons, past),
            ];
            for place in 0..count {
                moved.push(on_term_cover(seasons, place, u64::from(past)));
                moved.push(on_term_dose(seasons, place, past));
            }
            moved
        });
        for plant in moved.into_iter().flatten().flatten() {
            cases.push(Asked::of(plant, AMPLE, LEAST_INDEX, MOST_INDEX));
            cases.push(Asked::of(plant, AMPLE, 100, 101));
        }
    }
    cases
}

/// What a tank needs, whether its solids and its volume are allowed or not.
fn needed(plant: &Request) -> Option<Sizes> {
    let found = figures::of_request(plant)?;
    let decoded = plant.decoded().ok()?;
    let sludge = stages::sludge(&decoded.plant, &accepted(plant)?, &found.nitrate);
    let solids = reactor_solids(decoded.plant.process, found.settling.solids);
    let reactor = reactor_volume(sludge.mass, solids);
    let sizes = [reactor, found.settling.surface, found.settling.depth];
    Some(sizes.map(|size| size as u32))
}

/// Solids of 1,000 and just less, and diluted sludge volumes of 600 and just more,
/// at an index of the span; the plant's own index is another.
pub fn solids_and_volumes() -> Vec<Asked> {
    let mut random = Random::new(SEED + 6);
    let tanks = OnLines::find();
    let lists = [
        &tanks.least_solids,
        &tanks.solids_too_low,
        &tanks.most_volume,
        &tanks.volume_too_high,
    ];
    let mut cases = Vec::new();
    for (plant, _) in runs() {
        for list in lists {
            let tank: Tank = random.pick(list);
            let flow = if tank.fits(0) { random.within(0, 1) } else { 1 };
            let plant = tank.put_in(plant, flow);
            let Some(sizes) = needed(&plant) else {
                continue;
            };
            let own = random.within(LEAST_INDEX, MOST_INDEX);
            let plant = plant.with(SLUDGE_VOLUME_INDEX, own);
            for built in [sizes, with_size(AMPLE, REACTOR, sizes[REACTOR])] {
                cases.push(Asked::of(plant, built, tank.index, tank.index));
            }
        }
    }
    cases
}
