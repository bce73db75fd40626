//! Choices: ties, the best fraction not the least covered one, no design,
//! and limits of the site that decide.

use crate::collection::{chosen, Collection};
use crate::lines::{accepted, on_cover};
use crate::plants;
use crate::random::Random;
use crate::request::*;
use reference::examine::most_return;
use reference::settling::{cube_root, settling_volume, solids_allowed};
use reference::sludge::{reactor_solids, reactor_volume};
use reference::stages::{self, Settling};
use reference::{Answer, Plant};

/// Total, fraction, return ratio and thickening time.
type Rank = (u64, u64, u64, u64);

/// A settling tank that keeps the rules 8 to 10, for the search.
struct Kept {
    return_ratio: u64,
    thickening: u64,
    reactor_solids: u64,
    volume: u64,
}

fn kept_tanks(plant: &Plant) -> Vec<Kept> {
    let mut kept = Vec::new();
    for_each_tank(plant, |return_ratio, thickening, tank| {
        if solids_allowed(tank.solids, tank.diluted_volume)
            && tank.surface <= u64::from(plant.site_surface)
            && tank.depth <= u64::from(plant.site_depth)
        {
            kept.push(Kept {
                return_ratio,
                thickening,
                reactor_solids: reactor_solids(plant.process, tank.solids),
                volume: settling_volume(tank.surface, tank.depth),
            });
        }
    });
    kept
}

fn for_each_tank(plant: &Plant, mut visit: impl FnMut(u64, u64, Settling)) {
    for time in 20..=25 {
        let root = cube_root(time);
        for ratio in 30..=u64::from(most_return(plant.tank_flow)) {
            visit(ratio, time, stages::settling(plant, ratio, time, root));
        }
    }
}

/// Every permitted candidate with the least total, the chosen one first.
/// Only for the search: the answers are those of the plain sweep.
fn least(request: &Request) -> Vec<Rank> {
    let Some(accepted) = accepted(request) else {
        return Vec::new();
    };
    let plant = request.decoded().ok().unwrap().plant;
    let tanks = kept_tanks(&plant);
    let mut ranks: Vec<Rank> = Vec::new();
    for fraction in 200..=500 {
        let nitrate = stages::nitrate(&plant, &accepted, fraction);
        if !nitrate.is_covered() {
            continue;
        }
        let mass = stages::sludge(&plant, &accepted, &nitrate).mass;
        for tank in &tanks {
            let total = reactor_volume(mass, tank.reactor_solids) + tank.volume;
            let best = ranks.first().map_or(u64::MAX, |first| first.0);
            if total < best {
                ranks.clear();
            }
            if total <= best {
                ranks.push((total, fraction, tank.return_ratio, tank.thickening));
            }
        }
    }
    ranks.sort_unstable();
    ranks
}

/// How another candidate of the same total differs from the chosen one.
fn ties_between(first: Rank, other: Rank) -> [bool; 6] {
    let (_, f, r, h) = first;
    let (_, f2, r2, h2) = other;
    [
        f2 > f,
        f2 == f && r2 > r,
        f2 == f && r2 == r && h2 > h,
        f2 > f && r2 < r,
        f2 > f && h2 < h,
        f2 == f && r2 > r && h2 < h,
    ]
}

const TIES: [&str; 6] = [
    "tie across f",
    "tie across r",
    "tie across h",
    "tie: larger f with smaller r",
    "tie: larger f with smaller h",
    "tie: larger r with smaller h",
];

/// Plants in which candidates of equal total differ in f, in r and in h.
pub fn ties(cases: &mut Collection, random: &mut Random) {
    let mut found = [0; 6];
    for _ in 0..40_000 {
        if found.iter().all(|count| *count >= 3) {
            return;
        }
        let flow = random.spread(5, 2_000);
        let plant = plants::plausible(random)
            .with(FLOW, flow)
            .with(WET_WEATHER_FLOW, flow / 8 + 1);
        let ranks = least(&plant);
        let Some(first) = ranks.first() else {
            continue;
        };
        for (kind, count) in found.iter_mut().enumerate() {
            let tied = ranks.iter().any(|other| ties_between(*first, *other)[kind]);
            if tied && *count < 3 {
                *count += 1;
                cases.choose(TIES[kind], plant);
                break;
            }
        }
    }
}

/// The chosen fraction and the least covered one.
pub fn fractions(request: &Request) -> Option<(u64, u64)> {
    let accepted = accepted(request)?;
    let plant = request.decoded().ok()?.plant;
    let covered =
        (200..=500).find(|fraction| stages::nitrate(&plant, &accepted, *fraction).is_covered())?;
    let decoded = request.decoded().ok()?;
    match reference::choose(&decoded.plant, &decoded.readings) {
        Answer::Sheet(sheet) => Some((sheet.fraction, covered)),
        Answer::Refused(_) => None,
    }
}

/// Plants whose best fraction is not the least covered one; in some the least
/// covered fraction is above 200.
pub fn heavier_first(cases: &mut Collection, random: &mut Random) {
    let mut found = [0; 2];
    for _ in 0..5_000 {
        if found == [3, 3] {
            return;
        }
        let plain = plants::plausible(random).with_measured(SOLIDS, 0);
        let plant = on_cover(plain, 0).unwrap_or(plain);
        let Some((chosen, covered)) = fractions(&plant) else {
            continue;
        };
        let above = usize::from(covered > 200);
        if chosen > covered && found[above] < 3 {
            found[above] += 1;
            cases.choose(
                ["best f not the least, 200", "best f not the least"][above],
                plant,
            );
        }
    }
}

/// Which rules leave no candidate: 7; 9; 10, where a tank breaks it alone; or
/// 9 and 10 for all but tanks that break 8 alone.
fn cause(request: &Request) -> Option<&'static str> {
    let accepted = accepted(request)?;
    let plant = request.decoded().ok()?.plant;
    if !stages::nitrate(&plant, &accepted, 500).is_covered() {
        return Some("no design: nitrate");
    }
    let (mut shallow, mut thin, mut kept) = (false, false, false);
    for_each_tank(&plant, |_, _, tank| {
        let surface = tank.surface <= u64::from(plant.site_surface);
        let depth = tank.depth <= u64::from(plant.site_depth);
        let solids = solids_allowed(tank.solids, tank.diluted_volume);
        match (solids, surface, depth) {
            (true, true, true) => kept = true,
            (true, true, false) => shallow = true,
            (false, true, true) => thin = true,
            _ => {}
        }
    });
    if kept {
        return None;
    }
    Some(match (thin, shallow) {
        (true, _) => "no design: solids and site",
        (false, true) => "no design: depth",
        (false, false) => "no design: surface",
    })
}

const CAUSES: [&str; 4] = [
    "no design: nitrate",
    "no design: surface",
    "no design: depth",
    "no design: solids and site",
];

/// A site close to the least surface and the least depth of the tanks.
fn with_tight_site(random: &mut Random, request: Request) -> Request {
    let plant = request.decoded().ok().unwrap().plant;
    let (mut surface, mut depth) = (100_000, 10_000);
    for_each_tank(&plant, |_, _, tank| {
        if solids_allowed(tank.solids, tank.diluted_volume) {
            surface = surface.min(tank.surface as u32);
            depth = depth.min(tank.depth as u32);
        }
    });
    let surface = surface + random.within(0, surface / 20);
    let depth = depth + random.within(0, 200);
    request
        .with(SITE_SURFACE, surface.min(100_000))
        .with(SITE_DEPTH, depth.min(10_000))
}

/// A plant that may have no design.
fn cramped(random: &mut Random) -> Request {
    let plant = plants::plausible(random);
    match random.within(0, 3) {
        0 => plant
            .with(SITE_DEPTH, 3_000)
            .with(REMOVAL, 1)
            .with(TANK_FLOW, 1)
            .with(SLUDGE_VOLUME_INDEX, random.within(160, MOST_INDEX)),
        1 => with_tight_site(random, plant),
        _ => plant
            .with(SITE_SURFACE, random.spread(1, 100_000))
            .with(SITE_DEPTH, random.within(3_000, 6_000)),
    }
}

/// Accepted plants without a design, three of each cause.
pub fn no_design(cases: &mut Collection, random: &mut Random) {
    let mut found = [0; 4];
    for _ in 0..100_000 {
        if found.iter().all(|count| *count >= 3) {
            return;
        }
        let plant = cramped(random);
        let Some(kind) = cause(&plant) else {
            continue;
        };
        let place = CAUSES.iter().position(|each| *each == kind).unwrap();
        if found[place] < 3 && chosen(&plant) == 5 {
            found[place] += 1;
            cases.choose(kind, plant);
        }
    }
}

/// The site cut down to the chosen tank, and then below it.
pub fn site_limits(cases: &mut Collection, random: &mut Random) {
    let mut found = 0;
    while found < 4 {
        let plant = plants::plausible(random)
            .with(SITE_SURFACE, 100_000)
            .with(SITE_DEPTH, 10_000);
        let decoded = plant.decoded().ok().unwrap();
        let answer = reference::choose(&decoded.plant, &decoded.readings);
        let Answer::Sheet(sheet) = answer else {
            continue;
        };
        let surface = sheet.settling_surface as u32;
        let depth = sheet.settling_depth as u32;
        if surface == 1 || depth <= 3_000 {
            continue;
        }
        found += 1;
        let exact = plant.with(SITE_SURFACE, surface).with(SITE_DEPTH, depth);
        cases.choose("site just holds the choice", exact);
        cases.choose(
            "site one below the choice",
            plant.with(SITE_SURFACE, surface - 1),
        );
        cases.choose(
            "site one below the choice",
            plant.with(SITE_DEPTH, depth - 1),
        );
    }
}

/// Random plants, examined and chosen for.
pub fn plain(cases: &mut Collection, random: &mut Random) {
    for _ in 0..2 {
        cases.examine("random", plants::plausible(random));
        cases.choose("random", plants::plausible(random));
        cases.examine("random", plants::anything(random));
        cases.choose("random", plants::anything(random));
    }
}
