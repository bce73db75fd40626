//! Settling tanks on the lines of rule 8, the overflow rate, the least depth
//! and the site's limits.

use crate::collection::{examined, Collection};
use crate::lines::{on_depth, on_surface};
use crate::plants::{self, roomy};
use crate::random::Random;
use crate::request::*;
use crate::tanks::{OnLines, Tank};

/// Some tanks of a list, each in a flow that it fits.
fn some(
    cases: &mut Collection,
    random: &mut Random,
    kind: &'static str,
    tanks: &[Tank],
    count: usize,
) {
    for turn in 0..count.min(tanks.len()) {
        let tank = random.pick(tanks);
        let flow = if tank.fits(0) { turn as u32 % 2 } else { 1 };
        cases.examine(kind, tank.put_in(roomy(), flow));
    }
}

/// Some tanks of each flow.
fn by_flow(
    cases: &mut Collection,
    random: &mut Random,
    kind: &'static str,
    tanks: &[Vec<Tank>; 2],
) {
    for flow in [0, 1] {
        for _ in 0..2 {
            if !tanks[flow].is_empty() {
                let tank = random.pick(&tanks[flow]);
                cases.examine(kind, tank.put_in(roomy(), flow as u32));
            }
        }
    }
}

/// Rule 8 by the root's fourth digit, and every thickening time at an index
/// of 50, where a digit of the root moves the solids most.
pub fn finer(cases: &mut Collection, random: &mut Random) {
    let lines = OnLines::find();
    some(
        cases,
        random,
        "kept by the fourth digit",
        &lines.kept_by_digit,
        6,
    );
    some(
        cases,
        random,
        "broken by the fourth digit",
        &lines.broken_by_digit,
        6,
    );
    for time in 20..=25 {
        for (removal, ratio) in [(1, 30), (0, 60)] {
            let plant = roomy()
                .with(SLUDGE_VOLUME_INDEX, 50)
                .with(REMOVAL, removal)
                .with_candidate(310, ratio, time);
            cases.examine("index of 50", plant);
        }
    }
}

pub fn tanks(cases: &mut Collection, random: &mut Random) {
    let lines = OnLines::find();
    some(cases, random, "solids at 1,000", &lines.least_solids, 4);
    some(
        cases,
        random,
        "solids below 1,000",
        &lines.solids_too_low,
        4,
    );
    some(cases, random, "volume at 600", &lines.most_volume, 4);
    some(cases, random, "volume above 600", &lines.volume_too_high, 4);
    by_flow(cases, random, "overflow rate held", &lines.rate_held);
    by_flow(
        cases,
        random,
        "overflow rate below its limit",
        &lines.rate_free,
    );
    by_flow(cases, random, "zones just below 3,000", &lines.just_raised);
    by_flow(cases, random, "zones of 3,000", &lines.just_met);
    by_flow(cases, random, "zones just above 3,000", &lines.just_above);
    for (kind, list) in [
        ("3,000 on a site of 3,000", &lines.just_raised),
        ("3,000 on a site of 3,000", &lines.just_met),
        ("above 3,000 on a site of 3,000", &lines.just_above),
    ] {
        on_shallow_site(cases, random, kind, list);
    }
}

/// A tank of each flow on the shallowest site.
fn on_shallow_site(
    cases: &mut Collection,
    random: &mut Random,
    kind: &'static str,
    tanks: &[Vec<Tank>; 2],
) {
    for flow in [0, 1] {
        if !tanks[flow].is_empty() {
            let site = roomy().with(SITE_DEPTH, 3_000);
            let tank = random.pick(&tanks[flow]);
            cases.examine(kind, tank.put_in(site, flow as u32));
        }
    }
}

/// A random plant with a sheet on the largest site.
fn with_sheet(random: &mut Random) -> Request {
    loop {
        let plant = plants::plausible(random)
            .with(SITE_SURFACE, 100_000)
            .with(SITE_DEPTH, 10_000);
        if examined(&plant) == 0 {
            return plant;
        }
    }
}

/// Surface and depth at the site's limits, and one past.
pub fn site(cases: &mut Collection, random: &mut Random) {
    for _ in 0..4 {
        let plant = with_sheet(random);
        for (kind, moved) in [
            ("surface at the site's", on_surface(plant, 0)),
            ("surface above the site's", on_surface(plant, 1)),
            ("depth at the site's", on_depth(plant, 0)),
            ("depth above the site's", on_depth(plant, 1)),
        ] {
            if let Some(request) = moved {
                cases.examine(kind, request);
            }
        }
    }
}
