//! Plants in the COD way, and moved on to its lines.

use crate::figures;
use crate::lines::accepted;
use crate::plants::with_near;
use crate::random::Random;
use crate::request::*;
use reference::age::{decay, weighted_sludge_age};
use reference::cod::{self, Chain};
use reference::Plant;

/// Largest result of the solids.
const MOST_SOLIDS: u64 = 2_000_000;

/// The plant in the COD way; in half of them the COD has a ratio of its own to
/// the BOD, and in some of these there are solids up to more than the COD
/// holds.
pub fn in_cod_way(random: &mut Random, request: Request) -> Request {
    let changed = request.with(WAY, BY_COD);
    let Some([bod, ..]) = accepted(&changed) else {
        return changed;
    };
    if random.one_in(2) {
        return changed;
    }
    let cod = bod * u64::from(random.spread(30, 1_500)) / 100;
    let cod = cod.clamp(20_100, 4_399_000);
    let changed = with_near(random, changed, COD, cod);
    if random.one_in(2) {
        let solids = cod * u64::from(random.within(0, 300)) / 100;
        with_near(random, changed, SOLIDS, solids.min(MOST_SOLIDS - 1_000))
    } else {
        changed
    }
}

/// One plant in three in the COD way.
pub fn with_random_way(random: &mut Random, request: Request) -> Request {
    if random.one_in(3) {
        in_cod_way(random, request)
    } else {
        request
    }
}

/// Solids changed so that the inert parts leave so much of the COD, by the
/// roundings of a chain; below zero where they exceed it.
pub fn on_degradable(request: Request, chain: Chain, left: i64) -> Option<Request> {
    let cod = accepted(&request)?[1];
    let inert = (cod - cod::inert_soluble(chain, cod)) as i64 - left;
    let about = inert * 100_000 / 35_525;
    let of = |solids: u64| cod::inert_particulate(chain, cod::particulate(chain, solids)) as i64;
    let mut near = (about.max(8) - 8..about + 8).map(|solids| solids as u64);
    let solids = near.find(|solids| of(*solids) == inert)?;
    (solids <= MOST_SOLIDS).then(|| request.with_measured(SOLIDS, solids))
}

/// Carbon's oxygen of a plant in the COD way at its candidate, g/d.
fn carbon_oxygen(plant: &Plant, accepted: &[u64; 5], age: u64) -> u64 {
    let weighted = weighted_sludge_age(age, decay(u64::from(plant.aeration_temperature)));
    let oxygen = cod::uptake(Chain::Aeration, accepted[1], accepted[2], weighted);
    cod::daily_oxygen(u64::from(plant.daily_flow), oxygen)
}

/// Nitrogen changed so that the nitrate saves as much oxygen as carbon takes, or
/// just less, and so much nitrate over.
pub fn on_saved(request: Request, over: u64) -> Option<Request> {
    let accepted = accepted(&request)?;
    let plant = request.decoded().ok()?.plant;
    let nitrate = figures::of_request(&request)?.nitrate;
    let carbon = carbon_oxygen(&plant, &accepted, nitrate.age);
    let left = (10_000 * (carbon + 1) - 1) / (29 * u64::from(plant.daily_flow));
    let target = u64::from(plant.nitrate_target);
    let nitrogen = left + over + nitrate.by_dose + target + 2_000 + 4 * accepted[0] / 100;
    (nitrogen <= 500_000).then(|| request.with_measured(NITROGEN, nitrogen))
}

/// A dose about the least that makes sludge.
pub fn dose_about_the_least(random: &mut Random) -> u32 {
    random.within(9_999, 10_002)
}
