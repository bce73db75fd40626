//! Plants in the COD way whose sheet or cover shows that an equation is rounded
//! the other way, in each of the three chains.

use crate::cod_lines::in_cod_way;
use crate::collection::{examined, Collection};
use crate::figures;
use crate::lines::{accepted, on_cover, on_term_cover};
use crate::plants;
use crate::random::Random;
use crate::request::*;
use reference::aeration::{hourly_oxygen, less_saved, nitrification_oxygen, saved_oxygen};
use reference::age::{decay, weighted_sludge_age};
use reference::cod::{self, Chain};
use reference::stages::InTerm;
use reference::Way;

use super::terms::{searched, with_temperatures};

/// For each step whether it is rounded up: A7, A4, A3, A11, A13, then A6 and the
/// daily amount.
type Roundings = [bool; 7];

const SLUDGE: Roundings = [true, true, false, true, true, true, true];
const AERATION: Roundings = [false, false, false, false, false, true, true];
const COVER: Roundings = [true, true, true, true, true, true, false];

fn divided(numerator: u64, divisor: u64, up: bool) -> u64 {
    match up {
        true => numerator.div_ceil(divisor),
        false => numerator / divisor,
    }
}

/// What a balance starts from.
#[derive(Clone, Copy)]
struct Data {
    cod: u64,
    solids: u64,
    external: u64,
    flow: u64,
    weighted_age: u64,
    fraction: u64,
}

/// Inert soluble COD and sludge as COD with these roundings.
fn balance(data: &Data, up: &Roundings) -> (u64, u64) {
    let particulate = divided(1015 * data.solids, 1000, up[0]);
    let inert = divided(35 * particulate, 100, up[1]);
    let soluble = divided(5 * data.cod, 100, up[2]);
    let degradable = data.cod.saturating_sub(soluble + inert) + data.external;
    let biomass = divided(67_000 * degradable, 100_000 + 17 * data.weighted_age, up[3]);
    let left = divided(34 * biomass * data.weighted_age, 1_000_000, up[4]);
    (soluble, inert + biomass + left)
}

fn sludge(data: &Data, up: &Roundings) -> u64 {
    let (_, sludge) = balance(data, up);
    let inorganic = divided(3 * data.solids, 10, up[5]);
    let daily = data.flow * (100 * sludge + 116 * inorganic);
    divided(daily, 116_000, up[6])
}

fn oxygen(data: &Data, up: &Roundings) -> u64 {
    let (soluble, sludge) = balance(data, up);
    data.cod.saturating_sub(soluble + sludge)
}

fn aeration(data: &Data, up: &Roundings) -> u64 {
    divided(data.flow * oxygen(data, up), 1000, up[6])
}

fn removed(data: &Data, up: &Roundings) -> u64 {
    divided(75 * data.fraction * oxygen(data, up), 290_000, up[6])
}

/// The data of a request at a temperature and a fraction, without its dose.
fn data(request: &Request, temperature: u32, fraction: u64) -> Option<Data> {
    let [_, cod, solids, ..] = accepted(request)?;
    let age = figures::of_request(request)?.nitrate.age;
    Some(Data {
        cod,
        solids,
        external: 0,
        flow: u64::from(request.get(FLOW)),
        weighted_age: weighted_sludge_age(age, decay(u64::from(temperature))),
        fraction,
    })
}

/// The roundings with one of them turned.
fn turned(roundings: &Roundings, step: usize) -> Roundings {
    let mut turned = *roundings;
    turned[step] = !turned[step];
    turned
}

/// A random plant in the COD way.
fn any(random: &mut Random) -> Request {
    let plant = plants::plausible(random);
    in_cod_way(random, plant)
}

/// For each step of the sludge, and of carbon's oxygen, plants with a sheet that
/// differs where the step is turned.
pub fn sheets(cases: &mut Collection, random: &mut Random) {
    for step in 0..7 {
        found(cases, random, "COD way, sludge rounded", |request| {
            let mut data = data(request, request.get(DESIGN_TEMPERATURE), 0)?;
            data.external = cod::external_carbon(u64::from(request.get(DOSE)));
            Some(sludge(&data, &SLUDGE) != sludge(&data, &turned(&SLUDGE, step)))
        });
    }
    for step in [0, 1, 2, 3, 4, 6] {
        found(cases, random, "COD way, oxygen rounded", |request| {
            let data = data(request, request.get(AERATION_TEMPERATURE), 0)?;
            let hourly = |up: &Roundings| hourly(request, aeration(&data, up));
            Some(hourly(&AERATION)? != hourly(&turned(&AERATION, step))?)
        });
    }
}

/// Two plants with a sheet that have the wanted property; one in three has a
/// dose.
fn found(
    cases: &mut Collection,
    random: &mut Random,
    kind: &'static str,
    wanted: impl Fn(&Request) -> Option<bool>,
) {
    let mut count = 0;
    while count < 2 {
        let mut plant = any(random);
        if random.one_in(3) {
            plant = plant.with(DOSE, random.within(1, 100_000));
        }
        if examined(&plant) == 0 && wanted(&plant) == Some(true) {
            cases.examine(kind, plant);
            count += 1;
        }
    }
}

/// The hourly oxygen of a request with this oxygen for carbon.
fn hourly(request: &Request, carbon: u64) -> Option<u64> {
    let nitrate = figures::of_request(request)?.nitrate;
    let flow = u64::from(request.get(FLOW));
    let saved = saved_oxygen(flow, nitrate.left_to_bod());
    Some(hourly_oxygen(
        less_saved(Way::Cod, carbon, saved),
        nitrification_oxygen(flow, nitrate.to_nitrify),
        u64::from(request.get(CARBON_PEAK)),
        u64::from(request.get(NITROGEN_PEAK)),
    ))
}

/// For each step of the cover, in the design and in a term, a candidate just
/// missed that would be covered where the step is turned.
pub fn covers(cases: &mut Collection, random: &mut Random) {
    for process in 1..=2 {
        for step in [0, 1, 2, 3, 4, 6] {
            let request = loop {
                let plant = any(random).with(PROCESS, process);
                let fraction = u64::from(plant.get(FRACTION));
                let Some(data) = data(&plant, plant.get(DESIGN_TEMPERATURE), fraction) else {
                    continue;
                };
                if removed(&data, &COVER) == removed(&data, &turned(&COVER, step)) {
                    continue;
                }
                let met = on_cover(plant, 0).filter(|met| examined(met) == 0);
                if let Some(missed) = met.and_then(|met| on_cover(met, 1)) {
                    break missed;
                }
            };
            cases.examine("COD way, cover rounded", request);
            if step % 2 == process as usize % 2 {
                let request = in_term(random, process, step);
                cases.examine("COD way, term's cover rounded", request);
            }
        }
    }
}

/// A term just missed that would be covered where the step is turned.
fn in_term(random: &mut Random, process: u32, step: usize) -> Request {
    let moved = |random: &mut Random, plant: Request| {
        let plant = in_cod_way(random, plant);
        on_term_cover(with_temperatures(random, plant, (8, 20), (10, 20)), 0, 0)
    };
    let wanted = |request: &Request, term: &InTerm| {
        let temperature = request.get(term_word(0, TERM_TEMPERATURE));
        let data = data(request, temperature, term.fraction).unwrap();
        term.by_bod > 0
            && on_term_cover(*request, 0, 1).is_some()
            && removed(&data, &COVER) != removed(&data, &turned(&COVER, step))
    };
    let met = searched(random, process, moved, wanted);
    on_term_cover(met, 0, 1).unwrap()
}

/// The three chains as the reference has them.
pub fn agree(request: &Request) -> bool {
    let fraction = u64::from(request.get(FRACTION));
    let Some(at) = data(request, request.get(DESIGN_TEMPERATURE), fraction) else {
        return true;
    };
    let uptake = |chain| cod::uptake(chain, at.cod, at.solids, at.weighted_age);
    sludge(&at, &SLUDGE) == cod::carbon_sludge(at.flow, at.cod, at.solids, 0, at.weighted_age)
        && oxygen(&at, &AERATION) == uptake(Chain::Aeration)
        && oxygen(&at, &COVER) == uptake(Chain::Cover)
}
