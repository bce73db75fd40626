//! Examining one candidate.

use crate::aeration::*;
use crate::age::{decay, weighted_sludge_age};
use crate::cod::{self, Chain};
use crate::plant::{Plant, TankFlow, Way};
use crate::reading::{accept, Reading};
use crate::refusal;
use crate::settling::*;
use crate::sheet::{Answer, Sheet};
use crate::sludge::{reactor_solids, reactor_volume};
use crate::stages::{self, Nitrate, Sludge};

#[derive(Clone, Copy, Debug, PartialEq, Eq)]
pub struct Candidate {
    /// f, denitrification fraction, thousandths
    pub fraction: u32,
    /// r, return ratio, hundredths
    pub return_ratio: u32,
    /// h, thickening time, tenths of an hour
    pub thickening: u32,
}

/// Largest return ratio of the grid.
pub fn most_return(flow: TankFlow) -> u32 {
    match flow {
        TankFlow::Horizontal => 75,
        TankFlow::Vertical => 100,
    }
}

pub fn on_grid(flow: TankFlow, candidate: Candidate) -> bool {
    (200..=500).contains(&candidate.fraction)
        && (30..=most_return(flow)).contains(&candidate.return_ratio)
        && (20..=25).contains(&candidate.thickening)
}

/// Nitrification in all terms of the consent, then cover in all; or 15 or 16.
fn hold_terms(
    plant: &Plant,
    accepted: &[u64; 5],
    fraction: u64,
    nitrate: &Nitrate,
) -> Result<(), u8> {
    let terms = stages::terms(plant, accepted, fraction, nitrate);
    if terms.iter().flatten().any(|term| !term.nitrifies()) {
        return Err(refusal::TERM_NITRIFICATION);
    }
    if terms.iter().flatten().any(|term| !term.is_covered) {
        return Err(refusal::TERM_NITRATE);
    }
    Ok(())
}

/// What depends on the fraction alone, or refusal 7, 15 or 16.
fn biology(plant: &Plant, accepted: &[u64; 5], fraction: u64) -> Result<(Nitrate, Sludge), u8> {
    let nitrate = stages::nitrate(plant, accepted, fraction);
    if !nitrate.is_covered() {
        return Err(refusal::NITRATE);
    }
    hold_terms(plant, accepted, fraction, &nitrate)?;
    Ok((nitrate, stages::sludge(plant, accepted, &nitrate)))
}

/// Figures of the settling tank.
struct Tank {
    solids: u64,
    surface: u64,
    depth: u64,
}

/// What depends on return ratio and thickening time alone, or 8, 9 or 10.
fn tank(plant: &Plant, ratio: u64, time: u64, root: u64) -> Result<Tank, u8> {
    let index = u64::from(plant.sludge_volume_index);
    let solids = stages::solids(index, plant.removal, ratio, root);
    if !solids.are_allowed() {
        return Err(refusal::SOLIDS);
    }
    let rate = solids.overflow_rate(plant.tank_flow);
    let surface = settling_surface(u64::from(plant.wet_weather_flow), rate);
    if surface > u64::from(plant.site_surface) {
        return Err(refusal::SURFACE);
    }
    let depth = raised(solids.zones(rate, ratio, time));
    if depth > u64::from(plant.site_depth) {
        return Err(refusal::DEPTH);
    }
    Ok(Tank {
        solids: solids.solids,
        surface,
        depth,
    })
}

/// Oxygen for carbon removal, g/d, by the plant's way.
fn oxygen_for_carbon(plant: &Plant, accepted: &[u64; 5], weighted_age: u64) -> u64 {
    let [bod, cod, solids, ..] = *accepted;
    let flow = u64::from(plant.daily_flow);
    match plant.way {
        Way::Bod => carbon_oxygen(flow, bod, uptake_for_aeration(weighted_age)),
        Way::Cod => {
            let oxygen = cod::uptake(Chain::Aeration, cod, solids, weighted_age);
            cod::daily_oxygen(flow, oxygen)
        }
    }
}

/// Hourly oxygen and transfer, g/h.
fn aeration(plant: &Plant, accepted: &[u64; 5], fraction: u64, nitrate: &Nitrate) -> (u64, u64) {
    let flow = u64::from(plant.daily_flow);
    let factor = decay(u64::from(plant.aeration_temperature));
    let weighted = weighted_sludge_age(nitrate.age, factor);
    let carbon = oxygen_for_carbon(plant, accepted, weighted);
    let saved = saved_oxygen(flow, nitrate.left_to_bod());
    let hourly = hourly_oxygen(
        less_saved(plant.way, carbon, saved),
        nitrification_oxygen(flow, nitrate.to_nitrify),
        u64::from(plant.carbon_peak_factor),
        u64::from(plant.nitrogen_peak_factor),
    );
    let saturation = u64::from(plant.oxygen_saturation);
    let transfer = transfer_of(plant.process, saturation, hourly, fraction);
    (hourly, transfer)
}

/// The sheet of a candidate of the grid on accepted data; `root` is the
/// cube root of its thickening time.
pub fn design(
    plant: &Plant,
    accepted: &[u64; 5],
    candidate: Candidate,
    root: u64,
) -> Result<Sheet, u8> {
    let fraction = u64::from(candidate.fraction);
    let ratio = u64::from(candidate.return_ratio);
    let time = u64::from(candidate.thickening);
    let (nitrate, sludge) = biology(plant, accepted, fraction)?;
    let tank = tank(plant, ratio, time, root)?;
    let reactor = reactor_volume(sludge.mass, reactor_solids(plant.process, tank.solids));
    let volume = settling_volume(tank.surface, tank.depth);
    let (hourly, transfer) = aeration(plant, accepted, fraction, &nitrate);
    let target = u64::from(plant.nitrate_target);
    Ok(Sheet {
        fraction,
        return_ratio: ratio,
        thickening: time,
        sludge_age: nitrate.age,
        sludge_production: sludge.production,
        sludge_mass: sludge.mass,
        solids: tank.solids,
        reactor_volume: reactor,
        settling_surface: tank.surface,
        settling_depth: tank.depth,
        settling_volume: volume,
        total_volume: reactor + volume,
        recirculation: recirculation(plant.process, nitrate.to_nitrify, target),
        hourly_oxygen: hourly,
        oxygen_transfer: transfer,
    })
}

/// Acceptance, then the given candidate: refusals 1, 17, 2 to 4, 14, 6, 7, 15,
/// 16 and 8 to 10 in this order, else the sheet.
pub fn examine(plant: &Plant, readings: &[Reading; 5], candidate: Candidate) -> Answer {
    let accepted = match accept(plant, readings) {
        Ok(accepted) => accepted,
        Err(number) => return Answer::Refused(number),
    };
    if !on_grid(plant.tank_flow, candidate) {
        return Answer::Refused(refusal::OFF_GRID);
    }
    let root = cube_root(u64::from(candidate.thickening));
    match design(plant, &accepted, candidate, root) {
        Ok(sheet) => Answer::Sheet(sheet),
        Err(number) => Answer::Refused(number),
    }
}
