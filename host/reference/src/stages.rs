//! The stages of a candidate of the grid, in the paper's order: nitrate, the
//! terms of the consent and sludge by the fraction alone; solids, surface and
//! depth by return ratio and thickening time alone. Each gives its figures
//! whether a rule is kept or not.

use crate::age::*;
use crate::cod::{self, Chain};
use crate::examine::{on_grid, Candidate};
use crate::nitrogen::*;
use crate::plant::{Plant, Process, Removal, TankFlow, Way};
use crate::reading::{accept, Reading};
use crate::refusal;
use crate::settling as step;
use crate::sludge::*;
use crate::terms::{Term, MOST_TERMS};

/// Figures of sludge age and nitrate.
#[derive(Clone, Copy, Debug)]
pub struct Nitrate {
    pub age: u64,
    pub weighted_age: u64,
    pub to_nitrify: u64,
    pub to_denitrify: u64,
    /// K; the simultaneous and the intermittent process do not use it in the COD
    /// way.
    pub capacity: u64,
    /// K x C or what stands for it, thousandths of mg/m3.
    pub by_sewage: u64,
    pub by_dose: u64,
}

/// K x C, or what stands for it, thousandths of mg/m3: in the COD way the
/// simultaneous and the intermittent process remove by the oxygen.
fn by_sewage(
    plant: &Plant,
    accepted: &[u64; 5],
    fraction: u64,
    capacity: u64,
    weighted_age: u64,
) -> u64 {
    let [bod, cod, solids, ..] = *accepted;
    match (plant.way, plant.process) {
        (Way::Cod, Process::Simultaneous | Process::Intermittent) => {
            let oxygen = cod::uptake(Chain::Cover, cod, solids, weighted_age);
            cod::removed_by_oxygen(fraction, oxygen)
        }
        _ => capacity * bod,
    }
}

pub fn nitrate(plant: &Plant, accepted: &[u64; 5], fraction: u64) -> Nitrate {
    let [bod, _, _, nitrogen, _] = *accepted;
    let temperature = u64::from(plant.design_temperature);
    let factor = safety_factor(u64::from(plant.bod_load));
    let age = sludge_age(aerobic_sludge_age(factor, growth(temperature)), fraction);
    let weighted_age = weighted_sludge_age(age, decay(temperature));
    let to_nitrify = nitrogen_to_nitrify(nitrogen, bod);
    let capacity = denitrification_capacity(plant.process, fraction, temperature, weighted_age);
    Nitrate {
        age,
        weighted_age,
        to_nitrify,
        to_denitrify: nitrate_to_denitrify(to_nitrify, u64::from(plant.nitrate_target)),
        capacity,
        by_sewage: by_sewage(plant, accepted, fraction, capacity, weighted_age),
        by_dose: removed_by_dose(u64::from(plant.dose)),
    }
}

impl Nitrate {
    pub fn is_covered(&self) -> bool {
        is_covered(self.by_sewage, self.by_dose, self.to_denitrify)
    }

    pub fn by_bod(&self) -> u64 {
        removed_by_bod(self.by_sewage)
    }

    pub fn left_to_bod(&self) -> u64 {
        left_to_bod(self.to_denitrify, self.by_dose)
    }
}

/// Figures of a term of the consent.
#[derive(Clone, Copy, Debug, PartialEq, Eq)]
pub struct InTerm {
    /// Part of the sludge age that the term's aerobic age takes, thousandths.
    pub aerobic_share: u64,
    /// The term's fraction; 0 where nitrification is lost.
    pub fraction: u64,
    /// D of the term.
    pub to_denitrify: u64,
    /// K of the term.
    pub capacity: u64,
    /// K x C of the term or what stands for it, thousandths of mg/m3.
    pub by_sewage: u64,
    /// The same in whole mg/m3.
    pub by_bod: u64,
    /// Nitrate that sewage and dose remove together in the term.
    pub removable: u64,
    pub is_covered: bool,
}

impl InTerm {
    /// Whether the sludge age holds the term's aerobic age.
    pub fn nitrifies(&self) -> bool {
        self.aerobic_share <= 1000
    }
}

/// A term, with sludge age, nitrogen to be nitrified and dose of the design.
fn in_term(
    plant: &Plant,
    accepted: &[u64; 5],
    fraction: u64,
    nitrate: &Nitrate,
    term: &Term,
) -> InTerm {
    let temperature = u64::from(term.temperature);
    let factor = safety_factor(u64::from(plant.bod_load));
    let aerobic_age = aerobic_sludge_age(factor, growth(temperature));
    let left = fraction_left(aerobic_age, nitrate.age);
    let fraction = left.map_or(0, |left| left.min(fraction));
    let weighted_age = weighted_sludge_age(nitrate.age, decay(temperature));
    let capacity = capacity_in_term(plant.process, fraction, temperature, weighted_age);
    let target = u64::from(term.nitrate_target);
    let to_denitrify = nitrate_to_denitrify(nitrate.to_nitrify, target);
    let by_sewage = match fraction {
        0..200 => 0,
        _ => by_sewage(plant, accepted, fraction, capacity, weighted_age),
    };
    let by_bod = removed_by_bod(by_sewage);
    InTerm {
        aerobic_share: aerobic_share(aerobic_age, nitrate.age),
        fraction,
        to_denitrify,
        capacity,
        by_sewage,
        by_bod,
        removable: by_bod + nitrate.by_dose,
        is_covered: is_covered(by_sewage, nitrate.by_dose, to_denitrify),
    }
}

/// The terms of an accepted consent in their order; none from the count on.
pub fn terms(
    plant: &Plant,
    accepted: &[u64; 5],
    fraction: u64,
    nitrate: &Nitrate,
) -> [Option<InTerm>; MOST_TERMS] {
    let mut all = [None; MOST_TERMS];
    for (place, term) in plant.consent.named().iter().enumerate() {
        all[place] = Some(in_term(plant, accepted, fraction, nitrate, term));
    }
    all
}

/// Sludge production and sludge mass.
#[derive(Clone, Copy, Debug)]
pub struct Sludge {
    pub production: u64,
    pub mass: u64,
}

/// Sludge from carbon removal, g/d, by the plant's way.
fn sludge_from_carbon(plant: &Plant, accepted: &[u64; 5], weighted_age: u64) -> u64 {
    let [bod, cod, solids, ..] = *accepted;
    let flow = u64::from(plant.daily_flow);
    match plant.way {
        Way::Bod => carbon_sludge(flow, bod, solids, endogenous_loss(weighted_age)),
        Way::Cod => cod::carbon_sludge(flow, cod, solids, u64::from(plant.dose), weighted_age),
    }
}

pub fn sludge(plant: &Plant, accepted: &[u64; 5], nitrate: &Nitrate) -> Sludge {
    let [bod, _, _, _, phosphorus] = *accepted;
    let flow = u64::from(plant.daily_flow);
    let target = u64::from(plant.phosphorus_target);
    let precipitated = phosphorus_to_precipitate(phosphorus, target, bod);
    let production = sludge_from_carbon(plant, accepted, nitrate.weighted_age)
        + phosphorus_sludge(flow, plant.precipitant, precipitated);
    Sludge {
        production,
        mass: sludge_mass(nitrate.age, production),
    }
}

/// Solids of bottom sludge and reactor, and the diluted sludge volume.
#[derive(Clone, Copy, Debug)]
pub struct Solids {
    pub bottom: u64,
    pub solids: u64,
    pub diluted_volume: u64,
}

/// `root` is the cube root of the thickening time.
pub fn solids(index: u64, removal: Removal, ratio: u64, root: u64) -> Solids {
    let bottom = step::bottom_solids(root, index);
    let solids = step::solids(ratio, step::return_solids(removal, bottom));
    Solids {
        bottom,
        solids,
        diluted_volume: step::diluted_sludge_volume(solids, index),
    }
}

impl Solids {
    pub fn are_allowed(&self) -> bool {
        step::solids_allowed(self.solids, self.diluted_volume)
    }

    pub fn overflow_rate(&self, flow: TankFlow) -> u64 {
        step::surface_overflow_rate(flow, self.diluted_volume)
    }

    /// The sum of the depth's zones, before it is raised to the least depth.
    pub fn zones(&self, rate: u64, ratio: u64, time: u64) -> u64 {
        step::zones(
            step::separation_depth(rate, ratio, self.diluted_volume),
            step::storage_depth(rate, ratio, self.diluted_volume),
            step::thickening_depth(self.solids, rate, ratio, time, self.bottom),
        )
    }
}

/// All figures of the settling tank.
#[derive(Clone, Copy, Debug)]
pub struct Settling {
    pub solids: u64,
    pub diluted_volume: u64,
    pub surface: u64,
    pub depth: u64,
}

/// `root` is the cube root of the thickening time.
pub fn settling(plant: &Plant, ratio: u64, time: u64, root: u64) -> Settling {
    let index = u64::from(plant.sludge_volume_index);
    let solids = solids(index, plant.removal, ratio, root);
    let rate = solids.overflow_rate(plant.tank_flow);
    Settling {
        solids: solids.solids,
        diluted_volume: solids.diluted_volume,
        surface: step::settling_surface(u64::from(plant.wet_weather_flow), rate),
        depth: step::raised(solids.zones(rate, ratio, time)),
    }
}

/// What a candidate is judged by, permitted or not.
#[derive(Clone, Copy, Debug)]
pub struct Stages {
    pub nitrate: Nitrate,
    /// Nitrate that the sewage removes.
    pub by_bod: u64,
    /// Nitrate that sewage and dose remove together.
    pub removable: u64,
    /// The terms of the consent; none from the count on.
    pub terms: [Option<InTerm>; MOST_TERMS],
    pub settling: Settling,
}

/// The stages of a candidate, or the refusal 1, 17, 2 to 4, 14 or 6.
pub fn explain(plant: &Plant, readings: &[Reading; 5], candidate: Candidate) -> Result<Stages, u8> {
    let accepted = accept(plant, readings)?;
    if !on_grid(plant.tank_flow, candidate) {
        return Err(refusal::OFF_GRID);
    }
    let time = u64::from(candidate.thickening);
    let ratio = u64::from(candidate.return_ratio);
    let fraction = u64::from(candidate.fraction);
    let nitrate = nitrate(plant, &accepted, fraction);
    let by_bod = nitrate.by_bod();
    Ok(Stages {
        nitrate,
        by_bod,
        removable: by_bod + nitrate.by_dose,
        terms: terms(plant, &accepted, fraction, &nitrate),
        settling: settling(plant, ratio, time, step::cube_root(time)),
    })
}
