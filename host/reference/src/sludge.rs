//! Sludge production, sludge mass and reactor volume.

use crate::plant::{Precipitant, Process, Steps};
use crate::rounding::{down, up};

/// e: loss by endogenous respiration, g per kg BOD; below 600.
pub fn endogenous_loss(weighted_age: u64) -> u64 {
    down(10200 * weighted_age, 100000 + 17 * weighted_age)
}

/// Sludge from carbon removal, g/d.
pub fn carbon_sludge(daily_flow: u64, bod: u64, solids: u64, loss: u64) -> u64 {
    up(daily_flow * ((750 - loss) * bod + 600 * solids), 1_000_000)
}

/// Phosphorus to be precipitated.
pub fn phosphorus_to_precipitate(phosphorus: u64, target: u64, bod: u64) -> u64 {
    phosphorus.saturating_sub(target + down(bod, 100))
}

/// k: precipitation sludge per phosphorus, tenths of g/g.
pub fn sludge_per_phosphorus(precipitant: Precipitant) -> u64 {
    match precipitant {
        Precipitant::Iron => 68,
        Precipitant::Aluminium => 53,
    }
}

/// Sludge from phosphorus precipitation, g/d.
pub fn phosphorus_sludge(daily_flow: u64, precipitant: Precipitant, to_precipitate: u64) -> u64 {
    let yield_tenths = sludge_per_phosphorus(precipitant);
    up(daily_flow * yield_tenths * to_precipitate, 10_000)
}

/// M: sludge mass in the reactor, kg.
pub fn sludge_mass(sludge_age: u64, production: u64) -> u64 {
    up(sludge_age * production, 1_000_000)
}

/// E': mean solids in the reactor, g/m3; higher than E in step-feed.
pub fn reactor_solids(process: Process, solids: u64) -> u64 {
    match process {
        Process::StepFeed(Steps::Two) => down(114 * solids, 100),
        Process::StepFeed(Steps::Three) => down(120 * solids, 100),
        _ => solids,
    }
}

/// Reactor volume, m3.
pub fn reactor_volume(mass: u64, reactor_solids: u64) -> u64 {
    up(1000 * mass, reactor_solids)
}
