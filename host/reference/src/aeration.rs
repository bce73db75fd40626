//! Oxygen demand and recirculation.

use crate::plant::{Process, Way};
use crate::rounding::{down, up};

/// Specific oxygen uptake for aeration, g/kg, rounded up.
pub fn uptake_for_aeration(weighted_age: u64) -> u64 {
    560 + up(15000 * weighted_age, 100000 + 17 * weighted_age)
}

/// Oxygen for carbon removal, g/d.
pub fn carbon_oxygen(daily_flow: u64, bod: u64, uptake: u64) -> u64 {
    up(daily_flow * bod * uptake, 1_000_000)
}

/// Oxygen for nitrification, g/d.
pub fn nitrification_oxygen(daily_flow: u64, to_nitrify: u64) -> u64 {
    up(43 * daily_flow * to_nitrify, 10_000)
}

/// Oxygen saved by denitrification, g/d, on the nitrate left to the BOD.
pub fn saved_oxygen(daily_flow: u64, left_to_bod: u64) -> u64 {
    down(29 * daily_flow * left_to_bod, 10_000)
}

/// Oxygen for carbon removal less the saved oxygen, g/d.
///
/// In a candidate covered by its BOD the saved oxygen is below 542 g per kg and
/// the carbon demand at least 560, so the difference is not negative. From the
/// COD it can be, and counts as 0.
pub fn less_saved(way: Way, carbon: u64, saved: u64) -> u64 {
    match way {
        Way::Bod => carbon - saved,
        Way::Cod => carbon.saturating_sub(saved),
    }
}

/// Hourly oxygen, g/h: the larger of the carbon peak and the nitrogen peak;
/// `net` is the oxygen for carbon less the saved oxygen.
pub fn hourly_oxygen(
    net: u64,
    nitrification: u64,
    carbon_peak_factor: u64,
    nitrogen_peak_factor: u64,
) -> u64 {
    let carbon_peak = up(carbon_peak_factor * net + 100 * nitrification, 2400);
    let nitrogen_peak = up(100 * net + nitrogen_peak_factor * nitrification, 2400);
    carbon_peak.max(nitrogen_peak)
}

/// Oxygen transfer in clean water, g/h, at 2 mg/l in the reactor.
pub fn oxygen_transfer(saturation: u64, hourly: u64) -> u64 {
    up(saturation * hourly, saturation - 2_000)
}

/// The same for blowers that stand still for the denitrification fraction, in
/// thousandths, of each cycle (5-29); rounded once.
pub fn paused_oxygen_transfer(saturation: u64, hourly: u64, fraction: u64) -> u64 {
    let aerated = 1000 - fraction;
    up(1000 * saturation * hourly, (saturation - 2_000) * aerated)
}

/// Oxygen transfer of a process: only the intermittent one pauses.
pub fn transfer_of(process: Process, saturation: u64, hourly: u64, fraction: u64) -> u64 {
    match process {
        Process::Intermittent => paused_oxygen_transfer(saturation, hourly, fraction),
        _ => oxygen_transfer(saturation, hourly),
    }
}

/// Recirculation ratio, thousandths.
pub fn recirculation(process: Process, to_nitrify: u64, nitrate_target: u64) -> u64 {
    match process {
        Process::PreAnoxic => up(1000 * to_nitrify, nitrate_target).saturating_sub(1000),
        _ => 0,
    }
}
