//! Secondary settling tank.

use crate::plant::{Removal, TankFlow};
use crate::rounding::{down, up};

/// c: whole cube root of the thickening time (tenths of an hour) x 10^11,
/// one decimal place after the other.
pub fn cube_root(thickening: u64) -> u64 {
    let limit = thickening * 100_000_000_000;
    let mut root = 0;
    for place in [10_000, 1_000, 100, 10, 1] {
        while (root + place) * (root + place) * (root + place) <= limit {
            root += place;
        }
    }
    root
}

/// B: solids of the bottom sludge, g/m3.
pub fn bottom_solids(cube_root: u64, sludge_volume_index: u64) -> u64 {
    down(100 * cube_root, sludge_volume_index)
}

/// w: return sludge solids over bottom sludge solids, tenths.
pub fn removal_factor(removal: Removal) -> u64 {
    match removal {
        Removal::Scraper => 7,
        Removal::Suction => 5,
        Removal::Hopper => 10,
    }
}

/// R: solids of the return sludge, g/m3.
pub fn return_solids(removal: Removal, bottom_solids: u64) -> u64 {
    down(removal_factor(removal) * bottom_solids, 10)
}

/// E: solids in the effluent of the reactor, g/m3.
pub fn solids(return_ratio: u64, return_solids: u64) -> u64 {
    down(return_ratio * return_solids, 100 + return_ratio)
}

/// V: diluted sludge volume, l/m3.
pub fn diluted_sludge_volume(solids: u64, sludge_volume_index: u64) -> u64 {
    up(solids * sludge_volume_index, 1000)
}

/// Whether solids and diluted sludge volume are in their limits.
pub fn solids_allowed(solids: u64, diluted_volume: u64) -> bool {
    solids >= 1_000 && diluted_volume <= 600
}

/// s: sludge volume surface loading rate, l/(m2 h).
pub fn sludge_volume_loading(flow: TankFlow) -> u64 {
    match flow {
        TankFlow::Horizontal => 500,
        TankFlow::Vertical => 650,
    }
}

/// m: largest surface overflow rate, mm/h.
pub fn overflow_rate_limit(flow: TankFlow) -> u64 {
    match flow {
        TankFlow::Horizontal => 1_600,
        TankFlow::Vertical => 2_000,
    }
}

/// q: surface overflow rate, mm/h.
pub fn surface_overflow_rate(flow: TankFlow, diluted_volume: u64) -> u64 {
    let by_volume = down(1000 * sludge_volume_loading(flow), diluted_volume);
    by_volume.min(overflow_rate_limit(flow))
}

/// A: settling surface, m2.
pub fn settling_surface(wet_weather_flow: u64, overflow_rate: u64) -> u64 {
    up(1000 * wet_weather_flow, overflow_rate)
}

/// Separation zone, mm.
pub fn separation_depth(rate: u64, return_ratio: u64, diluted_volume: u64) -> u64 {
    up(5 * rate * (100 + return_ratio), 1000 - diluted_volume)
}

/// Density flow and storage zone, mm, with the actual sludge volume loading.
pub fn storage_depth(rate: u64, return_ratio: u64, diluted_volume: u64) -> u64 {
    let actual_loading = up(rate * diluted_volume, 1000);
    up(9 * actual_loading * (100 + return_ratio), 1000)
}

/// Thickening and sludge removal zone, mm.
pub fn thickening_depth(
    solids: u64,
    rate: u64,
    return_ratio: u64,
    thickening: u64,
    bottom_solids: u64,
) -> u64 {
    let load = solids * rate * (100 + return_ratio) * thickening;
    up(load, 1000 * bottom_solids)
}

/// The depth's zones together, with the clear water zone of 500 mm.
pub fn zones(separation: u64, storage: u64, thickening: u64) -> u64 {
    500 + separation + storage + thickening
}

/// H: the zones raised to the least depth.
pub fn raised(zones: u64) -> u64 {
    zones.max(3_000)
}

/// H: depth from its zones.
pub fn settling_depth(separation: u64, storage: u64, thickening: u64) -> u64 {
    raised(zones(separation, storage, thickening))
}

/// Settling volume, m3.
pub fn settling_volume(surface: u64, depth: u64) -> u64 {
    up(surface * depth, 1000)
}
