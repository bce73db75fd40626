//! Every settling tank of the grid, to look for those on a line.

use crate::random::Random;
use crate::request::*;
use reference::settling::{cube_root, overflow_rate_limit, sludge_volume_loading};
use reference::stages::{self, Solids};
use reference::{Removal, TankFlow};

#[derive(Clone, Copy, Debug)]
pub struct Tank {
    pub index: u32,
    pub removal: u32,
    pub return_ratio: u32,
    pub thickening: u32,
    pub solids: Solids,
}

const REMOVALS: [Removal; 3] = [Removal::Scraper, Removal::Suction, Removal::Hopper];
pub const FLOWS: [TankFlow; 2] = [TankFlow::Horizontal, TankFlow::Vertical];

fn tank(index: u32, removal: u32, return_ratio: u32, thickening: u32, root: u64) -> Tank {
    let kind = REMOVALS[removal as usize];
    Tank {
        index,
        removal,
        return_ratio,
        thickening,
        solids: stages::solids(u64::from(index), kind, u64::from(return_ratio), root),
    }
}

/// The tanks of every sludge volume index, removal, return ratio and
/// thickening time.
pub fn all() -> Vec<Tank> {
    let mut tanks = Vec::new();
    for thickening in 20..=25 {
        let root = cube_root(u64::from(thickening));
        for index in 50..=MOST_INDEX {
            for removal in 0..=2 {
                for return_ratio in 30..=100 {
                    tanks.push(tank(index, removal, return_ratio, thickening, root));
                }
            }
        }
    }
    tanks
}

impl Tank {
    /// Whether the return ratio is on the grid of the tank flow.
    pub fn fits(&self, flow: u32) -> bool {
        flow == 1 || self.return_ratio <= 75
    }

    /// The solids by a root that is cut to three digits after the point.
    fn coarse(&self) -> Solids {
        let root = cube_root(u64::from(self.thickening)) / 10 * 10;
        let kind = REMOVALS[self.removal as usize];
        stages::solids(
            u64::from(self.index),
            kind,
            u64::from(self.return_ratio),
            root,
        )
    }

    /// The sum of the depth's zones, before it is raised to 3,000.
    pub fn zones(&self, flow: u32) -> u64 {
        let rate = self.solids.overflow_rate(FLOWS[flow as usize]);
        let (ratio, time) = (self.return_ratio, self.thickening);
        self.solids.zones(rate, u64::from(ratio), u64::from(time))
    }

    /// The plant with this tank as its candidate's.
    pub fn put_in(&self, request: Request, flow: u32) -> Request {
        request
            .with(TANK_FLOW, flow)
            .with(SLUDGE_VOLUME_INDEX, self.index)
            .with(REMOVAL, self.removal)
            .with(RETURN_RATIO, self.return_ratio)
            .with(THICKENING, self.thickening)
    }
}

/// Tanks on the lines of rule 8, of the overflow rate and of the least depth.
pub struct OnLines {
    pub least_solids: Vec<Tank>,
    pub solids_too_low: Vec<Tank>,
    pub most_volume: Vec<Tank>,
    pub volume_too_high: Vec<Tank>,
    /// Rule 8 is kept, or broken, by the root's fourth digit alone.
    pub kept_by_digit: Vec<Tank>,
    pub broken_by_digit: Vec<Tank>,
    /// For each tank flow: the rate just held, and just below its limit.
    pub rate_held: [Vec<Tank>; 2],
    pub rate_free: [Vec<Tank>; 2],
    /// For each tank flow: zones that come nearest to 3,000 mm from below,
    /// are just that (in horizontal flow alone), and come nearest from above.
    pub just_raised: [Vec<Tank>; 2],
    pub just_met: [Vec<Tank>; 2],
    pub just_above: [Vec<Tank>; 2],
}

fn select(tanks: &[Tank], wanted: impl Fn(&Tank) -> bool) -> Vec<Tank> {
    tanks.iter().copied().filter(wanted).collect()
}

fn by_flow(tanks: &[Tank], wanted: impl Fn(&Tank, u32) -> bool) -> [Vec<Tank>; 2] {
    [0, 1].map(|flow| select(tanks, |t| t.fits(flow) && wanted(t, flow)))
}

/// Largest diluted sludge volume at which the overflow rate is held.
fn held_volume(flow: u32) -> u64 {
    let flow = FLOWS[flow as usize];
    1000 * sludge_volume_loading(flow) / overflow_rate_limit(flow)
}

/// The zones nearest to 3,000 mm from below and from above.
fn nearest_zones(tanks: &[Tank], flow: u32) -> (u64, u64) {
    let fitting = tanks.iter().filter(|t| t.fits(flow));
    let zones: Vec<u64> = fitting.map(|t| t.zones(flow)).collect();
    let below = zones.iter().filter(|sum| **sum < 3_000).max();
    let above = zones.iter().filter(|sum| **sum > 3_000).min();
    (*below.unwrap_or(&0), *above.unwrap_or(&0))
}

impl OnLines {
    pub fn find() -> Self {
        let tanks = all();
        let kept = select(&tanks, |t| t.solids.are_allowed());
        let nearest = [0, 1].map(|flow| nearest_zones(&kept, flow));
        OnLines {
            least_solids: select(&tanks, |t| t.solids.solids == 1_000),
            solids_too_low: select(&tanks, |t| t.solids.solids == 999),
            most_volume: select(&tanks, |t| t.solids.diluted_volume == 600),
            volume_too_high: select(&tanks, |t| t.solids.diluted_volume == 601),
            kept_by_digit: select(&kept, |t| !t.coarse().are_allowed()),
            broken_by_digit: select(&tanks, |t| {
                !t.solids.are_allowed() && t.coarse().are_allowed()
            }),
            rate_held: by_flow(&kept, |t, flow| {
                t.solids.diluted_volume == held_volume(flow)
            }),
            rate_free: by_flow(&kept, |t, flow| {
                t.solids.diluted_volume == held_volume(flow) + 1
            }),
            just_raised: by_flow(&kept, |t, flow| t.zones(flow) == nearest[flow as usize].0),
            just_met: by_flow(&kept, |t, flow| t.zones(flow) == 3_000),
            just_above: by_flow(&kept, |t, flow| t.zones(flow) == nearest[flow as usize].1),
        }
    }

    /// A tank of one of the lists, with a tank flow that it fits.
    pub fn any(&self, random: &mut Random) -> (Tank, u32) {
        let flow = random.within(0, 1);
        let place = flow as usize;
        let met = if flow == 0 {
            &self.just_met[0]
        } else {
            &self.rate_held[1]
        };
        let lists = [
            &self.least_solids,
            &self.solids_too_low,
            &self.most_volume,
            &self.volume_too_high,
            &self.kept_by_digit,
            &self.broken_by_digit,
            &self.rate_held[place],
            &self.rate_free[place],
            &self.just_raised[place],
            met,
            &self.just_above[place],
        ];
        let list = lists[random.within(0, lists.len() as u32 - 1) as usize];
        let tank = random.pick(list);
        (tank, if tank.fits(flow) { flow } else { 1 })
    }
}
