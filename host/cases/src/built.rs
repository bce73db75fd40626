//! Built tanks: what a plant needs at each index and return ratio, and random
//! tanks and spans about it.

use crate::cod_lines::with_random_way;
use crate::lines::{on_cover, with_dose, with_random_terms};
use crate::plants;
use crate::random::Random;
use crate::request::*;
use reference::built::LEAST_INDEX;
use reference::examine::{design, most_return};
use reference::settling::cube_root;
use reference::{accept, Candidate, Existing, Plant, Span};

/// Reactor volume, surface and depth.
pub type Sizes = [u32; 3];
/// Places in these.
pub const REACTOR: usize = 0;
pub const SURFACE: usize = 1;
pub const DEPTH: usize = 2;
/// Never too small.
pub const AMPLE: Sizes = [u32::MAX; 3];

/// What a permitted return ratio needs at an index.
#[derive(Clone, Copy, Debug, PartialEq, Eq)]
pub struct Need {
    pub ratio: u32,
    pub sizes: Sizes,
}

impl Need {
    pub fn fits(&self, built: &Sizes) -> bool {
        self.sizes
            .iter()
            .zip(built)
            .all(|(needed, size)| needed <= size)
    }
}

/// The return ratios that win.
pub fn winners(needs: &[Need], built: &Sizes) -> Vec<u32> {
    let fitting = needs.iter().filter(|need| need.fits(built));
    fitting.map(|need| need.ratio).collect()
}

pub fn is_won(needs: &[Need], built: &Sizes) -> bool {
    needs.iter().any(|need| need.fits(built))
}

/// The least sizes that fit both.
pub fn both(first: &Sizes, second: &Sizes) -> Sizes {
    [REACTOR, SURFACE, DEPTH].map(|place| first[place].max(second[place]))
}

/// The same sizes with another one in a place.
pub fn with_size(mut sizes: Sizes, place: usize, size: u32) -> Sizes {
    sizes[place] = size;
    sizes
}

/// An accepted plant that is run at its candidate's fraction and thickening time.
pub struct Run {
    plant: Plant,
    accepted: [u64; 5],
    fraction: u32,
    thickening: u32,
}

impl Run {
    /// None where the data are refused or f or h is off the grid.
    pub fn of(request: &Request) -> Option<Run> {
        let decoded = request.decoded().ok()?;
        let (fraction, thickening) = (request.get(FRACTION), request.get(THICKENING));
        let on_grid = (200..=500).contains(&fraction) && (20..=25).contains(&thickening);
        let accepted = accept(&decoded.plant, &decoded.readings).ok()?;
        on_grid.then_some(Run {
            plant: decoded.plant,
            accepted,
            fraction,
            thickening,
        })
    }

    /// What each permitted return ratio needs at an index, by rising ratio.
    pub fn at(&self, index: u32) -> Vec<Need> {
        let plant = Plant {
            sludge_volume_index: index,
            ..self.plant
        };
        let root = cube_root(u64::from(self.thickening));
        let need = |return_ratio: u32| {
            let candidate = Candidate {
                fraction: self.fraction,
                return_ratio,
                thickening: self.thickening,
            };
            let sheet = design(&plant, &self.accepted, candidate, root).ok()?;
            let sizes = [
                sheet.reactor_volume,
                sheet.settling_surface,
                sheet.settling_depth,
            ];
            Some(Need {
                ratio: return_ratio,
                sizes: sizes.map(|size| size as u32),
            })
        };
        let ratios = 30..=most_return(plant.tank_flow);
        ratios.filter_map(need).collect()
    }
}

/// A request for built tanks.
#[derive(Clone, Copy, Debug)]
pub struct Asked {
    pub plant: Request,
    pub existing: Existing,
    pub span: Span,
}

impl Asked {
    /// Tanks of these sizes that are run at the candidate's f and h.
    pub fn of(plant: Request, [reactor, surface, depth]: Sizes, least: u32, most: u32) -> Self {
        Asked {
            plant,
            existing: Existing {
                reactor,
                surface,
                depth,
                fraction: plant.get(FRACTION),
                thickening: plant.get(THICKENING),
            },
            span: Span { least, most },
        }
    }

    pub fn sizes(&self) -> Sizes {
        [
            self.existing.reactor,
            self.existing.surface,
            self.existing.depth,
        ]
    }

    pub fn bytes(&self) -> Vec<u8> {
        self.plant.built_bytes(&self.existing, &self.span)
    }
}

/// A plant with room on its site, whose fraction is mostly just covered.
pub fn covered(random: &mut Random) -> Request {
    let plant = match random.one_in(3) {
        true => plants::anything(random),
        false => plants::plausible(random),
    };
    let plant = with_random_way(random, plant);
    let plant = with_dose(random, plant);
    let plant = on_cover(plant, 0).unwrap_or(plant);
    let plant = with_random_terms(random, plant);
    match random.one_in(8) {
        true => plant,
        false => plant.with(SITE_SURFACE, 100_000).with(SITE_DEPTH, 10_000),
    }
}

/// A span that holds an index: that one, a few about it, or many.
fn span_about(random: &mut Random, index: u32) -> (u32, u32) {
    let reach = random.pick(&[0, 1, 2, 8, 130]);
    let lowest = index.saturating_sub(reach).max(LEAST_INDEX);
    let highest = (index + reach).min(MOST_INDEX);
    (random.within(lowest, index), random.within(index, highest))
}

/// A size about what is needed, now and then far from it.
fn size_about(random: &mut Random, needed: u32) -> u32 {
    match random.within(0, 19) {
        0 | 1 => needed - 1,
        2 => needed + 1,
        3 => needed + random.within(0, needed / 20),
        4 => needed - random.within(0, needed / 20),
        5 => random.pick(&[1, 1 << 16, 1 << 31, u32::MAX]),
        6 => random.spread(1, 200_000),
        _ => needed,
    }
}

/// Sizes about those of a return ratio at an index, or of two at it and at
/// another; any where no ratio is permitted.
fn sizes_about(random: &mut Random, run: Option<&Run>, index: u32, other: u32) -> Sizes {
    let mut of = |index: u32| {
        let needs = run.map_or(Vec::new(), |run| run.at(index));
        (!needs.is_empty()).then(|| random.pick(&needs).sizes)
    };
    let sizes = match (of(index), of(other)) {
        (Some(first), Some(second)) if random.one_in(4) => both(&first, &second),
        (Some(first), _) => first,
        _ => return AMPLE.map(|_| random.spread(1, 200_000)),
    };
    sizes.map(|needed| size_about(random, needed))
}

/// A span of which an end is wrong, or both.
fn wrong_span(random: &mut Random, (least, most): (u32, u32)) -> (u32, u32) {
    let bits = random.bits() as u32;
    let wrong = [0, 49, 181, 182, 200, most + (1 << 8), u32::MAX, bits];
    match random.within(0, 3) {
        0 => (random.pick(&wrong), most),
        1 => (least, random.pick(&wrong)),
        2 => (most + 1, most),
        _ => (random.pick(&wrong), random.pick(&wrong)),
    }
}

/// Random tanks and span for a plant, now and then with a size of 0 or a wrong
/// span.
pub fn random(random: &mut Random, plant: Request) -> Asked {
    let any = random.within(LEAST_INDEX, MOST_INDEX);
    let own = plant
        .get(SLUDGE_VOLUME_INDEX)
        .clamp(LEAST_INDEX, MOST_INDEX);
    let index = random.pick(&[own, any, any, any, LEAST_INDEX, MOST_INDEX]);
    let mut span = span_about(random, index);
    let mut sizes = sizes_about(random, Run::of(&plant).as_ref(), index, span.1);
    if random.one_in(20) {
        sizes[random.within(0, 2) as usize] = 0;
    }
    if random.one_in(16) {
        span = wrong_span(random, span);
    }
    Asked::of(plant, sizes, span.0, span.1)
}
