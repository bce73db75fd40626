//! Works in several lines side by side: the split, each line as a plant of its
//! own, and the figures of all lines together.

use crate::choose::choose_accepted;
use crate::plant::Plant;
use crate::reading::{accept, Reading};
use crate::refusal;
use crate::rounding::down;
use crate::sheet::{Answer, Sheet};

/// Lines that a works may have.
pub const LEAST_LINES: u32 = 2;
pub const MOST_LINES: usize = 8;
/// What the shares add up to, thousandths.
pub const WHOLE: u64 = 1000;

/// The first `count` shares, thousandths; the others are not looked at.
#[derive(Clone, Copy, Debug, PartialEq, Eq)]
pub struct Split {
    pub count: u32,
    pub shares: [u32; MOST_LINES],
}

impl Split {
    /// The shares of the lines, or 18.
    pub fn named(&self) -> Result<&[u32], u8> {
        if !(LEAST_LINES..=MOST_LINES as u32).contains(&self.count) {
            return Err(refusal::LINES);
        }
        let shares = &self.shares[..self.count as usize];
        let sum: u64 = shares.iter().map(|share| u64::from(*share)).sum();
        if shares.contains(&0) || sum != WHOLE {
            return Err(refusal::LINES);
        }
        Ok(shares)
    }
}

/// What each line gets of a figure of the whole works: the running sum of the
/// shares is rounded, and the line gets what it adds to that.
pub fn parts(whole: u32, shares: &[u32]) -> Vec<u32> {
    let (mut share_so_far, mut given) = (0, 0);
    let mut parts = Vec::new();
    for share in shares {
        share_so_far += u64::from(*share);
        let so_far = down(u64::from(whole) * share_so_far, WHOLE);
        parts.push((so_far - given) as u32);
        given = so_far;
    }
    parts
}

/// The lines in their order: the whole works' data, load included, with the
/// line's own flows and surface.
pub fn lines(plant: &Plant, shares: &[u32]) -> Vec<Plant> {
    let flows = parts(plant.daily_flow, shares);
    let wet_weather_flows = parts(plant.wet_weather_flow, shares);
    let surfaces = parts(plant.site_surface, shares);
    let line = |place: usize| Plant {
        daily_flow: flows[place],
        wet_weather_flow: wet_weather_flows[place],
        site_surface: surfaces[place],
        ..*plant
    };
    (0..shares.len()).map(line).collect()
}

/// A line's answer on the concentrations of the whole works: 1 where it gets
/// nothing of a flow or of the surface, else a sheet or 5.
fn choose_line(line: &Plant, accepted: &[u64; 5]) -> Answer {
    if line.daily_flow == 0 || line.wet_weather_flow == 0 || line.site_surface == 0 {
        return Answer::Refused(refusal::PLANT_DATA);
    }
    choose_accepted(line, accepted)
}

/// Figures of all lines added up.
#[derive(Clone, Copy, Debug, Default, PartialEq, Eq)]
pub struct Sums {
    pub sludge_production: u64,
    pub sludge_mass: u64,
    pub settling_surface: u64,
    pub reactor_volume: u64,
    pub settling_volume: u64,
    pub total_volume: u64,
    pub hourly_oxygen: u64,
    pub oxygen_transfer: u64,
}

impl Sums {
    fn add(&mut self, sheet: &Sheet) {
        self.sludge_production += sheet.sludge_production;
        self.sludge_mass += sheet.sludge_mass;
        self.settling_surface += sheet.settling_surface;
        self.reactor_volume += sheet.reactor_volume;
        self.settling_volume += sheet.settling_volume;
        self.total_volume += sheet.total_volume;
        self.hourly_oxygen += sheet.hourly_oxygen;
        self.oxygen_transfer += sheet.oxygen_transfer;
    }

    pub fn figures(&self) -> [u64; 8] {
        [
            self.sludge_production,
            self.sludge_mass,
            self.settling_surface,
            self.reactor_volume,
            self.settling_volume,
            self.total_volume,
            self.hourly_oxygen,
            self.oxygen_transfer,
        ]
    }
}

/// What is given back for a works; zeros past its lines, and zeros throughout
/// where it is refused.
#[derive(Clone, Copy, Debug, Default, PartialEq, Eq)]
pub struct Works {
    /// Number of the refusal, 0 where every line has a sheet.
    pub number: u8,
    pub sums: Sums,
    /// The lines' sheets in their order.
    pub sheets: [Sheet; MOST_LINES],
}

/// The lines of a works and the concentrations they share, or 18 or a refusal
/// of the whole data.
fn checked(
    plant: &Plant,
    readings: &[Reading; 5],
    split: &Split,
) -> Result<(Vec<Plant>, [u64; 5]), u8> {
    let shares = split.named()?;
    let accepted = accept(plant, readings)?;
    Ok((lines(plant, shares), accepted))
}

/// A works of which no line is refused, or the number of its refusal.
fn all_lines(plant: &Plant, readings: &[Reading; 5], split: &Split) -> Result<Works, u8> {
    let (lines, accepted) = checked(plant, readings, split)?;
    let mut works = Works::default();
    for (place, line) in lines.iter().enumerate() {
        match choose_line(line, &accepted) {
            Answer::Refused(number) => return Err(number),
            Answer::Sheet(sheet) => {
                works.sums.add(&sheet);
                works.sheets[place] = sheet;
            }
        }
    }
    Ok(works)
}

/// The works: 18, a refusal of the whole data or that of its first refused
/// line, else every line's sheet and the sums.
pub fn works(plant: &Plant, readings: &[Reading; 5], split: &Split) -> Works {
    match all_lines(plant, readings, split) {
        Ok(works) => works,
        Err(number) => Works {
            number,
            ..Works::default()
        },
    }
}

/// One line's own answer, or 18 or a refusal of the whole data.
fn one_line(
    plant: &Plant,
    readings: &[Reading; 5],
    split: &Split,
    number: u32,
) -> Result<Answer, u8> {
    let shares = split.named()?;
    if !(1..=shares.len() as u32).contains(&number) {
        return Err(refusal::LINES);
    }
    let (lines, accepted) = checked(plant, readings, split)?;
    Ok(choose_line(&lines[number as usize - 1], &accepted))
}

/// The answer of one line, counted from 1, whatever the other lines get.
pub fn line(plant: &Plant, readings: &[Reading; 5], split: &Split, number: u32) -> Answer {
    match one_line(plant, readings, split, number) {
        Ok(answer) => answer,
        Err(number) => Answer::Refused(number),
    }
}
