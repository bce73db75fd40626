//! A sweep that can be put down: it goes through the grid by a number of
//! candidates a call, and hands on what it needs to go on.

use crate::choose::{better, cube_roots};
use crate::examine::{design, examine, most_return, Candidate};
use crate::plant::{Plant, TankFlow};
use crate::reading::{accept, Reading};
use crate::refusal;
use crate::sheet::{Answer, Sheet};

/// Candidates that one advance may ask for.
pub const MOST_CANDIDATES: u32 = 1_000;

/// Candidates of the grid.
pub fn grid_number(flow: TankFlow) -> u32 {
    match flow {
        TankFlow::Horizontal => 83_076,
        TankFlow::Vertical => 128_226,
    }
}

/// The candidates of the grid from one place up to another, the last left out.
/// Places are counted from 0 by rising f, then r, then h.
pub fn stretch(flow: TankFlow, first: u32, end: u32) -> Vec<Candidate> {
    let mut found = Vec::new();
    let mut place = 0;
    for fraction in 200..=500 {
        for return_ratio in 30..=most_return(flow) {
            for thickening in 20..=25 {
                if place >= end {
                    return found;
                }
                if place >= first {
                    found.push(Candidate {
                        fraction,
                        return_ratio,
                        thickening,
                    });
                }
                place += 1;
            }
        }
    }
    found
}

/// What a sweep hands on.
#[derive(Clone, Copy, Debug)]
pub struct Sweep {
    pub plant: Plant,
    pub readings: [Reading; 5],
    /// Candidates asked for so far, or the grid's number where that is smaller.
    pub asked: u32,
    /// The best permitted candidate so far.
    pub best: Option<Candidate>,
}

/// What an advance says that is not refused.
#[derive(Clone, Copy, Debug, PartialEq, Eq)]
pub enum Progress {
    /// With the best so far, or none yet.
    Unfinished(Option<Candidate>),
    /// A sheet or 5.
    Finished(Answer),
}

/// A sweep that nothing was asked of yet, or the refusal 1, 17, 2 to 4 or 14.
pub fn start(plant: &Plant, readings: &[Reading; 5]) -> Result<Sweep, u8> {
    accept(plant, readings)?;
    Ok(Sweep {
        plant: *plant,
        readings: *readings,
        asked: 0,
        best: None,
    })
}

fn candidate_of(sheet: Sheet) -> Candidate {
    Candidate {
        fraction: sheet.fraction as u32,
        return_ratio: sheet.return_ratio as u32,
        thickening: sheet.thickening as u32,
    }
}

impl Sweep {
    /// The best's sheet, or 19 where the best is not permitted.
    fn sheet_of_best(&self) -> Result<Option<Sheet>, u8> {
        let Some(best) = self.best else {
            return Ok(None);
        };
        match examine(&self.plant, &self.readings, best) {
            Answer::Sheet(sheet) => Ok(Some(sheet)),
            Answer::Refused(_) => Err(refusal::ADVANCE),
        }
    }

    /// The first, by the order of choosing, of a best and of the permitted
    /// candidates from one place up to another.
    fn best_with(
        &self,
        accepted: &[u64; 5],
        mut best: Option<Sheet>,
        first: u32,
        end: u32,
    ) -> Option<Sheet> {
        let roots = cube_roots();
        for candidate in stretch(self.plant.tank_flow, first, end) {
            let root = roots[candidate.thickening as usize - 20];
            if let Ok(sheet) = design(&self.plant, accepted, candidate, root) {
                best = better(best, sheet);
            }
        }
        best
    }

    /// Goes on by so many candidates: what is handed on and what is said, or 19.
    pub fn advance(&self, candidates: u32) -> Result<(Sweep, Progress), u8> {
        let grid = grid_number(self.plant.tank_flow);
        if candidates > MOST_CANDIDATES || self.asked > grid {
            return Err(refusal::ADVANCE);
        }
        let accepted = accept(&self.plant, &self.readings).map_err(|_| refusal::ADVANCE)?;
        let handed_on = self.sheet_of_best()?;
        let end = self.asked + candidates;
        let sheet = self.best_with(&accepted, handed_on, self.asked, end);
        let best = sheet.map(candidate_of);
        let asked = end.min(grid);
        let progress = match sheet {
            _ if end < grid => Progress::Unfinished(best),
            Some(sheet) => Progress::Finished(Answer::Sheet(sheet)),
            None => Progress::Finished(Answer::Refused(refusal::NO_DESIGN)),
        };
        Ok((
            Sweep {
                asked,
                best,
                ..*self
            },
            progress,
        ))
    }

    /// Examines a candidate of the sweep's plant; the sweep stays where it is.
    pub fn examine(&self, candidate: Candidate) -> Answer {
        examine(&self.plant, &self.readings, candidate)
    }
}
