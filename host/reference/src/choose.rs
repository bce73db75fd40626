//! Choosing, and the census, by the plain sweep over the grid.

use crate::examine::{design, most_return, Candidate};
use crate::plant::Plant;
use crate::reading::{accept, Reading};
use crate::refusal;
use crate::settling::cube_root;
use crate::sheet::{Answer, Sheet};

/// Cube roots for the thickening times 20 to 25.
pub fn cube_roots() -> [u64; 6] {
    let mut roots = [0; 6];
    for (place, time) in (20..=25).enumerate() {
        roots[place] = cube_root(time);
    }
    roots
}

/// Order of permitted candidates: least total first, then f, r and h.
pub fn rank(sheet: &Sheet) -> (u64, u64, u64, u64) {
    (
        sheet.total_volume,
        sheet.fraction,
        sheet.return_ratio,
        sheet.thickening,
    )
}

/// The first of two permitted candidates, of which one may be missing.
pub fn better(best: Option<Sheet>, next: Sheet) -> Option<Sheet> {
    match best {
        Some(sheet) if rank(&sheet) <= rank(&next) => Some(sheet),
        _ => Some(next),
    }
}

/// Every candidate of the grid in turn, on accepted concentrations: its sheet,
/// or the number of its refusal.
fn sweep(plant: &Plant, accepted: &[u64; 5], mut each: impl FnMut(Result<Sheet, u8>)) {
    let roots = cube_roots();
    for fraction in 200..=500 {
        for return_ratio in 30..=most_return(plant.tank_flow) {
            for thickening in 20..=25 {
                let candidate = Candidate {
                    fraction,
                    return_ratio,
                    thickening,
                };
                let root = roots[thickening as usize - 20];
                each(design(plant, accepted, candidate, root));
            }
        }
    }
}

/// The first of all permitted candidates on accepted concentrations, or 5.
pub fn choose_accepted(plant: &Plant, accepted: &[u64; 5]) -> Answer {
    let mut best = None;
    sweep(plant, accepted, |examined| {
        if let Ok(sheet) = examined {
            best = better(best, sheet);
        }
    });
    match best {
        Some(sheet) => Answer::Sheet(sheet),
        None => Answer::Refused(refusal::NO_DESIGN),
    }
}

/// The first of all permitted candidates, or a refusal.
pub fn choose(plant: &Plant, readings: &[Reading; 5]) -> Answer {
    match accept(plant, readings) {
        Ok(accepted) => choose_accepted(plant, &accepted),
        Err(number) => Answer::Refused(number),
    }
}

/// Numbers that a census counts: 0 to 31.
pub const COUNTED: usize = 32;

/// How many candidates of the grid are answered with each number, 0 for a
/// sheet, or the refusal 1, 17, 2 to 4 or 14.
pub fn census(plant: &Plant, readings: &[Reading; 5]) -> Result<[u64; COUNTED], u8> {
    let accepted = accept(plant, readings)?;
    let mut counts = [0; COUNTED];
    sweep(plant, &accepted, |examined| {
        let number = examined.err().unwrap_or(0);
        counts[usize::from(number)] += 1;
    });
    Ok(counts)
}
