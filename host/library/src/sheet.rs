//! What the numbers of a listing and of a candidate are, and what they count.

use crate::request::{Candidate, TankFlow};

/// A line of a listing.
#[derive(Clone, Copy, Debug, PartialEq, Eq)]
pub struct Line {
    pub label: &'static str,
    pub meaning: &'static str,
    /// What the number counts: 300 thousandths are 0.300
    pub unit: &'static str,
}

const fn line(label: &'static str, meaning: &'static str, unit: &'static str) -> Line {
    Line {
        label,
        meaning,
        unit,
    }
}

/// The lines of a sheet's listing, in their order.
pub const LINES: [Line; 15] = [
    line("fraction", "denitrification fraction", "thousandths"),
    line("return", "return ratio", "hundredths"),
    line("thickening", "thickening time", "tenths of an hour"),
    line("age", "sludge age", "thousandths of a day"),
    line("sludge", "sludge production", "g/d"),
    line("mass", "sludge mass in the reactor", "kg"),
    line("solids", "solids at the reactor's outflow", "g/m3"),
    line("reactor", "reactor volume", "m3"),
    line("surface", "settling surface", "m2"),
    line("depth", "settling depth", "mm"),
    line("settling", "settling volume", "m3"),
    line("total", "reactor and settling volume", "m3"),
    line("recirculation", "recirculation ratio", "thousandths"),
    line("oxygen", "hourly oxygen uptake", "g/h"),
    line("transfer", "oxygen transfer of the aeration", "g/h"),
];

/// The listing of a sheet's figures.
pub fn listing(figures: &[u64; LINES.len()]) -> String {
    let lines = LINES.iter().zip(figures);
    lines
        .map(|(line, figure)| format!("{} {figure}\n", line.label))
        .collect()
}

/// A side of the grid: one of the three numbers of a candidate.
#[derive(Clone, Copy, Debug)]
pub struct Side {
    pub letter: &'static str,
    pub meaning: &'static str,
    pub unit: &'static str,
    pub least: u32,
    /// In horizontal and in vertical flow
    most: [u32; 2],
    at: fn(&Candidate) -> u32,
}

impl Side {
    /// The side's largest number in a tank flow.
    pub fn most(&self, tank: TankFlow) -> u32 {
        self.most[tank as usize]
    }

    /// The candidate's number on this side.
    pub fn of(&self, candidate: &Candidate) -> u32 {
        (self.at)(candidate)
    }

    /// Its range; for vertical flow in brackets where that is another.
    pub fn range(&self) -> String {
        let Side { least, most, .. } = self;
        let horizontal = format!("{least}..{}", most[0]);
        match most[0] == most[1] {
            true => horizontal,
            false => format!("{horizontal} (vertical flow {least}..{})", most[1]),
        }
    }
}

/// The grid of candidates.
pub const GRID: [Side; 3] = [
    Side {
        letter: "F",
        meaning: "fraction",
        unit: "thousandths",
        least: 200,
        most: [500, 500],
        at: |candidate| candidate.fraction,
    },
    Side {
        letter: "R",
        meaning: "return ratio",
        unit: "hundredths",
        least: 30,
        most: [75, 100],
        at: |candidate| candidate.return_ratio,
    },
    Side {
        letter: "H",
        meaning: "thickening time",
        unit: "tenths of an hour",
        least: 20,
        most: [25, 25],
        at: |candidate| candidate.thickening,
    },
];

/// Candidates of the grid in a tank flow.
pub fn candidates(tank: TankFlow) -> u32 {
    GRID.iter()
        .map(|side| side.most(tank) - side.least + 1)
        .product()
}
