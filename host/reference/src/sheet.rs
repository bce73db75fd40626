//! Design sheet and answer.

/// The fifteen figures in the order of the listing.
#[derive(Clone, Copy, Debug, Default, PartialEq, Eq)]
pub struct Sheet {
    /// f
    pub fraction: u64,
    /// r
    pub return_ratio: u64,
    /// h
    pub thickening: u64,
    /// t
    pub sludge_age: u64,
    /// S
    pub sludge_production: u64,
    /// M
    pub sludge_mass: u64,
    /// E
    pub solids: u64,
    pub reactor_volume: u64,
    /// A
    pub settling_surface: u64,
    /// H
    pub settling_depth: u64,
    pub settling_volume: u64,
    pub total_volume: u64,
    pub recirculation: u64,
    pub hourly_oxygen: u64,
    pub oxygen_transfer: u64,
}

impl Sheet {
    pub fn figures(&self) -> [u64; 15] {
        [
            self.fraction,
            self.return_ratio,
            self.thickening,
            self.sludge_age,
            self.sludge_production,
            self.sludge_mass,
            self.solids,
            self.reactor_volume,
            self.settling_surface,
            self.settling_depth,
            self.settling_volume,
            self.total_volume,
            self.recirculation,
            self.hourly_oxygen,
            self.oxygen_transfer,
        ]
    }
}

#[derive(Clone, Copy, Debug, PartialEq, Eq)]
pub enum Answer {
    Sheet(Sheet),
    Refused(u8),
}

impl Answer {
    /// Number of the refusal, 0 for a sheet.
    pub fn number(&self) -> u8 {
        match self {
            Answer::Sheet(_) => 0,
            Answer::Refused(number) => *number,
        }
    }

    /// The sheet; all zeros when refused.
    pub fn sheet(&self) -> Sheet {
        match self {
            Answer::Sheet(sheet) => *sheet,
            Answer::Refused(_) => Sheet::default(),
        }
    }
}
