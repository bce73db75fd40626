//! Case A and a fixed-seed generator.

use reference::*;

pub fn plant_a() -> Plant {
    Plant {
        bod_load: 1_200,
        daily_flow: 5_000,
        wet_weather_flow: 600,
        design_temperature: 12,
        aeration_temperature: 20,
        sludge_volume_index: 100,
        nitrate_target: 10_000,
        phosphorus_target: 1_000,
        carbon_peak_factor: 120,
        nitrogen_peak_factor: 200,
        oxygen_saturation: 9_000,
        site_surface: 1_000,
        site_depth: 5_000,
        process: Process::PreAnoxic,
        precipitant: Precipitant::Iron,
        tank_flow: TankFlow::Horizontal,
        removal: Removal::Scraper,
        primary_settling: PrimarySettling::None,
        dose: 0,
        consent: Consent::none(),
        way: Way::Bod,
    }
}

/// A term from one date to another, each month and day.
pub fn dated(first: (u32, u32), last: (u32, u32), temperature: u32, target: u32) -> Term {
    Term {
        first_month: first.0,
        first_day: first.1,
        last_month: last.0,
        last_day: last.1,
        temperature,
        nitrate_target: target,
    }
}

/// A term of a winter.
pub fn term(temperature: u32, target: u32) -> Term {
    dated((11, 1), (3, 31), temperature, target)
}

/// A consent of up to four terms.
pub fn consent(terms: &[Term]) -> Consent {
    let mut consent = Consent::none();
    consent.count = terms.len() as u32;
    consent.terms[..terms.len()].copy_from_slice(terms);
    consent
}

pub fn measured(values: [f32; 5]) -> [Reading; 5] {
    values.map(Reading::Measured)
}

pub fn readings_a() -> [Reading; 5] {
    measured([200.0, 400.0, 150.0, 46.0, 8.0])
}

pub fn candidate(fraction: u32, return_ratio: u32, thickening: u32) -> Candidate {
    Candidate {
        fraction,
        return_ratio,
        thickening,
    }
}

pub fn candidate_a() -> Candidate {
    candidate(300, 75, 20)
}

/// The sheet of an answer that is not refused.
pub fn sheet(answer: Answer) -> Sheet {
    match answer {
        Answer::Sheet(sheet) => sheet,
        Answer::Refused(number) => panic!("refused {number}"),
    }
}

/// xorshift64 with a fixed seed.
pub struct Generator(u64);

impl Generator {
    pub fn new(seed: u64) -> Self {
        assert_ne!(seed, 0);
        Generator(seed)
    }

    pub fn next(&mut self) -> u64 {
        self.0 ^= self.0 << 13;
        self.0 ^= self.0 >> 7;
        self.0 ^= self.0 << 17;
        self.0
    }

    pub fn bits(&mut self) -> u32 {
        (self.next() >> 32) as u32
    }

    /// A number of the range, both ends included.
    pub fn within(&mut self, least: u32, most: u32) -> u32 {
        least + self.bits() % (most - least + 1)
    }

    pub fn pick<T: Copy>(&mut self, of: &[T]) -> T {
        of[self.within(0, of.len() as u32 - 1) as usize]
    }
}
