//! A request and its bytes: 32-bit numbers, little-endian, without padding.

use crate::built::{self, Existing, Span, BUILT_WORDS};
use crate::price::{Tariff, TARIFF_WORDS};
use crate::terms::{Terms, TERMS_WORDS};
use crate::works::{Split, SPLIT_WORDS};

/// Version of the layout.
pub const VERSION: u32 = 4;
/// Words of the version, the plant with its site, and its kinds.
const PLANT_WORDS: usize = 19;
/// Words of the readings, two each.
const READING_WORDS: usize = 10;
/// The word of the dose, which comes after the readings.
const DOSE_WORDS: usize = 1;
/// The word of the way, which comes after the terms of the consent.
const WAY_WORDS: usize = 1;
/// Words of the data, which every request starts with.
const DATA_WORDS: usize = PLANT_WORDS + READING_WORDS + DOSE_WORDS + TERMS_WORDS + WAY_WORDS;
/// Words of a candidate, which come after the data.
const CANDIDATE_WORDS: usize = 3;
/// Bytes of a request to choose.
pub const CHOOSE_LENGTH: usize = 4 * DATA_WORDS;
/// Bytes of a request to examine.
pub const EXAMINE_LENGTH: usize = 4 * (DATA_WORDS + CANDIDATE_WORDS);
/// Bytes of a request to explain.
pub const EXPLAIN_LENGTH: usize = EXAMINE_LENGTH;
/// Bytes of a request for a works.
pub const WORKS_LENGTH: usize = 4 * (DATA_WORDS + SPLIT_WORDS);
/// Bytes of a request for a line of a works: one word more, its number.
pub const LINE_LENGTH: usize = WORKS_LENGTH + 4;
/// Bytes of a request for existing tanks.
pub const BUILT_LENGTH: usize = 4 * (DATA_WORDS + BUILT_WORDS);
/// Bytes of a request to choose and price.
pub const PRICE_CHOOSE_LENGTH: usize = 4 * (DATA_WORDS + TARIFF_WORDS);
/// Bytes of a request to examine and price.
pub const PRICE_EXAMINE_LENGTH: usize = 4 * (DATA_WORDS + CANDIDATE_WORDS + TARIFF_WORDS);

#[derive(Clone, Copy, Debug, Default, PartialEq, Eq)]
pub enum Process {
    #[default]
    PreAnoxic = 0,
    Simultaneous = 1,
    Intermittent = 2,
    StepFeedTwo = 3,
    StepFeedThree = 4,
}

#[derive(Clone, Copy, Debug, Default, PartialEq, Eq)]
pub enum Precipitant {
    #[default]
    Iron = 0,
    Aluminium = 1,
}

#[derive(Clone, Copy, Debug, Default, PartialEq, Eq)]
pub enum TankFlow {
    #[default]
    Horizontal = 0,
    Vertical = 1,
}

#[derive(Clone, Copy, Debug, Default, PartialEq, Eq)]
pub enum Removal {
    #[default]
    Scraper = 0,
    Suction = 1,
    Hopper = 2,
}

#[derive(Clone, Copy, Debug, Default, PartialEq, Eq)]
pub enum PrimarySettling {
    #[default]
    None = 0,
    Short = 1,
    Long = 2,
}

/// Where carbon sludge and carbon's oxygen come from.
#[derive(Clone, Copy, Debug, Default, PartialEq, Eq)]
pub enum Way {
    #[default]
    Bod = 0,
    /// By the appendix of A 131E
    Cod = 1,
}

/// A lab reading. The f32 of a value in mg/l is held by its bits, so that
/// every pattern goes through unchanged.
#[derive(Clone, Copy, Debug, PartialEq, Eq)]
pub enum Reading {
    /// Bits of the value
    Measured(u32),
    /// Bits of the limit
    Below(u32),
    /// Head count
    Heads(u32),
}

impl Default for Reading {
    fn default() -> Reading {
        Reading::Measured(0)
    }
}

impl Reading {
    /// Its two words: the kind, then the bits or the head count.
    fn words(self) -> [u32; 2] {
        match self {
            Reading::Measured(bits) => [0, bits],
            Reading::Below(bits) => [1, bits],
            Reading::Heads(count) => [2, count],
        }
    }
}

/// A plant with its site and readings. The default is zero in every word
/// after the version.
#[derive(Clone, Copy, Debug, Default, PartialEq, Eq)]
pub struct Request {
    /// kg/d
    pub load: u32,
    /// m3/d
    pub flow: u32,
    /// m3/h
    pub wet_weather_flow: u32,
    /// Degrees Celsius
    pub design_temperature: u32,
    /// Degrees Celsius
    pub aeration_temperature: u32,
    /// l/kg
    pub sludge_volume_index: u32,
    /// mg/m3
    pub nitrate_target: u32,
    /// mg/m3
    pub phosphorus_target: u32,
    /// Hundredths
    pub carbon_peak: u32,
    /// Hundredths
    pub nitrogen_peak: u32,
    /// mg/m3
    pub oxygen_saturation: u32,
    /// m2
    pub site_surface: u32,
    /// mm
    pub site_depth: u32,
    pub process: Process,
    pub precipitant: Precipitant,
    pub tank: TankFlow,
    pub removal: Removal,
    pub primary_settling: PrimarySettling,
    /// External carbon, mg/m3 as COD
    pub dose: u32,
    pub bod: Reading,
    pub cod: Reading,
    pub solids: Reading,
    pub nitrogen: Reading,
    pub phosphorus: Reading,
    pub terms: Terms,
    pub way: Way,
}

/// A candidate of the grid, or any other three numbers.
#[derive(Clone, Copy, Debug, PartialEq, Eq)]
pub struct Candidate {
    /// Denitrification fraction, thousandths
    pub fraction: u32,
    /// Hundredths
    pub return_ratio: u32,
    /// Thickening time, tenths of an hour
    pub thickening: u32,
}

impl Request {
    /// Whether the nitrate that the tank's own carbon removes is reckoned from
    /// the COD; else it is from the BOD.
    pub fn removes_by_cod(&self) -> bool {
        let by_oxygen = [Process::Simultaneous, Process::Intermittent];
        self.way == Way::Cod && by_oxygen.contains(&self.process)
    }

    /// The bytes of a request to choose or for a census.
    pub fn to_choose(&self) -> [u8; CHOOSE_LENGTH] {
        let mut bytes = [0; CHOOSE_LENGTH];
        let (plant, rest) = bytes.split_at_mut(4 * PLANT_WORDS);
        let (readings, rest) = rest.split_at_mut(4 * READING_WORDS);
        let (dose, rest) = rest.split_at_mut(4 * DOSE_WORDS);
        let (terms, way) = rest.split_at_mut(4 * TERMS_WORDS);
        put(plant, &self.plant_words());
        put(readings, &self.reading_words());
        put(dose, &[self.dose]);
        put(terms, &self.terms.words());
        put(way, &[self.way as u32]);
        bytes
    }

    /// The bytes of a request to examine or to explain a candidate.
    pub fn to_examine(&self, candidate: Candidate) -> [u8; EXAMINE_LENGTH] {
        let Candidate {
            fraction,
            return_ratio,
            thickening,
        } = candidate;
        let mut bytes = [0; EXAMINE_LENGTH];
        bytes[..CHOOSE_LENGTH].copy_from_slice(&self.to_choose());
        put(
            &mut bytes[CHOOSE_LENGTH..],
            &[fraction, return_ratio, thickening],
        );
        bytes
    }

    /// The bytes of a request for the works that is split so.
    pub fn to_works(&self, split: &Split) -> [u8; WORKS_LENGTH] {
        let mut bytes = [0; WORKS_LENGTH];
        bytes[..CHOOSE_LENGTH].copy_from_slice(&self.to_choose());
        put(&mut bytes[CHOOSE_LENGTH..], &split.words());
        bytes
    }

    /// The bytes of a request for a line of the works that is split so; the
    /// lines are counted from 1.
    pub fn to_line(&self, split: &Split, line: u32) -> [u8; LINE_LENGTH] {
        let mut bytes = [0; LINE_LENGTH];
        bytes[..WORKS_LENGTH].copy_from_slice(&self.to_works(split));
        put(&mut bytes[WORKS_LENGTH..], &[line]);
        bytes
    }

    /// The bytes of a request for the existing tanks and the span of sludge
    /// volume indices that they are to hold.
    pub fn to_built(&self, existing: &Existing, span: &Span) -> [u8; BUILT_LENGTH] {
        let mut bytes = [0; BUILT_LENGTH];
        bytes[..CHOOSE_LENGTH].copy_from_slice(&self.to_choose());
        put(&mut bytes[CHOOSE_LENGTH..], &built::words(existing, span));
        bytes
    }

    /// The bytes of a request to choose and to price what is chosen.
    pub fn to_price_choose(&self, tariff: &Tariff) -> [u8; PRICE_CHOOSE_LENGTH] {
        let mut bytes = [0; PRICE_CHOOSE_LENGTH];
        bytes[..CHOOSE_LENGTH].copy_from_slice(&self.to_choose());
        put(&mut bytes[CHOOSE_LENGTH..], &tariff.words());
        bytes
    }

    /// The bytes of a request to examine a candidate and to price it.
    pub fn to_price_examine(
        &self,
        candidate: Candidate,
        tariff: &Tariff,
    ) -> [u8; PRICE_EXAMINE_LENGTH] {
        let mut bytes = [0; PRICE_EXAMINE_LENGTH];
        bytes[..EXAMINE_LENGTH].copy_from_slice(&self.to_examine(candidate));
        put(&mut bytes[EXAMINE_LENGTH..], &tariff.words());
        bytes
    }

    /// Version, plant, site and kinds.
    fn plant_words(&self) -> [u32; PLANT_WORDS] {
        [
            VERSION,
            self.load,
            self.flow,
            self.wet_weather_flow,
            self.design_temperature,
            self.aeration_temperature,
            self.sludge_volume_index,
            self.nitrate_target,
            self.phosphorus_target,
            self.carbon_peak,
            self.nitrogen_peak,
            self.oxygen_saturation,
            self.site_surface,
            self.site_depth,
            self.process as u32,
            self.precipitant as u32,
            self.tank as u32,
            self.removal as u32,
            self.primary_settling as u32,
        ]
    }

    /// The readings in the paper's order.
    fn reading_words(&self) -> [u32; READING_WORDS] {
        let mut words = [0; READING_WORDS];
        let readings = [
            self.bod,
            self.cod,
            self.solids,
            self.nitrogen,
            self.phosphorus,
        ];
        for (pair, reading) in words.chunks_exact_mut(2).zip(readings) {
            pair.copy_from_slice(&reading.words());
        }
        words
    }
}

/// Writes the words over all the bytes, four bytes each.
pub(crate) fn put(bytes: &mut [u8], words: &[u32]) {
    assert_eq!(bytes.len(), 4 * words.len());
    for (place, word) in bytes.chunks_exact_mut(4).zip(words) {
        place.copy_from_slice(&word.to_le_bytes());
    }
}
