//! A request as words, its bytes, and decoding for the reference.

use reference::price::MOST_BANDS;
use reference::works::MOST_LINES;
use reference::*;
use std::array::from_fn;

pub const VERSION: usize = 0;
pub const LOAD: usize = 1;
pub const FLOW: usize = 2;
pub const WET_WEATHER_FLOW: usize = 3;
pub const DESIGN_TEMPERATURE: usize = 4;
pub const AERATION_TEMPERATURE: usize = 5;
pub const SLUDGE_VOLUME_INDEX: usize = 6;
pub const NITRATE_TARGET: usize = 7;
pub const PHOSPHORUS_TARGET: usize = 8;
pub const CARBON_PEAK: usize = 9;
pub const NITROGEN_PEAK: usize = 10;
pub const OXYGEN_SATURATION: usize = 11;
pub const SITE_SURFACE: usize = 12;
pub const SITE_DEPTH: usize = 13;
pub const PROCESS: usize = 14;
pub const PRECIPITANT: usize = 15;
pub const TANK_FLOW: usize = 16;
pub const REMOVAL: usize = 17;
pub const PRIMARY_SETTLING: usize = 18;
/// A reading takes two words: its kind, then its content.
pub const BOD: usize = 19;
pub const COD: usize = 21;
pub const SOLIDS: usize = 23;
pub const NITROGEN: usize = 25;
pub const PHOSPHORUS: usize = 27;
pub const DOSE: usize = 29;
pub const TERM_COUNT: usize = 30;
/// The consent's terms, of six words each.
pub const TERMS: usize = 31;
pub const MOST_TERMS: usize = 4;

/// Words of a term, counted from its first.
pub const FIRST_MONTH: usize = 0;
pub const FIRST_DAY: usize = 1;
pub const LAST_MONTH: usize = 2;
pub const LAST_DAY: usize = 3;
pub const TERM_TEMPERATURE: usize = 4;
pub const TERM_TARGET: usize = 5;
pub const TERM_WORDS: usize = 6;

/// The way of sludge and oxygen, after the terms.
pub const WAY: usize = TERMS + MOST_TERMS * TERM_WORDS;
pub const BY_BOD: u32 = 0;
pub const BY_COD: u32 = 1;

/// Words of the data: version, plant, readings, dose, terms and way.
pub const DATA_WORDS: usize = WAY + 1;
/// Words of a candidate, which come after the data.
pub const CANDIDATE_WORDS: usize = 3;
pub const FRACTION: usize = DATA_WORDS;
pub const RETURN_RATIO: usize = DATA_WORDS + 1;
pub const THICKENING: usize = DATA_WORDS + 2;
/// Words of a request with a candidate.
pub const WORDS: usize = DATA_WORDS + CANDIDATE_WORDS;

/// The split of a works, which comes after the data as a candidate does: the
/// number of its lines, then eight shares.
pub const LINE_COUNT: usize = DATA_WORDS;
pub const SHARES: usize = LINE_COUNT + 1;
/// The line asked for, after the split.
pub const LINE: usize = SHARES + MOST_LINES;

/// The state of a sweep: after the data the number of candidates asked for so
/// far, then the best so far, three zeros where there is none yet.
pub const ASKED: usize = DATA_WORDS;
pub const BEST: usize = ASKED + 1;
/// Words of a state.
pub const STATE_WORDS: usize = BEST + CANDIDATE_WORDS;

/// Built tanks, after the data: reactor volume, surface and depth that are built,
/// fraction, thickening time, and both ends of the span.
pub const BUILT_REACTOR: usize = DATA_WORDS;
pub const BUILT_SURFACE: usize = BUILT_REACTOR + 1;
pub const BUILT_DEPTH: usize = BUILT_REACTOR + 2;
pub const BUILT_FRACTION: usize = BUILT_REACTOR + 3;
pub const BUILT_THICKENING: usize = BUILT_REACTOR + 4;
pub const LEAST_OF_SPAN: usize = BUILT_REACTOR + 5;
pub const MOST_OF_SPAN: usize = BUILT_REACTOR + 6;
/// Words of a request for built tanks.
pub const BUILT_WORDS: usize = MOST_OF_SPAN + 1;

/// Words of a tariff, counted from its first: the number of its bands, six limits,
/// six prices, and the surcharge. It comes after the data of a choice, or after the
/// candidate of an examination.
pub const BAND_COUNT: usize = 0;
pub const LIMITS: usize = BAND_COUNT + 1;
pub const PRICES: usize = LIMITS + MOST_BANDS;
pub const SURCHARGE: usize = PRICES + MOST_BANDS;
pub const TARIFF_WORDS: usize = SURCHARGE + 1;
/// Words of the longest request, to price a candidate.
const MOST_WORDS: usize = WORDS + TARIFF_WORDS;

/// A candidate as its words.
pub type CandidateWords = [u32; CANDIDATE_WORDS];
/// No candidate yet.
pub const NONE_YET: CandidateWords = [0; CANDIDATE_WORDS];

/// The readings in their order.
pub const READINGS: [usize; 5] = [BOD, COD, SOLIDS, NITROGEN, PHOSPHORUS];

/// Kinds of a reading.
pub const MEASURED: u32 = 0;
pub const BELOW: u32 = 1;
pub const HEADS: u32 = 2;

/// Largest dose of external carbon, mg/m3 as COD.
pub const MOST_DOSE: u32 = 500_000;

/// Largest sludge volume index that is not refused as bulking sludge.
pub const MOST_INDEX: u32 = 180;

/// Range of each plant and site figure, as refusal 1 has it.
pub const PLANT_RANGES: [(usize, u32, u32); 14] = [
    (LOAD, 1, 100_000),
    (FLOW, 1, 200_000),
    (WET_WEATHER_FLOW, 1, 50_000),
    (DESIGN_TEMPERATURE, 10, 20),
    (AERATION_TEMPERATURE, 10, 20),
    (SLUDGE_VOLUME_INDEX, 50, 200),
    (NITRATE_TARGET, 1_000, 50_000),
    (PHOSPHORUS_TARGET, 0, 100_000),
    (CARBON_PEAK, 100, 300),
    (NITROGEN_PEAK, 100, 300),
    (OXYGEN_SATURATION, 6_000, 15_000),
    (SITE_SURFACE, 1, 100_000),
    (SITE_DEPTH, 3_000, 10_000),
    (DOSE, 0, MOST_DOSE),
];

/// The largest value of a plant figure that is accepted: the index has 17 above
/// it.
pub fn largest_accepted(place: usize, most: u32) -> u32 {
    match place {
        SLUDGE_VOLUME_INDEX => MOST_INDEX,
        _ => most,
    }
}

/// Range of a term's temperature and target.
pub const TERM_RANGES: [(usize, u32, u32); 2] =
    [(TERM_TEMPERATURE, 4, 20), (TERM_TARGET, 1_000, 50_000)];

/// Days of the months, 29 in February.
pub const DAYS: [u32; 12] = [31, 29, 31, 30, 31, 30, 31, 31, 30, 31, 30, 31];

/// Words that hold a kind, and the last kind of each.
pub const KIND_WORDS: [(usize, u32); 11] = [
    (PROCESS, 4),
    (PRECIPITANT, 1),
    (TANK_FLOW, 1),
    (REMOVAL, 2),
    (PRIMARY_SETTLING, 2),
    (BOD, 2),
    (COD, 2),
    (SOLIDS, 2),
    (NITROGEN, 2),
    (PHOSPHORUS, 2),
    (WAY, 1),
];

/// Bytes of a request to examine or to explain.
pub const EXAMINE_LENGTH: usize = 4 * WORDS;
/// Bytes of a request to choose.
pub const CHOOSE_LENGTH: usize = 4 * DATA_WORDS;
/// Bytes of a request for a works, and for one of its lines.
pub const WORKS_LENGTH: usize = 4 * LINE;
pub const LINE_LENGTH: usize = 4 * (LINE + 1);
/// Bytes of a sweep's state.
pub const STATE_LENGTH: usize = 4 * STATE_WORDS;
/// Bytes of a request for built tanks.
pub const BUILT_LENGTH: usize = 4 * BUILT_WORDS;
/// Bytes of a request to price the choice, and to price a candidate.
pub const PRICE_CHOOSE_LENGTH: usize = CHOOSE_LENGTH + 4 * TARIFF_WORDS;
pub const PRICE_EXAMINE_LENGTH: usize = EXAMINE_LENGTH + 4 * TARIFF_WORDS;

/// Words of a request for a target: version, consent, and the date asked for.
pub const ASKED_MONTH: usize = 2 + MOST_TERMS * TERM_WORDS;
pub const ASKED_DAY: usize = ASKED_MONTH + 1;
/// Bytes of a request for a target.
pub const TARGET_LENGTH: usize = 4 * (ASKED_DAY + 1);

/// The newest version, the only one that is answered.
pub const NEWEST_VERSION: u32 = 4;
/// The version before it.
pub const EARLIER_VERSION: u32 = NEWEST_VERSION - 1;
/// A version that does not exist yet.
pub const LATER_VERSION: u32 = NEWEST_VERSION + 1;

/// Numbers of malformed requests.
pub const WRONG_LENGTH: u32 = 101;
pub const WRONG_VERSION: u32 = 102;
pub const UNKNOWN_KIND: u32 = 103;

/// A term as its words.
pub type TermWords = [u32; TERM_WORDS];

/// The place of a term's word in the request.
pub fn term_word(term: usize, word: usize) -> usize {
    TERMS + term * TERM_WORDS + word
}

#[derive(Clone, Copy, Debug, PartialEq, Eq)]
pub struct Request(pub [u32; WORDS]);

impl Request {
    pub fn get(&self, place: usize) -> u32 {
        self.0[place]
    }

    pub fn with(mut self, place: usize, value: u32) -> Self {
        self.0[place] = value;
        self
    }

    pub fn with_reading(self, place: usize, kind: u32, content: u32) -> Self {
        self.with(place, kind).with(place + 1, content)
    }

    /// A reading measured as whole thousandths of mg/l.
    pub fn with_measured(self, place: usize, thousandths: u64) -> Self {
        self.with_reading(place, MEASURED, measured_bits(thousandths))
    }

    pub fn with_candidate(self, fraction: u32, return_ratio: u32, thickening: u32) -> Self {
        self.with(FRACTION, fraction)
            .with(RETURN_RATIO, return_ratio)
            .with(THICKENING, thickening)
    }

    /// A consent of these terms; the entries past them are zeros.
    pub fn with_terms(mut self, terms: &[TermWords]) -> Self {
        let mut all = [[0; TERM_WORDS]; MOST_TERMS];
        all[..terms.len()].copy_from_slice(terms);
        self.0[TERMS..WAY].copy_from_slice(all.as_flattened());
        self.with(TERM_COUNT, terms.len() as u32)
    }

    /// The request to examine or to explain.
    pub fn examine_bytes(&self) -> Vec<u8> {
        self.0.iter().flat_map(|word| word.to_le_bytes()).collect()
    }

    /// The request to choose: the same without the candidate.
    pub fn choose_bytes(&self) -> Vec<u8> {
        let mut bytes = self.examine_bytes();
        bytes.truncate(CHOOSE_LENGTH);
        bytes
    }

    /// The request for a works: the data, then its split.
    pub fn works_bytes(&self, split: &Split) -> Vec<u8> {
        let mut bytes = self.choose_bytes();
        bytes.extend(split.count.to_le_bytes());
        bytes.extend(split.shares.iter().flat_map(|share| share.to_le_bytes()));
        bytes
    }

    /// The request for one line of a works: the same, then the line's number.
    pub fn line_bytes(&self, split: &Split, line: u32) -> Vec<u8> {
        let mut bytes = self.works_bytes(split);
        bytes.extend(line.to_le_bytes());
        bytes
    }

    /// The state of a sweep for this plant.
    pub fn state_bytes(&self, asked: u32, best: CandidateWords) -> Vec<u8> {
        let mut bytes = self.choose_bytes();
        bytes.extend(asked.to_le_bytes());
        bytes.extend(best.iter().flat_map(|word| word.to_le_bytes()));
        bytes
    }

    /// The request for built tanks: the data, what stands, then the span.
    pub fn built_bytes(&self, existing: &Existing, span: &Span) -> Vec<u8> {
        let words = [
            existing.reactor,
            existing.surface,
            existing.depth,
            existing.fraction,
            existing.thickening,
            span.least,
            span.most,
        ];
        let mut bytes = self.choose_bytes();
        bytes.extend(words.iter().flat_map(|word| word.to_le_bytes()));
        bytes
    }

    /// The request to price the choice: the data, then the tariff.
    pub fn price_choose_bytes(&self, tariff: &Tariff) -> Vec<u8> {
        [self.choose_bytes(), tariff_bytes(tariff)].concat()
    }

    /// The request to price the candidate: the data, the candidate, then the tariff.
    pub fn price_examine_bytes(&self, tariff: &Tariff) -> Vec<u8> {
        [self.examine_bytes(), tariff_bytes(tariff)].concat()
    }

    /// The words of the candidate.
    pub fn candidate_words(&self) -> CandidateWords {
        from_fn(|place| self.get(FRACTION + place))
    }

    pub fn decoded(&self) -> Result<Decoded, u32> {
        decode(&self.examine_bytes(), EXAMINE_LENGTH)
    }
}

/// The bytes of a tariff.
fn tariff_bytes(tariff: &Tariff) -> Vec<u8> {
    let mut words = vec![tariff.count];
    words.extend(tariff.limits);
    words.extend(tariff.prices);
    words.push(tariff.surcharge);
    words.iter().flat_map(|word| word.to_le_bytes()).collect()
}

/// Bits of the f32 nearest to a number of thousandths.
pub fn measured_bits(thousandths: u64) -> u32 {
    let value = (thousandths as f64 / 1000.0) as f32;
    let result = reference::reading::measured(value);
    assert_eq!(result, Ok(u128::from(thousandths)));
    value.to_bits()
}

/// Bits of a limit whose half is a number of thousandths.
pub fn below_bits(thousandths: u64) -> u32 {
    let limit = (thousandths as f64 / 500.0) as f32;
    let result = reference::reading::below(limit);
    assert_eq!(result, Ok(u128::from(thousandths)));
    limit.to_bits()
}

/// What the reference is given.
pub struct Decoded {
    pub plant: Plant,
    pub readings: [Reading; 5],
    pub candidate: Candidate,
}

fn process(kind: u32) -> Option<Process> {
    match kind {
        0 => Some(Process::PreAnoxic),
        1 => Some(Process::Simultaneous),
        2 => Some(Process::Intermittent),
        3 => Some(Process::StepFeed(Steps::Two)),
        4 => Some(Process::StepFeed(Steps::Three)),
        _ => None,
    }
}

fn choice<T: Copy>(kinds: &[T], kind: u32) -> Option<T> {
    kinds.get(kind as usize).copied()
}

fn plant(words: &[u32]) -> Option<Plant> {
    use PrimarySettling::{Long, None as NoSettling, Short};
    Some(Plant {
        bod_load: words[LOAD],
        daily_flow: words[FLOW],
        wet_weather_flow: words[WET_WEATHER_FLOW],
        design_temperature: words[DESIGN_TEMPERATURE],
        aeration_temperature: words[AERATION_TEMPERATURE],
        sludge_volume_index: words[SLUDGE_VOLUME_INDEX],
        nitrate_target: words[NITRATE_TARGET],
        phosphorus_target: words[PHOSPHORUS_TARGET],
        carbon_peak_factor: words[CARBON_PEAK],
        nitrogen_peak_factor: words[NITROGEN_PEAK],
        oxygen_saturation: words[OXYGEN_SATURATION],
        site_surface: words[SITE_SURFACE],
        site_depth: words[SITE_DEPTH],
        process: process(words[PROCESS])?,
        precipitant: choice(
            &[Precipitant::Iron, Precipitant::Aluminium],
            words[PRECIPITANT],
        )?,
        tank_flow: choice(
            &[TankFlow::Horizontal, TankFlow::Vertical],
            words[TANK_FLOW],
        )?,
        removal: choice(
            &[Removal::Scraper, Removal::Suction, Removal::Hopper],
            words[REMOVAL],
        )?,
        primary_settling: choice(&[NoSettling, Short, Long], words[PRIMARY_SETTLING])?,
        dose: words[DOSE],
        consent: consent(&words[TERM_COUNT..WAY]),
        way: choice(&[Way::Bod, Way::Cod], words[WAY])?,
    })
}

fn term(words: &[u32]) -> Term {
    Term {
        first_month: words[FIRST_MONTH],
        first_day: words[FIRST_DAY],
        last_month: words[LAST_MONTH],
        last_day: words[LAST_DAY],
        temperature: words[TERM_TEMPERATURE],
        nitrate_target: words[TERM_TARGET],
    }
}

/// The words of a consent: the number of its terms, then four of them.
fn consent(words: &[u32]) -> Consent {
    let mut consent = Consent::none();
    consent.count = words[0];
    for (entry, words) in consent
        .terms
        .iter_mut()
        .zip(words[1..].chunks_exact(TERM_WORDS))
    {
        *entry = term(words);
    }
    consent
}

fn reading(kind: u32, content: u32) -> Option<Reading> {
    match kind {
        MEASURED => Some(Reading::Measured(f32::from_bits(content))),
        BELOW => Some(Reading::Below(f32::from_bits(content))),
        HEADS => Some(Reading::Heads(content)),
        _ => None,
    }
}

fn readings(words: &[u32]) -> Option<[Reading; 5]> {
    let mut all = [Reading::Heads(0); 5];
    for (reading_out, place) in all.iter_mut().zip(READINGS) {
        *reading_out = reading(words[place], words[place + 1])?;
    }
    Some(all)
}

/// The words of a request of the given length, the rest zeros, or the number
/// of its fault.
fn words(bytes: &[u8], length: usize) -> Result<[u32; MOST_WORDS], u32> {
    let version = bytes.first_chunk().ok_or(WRONG_LENGTH)?;
    if u32::from_le_bytes(*version) != NEWEST_VERSION {
        return Err(WRONG_VERSION);
    }
    if bytes.len() != length {
        return Err(WRONG_LENGTH);
    }
    let mut words = [0; MOST_WORDS];
    for (word, four) in words.iter_mut().zip(bytes.chunks_exact(4)) {
        *word = u32::from_le_bytes([four[0], four[1], four[2], four[3]]);
    }
    Ok(words)
}

/// A consent and the date asked for, month and day, or the number of the
/// request's fault.
pub fn decode_target(bytes: &[u8]) -> Result<(Consent, u32, u32), u32> {
    let words = words(bytes, TARGET_LENGTH)?;
    let consent = consent(&words[1..ASKED_MONTH]);
    Ok((consent, words[ASKED_MONTH], words[ASKED_DAY]))
}

/// Plant and readings of a request, or the number of its fault.
fn data(words: &[u32]) -> Result<(Plant, [Reading; 5]), u32> {
    let plant = plant(words).ok_or(UNKNOWN_KIND)?;
    let readings = readings(words).ok_or(UNKNOWN_KIND)?;
    Ok((plant, readings))
}

/// A candidate from its words.
pub fn candidate(words: &[u32]) -> Candidate {
    Candidate {
        fraction: words[0],
        return_ratio: words[1],
        thickening: words[2],
    }
}

/// The words of a candidate, or of none yet.
pub fn words_of(candidate: Option<Candidate>) -> CandidateWords {
    match candidate {
        None => NONE_YET,
        Some(place) => [place.fraction, place.return_ratio, place.thickening],
    }
}

/// A request of the given length, or the number of its fault. The candidate
/// of a request to choose is zeros.
pub fn decode(bytes: &[u8], length: usize) -> Result<Decoded, u32> {
    let words = words(bytes, length)?;
    let (plant, readings) = data(&words)?;
    Ok(Decoded {
        plant,
        readings,
        candidate: candidate(&words[FRACTION..WORDS]),
    })
}

/// A sweep from its state, or the number of the state's fault.
pub fn decode_state(bytes: &[u8]) -> Result<Sweep, u32> {
    let words = words(bytes, STATE_LENGTH)?;
    let (plant, readings) = data(&words)?;
    let best = &words[BEST..STATE_WORDS];
    Ok(Sweep {
        plant,
        readings,
        asked: words[ASKED],
        best: (best != NONE_YET).then(|| candidate(best)),
    })
}

/// What the reference is given for a works or one of its lines.
pub struct DecodedWorks {
    pub plant: Plant,
    pub readings: [Reading; 5],
    pub split: Split,
    /// 0 in a request for the whole works.
    pub line: u32,
}

/// A request for a works, or for one of its lines, of the given length, or the
/// number of its fault.
pub fn decode_works(bytes: &[u8], length: usize) -> Result<DecodedWorks, u32> {
    let words = words(bytes, length)?;
    let (plant, readings) = data(&words)?;
    let mut shares = [0; MOST_LINES];
    shares.copy_from_slice(&words[SHARES..LINE]);
    Ok(DecodedWorks {
        plant,
        readings,
        split: Split {
            count: words[LINE_COUNT],
            shares,
        },
        line: words[LINE],
    })
}

/// What the reference is given for built tanks.
pub struct DecodedBuilt {
    pub plant: Plant,
    pub readings: [Reading; 5],
    pub existing: Existing,
    pub span: Span,
}

/// A request for built tanks, or the number of its fault.
pub fn decode_built(bytes: &[u8]) -> Result<DecodedBuilt, u32> {
    let words = words(bytes, BUILT_LENGTH)?;
    let (plant, readings) = data(&words)?;
    Ok(DecodedBuilt {
        plant,
        readings,
        existing: Existing {
            reactor: words[BUILT_REACTOR],
            surface: words[BUILT_SURFACE],
            depth: words[BUILT_DEPTH],
            fraction: words[BUILT_FRACTION],
            thickening: words[BUILT_THICKENING],
        },
        span: Span {
            least: words[LEAST_OF_SPAN],
            most: words[MOST_OF_SPAN],
        },
    })
}

/// A tariff from its words.
fn tariff(words: &[u32]) -> Tariff {
    Tariff {
        count: words[BAND_COUNT],
        limits: from_fn(|place| words[LIMITS + place]),
        prices: from_fn(|place| words[PRICES + place]),
        surcharge: words[SURCHARGE],
    }
}

/// A request for a price, of the length of a choice's or of a candidate's, or the
/// number of its fault. The candidate of a request to choose is zeros.
pub fn decode_price(bytes: &[u8], length: usize) -> Result<(Decoded, Tariff), u32> {
    let words = words(bytes, length)?;
    let (plant, readings) = data(&words)?;
    let end = length / 4;
    let start = end - TARIFF_WORDS;
    let candidate_words = words[..start].get(FRACTION..WORDS).unwrap_or(&NONE_YET);
    let decoded = Decoded {
        plant,
        readings,
        candidate: candidate(candidate_words),
    };
    Ok((decoded, tariff(&words[start..end])))
}
