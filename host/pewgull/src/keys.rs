//! The keys of a plant file, in the order of the request's words.

use crate::plant_file::PlantFile;
use crate::values;
use library::{Precipitant, PrimarySettling, Process, Reading, Removal, Request, TankFlow, Way};
use library::{LEAST_INDEX, LEAST_LINES, LEAST_SHARE, MOST_INDEX, MOST_LINES, WHOLE};
use std::str::SplitWhitespace;

/// A range of whole numbers and what they count.
#[derive(Clone, Copy, Debug, PartialEq, Eq)]
pub struct Range {
    pub least: u32,
    pub most: u32,
    pub unit: &'static str,
}

impl Range {
    pub fn holds(&self, value: u32) -> bool {
        (self.least..=self.most).contains(&value)
    }

    /// Its two ends.
    pub fn digits(&self) -> String {
        format!("{}..{}", self.least, self.most)
    }

    /// What is said of a value that it does not hold.
    pub fn outside(&self, name: &str, value: u32) -> Option<String> {
        let (ends, unit) = (self.digits(), self.unit);
        (!self.holds(value)).then(|| format!("{name} {value}: expected {ends} {unit}"))
    }
}

/// Range of a head count.
pub const HEADS: Range = Range {
    least: 1,
    most: 2_000_000,
    unit: "heads",
};

/// What a key takes, and where it goes.
pub enum Field {
    /// A whole number in this range
    Whole(Range, fn(&mut Request) -> &mut u32),
    /// One of these words; the setter takes the word's place
    Word(&'static [&'static str], fn(&mut Request, usize)),
    /// A lab reading whose result is in this range
    Reading(Range, fn(&mut Request) -> &mut Reading),
    /// A term of the consent, one more with each line
    Term,
    /// The shares of a works' lines, which are no data of the plant
    Shares,
}

/// How often a key is given.
#[derive(Clone, Copy)]
pub enum Given {
    /// Once
    Once,
    /// Once, or left out: this value counts then
    OnceOr(&'static str),
    /// Once, or left out: nothing counts then
    OnceOrNone,
    /// As often as there are such lines, in their order
    Often,
}

pub struct Key {
    pub name: &'static str,
    pub meaning: &'static str,
    pub field: Field,
    pub given: Given,
}

const fn required(name: &'static str, meaning: &'static str, field: Field) -> Key {
    let given = Given::Once;
    Key {
        name,
        meaning,
        field,
        given,
    }
}

const fn whole(
    name: &'static str,
    meaning: &'static str,
    (least, most, unit): (u32, u32, &'static str),
    at: fn(&mut Request) -> &mut u32,
) -> Key {
    let field = Field::Whole(Range { least, most, unit }, at);
    required(name, meaning, field)
}

const fn word(
    name: &'static str,
    meaning: &'static str,
    words: &'static [&'static str],
    set: fn(&mut Request, usize),
) -> Key {
    let field = Field::Word(words, set);
    required(name, meaning, field)
}

/// The range of its result in mg/l.
const fn reading(
    name: &'static str,
    meaning: &'static str,
    (least, most): (u32, u32),
    at: fn(&mut Request) -> &mut Reading,
) -> Key {
    let unit = "mg/l";
    let field = Field::Reading(Range { least, most, unit }, at);
    required(name, meaning, field)
}

const PROCESSES: [Process; 5] = [
    Process::PreAnoxic,
    Process::Simultaneous,
    Process::Intermittent,
    Process::StepFeedTwo,
    Process::StepFeedThree,
];
const PRECIPITANTS: [Precipitant; 2] = [Precipitant::Iron, Precipitant::Aluminium];
const TANKS: [TankFlow; 2] = [TankFlow::Horizontal, TankFlow::Vertical];
const REMOVALS: [Removal; 3] = [Removal::Scraper, Removal::Suction, Removal::Hopper];
const SETTLINGS: [PrimarySettling; 3] = [
    PrimarySettling::None,
    PrimarySettling::Short,
    PrimarySettling::Long,
];
const WAYS: [Way; 2] = [Way::Bod, Way::Cod];

const PROCESS_WORDS: &[&str] = &[
    "pre-anoxic",
    "simultaneous",
    "intermittent",
    "step-feed-two",
    "step-feed-three",
];

/// Range of the design temperature and of the aeration temperature.
pub const DEGREES: (u32, u32, &str) = (10, 20, "degrees Celsius");
/// Range of a sludge volume index, of a plant and of a span.
pub const INDEX: Range = Range {
    least: LEAST_INDEX,
    most: MOST_INDEX,
    unit: "l/kg",
};
/// Above it, up to this one, the refusal is 17; beyond it is 1.
pub const MOST_BULKING: u32 = 200;
const NITRATE: (u32, u32, &str) = (1_000, 50_000, "mg/m3");
const PEAK: (u32, u32, &str) = (100, 300, "hundredths");
/// Largest dose of external carbon, mg/m3 as COD.
pub const MOST_DOSE: u32 = 500_000;
/// Largest dose that adds no sludge in the COD way, mg/m3 as COD.
pub const MOST_DOSE_WITHOUT_SLUDGE: u32 = 10_000;
const DOSE: (u32, u32, &str) = (0, MOST_DOSE, "mg/m3 as COD");

/// Range of a term's lowest temperature.
pub const TERM_TEMPERATURE: Range = Range {
    least: 4,
    most: 20,
    unit: "degrees Celsius",
};
/// Range of a term's nitrate target, which is that of the design's.
pub const TERM_TARGET: Range = Range {
    least: NITRATE.0,
    most: NITRATE.1,
    unit: NITRATE.2,
};
/// The words of a term's line after the key.
pub const TERM_WORDS: &str = "MM-DD MM-DD TEMPERATURE TARGET";
/// The words after the key of the shares.
pub const SHARES_WORDS: &str = "SHARE SHARE ...";

/// What is expected of the shares of a works.
pub fn shares_expected() -> String {
    format!(
        "{LEAST_LINES} to {MOST_LINES} shares in thousandths, each at least {LEAST_SHARE}, \
         adding up to {WHOLE}"
    )
}

#[rustfmt::skip]
pub const KEYS: [Key; 27] = [
    whole("load", "raw BOD5 load", (1, 100_000, "kg/d"), |r| &mut r.load),
    whole("flow", "daily flow", (1, 200_000, "m3/d"), |r| &mut r.flow),
    whole("wet-weather-flow", "wet weather flow", (1, 50_000, "m3/h"), |r| &mut r.wet_weather_flow),
    whole("design-temperature", "design temperature", DEGREES, |r| &mut r.design_temperature),
    whole("aeration-temperature", "aeration temperature", DEGREES, |r| &mut r.aeration_temperature),
    required("sludge-volume-index", "sludge volume index", Field::Whole(INDEX, |r| &mut r.sludge_volume_index)),
    whole("nitrate-target", "nitrate target", NITRATE, |r| &mut r.nitrate_target),
    whole("phosphorus-target", "phosphorus target", (0, 100_000, "mg/m3"), |r| &mut r.phosphorus_target),
    whole("carbon-peak", "carbon peak factor", PEAK, |r| &mut r.carbon_peak),
    whole("nitrogen-peak", "nitrogen peak factor", PEAK, |r| &mut r.nitrogen_peak),
    whole("oxygen-saturation", "oxygen saturation", (6_000, 15_000, "mg/m3"), |r| &mut r.oxygen_saturation),
    whole("site-surface", "largest settling surface", (1, 100_000, "m2"), |r| &mut r.site_surface),
    whole("site-depth", "largest settling depth", (3_000, 10_000, "mm"), |r| &mut r.site_depth),
    word("process", "process", PROCESS_WORDS, |r, i| r.process = PROCESSES[i]),
    word("precipitant", "precipitant", &["iron", "aluminium"], |r, i| r.precipitant = PRECIPITANTS[i]),
    word("tank", "tank flow", &["horizontal", "vertical"], |r, i| r.tank = TANKS[i]),
    word("removal", "sludge removal", &["scraper", "suction", "hopper"], |r, i| r.removal = REMOVALS[i]),
    word("primary-settling", "primary settling", &["none", "short", "long"], |r, i| r.primary_settling = SETTLINGS[i]),
    reading("bod", "BOD", (20, 2_000), |r| &mut r.bod),
    reading("cod", "COD", (20, 4_400), |r| &mut r.cod),
    reading("solids", "solids", (0, 2_000), |r| &mut r.solids),
    reading("nitrogen", "nitrogen", (0, 500), |r| &mut r.nitrogen),
    reading("phosphorus", "phosphorus", (0, 100), |r| &mut r.phosphorus),
    whole("dose", "dose of external carbon", DOSE, |r| &mut r.dose).optional("0"),
    required("term", "term of the consent", Field::Term).repeated(),
    word("way", "way of sludge and oxygen", &["bod", "cod"], |r, i| r.way = WAYS[i]).optional("bod"),
    required("shares", "shares of a works' lines", Field::Shares).or_none(),
];

impl Key {
    /// The same key, which may be left out: this value counts then.
    const fn optional(self, value: &'static str) -> Key {
        let given = Given::OnceOr(value);
        Key { given, ..self }
    }

    /// The same key, which may be left out: nothing counts then.
    const fn or_none(self) -> Key {
        let given = Given::OnceOrNone;
        Key { given, ..self }
    }

    /// The same key, which may be given often.
    const fn repeated(self) -> Key {
        let given = Given::Often;
        Key { given, ..self }
    }

    /// What counts where the key is left out, for one that may be.
    pub fn left_out(&self) -> Option<&'static str> {
        match self.given {
            Given::Once => None,
            Given::OnceOr(value) => Some(value),
            Given::OnceOrNone | Given::Often => Some("none"),
        }
    }

    /// What the key takes, in words.
    pub fn expected(&self) -> String {
        let name = self.name;
        match &self.field {
            Field::Whole(Range { least, most, unit }, _) => {
                format!(
                    "'{name} N', N a whole number from {least} to {most} in {unit}, digits alone"
                )
            }
            Field::Word(words, _) => format!("'{name}' and one of {}", words.join(", ")),
            Field::Reading(range, _) => format!(
                "'{name} measured X', '{name} below X' (X in mg/l, with a decimal point, \
                 or bits: and eight hex digits) or '{name} heads N' (N from {} to {}), \
                 for a result of {} mg/l",
                HEADS.least,
                HEADS.most,
                range.digits()
            ),
            Field::Term => format!(
                "'{name} {TERM_WORDS}': first and last day, lowest temperature of {} {}, \
                 nitrate target of {} {}",
                TERM_TEMPERATURE.digits(),
                TERM_TEMPERATURE.unit,
                TERM_TARGET.digits(),
                TERM_TARGET.unit
            ),
            Field::Shares => format!(
                "'{name} {SHARES_WORDS}', whole numbers: {}",
                shares_expected()
            ),
        }
    }

    /// The value that a file has, or what counts where it is left out, as a file
    /// would have it. Two files with one value have the same words here.
    pub fn value(&self, file: &PlantFile) -> String {
        let mut request = file.request;
        match &self.field {
            Field::Whole(_, at) => at(&mut request).to_string(),
            Field::Word(words, set) => {
                let is_set = |place: &usize| {
                    let mut with = request;
                    set(&mut with, *place);
                    with == request
                };
                let place = (0..words.len()).find(is_set);
                place.map_or_else(String::new, |place| words[place].to_string())
            }
            Field::Reading(_, at) => values::reading_words(*at(&mut request)),
            Field::Term => {
                let terms = request.terms.named().iter().map(values::term_words);
                let mut terms: Vec<_> = terms.collect();
                let more = request.terms.count as usize - terms.len();
                terms.extend((more > 0).then(|| format!("{more} more")));
                listed_or_none(terms, "; ")
            }
            Field::Shares => {
                let shares = file.shares.iter().map(u32::to_string);
                listed_or_none(shares.collect(), " ")
            }
        }
    }

    /// Puts the value, given by its words, into what the file holds. The error
    /// says what is wrong.
    pub fn put(&self, file: &mut PlantFile, words: SplitWhitespace) -> Result<(), String> {
        let value: Vec<&str> = words.clone().take(MOST_WORDS).collect();
        let request = &mut file.request;
        match &self.field {
            Field::Whole(_, field) => *field(request) = values::whole(single(&value)?)?,
            Field::Word(words, set) => set(request, place(words, single(&value)?)?),
            Field::Reading(_, field) => *field(request) = values::reading(&value)?,
            Field::Term => request.terms.push(values::term(&value)?),
            Field::Shares => file.shares = values::shares(words)?,
        }
        Ok(())
    }
}

/// Values one after the other, or that there is none.
fn listed_or_none(values: Vec<String>, between: &str) -> String {
    match values.is_empty() {
        true => "none".to_string(),
        false => values.join(between),
    }
}

/// Words of a value that are looked at, but of shares; no other takes so many.
const MOST_WORDS: usize = 8;

/// The only word of a value.
pub fn single<'a>(value: &[&'a str]) -> Result<&'a str, String> {
    match value {
        [word] => Ok(word),
        [] => Err("the value is missing".to_string()),
        [_, rest, ..] => Err(format!("'{}' is one word too many", values::shown(rest))),
    }
}

/// Where a word stands in the list.
fn place(words: &[&str], word: &str) -> Result<usize, String> {
    words
        .iter()
        .position(|known| *known == word)
        .ok_or_else(|| format!("'{}' is not known here", values::shown(word)))
}

/// All keys, as a message lists them.
pub fn names() -> String {
    KEYS.map(|key| key.name).join(" ")
}

/// The key that differs from a word in at most two characters, if there is
/// one; capitals and underscores are taken as small letters and hyphens.
pub fn similar(word: &str) -> Option<&'static str> {
    if word.len() > 2 * 40 {
        return None;
    }
    let word = word.to_lowercase().replace('_', "-");
    KEYS.iter()
        .map(|key| (distance(&word, key.name), key.name))
        .filter(|(distance, name)| *distance <= 2 && *distance < name.len() / 2 + 1)
        .min()
        .map(|(_, name)| name)
}

/// Characters to insert, drop or replace between two words, a swap of two
/// neighbours being two of these.
fn distance(from: &str, to: &str) -> usize {
    let to: Vec<char> = to.chars().collect();
    let mut row: Vec<usize> = (0..=to.len()).collect();
    for (i, a) in from.chars().enumerate() {
        let mut corner = row[0];
        row[0] = i + 1;
        for (j, b) in to.iter().enumerate() {
            let replaced = corner + usize::from(a != *b);
            corner = row[j + 1];
            row[j + 1] = replaced.min(corner + 1).min(row[j] + 1);
        }
    }
    row[to.len()]
}

#[cfg(test)]
mod tests {
    use super::*;

    #[test]
    fn a_default_is_a_value_of_its_key() {
        for key in &KEYS {
            if let Given::OnceOr(value) = key.given {
                let words = value.split_whitespace();
                assert_eq!(key.put(&mut PlantFile::default(), words), Ok(()));
            }
        }
    }

    #[test]
    fn distances() {
        assert_eq!(distance("", "flow"), 4);
        assert_eq!(distance("flow", "flow"), 0);
        assert_eq!(distance("flwo", "flow"), 2);
        assert_eq!(distance("kitten", "sitting"), 3);
    }

    #[test]
    fn similar_keys() {
        assert_eq!(similar("BOD"), Some("bod"));
        assert_eq!(similar("flwo"), Some("flow"));
        assert_eq!(similar("wet_weather_flow"), Some("wet-weather-flow"));
        assert_eq!(similar("nitrate-taget"), Some("nitrate-target"));
        assert_eq!(similar("Way"), Some("way"));
        assert_eq!(similar("Share"), Some("shares"));
        for word in ["", "x", "xyz", "temperature", "load=1200"] {
            assert_eq!(similar(word), None, "{word}");
        }
    }
}
