//! The price of the concrete: what 22 is due to. The number is the library's:
//! here the band, its line and the figure are only looked for.

use crate::plant_file::PlantFile;
use crate::refusal::{self, headed};
use crate::state_file::name_of;
use crate::tariff_file::{bands_expected, TariffFile, LIMIT_UNIT};
use crate::tariff_file::{BAND, PRICE_RANGE, SURCHARGE, SURCHARGE_RANGE};
use crate::values::filled;
use library::number::TARIFF;
use library::{Candidate, Tariff, LEAST_LIMIT, MOST_BANDS};
use std::ffi::OsString;

/// What the command line says of a price.
pub struct Options {
    /// The tariff file
    pub tariff: OsString,
    /// The candidate that is priced; none: the design chosen
    pub candidate: Option<Candidate>,
}

/// The message of a refusal.
pub fn words(number: u32, plant: &PlantFile, tariff: &TariffFile, options: &Options) -> String {
    if number != TARIFF {
        return refusal::words(number, plant, options.candidate);
    }
    let name = name_of(&options.tariff);
    let mut message = headed(number, &format!("the tariff in {name} is not valid"));
    for line in faults(tariff) {
        message += &filled(&line);
    }
    message
}

/// Lines that name what is not valid in a tariff, or none.
pub fn faults(file: &TariffFile) -> Vec<String> {
    let tariff = &file.tariff;
    let count = tariff.count as usize;
    let mut lines = Vec::new();
    if count == 0 {
        lines.push(format!("no line '{BAND}': expected {}", bands_expected()));
    }
    for place in 0..count.min(MOST_BANDS) {
        let name = name(file, place);
        let wrong = [wrong_limit(tariff, place), wrong_price(tariff, place)];
        lines.extend(wrong.iter().flatten().map(|what| format!("{name}: {what}")));
    }
    if count > MOST_BANDS {
        let name = name(file, MOST_BANDS);
        lines.push(format!("{name}: expected at most {MOST_BANDS} bands"));
    }
    if let Some(what) = SURCHARGE_RANGE.outside(SURCHARGE, tariff.surcharge) {
        let line = file.surcharge_line.map(|line| format!("line {line}: "));
        lines.push(line.unwrap_or_default() + &what);
    }
    lines
}

/// A band by its line and its place.
fn name(file: &TariffFile, place: usize) -> String {
    let line = file.band_lines.get(place);
    let line = line.map(|line| format!("line {line}, "));
    format!("{}{BAND} {}", line.unwrap_or_default(), place + 1)
}

/// What is wrong with a limit; the last band has none.
fn wrong_limit(tariff: &Tariff, place: usize) -> Option<String> {
    let limit = tariff.limits[place];
    let before = place.checked_sub(1).map(|before| tariff.limits[before]);
    let expected = match before {
        _ if place + 1 == tariff.count as usize => return None,
        None if limit < LEAST_LIMIT => format!("at least {LEAST_LIMIT} {LIMIT_UNIT}"),
        Some(before) if limit <= before => {
            format!("more than {before} {LIMIT_UNIT}, the limit of {BAND} {place}")
        }
        _ => return None,
    };
    Some(format!("limit {limit}: expected {expected}"))
}

fn wrong_price(tariff: &Tariff, place: usize) -> Option<String> {
    PRICE_RANGE.outside("price", tariff.prices[place])
}

#[cfg(test)]
mod tests {
    use super::*;
    use crate::tariff_file::parse;

    fn told(text: &str) -> Vec<String> {
        faults(&parse(text.as_bytes()).unwrap_or_default())
    }

    #[test]
    fn nothing_is_told_of_a_valid_tariff() {
        for text in [
            "band rest 0\n",
            "band rest 1000000\nsurcharge 500\n",
            "band 1 0\nband 2 0\nband 3 0\nband 4 0\nband 5 0\nband rest 0\n",
            "band 4294967295 1\nband rest 1\nsurcharge 0\n",
        ] {
            assert!(told(text).is_empty(), "{text}");
        }
    }

    #[test]
    fn a_tariff_without_bands() {
        let none = "no line 'band': expected 1 to 6 bands, their limits rising from at least 1 \
                    m3, the last without limit";
        assert_eq!(told("# nothing\n"), [none]);
        let surcharge = "line 1: surcharge 501: expected 0..500 thousandths";
        assert_eq!(told("surcharge 501\n"), [none, surcharge]);
    }
}
