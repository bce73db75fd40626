//! A tariff file: lines `band LIMIT PRICE`, the last of them `band rest PRICE`,
//! and a line `surcharge N`; `#` starts a comment.

use crate::keys::{single, Range, KEYS};
use crate::text_file::{self, Fault};
use crate::values::{self, shown};
use library::{Tariff, LEAST_BANDS, LEAST_LIMIT, MOST_BANDS, MOST_PRICE, MOST_SURCHARGE};
use std::str::SplitWhitespace;

/// What is expected of a file.
pub const EXPECTED: &str = "a tariff file";

/// The words that a line starts with.
pub const BAND: &str = "band";
pub const SURCHARGE: &str = "surcharge";
/// What stands for the limit of the last band.
pub const REST: &str = "rest";

/// What a limit counts.
pub const LIMIT_UNIT: &str = "m3";
/// Range of a band's price.
pub const PRICE_RANGE: Range = Range {
    least: 0,
    most: MOST_PRICE,
    unit: "cents per m3",
};
/// Range of the surcharge. Left out, it is the least.
pub const SURCHARGE_RANGE: Range = Range {
    least: 0,
    most: MOST_SURCHARGE,
    unit: "thousandths",
};

/// What a tariff file holds.
#[derive(Default)]
pub struct TariffFile {
    pub tariff: Tariff,
    /// Where the bands stand: as many as may be there, and one more
    pub band_lines: Vec<usize>,
    /// Where the surcharge stands
    pub surcharge_line: Option<usize>,
    /// Where the band without limit stands
    pub rest_line: Option<usize>,
}

/// Reads the text of a tariff file. How many bands there are, and whether
/// their limits rise and the figures are in their ranges, is the library's
/// answer.
pub fn parse(bytes: &[u8]) -> Result<TariffFile, Vec<Fault>> {
    let start = TariffFile::default();
    text_file::read(
        bytes,
        EXPECTED,
        start,
        TariffFile::read_line,
        TariffFile::end,
    )
}

impl TariffFile {
    /// Reads one line.
    fn read_line(&mut self, line: usize, word: &str, words: SplitWhitespace) -> Result<(), String> {
        let value: Vec<&str> = words.take(MOST_WORDS).collect();
        match word {
            BAND => self.put_band(line, &value),
            SURCHARGE => self.put_surcharge(line, &value),
            _ => Err(unknown(word)),
        }
    }

    /// One band more. None comes after the one without limit.
    fn put_band(&mut self, line: usize, value: &[&str]) -> Result<(), String> {
        if let Some(last) = self.rest_line {
            return Err(format!(
                "a band after '{BAND} {REST}' of line {last}; expected that one as the last"
            ));
        }
        if self.band_lines.len() <= MOST_BANDS {
            self.band_lines.push(line);
        }
        if value.first() == Some(&REST) {
            self.rest_line = Some(line);
        }
        let (limit, price) =
            band(value).map_err(|wrong| format!("{wrong}; expected {}", band_expected()))?;
        self.tariff.push(limit, price);
        Ok(())
    }

    fn put_surcharge(&mut self, line: usize, value: &[&str]) -> Result<(), String> {
        if let Some(first) = self.surcharge_line {
            return Err(format!(
                "the surcharge was given in line {first} already; expected it once"
            ));
        }
        self.surcharge_line = Some(line);
        let surcharge = single(value).and_then(values::whole);
        self.tariff.surcharge =
            surcharge.map_err(|wrong| format!("{wrong}; expected {}", surcharge_expected()))?;
        Ok(())
    }

    /// Where there are bands, the last one is without limit.
    fn end(&mut self) -> Result<(), String> {
        match self.rest_line.is_some() || self.band_lines.is_empty() {
            true => Ok(()),
            false => Err(format!(
                "no band is without limit; expected '{BAND} {REST} PRICE' as the last band"
            )),
        }
    }
}

/// Words of a value that are looked at; none takes so many.
const MOST_WORDS: usize = 4;

/// What the words of a band are, in their order.
const PARTS: [&str; 2] = ["limit", "price"];

/// `LIMIT PRICE`, or `rest PRICE`, whose limit is not looked at.
fn band(value: &[&str]) -> Result<(u32, u32), String> {
    match value {
        [REST, price] => Ok((0, values::whole(price)?)),
        [limit, price] => Ok((values::whole(limit)?, values::whole(price)?)),
        [_, _, rest, ..] => Err(format!("'{}' is one word too many", shown(rest))),
        few => Err(format!("the {} is missing", PARTS[few.len()])),
    }
}

/// What is expected of the bands of a tariff.
pub fn bands_expected() -> String {
    format!(
        "{LEAST_BANDS} to {MOST_BANDS} bands, their limits rising from at least {LEAST_LIMIT} \
         {LIMIT_UNIT}, the last without limit"
    )
}

fn band_expected() -> String {
    let (prices, unit) = (PRICE_RANGE.digits(), PRICE_RANGE.unit);
    format!(
        "'{BAND} LIMIT PRICE', or '{BAND} {REST} PRICE' as the last band: LIMIT a whole number \
         of {LIMIT_UNIT}, at least {LEAST_LIMIT} and above the one before, PRICE one of {prices} \
         {unit}, digits alone"
    )
}

fn surcharge_expected() -> String {
    let Range { least, most, unit } = SURCHARGE_RANGE;
    format!("'{SURCHARGE} N', N a whole number from {least} to {most} in {unit}, digits alone")
}

/// A word that no line of a tariff starts with.
fn unknown(word: &str) -> String {
    let what = match KEYS.iter().any(|key| key.name == word) {
        true => "a key of a plant file",
        false => "no word of a tariff",
    };
    let word = shown(word);
    format!("'{word}' is {what}; expected '{BAND}' or '{SURCHARGE}'")
}

#[cfg(test)]
mod tests {
    use super::*;

    fn tariff(text: &str) -> Tariff {
        let file = parse(text.as_bytes());
        file.unwrap_or_else(|faults| panic!("{text}: {faults:?}"))
            .tariff
    }

    #[test]
    fn bands_and_surcharge() {
        let mut expected = Tariff::default();
        assert_eq!(tariff(""), expected);
        assert_eq!(tariff("\n# nothing\n"), expected);
        expected.push(500, 42_000);
        expected.push(0, 29_000);
        assert_eq!(tariff("band 500 42000\nband rest 29000\n"), expected);
        expected.surcharge = 80;
        for text in [
            "band 500 42000\nband rest 29000\nsurcharge 80\n",
            "surcharge 80\nband 500 42000\nband rest 29000",
            "\u{feff}band\t0500  42000# dear\r\nsurcharge 80\r\n\r\nband rest 29000 # cheap\r\n",
        ] {
            assert_eq!(tariff(text), expected, "{text}");
        }
    }

    /// What is not valid goes to the library.
    #[test]
    fn nothing_is_judged_here() {
        let most = u32::MAX;
        let found = tariff(&format!(
            "band 0 {most}\nband 0 5\nband rest 0\nsurcharge {most}\n"
        ));
        assert_eq!((found.count, found.surcharge), (3, most));
        assert_eq!((found.limits[0], found.prices[0]), (0, most));
        let bands = |count: usize| tariff(&("band 7 5\n".repeat(count - 1) + "band rest 6\n"));
        for count in [1, 6, 7, 100] {
            assert_eq!(bands(count).count, count as u32);
        }
        assert_eq!(bands(7).prices, [5; 6]);
    }

    #[test]
    fn lines_are_kept() {
        let file = parse(b"# a\nband 7 5\n\nsurcharge 1\nband rest 6\n").unwrap_or_default();
        assert_eq!(file.band_lines, [2, 5]);
        assert_eq!(file.surcharge_line, Some(4));
        let many = "band 7 5\n".repeat(50) + "band rest 6\n";
        let file = parse(many.as_bytes()).unwrap_or_default();
        assert_eq!(file.band_lines, [1, 2, 3, 4, 5, 6, 7]);
    }

    #[test]
    fn faults_of_the_last_band() {
        for (text, line, what) in [
            (
                "band 7 5\nsurcharge 1\n",
                2,
                "no band is without limit; expected 'band rest PRICE' as the last band",
            ),
            (
                "band rest 5\nband 7 5\n",
                2,
                "a band after 'band rest' of line 1; expected that one as the last",
            ),
            (
                "band rest 5\n\nband rest 5\n",
                3,
                "a band after 'band rest' of line 1; expected that one as the last",
            ),
            (
                "surcharge 1\nband rest 5\nsurcharge 1\n",
                3,
                "the surcharge was given in line 1 already; expected it once",
            ),
        ] {
            let faults = parse(text.as_bytes()).err().unwrap_or_default();
            let what = what.to_string();
            assert_eq!(faults, [Fault { line, what }], "{text}");
        }
    }
}
