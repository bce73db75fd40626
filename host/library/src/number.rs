//! The numbers that the calls give, with their short words.

/// A number, its short word, and its name here and in the header.
#[derive(Clone, Copy, Debug, PartialEq, Eq)]
pub struct Number {
    pub number: u32,
    pub word: &'static str,
    pub name: &'static str,
}

macro_rules! numbers {
    ($($name:ident $number:literal $word:literal;)*) => {
        $(pub const $name: u32 = $number;)*

        /// Every number, in rising order.
        pub const ALL: &[Number] = &[
            $(Number { number: $number, word: $word, name: stringify!($name) },)*
        ];
    };
}

numbers! {
    SHEET 0 "sheet";
    PLANT_DATA 1 "plant data";
    NO_NUMBER 2 "no number";
    READING_RANGE 3 "reading range";
    COD_RATIO 4 "COD ratio";
    NO_DESIGN 5 "no design";
    OFF_GRID 6 "off grid";
    NITRATE 7 "nitrate";
    SOLIDS 8 "solids";
    SURFACE 9 "surface";
    DEPTH 10 "depth";
    SHORT_PAGE 11 "short page";
    DAY_LOG 12 "day log";
    DAY_VALUE 13 "day value";
    TERMS 14 "terms";
    NITRIFICATION 15 "nitrification";
    TERM_NITRATE 16 "term nitrate";
    BULKING 17 "bulking sludge";
    LINES 18 "lines";
    ADVANCE 19 "advance";
    SPAN 20 "span";
    BUILT_SIZE 21 "built size";
    TARIFF 22 "tariff";
    UNFINISHED 100 "unfinished";
    BAD_LENGTH 101 "bad length";
    BAD_VERSION 102 "bad version";
    BAD_KIND 103 "bad kind";
}

/// Whether a number says that the data, the candidate, the day log, the date,
/// the split, the advance, the span, the existing tanks or the tariff are
/// refused.
pub fn is_refusal(number: u32) -> bool {
    number != SHEET && number != SHORT_PAGE && number < UNFINISHED
}

/// The short word of a number.
pub fn word(number: u32) -> Option<&'static str> {
    let known = ALL.iter().find(|known| known.number == number)?;
    Some(known.word)
}
