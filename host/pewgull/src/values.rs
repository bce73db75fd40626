//! The values of a plant file and of the command line.

use library::{Date, Reading, Term};

/// A whole number of 32 bits, in digits alone. The error says what is wrong.
pub fn whole(word: &str) -> Result<u32, String> {
    if word.is_empty() || !word.bytes().all(|byte| byte.is_ascii_digit()) {
        return Err(format!("'{}' is not a whole number", shown(word)));
    }
    word.parse()
        .map_err(|_| format!("'{}' is too large", shown(word)))
}

/// The bits of an f32: a decimal number, taken to the nearest f32, or
/// `bits:` and eight hex digits.
pub fn f32_bits(word: &str) -> Result<u32, String> {
    if let Some(digits) = word.strip_prefix("bits:") {
        let hex = digits.bytes().all(|byte| byte.is_ascii_hexdigit());
        if digits.len() != 8 || !hex {
            return Err(format!(
                "'{}' does not have eight hex digits after 'bits:'",
                shown(word)
            ));
        }
        return u32::from_str_radix(digits, 16).map_err(|error| error.to_string());
    }
    word.parse::<f32>()
        .map(f32::to_bits)
        .map_err(|_| format!("'{}' is not a decimal number", shown(word)))
}

/// `measured X`, `below X` or `heads N`.
pub fn reading(words: &[&str]) -> Result<Reading, String> {
    match words {
        ["measured", value] => f32_bits(value).map(Reading::Measured),
        ["below", limit] => f32_bits(limit).map(Reading::Below),
        ["heads", count] => whole(count).map(Reading::Heads),
        ["measured" | "below" | "heads"] => Err("the number is missing".to_string()),
        ["measured" | "below" | "heads", _, rest, ..] => {
            Err(format!("'{}' is one word too many", shown(rest)))
        }
        [kind, ..] => Err(format!("'{}' is no kind of reading", shown(kind))),
        [] => Err("the value is missing".to_string()),
    }
}

/// The words of a reading, from which `reading` makes it again.
pub fn reading_words(reading: Reading) -> String {
    match reading {
        Reading::Measured(bits) => format!("measured {}", f32_words(bits)),
        Reading::Below(bits) => format!("below {}", f32_words(bits)),
        Reading::Heads(count) => format!("heads {count}"),
    }
}

/// An f32 as a decimal number, or by its bits where that would be another.
fn f32_words(bits: u32) -> String {
    let decimal = f32::from_bits(bits).to_string();
    match f32_bits(&decimal) {
        Ok(same) if same == bits => decimal,
        _ => format!("bits:{bits:08x}"),
    }
}

/// The words of a term, from which `term` makes it again.
pub fn term_words(term: &Term) -> String {
    let date = |date: Date| format!("{:02}-{:02}", date.month, date.day);
    let (first, last) = (date(term.first), date(term.last));
    format!("{first} {last} {} {}", term.temperature, term.target)
}

/// `MM-DD`. Whether there is such a day is the library's answer.
pub fn date(word: &str) -> Result<Date, String> {
    let (month, day) = word.split_once('-').unwrap_or_default();
    match (whole(month), whole(day)) {
        (Ok(month), Ok(day)) => Ok(Date { month, day }),
        _ => Err(format!("'{}' is not a date MM-DD", shown(word))),
    }
}

/// What the words of a term are, in their order.
const TERM_PARTS: [&str; 4] = ["first day", "last day", "temperature", "target"];

/// `MM-DD MM-DD TEMPERATURE TARGET`.
pub fn term(words: &[&str]) -> Result<Term, String> {
    match words {
        [first, last, temperature, target] => Ok(Term {
            first: date(first)?,
            last: date(last)?,
            temperature: whole(temperature)?,
            target: whole(target)?,
        }),
        [_, _, _, _, rest, ..] => Err(format!("'{}' is one word too many", shown(rest))),
        few => Err(format!("the {} is missing", TERM_PARTS[few.len()])),
    }
}

/// Shares of a works' lines, one or more. How many there may be, and what they
/// add up to, is the library's answer.
pub fn shares<'a>(words: impl Iterator<Item = &'a str>) -> Result<Vec<u32>, String> {
    let shares: Vec<u32> = words.map(whole).collect::<Result<_, _>>()?;
    match shares.is_empty() {
        true => Err("the value is missing".to_string()),
        false => Ok(shares),
    }
}

/// A word of the file as it can stand in a message: short, and without
/// control characters.
pub fn shown(word: &str) -> String {
    const LONGEST: usize = 40;
    let mut text: String = word
        .chars()
        .take(LONGEST)
        .map(|c| if c.is_control() { '?' } else { c })
        .collect();
    if word.chars().count() > LONGEST {
        text.push_str("...");
    }
    text
}

/// Words as a sentence lists them: `a, b and c`.
pub fn listed(words: &[String]) -> String {
    match words {
        [first @ .., last] if !first.is_empty() => format!("{} and {last}", first.join(", ")),
        _ => words.concat(),
    }
}

/// A number with commas between its thousands: `83,076`.
pub fn grouped(number: u64) -> String {
    match number / 1_000 {
        0 => number.to_string(),
        thousands => format!("{},{:03}", grouped(thousands), number % 1_000),
    }
}

/// A word as it can be given to a shell.
pub fn quoted(word: &str) -> String {
    let plain = |c: char| c.is_ascii_alphanumeric() || "_-./+:,@%=".contains(c);
    match !word.is_empty() && word.chars().all(plain) {
        true => word.to_string(),
        false => format!("'{}'", escaped(word).replace('\'', "'\\''")),
    }
}

/// A sentence of a message in lines of 80 columns, each on a new line and
/// indented by two.
pub fn filled(sentence: &str) -> String {
    const COLUMNS: usize = 80;
    let mut text = String::new();
    let mut column = COLUMNS;
    for word in sentence.split(' ') {
        let length = word.chars().count();
        if column + 1 + length > COLUMNS {
            text += "\n ";
            column = 1;
        }
        text += " ";
        text += word;
        column += 1 + length;
    }
    text
}

/// A file's name as it can stand in a message: control characters escaped.
pub fn escaped(name: &str) -> String {
    let mut text = String::new();
    for c in name.chars() {
        match c.is_control() {
            true => text.extend(c.escape_default()),
            false => text.push(c),
        }
    }
    text
}

#[cfg(test)]
mod tests {
    use super::*;

    #[test]
    fn whole_numbers() {
        assert_eq!(whole("0"), Ok(0));
        assert_eq!(whole("0012"), Ok(12));
        assert_eq!(whole("4294967295"), Ok(u32::MAX));
        for word in [
            "", "-1", "+1", "1.0", "1,200", "1_200", "0x10", "1e3", "\u{0661}",
        ] {
            assert!(
                whole(word).unwrap_err().contains("not a whole number"),
                "{word}"
            );
        }
        for word in ["4294967296", "99999999999999999999999"] {
            assert!(whole(word).unwrap_err().contains("too large"), "{word}");
        }
    }

    #[test]
    fn decimals_go_to_the_nearest_f32() {
        assert_eq!(f32_bits("200"), Ok(0x4348_0000));
        assert_eq!(f32_bits("0.1"), Ok(0x3dcc_cccd));
        assert_eq!(
            f32_bits("16777217"),
            Ok(0x4b80_0000),
            "a tie goes to the even one"
        );
        assert_eq!(
            f32_bits("16777217.0000001"),
            Ok(0x4b80_0001),
            "rounded only once"
        );
        assert_eq!(f32_bits("-0"), Ok(0x8000_0000));
        assert_eq!(f32_bits("-3.5"), Ok(0xc060_0000));
        assert_eq!(f32_bits("inf"), Ok(0x7f80_0000));
        assert_eq!(f32_bits("-inf"), Ok(0xff80_0000));
        assert!(f32::from_bits(f32_bits("nan").unwrap()).is_nan());
    }

    #[test]
    fn bits_go_through_unchanged() {
        assert_eq!(f32_bits("bits:43480000"), Ok(0x4348_0000));
        assert_eq!(f32_bits("bits:7fA00001"), Ok(0x7fa0_0001));
        for word in [
            "bits:",
            "bits:4348",
            "bits:434800000",
            "bits:4348000g",
            "bits:+4348000",
        ] {
            assert!(
                f32_bits(word).unwrap_err().contains("eight hex digits"),
                "{word}"
            );
        }
    }

    #[test]
    fn wrong_decimals() {
        for word in ["", "x", "1,5", "1.5mg/l", "0x10", "--1", "43480000h"] {
            assert!(
                f32_bits(word).unwrap_err().contains("not a decimal number"),
                "{word}"
            );
        }
    }

    #[test]
    fn readings() {
        let bits = 200f32.to_bits();
        assert_eq!(reading(&["measured", "200"]), Ok(Reading::Measured(bits)));
        assert_eq!(reading(&["below", "200"]), Ok(Reading::Below(bits)));
        assert_eq!(reading(&["heads", "200"]), Ok(Reading::Heads(200)));
        let wrong: [(&[&str], &str); 6] = [
            (&[], "the value is missing"),
            (&["200"], "no kind of reading"),
            (&["measured"], "the number is missing"),
            (&["measured", "200", "mg/l"], "'mg/l' is one word too many"),
            (&["heads", "2.5"], "not a whole number"),
            (&["heads", "4294967296"], "too large"),
        ];
        for (words, expected) in wrong {
            assert!(reading(words).unwrap_err().contains(expected), "{words:?}");
        }
    }

    #[test]
    fn dates_and_terms() {
        let (month, day) = (2, 30);
        for word in ["02-30", "2-30", "0002-030"] {
            assert_eq!(date(word), Ok(Date { month, day }), "{word}");
        }
        for word in [
            "",
            "-",
            "0230",
            "02-",
            "-30",
            "02/30",
            "2026-02-30",
            "+2-30",
            "02- 30",
            "2-4294967296",
        ] {
            let wrong = date(word).unwrap_err();
            assert!(wrong.contains("not a date MM-DD"), "{word}");
        }
        let first = Date { month, day };
        let last = Date { month: 13, day: 0 };
        let (temperature, target) = (21, 999);
        assert_eq!(
            term(&["02-30", "13-00", "21", "999"]),
            Ok(Term {
                first,
                last,
                temperature,
                target
            })
        );
        let wrong: [(&[&str], &str); 7] = [
            (&[], "the first day is missing"),
            (&["11-01"], "the last day is missing"),
            (&["11-01", "03-31"], "the temperature is missing"),
            (&["11-01", "03-31", "8"], "the target is missing"),
            (&["11-01", "03-31", "8.5", "1"], "'8.5' is not a whole"),
            (&["11-01", "8", "1", "1"], "'8' is not a date MM-DD"),
            (
                &["11-01", "03-31", "8", "1", "mg/m3"],
                "'mg/m3' is one word too many",
            ),
        ];
        for (words, expected) in wrong {
            assert!(term(words).unwrap_err().contains(expected), "{words:?}");
        }
    }

    #[test]
    fn shares_of_lines() {
        let of = |text: &str| shares(text.split_whitespace());
        assert_eq!(of("400 350 250"), Ok(vec![400, 350, 250]));
        assert_eq!(of("0 4294967295"), Ok(vec![0, u32::MAX]));
        assert_eq!(of(&"7 ".repeat(9)), Ok(vec![7; 9]));
        for (text, wrong) in [
            ("", "the value is missing"),
            ("400 60%", "'60%' is not a whole number"),
            ("0.4 0.6", "'0.4' is not a whole number"),
            ("400, 600", "'400,' is not a whole number"),
            ("4294967296", "'4294967296' is too large"),
        ] {
            assert_eq!(of(text), Err(wrong.to_string()), "{text}");
        }
    }

    #[test]
    fn words_are_listed() {
        let words = ["a", "b", "c"].map(String::from);
        assert_eq!(listed(&words), "a, b and c");
        assert_eq!(listed(&words[1..]), "b and c");
        assert_eq!(listed(&words[2..]), "c");
        assert_eq!(listed(&[]), "");
    }

    #[test]
    fn numbers_are_grouped() {
        for (number, text) in [
            (0, "0"),
            (999, "999"),
            (1_000, "1,000"),
            (83_076, "83,076"),
            (1_002_003, "1,002,003"),
        ] {
            assert_eq!(grouped(number), text);
        }
    }

    #[test]
    fn words_are_quoted() {
        for (word, text) in [
            ("a/b-1.plant", "a/b-1.plant"),
            ("", "''"),
            ("a b", "'a b'"),
            ("it's", "'it'\\''s'"),
            ("$x", "'$x'"),
        ] {
            assert_eq!(quoted(word), text);
        }
    }

    #[test]
    fn sentences_are_filled() {
        assert_eq!(filled("a b"), "\n  a b");
        let long = "x".repeat(77);
        assert_eq!(filled(&format!("{long} y")), format!("\n  {long}\n  y"));
        assert_eq!(filled(&format!("{long}x y")), format!("\n  {long}x\n  y"));
        let two = format!("{} y", "x".repeat(76));
        assert_eq!(filled(&two), format!("\n  {two}"));
    }

    #[test]
    fn names_are_escaped() {
        assert_eq!(escaped("a\nb\u{1b}[1m\u{e4}"), "a\\nb\\u{1b}[1m\u{e4}");
    }

    #[test]
    fn long_words_are_cut() {
        assert_eq!(shown(&"x".repeat(41)), "x".repeat(40) + "...");
        assert_eq!(shown("a\u{1b}b"), "a?b");
    }
}
