//! A text file of days: a line for each day with its flow and its BOD, and a
//! heading line where the first one is no day.

use crate::text_file::{text, Fault, Faults};
use crate::values;
use library::{day_log, Day};

/// What is expected of a file, and of a line.
const FILE: &str = "a text file with a line for each day";
const LINE: &str = "flow in m3/d and BOD in mg/l, separated by comma, semicolon or tab";

/// What may stand between the two values. In a line that has several of
/// them, the first of these is the separator.
const SEPARATORS: [char; 3] = ['\t', ';', ','];

/// A day log, and where its days stand in a text file.
pub struct Log {
    pub bytes: Vec<u8>,
    /// The line of day 1, where the log was made from a text file
    pub first_line: Option<usize>,
}

/// Makes the log of a text file. How many days it has, and whether a value is
/// in its range, is for the library to judge.
pub fn parse(bytes: &[u8]) -> Result<Log, Vec<Fault>> {
    // a heading may be in any code; a value is of plain characters
    let read = String::from_utf8_lossy(bytes);
    let text = text(read.as_bytes(), FILE).map_err(|fault| vec![fault])?;
    let lines = text.trim_end_matches(['\n', '\r', ' ']).lines();
    let headings = text.lines().take(1).filter(|line| is_heading(line)).count();
    let mut days = Vec::new();
    let mut faults = Faults::default();
    let mut separator = None;
    for (place, line) in lines.enumerate().skip(headings) {
        match read_day(line, &mut separator) {
            Ok(day) => days.push(day),
            Err(what) => faults.add(place + 1, what),
        }
    }
    faults.none_or(FILE)?;
    Ok(Log {
        bytes: day_log(&days),
        first_line: Some(1 + headings),
    })
}

/// A line none of whose values is a number or starts like one.
fn is_heading(line: &str) -> bool {
    let like_number = |value: &str| {
        let start = |c: char| c.is_ascii_digit() || "+-.".contains(c);
        value.starts_with(start) || values::f32_bits(value).is_ok()
    };
    !line.trim().is_empty()
        && !line
            .split(SEPARATORS)
            .any(|value| like_number(value.trim()))
}

/// Reads a day. The separator is that of the first day.
fn read_day(line: &str, separator: &mut Option<char>) -> Result<Day, String> {
    if line.trim().is_empty() {
        return Err(format!("an empty line; expected {LINE}"));
    }
    let Some(found) = SEPARATORS.into_iter().find(|c| line.contains(*c)) else {
        let line = values::shown(line);
        return Err(format!("'{line}' is one value; expected {LINE}"));
    };
    let first = *separator.get_or_insert(found);
    if found != first {
        let (found, first) = (name(found), name(first));
        return Err(format!(
            "separated by {found}; expected {first}, as in the first day's line"
        ));
    }
    let fields: Vec<&str> = line.split(found).map(str::trim).collect();
    let [flow, bod] = fields[..] else {
        let count = fields.len();
        return Err(format!("{count} values; expected {LINE}"));
    };
    Ok(Day {
        flow: value("flow", flow, "m3/d")?,
        bod: value("BOD", bod, "mg/l")?,
    })
}

fn name(separator: char) -> &'static str {
    match separator {
        '\t' => "tab",
        ';' => "semicolon",
        _ => "comma",
    }
}

/// The bits of a value: a decimal number, taken to the nearest f32.
fn value(name: &str, field: &str, unit: &str) -> Result<u32, String> {
    let expected = format!("expected a number in {unit}, with a decimal point");
    if field.is_empty() {
        return Err(format!("the {name} is missing; {expected}"));
    }
    values::f32_bits(field).map_err(|wrong| format!("{name} {wrong}; {expected}"))
}

#[cfg(test)]
mod tests {
    use super::*;

    fn days(text: &str) -> Vec<u8> {
        parse(text.as_bytes()).unwrap().bytes
    }

    #[test]
    fn separators_and_headings() {
        let bytes = days("5000,200.5\n5100,190\n");
        assert_eq!(bytes.len(), 20);
        assert_eq!(bytes[..8], [2, 0, 0, 0, 0x00, 0x40, 0x9c, 0x45]);
        assert_eq!(bytes[12..16], 200.5f32.to_le_bytes());
        for text in [
            "5000;200.5\r\n5100;190\r\n\r\n",
            "5000\t200.5\n 5100 \t190",
            "flow, BOD\n5000,200.5\n5100,190\n\n",
            "\u{feff}\"Q, m\u{b3}/d\";BOD5\n5000;200.5\n5.1e3;190\n",
        ] {
            assert_eq!(days(text), bytes, "{text:?}");
        }
        assert_eq!(parse(b"m\xb3/d;mg/l\n1;2").unwrap().first_line, Some(2));
        assert_eq!(parse(b"1;2").unwrap().first_line, Some(1));
        assert_eq!(days(""), [0; 4]);
        assert_eq!(days("flow;BOD\n"), [0; 4]);
    }

    #[test]
    fn a_day_is_no_heading() {
        for line in ["nan,200", "5OOO,200", "-,200", ".5,x", "inf,inf", "-1,-"] {
            assert!(!is_heading(line), "{line}");
        }
        for line in ["flow,BOD", "Q;B", "flow"] {
            assert!(is_heading(line), "{line}");
        }
        assert!(!is_heading(""));
    }

    #[test]
    fn faults_say_line_and_what_was_expected() {
        for (text, line, what) in [
            (
                "1,2\n\n3,4\n",
                2,
                "an empty line; expected flow in m3/d and BOD",
            ),
            ("1,2\n3\n", 2, "'3' is one value; expected flow in m3/d"),
            ("flow,BOD\n1,2,3\n", 2, "3 values; expected flow in m3/d"),
            ("1;2\n3,4\n", 2, "separated by comma; expected semicolon"),
            ("1,\n", 1, "the BOD is missing; expected a number in mg/l"),
            (";2\n", 1, "the flow is missing; expected a number in m3/d"),
            (
                "5000,5;200\n",
                1,
                "flow '5000,5' is not a decimal number; expected a number in m3/d",
            ),
            ("1,2\nx,y\n", 2, "flow 'x' is not a decimal number"),
            (
                "1,2\0\n",
                1,
                "not a text file; expected a text file with a line",
            ),
            ("1,2\r3,4\r", 1, "a line ends in CR alone"),
        ] {
            let faults = parse(text.as_bytes()).err().unwrap();
            assert_eq!((faults.len(), faults[0].line), (1, line), "{text:?}");
            assert!(faults[0].what.starts_with(what), "{:?}", faults[0]);
        }
        let faults = parse("x\n".repeat(100).as_bytes()).err().unwrap();
        assert_eq!(faults.len(), 11);
        assert!(faults[10].what.starts_with("89 more faults"), "{faults:?}");
    }
}
