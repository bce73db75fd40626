//! What a refusal of a day log is due to. The number is the library's: here
//! the bytes, the day and the value are only looked for.

use crate::culprit::short;
use crate::day_file::Log;
use crate::refusal::headed;
use library::number::{DAY_LOG, DAY_VALUE};
use library::{LEAST_DAYS, MOST_BOD, MOST_DAYS, MOST_FLOW};

/// Bytes of the count, and of a day.
const COUNT: usize = 4;
const DAY: usize = 8;
/// Most values that are told.
const TOLD: usize = 5;

/// The message of a refusal.
pub fn words(number: u32, log: &Log) -> String {
    let text = match number {
        DAY_LOG => layout(log),
        DAY_VALUE => values(log),
        _ => String::new(),
    };
    headed(number, &text)
}

/// The 32-bit numbers of the log, the count first.
fn numbers(log: &Log) -> Vec<u32> {
    let words = log.bytes.chunks_exact(4);
    words
        .map(|word| {
            word.iter()
                .rev()
                .fold(0, |sum, byte| sum << 8 | u32::from(*byte))
        })
        .collect()
}

/// What is wrong with the count or the length.
fn layout(log: &Log) -> String {
    let length = log.bytes.len();
    let text = match numbers(log).first() {
        None => format!(
            "the log has {length} bytes.\n  \
             Expected a count of days in {COUNT} bytes, then {DAY} bytes for each day"
        ),
        Some(count) if !(LEAST_DAYS..=MOST_DAYS).contains(count) => {
            format!("a count of {count} days: expected {LEAST_DAYS}..{MOST_DAYS}")
        }
        Some(count) => format!(
            "the log has {length} bytes: expected {} for its {count} days",
            COUNT + DAY * *count as usize
        ),
    };
    match looks_like_text(log) {
        true => text + "\n  This looks like a text file: 'pewgull load --csv FILE' reads those",
        false => text,
    }
}

/// Whether bytes that were given as a log are those of a text file.
fn looks_like_text(log: &Log) -> bool {
    let plain = |byte: &u8| !byte.is_ascii_control() || b"\t\r\n".contains(byte);
    log.first_line.is_none() && !log.bytes.is_empty() && log.bytes.iter().all(plain)
}

/// The values that are at fault, by day.
fn values(log: &Log) -> String {
    let mut text = "a flow or a BOD is no number, below zero or too large".to_string();
    let found = faults(log);
    for line in found.iter().take(TOLD) {
        text += &format!("\n  {line}");
    }
    match found.len().saturating_sub(TOLD) {
        0 => text,
        more => text + &format!("\n  and {more} more values"),
    }
}

fn faults(log: &Log) -> Vec<String> {
    let numbers = numbers(log);
    let days = numbers.get(1..).unwrap_or_default();
    let (flows, bods) = days.split_at(days.len() / 2);
    let mut lines = Vec::new();
    for (place, (flow, bod)) in flows.iter().zip(bods).enumerate() {
        let line = log
            .first_line
            .map(|first| format!(" (line {})", first + place));
        let day = format!("day {}{}", place + 1, line.unwrap_or_default());
        for (name, bits, most, unit) in [
            ("flow", *flow, MOST_FLOW, "m3/d"),
            ("BOD", *bod, MOST_BOD, "mg/l"),
        ] {
            if let Some(expected) = fault(bits, most) {
                let value = short(bits);
                lines.push(format!("{day}: {name} {value} {unit}, expected {expected}"));
            }
        }
    }
    lines
}

/// What is expected of a value that is at fault.
fn fault(bits: u32, most: u32) -> Option<String> {
    let value = f64::from(f32::from_bits(bits));
    if !value.is_finite() || value < 0.0 {
        return Some("a finite number, not below zero".to_string());
    }
    // exact, as a f32 times 1000 fits a f64
    let thousandths = (value * 1000.0).round_ties_even();
    (thousandths > 1000.0 * f64::from(most)).then(|| format!("at most {most}"))
}
