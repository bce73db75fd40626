//! The day log: years of daily flow and BOD, and the highest load over 14
//! consecutive days.

use crate::reading::measured;
use crate::refusal;

/// Days that a log may hold.
pub const LEAST_DAYS: u32 = 14;
pub const MOST_DAYS: u32 = 3_660;
/// Days of a window.
pub const WINDOW: usize = 14;
/// Largest flow, thousandths of m3/d.
pub const MOST_FLOW: u128 = 200_000_000;
/// Largest BOD, thousandths of mg/l.
pub const MOST_BOD: u128 = 2_000_000;

/// A day of the log.
#[derive(Clone, Copy, Debug, PartialEq)]
pub struct Day {
    /// m3/d
    pub flow: f32,
    /// mg/l
    pub bod: f32,
}

/// The largest window sum, and the first day on which such a window starts.
#[derive(Clone, Copy, Debug, PartialEq, Eq)]
pub struct TwoWeekLoad {
    /// Millionths of g/d, over 14 days
    pub sum: u64,
    /// Counted from 1
    pub day: u64,
}

/// The 32-bit number at a word of the log, the lowest byte first.
fn word(log: &[u8], place: usize) -> u32 {
    let at = |byte: usize| u32::from(log[4 * place + byte]);
    at(0) + (at(1) << 8) + (at(2) << 16) + (at(3) << 24)
}

/// The days of a log, or 12.
pub fn days(log: &[u8]) -> Result<Vec<Day>, u8> {
    if log.len() < 4 {
        return Err(refusal::DAY_LOG);
    }
    let count = word(log, 0);
    if !(LEAST_DAYS..=MOST_DAYS).contains(&count) {
        return Err(refusal::DAY_LOG);
    }
    let count = count as usize;
    if log.len() != 4 + 8 * count {
        return Err(refusal::DAY_LOG);
    }
    let day = |place: usize| Day {
        flow: f32::from_bits(word(log, 1 + place)),
        bod: f32::from_bits(word(log, 1 + count + place)),
    };
    Ok((0..count).map(day).collect())
}

/// A value in thousandths, as a measured reading, up to its limit, or 13.
fn thousandths(value: f32, most: u128) -> Result<u64, u8> {
    match measured(value) {
        Ok(result) if result <= most => Ok(result as u64),
        _ => Err(refusal::DAY_VALUE),
    }
}

/// The load of a day, or 13.
pub fn load(day: &Day) -> Result<u64, u8> {
    Ok(thousandths(day.flow, MOST_FLOW)? * thousandths(day.bod, MOST_BOD)?)
}

/// The sum of the loads of some days, or 13.
pub fn sum(days: &[Day]) -> Result<u64, u8> {
    let mut sum = 0;
    for day in days {
        sum += load(day)?;
    }
    Ok(sum)
}

/// The highest two-week load of a log's bytes, or its refusal. Every window
/// is summed anew; together the windows hold every day.
pub fn two_week_load(log: &[u8]) -> Result<TwoWeekLoad, u8> {
    let days = days(log)?;
    let mut highest = TwoWeekLoad { sum: 0, day: 0 };
    for (place, window) in days.windows(WINDOW).enumerate() {
        let sum = sum(window)?;
        if place == 0 || sum > highest.sum {
            let day = place as u64 + 1;
            highest = TwoWeekLoad { sum, day };
        }
    }
    Ok(highest)
}
