//! Lab readings: conversion to mg/m3 and acceptance.

use crate::plant::{Plant, PrimarySettling, Way};
use crate::refusal;
use crate::rounding::up;

#[derive(Clone, Copy, Debug, PartialEq)]
pub enum Reading {
    /// mg/l
    Measured(f32),
    /// Limit of determination, mg/l
    Below(f32),
    /// Connected inhabitants
    Heads(u32),
}

/// The determinands in the order of the readings.
#[derive(Clone, Copy, Debug, PartialEq, Eq)]
pub enum Determinand {
    Bod,
    Cod,
    Solids,
    Nitrogen,
    Phosphorus,
}

pub const ORDER: [Determinand; 5] = [
    Determinand::Bod,
    Determinand::Cod,
    Determinand::Solids,
    Determinand::Nitrogen,
    Determinand::Phosphorus,
];

/// Accepted range of a result, mg/m3.
pub fn result_range(determinand: Determinand) -> (u128, u128) {
    match determinand {
        Determinand::Bod => (20_000, 2_000_000),
        Determinand::Cod => (20_000, 4_400_000),
        Determinand::Solids => (0, 2_000_000),
        Determinand::Nitrogen => (0, 500_000),
        Determinand::Phosphorus => (0, 100_000),
    }
}

/// g: load per inhabitant, tenths of g/d.
pub fn load_per_head(determinand: Determinand, settling: PrimarySettling) -> u64 {
    let column = match settling {
        PrimarySettling::None => 0,
        PrimarySettling::Short => 1,
        PrimarySettling::Long => 2,
    };
    let row = match determinand {
        Determinand::Bod => [600, 450, 400],
        Determinand::Cod => [1_200, 900, 800],
        Determinand::Solids => [700, 350, 250],
        Determinand::Nitrogen => [110, 100, 100],
        Determinand::Phosphorus => [18, 16, 16],
    };
    row[column]
}

/// An f32 that is neither negative nor special: significand x 2^power.
/// Minus zero gives a significand of zero.
pub fn exact_value(value: f32) -> Result<(u32, i32), u8> {
    let bits = value.to_bits();
    let magnitude = bits & 0x7fff_ffff;
    let exponent = magnitude >> 23;
    let fraction = magnitude & 0x007f_ffff;
    if exponent == 255 {
        return Err(refusal::NO_NUMBER);
    }
    if bits != magnitude && magnitude != 0 {
        return Err(refusal::NO_NUMBER);
    }
    if exponent == 0 {
        Ok((fraction, -149))
    } else {
        Ok((fraction + 0x0080_0000, exponent as i32 - 150))
    }
}

/// 1000 x significand x 2^power to the nearest whole number, ties to even.
pub fn nearest_thousandth(significand: u32, power: i32) -> Result<u128, u8> {
    let numerator = 1000 * u128::from(significand);
    if power > 64 {
        // Only a normal f32 has such a power; the value is above 2^87.
        return Err(refusal::READING_RANGE);
    }
    if power >= 0 {
        return Ok(numerator << power);
    }
    if power < -64 {
        // The numerator is below 2^42, so the value is below one half.
        return Ok(0);
    }
    let divisor = 1u128 << -power;
    let quotient = numerator / divisor;
    let twice_rest = 2 * (numerator % divisor);
    let odd = quotient % 2 == 1;
    if twice_rest > divisor || (twice_rest == divisor && odd) {
        Ok(quotient + 1)
    } else {
        Ok(quotient)
    }
}

/// A measured value, mg/m3.
pub fn measured(value: f32) -> Result<u128, u8> {
    let (significand, power) = exact_value(value)?;
    nearest_thousandth(significand, power)
}

/// Half of the limit of determination, mg/m3, rounded after halving.
pub fn below(limit: f32) -> Result<u128, u8> {
    let (significand, power) = exact_value(limit)?;
    nearest_thousandth(significand, power - 1)
}

/// Concentration from the number of inhabitants, mg/m3.
pub fn from_heads(heads: u32, load: u64, daily_flow: u32) -> Result<u128, u8> {
    if !(1..=2_000_000).contains(&heads) {
        return Err(refusal::READING_RANGE);
    }
    let daily_load = u64::from(heads) * load * 100;
    Ok(u128::from(up(daily_load, u64::from(daily_flow))))
}

/// One reading as an accepted result, mg/m3.
pub fn convert(plant: &Plant, determinand: Determinand, reading: Reading) -> Result<u64, u8> {
    let result = match reading {
        Reading::Measured(value) => measured(value)?,
        Reading::Below(limit) => below(limit)?,
        Reading::Heads(heads) => {
            let load = load_per_head(determinand, plant.primary_settling);
            from_heads(heads, load, plant.daily_flow)?
        }
    };
    let (least, most) = result_range(determinand);
    if result < least || result > most {
        return Err(refusal::READING_RANGE);
    }
    Ok(result as u64)
}

/// Acceptance: BOD, COD, solids, nitrogen, phosphorus in mg/m3, or the
/// number of the first refusal.
pub fn accept(plant: &Plant, readings: &[Reading; 5]) -> Result<[u64; 5], u8> {
    if !plant.in_range() {
        return Err(refusal::PLANT_DATA);
    }
    if plant.is_bulking() {
        return Err(refusal::BULKING);
    }
    let mut results = [0; 5];
    for place in 0..5 {
        results[place] = convert(plant, ORDER[place], readings[place])?;
    }
    let [bod, cod, ..] = results;
    if plant.way == Way::Bod && 5 * cod > 11 * bod {
        return Err(refusal::COD_RATIO);
    }
    if !plant.consent.is_valid() {
        return Err(refusal::CONSENT);
    }
    Ok(results)
}
