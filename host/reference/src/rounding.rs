//! The two roundings of a quotient.

/// Quotient rounded down.
pub fn down(numerator: u64, divisor: u64) -> u64 {
    numerator / divisor
}

/// Quotient rounded up.
pub fn up(numerator: u64, divisor: u64) -> u64 {
    let quotient = numerator / divisor;
    if numerator.is_multiple_of(divisor) {
        quotient
    } else {
        quotient + 1
    }
}
