//! Bits of f32s at which conversions go wrong.

/// Not finite, or below zero.
pub const NO_NUMBERS: [u32; 13] = [
    0x7fc0_0000, // quiet NaN
    0x7f80_0001, // signalling NaN
    0x7fff_ffff,
    0xffc0_0000,
    0xff80_0001,
    0xffff_ffff,
    0x7f80_0000, // infinity
    0xff80_0000,
    0x8000_0001, // subnormals below zero
    0x807f_ffff,
    0x8080_0000,
    0xb3d6_bf95, // -1e-7
    0xc348_0000, // -200
];

/// Zeros, subnormals and numbers under half a thousandth.
pub const ZEROS: [u32; 8] = [
    0x0000_0000,
    0x8000_0000, // minus zero
    0x0000_0001,
    0x007f_ffff,
    0x0080_0000,
    0x33d6_bf95, // 1e-7
    0x3a03_126e, // just below 0.0005
    0x3a03_126f,
];

/// Halves of a thousandth, and their halves for limits.
pub const TIES: [f32; 10] = [
    0.0625, 0.1875, 0.3125, 0.4375, 0.125, 0.375, 0.625, 40.0625, 40.1875, 81.375,
];

/// Above every range, up to the largest f32.
pub const HUGE: [u32; 9] = [
    0x4b00_0000, // 2^23
    0x4b7f_ffff,
    0x4b80_0000, // 2^24
    0x5480_0000,
    0x5f80_0000, // 2^64
    0x6b80_0000,
    0x7280_0000,
    0x7f00_0000,
    0x7f7f_ffff,
];

/// 1926.705..: multiplied by 1000 in f32 it comes to another thousandth.
pub const FLOAT_PRODUCT: u32 = 0x44f0_d693;

/// Whether multiplying by 1000 in f32 comes to another thousandth.
pub fn float_product_differs(bits: u32) -> bool {
    let value = f32::from_bits(bits);
    let product = (value * 1000.0).round_ties_even();
    reference::reading::measured(value) != Ok(product as u128)
}

/// Whether rounding before halving comes to another thousandth.
pub fn early_rounding_differs(bits: u32) -> bool {
    let limit = f32::from_bits(bits);
    let whole = reference::reading::measured(limit).unwrap_or(0);
    let half = whole / 2;
    let early = half + (whole % 2) * (half % 2);
    reference::reading::below(limit) != Ok(early)
}
