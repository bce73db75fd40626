//! Pages of 64-bit numbers, little-endian.

/// Bytes of a number.
pub(crate) const NUMBER: usize = 8;

/// The number at a place of a page, counted from 0.
pub(crate) fn number(page: &[u8], place: usize) -> u64 {
    let mut bytes = [0; NUMBER];
    bytes.copy_from_slice(&page[NUMBER * place..NUMBER * (place + 1)]);
    u64::from_le_bytes(bytes)
}
