//! Numbers of the refusals.

pub const PLANT_DATA: u8 = 1;
pub const NO_NUMBER: u8 = 2;
pub const READING_RANGE: u8 = 3;
pub const COD_RATIO: u8 = 4;
pub const NO_DESIGN: u8 = 5;
pub const OFF_GRID: u8 = 6;
pub const NITRATE: u8 = 7;
pub const SOLIDS: u8 = 8;
pub const SURFACE: u8 = 9;
pub const DEPTH: u8 = 10;
pub const SHORT_PAGE: u8 = 11;
pub const DAY_LOG: u8 = 12;
pub const DAY_VALUE: u8 = 13;
pub const CONSENT: u8 = 14;
pub const TERM_NITRIFICATION: u8 = 15;
pub const TERM_NITRATE: u8 = 16;
pub const BULKING: u8 = 17;
pub const LINES: u8 = 18;
pub const ADVANCE: u8 = 19;
pub const SPAN: u8 = 20;
pub const BUILT_SIZE: u8 = 21;
pub const TARIFF: u8 = 22;
