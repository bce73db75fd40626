//! Stored cases for the program `compare`, made from the reference alone:
//! requests, what a call answers to them, and plants on the lines where two
//! answers meet.

pub mod built;
pub mod built_lines;
pub mod built_searches;
pub mod cod_lines;
pub mod collection;
pub mod figures;
pub mod files;
pub mod groups;
pub mod lines;
pub mod model;
pub mod odd;
pub mod plants;
pub mod price;
pub mod price_lines;
pub mod price_orders;
pub mod random;
pub mod request;
pub mod tanks;
pub mod wanted;
