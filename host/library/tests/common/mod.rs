//! The paper's Case A.

#![allow(dead_code)]

use library::{Candidate, Reading, Request};

pub const CASE_A_CANDIDATE: Candidate = Candidate {
    fraction: 300,
    return_ratio: 75,
    thickening: 20,
};

pub const CASE_A_LISTING: &str = "fraction 300\nreturn 75\nthickening 20\nage 11733\n\
    sludge 1000000\nmass 11733\nsolids 3779\nreactor 3105\nsurface 454\ndepth 4536\n\
    settling 2060\ntotal 5165\nrecirculation 2600\noxygen 99292\ntransfer 127662\n";

pub fn case_a() -> Request {
    Request {
        load: 1_200,
        flow: 5_000,
        wet_weather_flow: 600,
        design_temperature: 12,
        aeration_temperature: 20,
        sludge_volume_index: 100,
        nitrate_target: 10_000,
        phosphorus_target: 1_000,
        carbon_peak: 120,
        nitrogen_peak: 200,
        oxygen_saturation: 9_000,
        site_surface: 1_000,
        site_depth: 5_000,
        bod: Reading::Measured(200f32.to_bits()),
        cod: Reading::Measured(400f32.to_bits()),
        solids: Reading::Measured(150f32.to_bits()),
        nitrogen: Reading::Measured(46f32.to_bits()),
        phosphorus: Reading::Measured(8f32.to_bits()),
        ..Request::default()
    }
}
