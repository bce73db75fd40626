//! Plant data and site, with their ranges.

use crate::terms::Consent;

#[derive(Clone, Copy, Debug, PartialEq, Eq)]
pub enum Steps {
    Two,
    Three,
}

#[derive(Clone, Copy, Debug, PartialEq, Eq)]
pub enum Process {
    PreAnoxic,
    Simultaneous,
    Intermittent,
    StepFeed(Steps),
}

#[derive(Clone, Copy, Debug, PartialEq, Eq)]
pub enum Precipitant {
    Iron,
    Aluminium,
}

#[derive(Clone, Copy, Debug, PartialEq, Eq)]
pub enum TankFlow {
    Horizontal,
    Vertical,
}

#[derive(Clone, Copy, Debug, PartialEq, Eq)]
pub enum Removal {
    Scraper,
    Suction,
    Hopper,
}

#[derive(Clone, Copy, Debug, PartialEq, Eq)]
pub enum PrimarySettling {
    None,
    Short,
    Long,
}

/// Where carbon sludge and carbon's oxygen come from.
#[derive(Clone, Copy, Debug, PartialEq, Eq)]
pub enum Way {
    Bod,
    Cod,
}

#[derive(Clone, Copy, Debug, PartialEq, Eq)]
pub struct Plant {
    /// L, raw BOD5 load, kg/d
    pub bod_load: u32,
    /// Q, m3/d
    pub daily_flow: u32,
    /// Qw, m3/h
    pub wet_weather_flow: u32,
    /// T, degrees Celsius
    pub design_temperature: u32,
    /// Ta, degrees Celsius
    pub aeration_temperature: u32,
    /// I, l/kg
    pub sludge_volume_index: u32,
    /// N3, mg/m3
    pub nitrate_target: u32,
    /// P3, mg/m3
    pub phosphorus_target: u32,
    /// fC, hundredths
    pub carbon_peak_factor: u32,
    /// fN, hundredths
    pub nitrogen_peak_factor: u32,
    /// Cs, mg/m3
    pub oxygen_saturation: u32,
    /// Largest settling surface, m2
    pub site_surface: u32,
    /// Largest settling depth, mm
    pub site_depth: u32,
    pub process: Process,
    pub precipitant: Precipitant,
    pub tank_flow: TankFlow,
    pub removal: Removal,
    pub primary_settling: PrimarySettling,
    /// External carbon dosed for denitrification, mg/m3 as COD
    pub dose: u32,
    /// Terms of the consent, judged after the readings
    pub consent: Consent,
    pub way: Way,
}

impl Plant {
    /// Whether every figure of the plant and the site is in its range.
    pub fn in_range(&self) -> bool {
        (1..=100_000).contains(&self.bod_load)
            && (1..=200_000).contains(&self.daily_flow)
            && (1..=50_000).contains(&self.wet_weather_flow)
            && (10..=20).contains(&self.design_temperature)
            && (10..=20).contains(&self.aeration_temperature)
            && (50..=200).contains(&self.sludge_volume_index)
            && (1_000..=50_000).contains(&self.nitrate_target)
            && self.phosphorus_target <= 100_000
            && (100..=300).contains(&self.carbon_peak_factor)
            && (100..=300).contains(&self.nitrogen_peak_factor)
            && (6_000..=15_000).contains(&self.oxygen_saturation)
            && (1..=100_000).contains(&self.site_surface)
            && (3_000..=10_000).contains(&self.site_depth)
            && self.dose <= 500_000
    }

    /// Whether the sludge bulks: a fault to be cured before building.
    pub fn is_bulking(&self) -> bool {
        self.sludge_volume_index > 180
    }
}
