//! Sludge and oxygen from the COD, by the balance in the appendix of A 131E;
//! the number of its equation stands with each step. Where the appendix gives
//! a range, the end that makes more sludge is taken.

use crate::rounding::{down, up};

/// What a balance is made for, which turns each rounding: towards more sludge,
/// towards more oxygen for aeration, towards less oxygen for the cover.
#[derive(Clone, Copy, Debug, PartialEq, Eq)]
pub enum Chain {
    Sludge,
    Aeration,
    Cover,
}

impl Chain {
    /// Rounding of what stays in the sludge and takes no oxygen.
    fn stays(self, numerator: u64, divisor: u64) -> u64 {
        match self {
            Chain::Sludge | Chain::Cover => up(numerator, divisor),
            Chain::Aeration => down(numerator, divisor),
        }
    }

    /// Rounding of what leaves, and makes neither sludge nor takes oxygen.
    fn leaves(self, numerator: u64, divisor: u64) -> u64 {
        match self {
            Chain::Sludge | Chain::Aeration => down(numerator, divisor),
            Chain::Cover => up(numerator, divisor),
        }
    }
}

/// COD of the solids, 7 parts in 10 of which are organic (A7).
pub fn particulate(chain: Chain, solids: u64) -> u64 {
    chain.stays(1015 * solids, 1000)
}

/// Inert part of the particulate COD (A4).
pub fn inert_particulate(chain: Chain, particulate: u64) -> u64 {
    chain.stays(35 * particulate, 100)
}

/// Inert soluble COD (A3).
pub fn inert_soluble(chain: Chain, cod: u64) -> u64 {
    chain.leaves(5 * cod, 100)
}

/// Degradable COD (A5).
pub fn degradable(cod: u64, inert_soluble: u64, inert_particulate: u64) -> u64 {
    cod.saturating_sub(inert_soluble + inert_particulate)
}

/// External carbon that makes sludge: none up to 10 mg/l.
pub fn external_carbon(dose: u64) -> u64 {
    if dose > 10_000 {
        dose
    } else {
        0
    }
}

/// Biomass formed, less what decays (A11).
pub fn biomass(chain: Chain, degradable: u64, weighted_age: u64) -> u64 {
    chain.stays(67_000 * degradable, 100_000 + 17 * weighted_age)
}

/// Inert matter that the decayed biomass leaves (A13).
pub fn inert_of_biomass(chain: Chain, biomass: u64, weighted_age: u64) -> u64 {
    chain.stays(34 * biomass * weighted_age, 1_000_000)
}

/// Sludge as COD (A9).
pub fn sludge_as_cod(
    chain: Chain,
    inert_particulate: u64,
    degradable: u64,
    weighted_age: u64,
) -> u64 {
    let formed = biomass(chain, degradable, weighted_age);
    inert_particulate + formed + inert_of_biomass(chain, formed, weighted_age)
}

/// Inorganic solids (A6).
pub fn inorganic(solids: u64) -> u64 {
    up(3 * solids, 10)
}

/// Sludge from carbon removal, g/d (A14).
pub fn daily_sludge(daily_flow: u64, sludge_as_cod: u64, inorganic: u64) -> u64 {
    up(
        daily_flow * (100 * sludge_as_cod + 116 * inorganic),
        116_000,
    )
}

/// Oxygen that the balance leaves (A8 turned round).
pub fn oxygen(cod: u64, inert_soluble: u64, sludge_as_cod: u64) -> u64 {
    cod.saturating_sub(inert_soluble + sludge_as_cod)
}

/// Oxygen for carbon removal, g/d (A16).
pub fn daily_oxygen(daily_flow: u64, oxygen: u64) -> u64 {
    up(daily_flow * oxygen, 1000)
}

/// Nitrate that this oxygen stands for in simultaneous and intermittent
/// denitrification (5-7), thousandths of mg/m3.
pub fn removed_by_oxygen(fraction: u64, oxygen: u64) -> u64 {
    1000 * down(75 * fraction * oxygen, 290_000)
}

/// Sludge from carbon removal, g/d; the dose makes sludge too.
pub fn carbon_sludge(daily_flow: u64, cod: u64, solids: u64, dose: u64, weighted_age: u64) -> u64 {
    let chain = Chain::Sludge;
    let inert = inert_particulate(chain, particulate(chain, solids));
    let sewage = degradable(cod, inert_soluble(chain, cod), inert);
    let sludge = sludge_as_cod(chain, inert, sewage + external_carbon(dose), weighted_age);
    daily_sludge(daily_flow, sludge, inorganic(solids))
}

/// Oxygen by the balance for aeration or for the cover, without the dose.
pub fn uptake(chain: Chain, cod: u64, solids: u64, weighted_age: u64) -> u64 {
    let inert = inert_particulate(chain, particulate(chain, solids));
    let soluble = inert_soluble(chain, cod);
    let sewage = degradable(cod, soluble, inert);
    let sludge = sludge_as_cod(chain, inert, sewage, weighted_age);
    oxygen(cod, soluble, sludge)
}
