//! The groups of stored cases.

mod built_orders;
mod built_tanks;
mod bulking;
mod choices;
mod cod;
mod cod_choices;
mod cod_cover;
pub mod cod_roundings;
mod degrees;
mod dose;
mod edges;
mod kinds;
mod listing_lengths;
mod looser_limits;
mod nitrate;
mod pages;
mod pauses;
mod price_calls;
mod prices;
mod readings;
mod settling;
mod term_choices;
mod term_degrees;
mod term_lines;
mod terms;

use crate::collection::Collection;
use crate::random::Random;

/// Seed of every search.
const SEED: u64 = 131;

/// Every stored case, always the same.
pub fn all() -> Collection {
    let mut cases = Collection::default();
    let mut random = Random::new(SEED);
    rules(&mut cases, &mut random);
    doses_and_terms(&mut cases, &mut random);
    finer_rules(&mut cases, &mut random);
    by_cod(&mut cases, &mut random);
    of_built_tanks(&mut cases);
    of_prices(&mut cases);
    of_lengths(&mut cases);
    looser_limits::pairs(&mut cases);
    cases
}

/// The cases about the rules of a candidate and the order of a choice.
fn rules(cases: &mut Collection, random: &mut Random) {
    edges::worked(cases);
    edges::plant_ranges(cases);
    edges::grid(cases);
    edges::malformed(cases);
    readings::ranges(cases, random);
    readings::head_counts(cases);
    readings::boundaries(cases);
    readings::odd_numbers(cases);
    readings::rounding(cases, random);
    readings::cod_ratio(cases);
    readings::cod_ratio_by_heads(cases);
    readings::order(cases);
    degrees::growth_steps(cases);
    degrees::decay_steps(cases, random);
    nitrate::cover(cases, random);
    settling::tanks(cases, random);
    settling::site(cases, random);
    choices::ties(cases, random);
    choices::heavier_first(cases, random);
    choices::no_design(cases, random);
    choices::site_limits(cases, random);
    kinds::combinations(cases);
    pages::lengths(cases);
    choices::plain(cases, random);
}

/// The cases with a dose or with terms.
fn doses_and_terms(cases: &mut Collection, random: &mut Random) {
    dose::order(cases);
    dose::cover(cases, random);
    dose::saved_oxygen(cases);
    dose::designs(cases, random);
    dose::lower_fractions(cases, random);
    terms::ranges(cases);
    terms::order(cases);
    term_lines::cover(cases, random);
    term_lines::fraction_200(cases, random);
    term_lines::nitrification(cases, random);
    term_degrees::just_lost(cases);
    term_degrees::degrees(cases);
    term_lines::dose(cases, random);
    term_lines::as_design(cases, random);
    term_choices::choices(cases, random);
    term_choices::no_design(cases, random);
    term_choices::four(cases, random);
    term_choices::plain(cases, random);
}

/// The cases about bulking sludge, pauses and the finer bottom sludge.
fn finer_rules(cases: &mut Collection, random: &mut Random) {
    bulking::index(cases);
    bulking::order(cases);
    pauses::one_rounding(cases, random);
    pauses::ends(cases);
    pauses::choices(cases, random);
    settling::finer(cases, random);
}

/// The cases in the COD way.
fn by_cod(cases: &mut Collection, random: &mut Random) {
    cod::worked(cases);
    cod::processes(cases);
    cod::ratio(cases);
    cod::order(cases);
    cod::dose(cases);
    cod::dose_covers(cases, random);
    cod::held(cases);
    cod::no_oxygen(cases);
    cod::saved(cases);
    cod::ends(cases);
    cod_cover::design(cases, random);
    cod_cover::terms(cases, random);
    cod_cover::fraction_200(cases, random);
    cod_cover::not_upward(cases, random);
    cod_roundings::sheets(cases, random);
    cod_roundings::covers(cases, random);
    cod_choices::moved(cases, random);
    cod_choices::no_design(cases, random);
    cod_choices::pages(cases);
    cod_choices::plain(cases, random);
}

/// The cases of built tanks, which have seeds of their own.
fn of_built_tanks(cases: &mut Collection) {
    built_tanks::sizes(cases);
    built_tanks::zero_sizes(cases);
    built_tanks::spans(cases);
    built_tanks::own_indices(cases);
    built_tanks::neighbours(cases);
    built_tanks::widest_spans(cases);
    built_tanks::sites(cases);
    built_tanks::permitted(cases);
    built_orders::order(cases);
    built_orders::grid(cases);
    built_orders::pages(cases);
    built_orders::malformed(cases);
}

/// The cases of prices, likewise.
fn of_prices(cases: &mut Collection) {
    let plants = prices::plants();
    prices::limits(cases, &plants);
    prices::metres(cases);
    prices::bands(cases);
    prices::entries(cases);
    prices::surcharges(cases);
    price_calls::refusals(cases);
    price_calls::no_design(cases);
    price_calls::choices(cases, &plants);
    price_calls::pages(cases);
    price_calls::malformed(cases);
}

/// The cases of a listing's length, likewise.
fn of_lengths(cases: &mut Collection) {
    listing_lengths::counts(cases, &mut Random::new(SEED));
    listing_lengths::steps(cases);
    listing_lengths::refusals(cases);
}
