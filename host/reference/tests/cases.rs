//! Tests of the reference implementation.

#[path = "cases/built.rs"]
mod built;
#[path = "cases/bulking.rs"]
mod bulking;
#[path = "cases/census.rs"]
mod census;
#[path = "cases/cod.rs"]
mod cod;
#[path = "cases/common.rs"]
mod common;
#[path = "cases/day_log.rs"]
mod day_log;
#[path = "cases/dose.rs"]
mod dose;
#[path = "cases/errors.rs"]
mod errors;
#[path = "cases/extremes.rs"]
mod extremes;
#[path = "cases/order.rs"]
mod order;
#[path = "cases/pages.rs"]
mod pages;
#[path = "cases/pauses.rs"]
mod pauses;
#[path = "cases/price.rs"]
mod price;
#[path = "cases/properties.rs"]
mod properties;
#[path = "cases/ranges.rs"]
mod ranges;
#[path = "cases/readings.rs"]
mod readings;
#[path = "cases/steps.rs"]
mod steps;
#[path = "cases/sweep.rs"]
mod sweep;
#[path = "cases/table.rs"]
mod table;
#[path = "cases/terms.rs"]
mod terms;
#[path = "cases/works.rs"]
mod works;
