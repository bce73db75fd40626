//! Reference implementation of the design of a single-stage activated
//! sludge plant with nitrification and denitrification.
//!
//! Concentrations are in mg/m3, ages in thousandths of a day, all figures
//! whole numbers. The largest products on accepted data, 1000 x Cs x hourly
//! oxygen and a price times its surcharge, and a two-week load are below 10^16, so
//! u64 holds every step.

pub mod aeration;
pub mod age;
pub mod built;
pub mod choose;
pub mod cod;
pub mod day_log;
pub mod examine;
pub mod listing;
pub mod nitrogen;
pub mod plant;
pub mod price;
pub mod reading;
pub mod refusal;
pub mod rounding;
pub mod settling;
pub mod sheet;
pub mod sludge;
pub mod stages;
pub mod sweep;
pub mod terms;
pub mod works;

pub use built::{built, Existing, Span};
pub use choose::{census, choose};
pub use day_log::{two_week_load, TwoWeekLoad};
pub use examine::{examine, Candidate};
pub use listing::{length, listing, write};
pub use plant::{Plant, Precipitant, PrimarySettling, Process, Removal, Steps, TankFlow, Way};
pub use price::{price_choose, price_examine, Priced, Tariff};
pub use reading::{accept, Reading};
pub use sheet::{Answer, Sheet};
pub use stages::explain;
pub use sweep::{Progress, Sweep};
pub use terms::{target_in_force, Consent, Term};
pub use works::{line, works, Split, Works};
