//! The proved calls over their C interface, and the bytes of a request, of a
//! day log and of a sweep's state.

mod built;
mod calls;
mod census;
mod figures;
mod load;
pub mod number;
mod page;
mod price;
mod request;
pub mod sheet;
mod sweep;
mod terms;
mod works;

pub use built::{Built, Existing, Span, BUILT_PAGE, LEAST_INDEX, LEAST_SIZE, MOST_INDEX};
pub use calls::{built, census, choose, examine, explain, line, load, target, works};
pub use calls::{length_choose, length_examine, length_line};
pub use calls::{price_choose, price_examine, PRICE_CHOOSE, PRICE_EXAMINE};
pub use calls::{sweep_advance, sweep_examine, sweep_start};
pub use calls::{AdvanceCall, ExamineCall, SWEEP_ADVANCE, SWEEP_EXAMINE, SWEEP_START};
pub use calls::{Call, BUILT, CENSUS, CHOOSE, EXAMINE, EXPLAIN, LINE, LOAD, TARGET, WORKS};
pub use calls::{LengthCall, LENGTH_CHOOSE, LENGTH_EXAMINE, LENGTH_LINE};
pub use census::{Census, CENSUS_LENGTH, COUNTED};
pub use figures::{Figures, TermFigures, FIGURES_LENGTH};
pub use load::{day_log, Day, Load, LEAST_DAYS, LOAD_PAGE, MOST_BOD, MOST_DAYS, MOST_FLOW};
pub use price::{Price, Tariff, LEAST_BANDS, LEAST_LIMIT, MOST_BANDS, MOST_PRICE};
pub use price::{MOST_SURCHARGE, PRICE_PAGE};
pub use request::{
    Candidate, Precipitant, PrimarySettling, Process, Reading, Removal, Request, TankFlow, Way,
    BUILT_LENGTH, CHOOSE_LENGTH, EXAMINE_LENGTH, EXPLAIN_LENGTH, LINE_LENGTH, PRICE_CHOOSE_LENGTH,
    PRICE_EXAMINE_LENGTH, VERSION, WORKS_LENGTH,
};
pub use sweep::{Progress, ADVANCE_MOST, STATE_LENGTH};
pub use terms::{target_from_page, Date, Term, Terms, MOST_TERMS, TARGET_LENGTH, TARGET_PAGE};
pub use works::{Split, Works, LEAST_LINES, LEAST_SHARE, MOST_LINES, SUMS, WHOLE, WORKS_PAGE};

/// A page of this length takes every listing.
pub const PAGE_LENGTH: usize = 512;

/// Identity of the kit that proved the calls and built the archive.
pub const KIT: &str = env!("PEWGULL_KIT");
