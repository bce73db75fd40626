//! The figures that a candidate is judged by, beside their limits.

use crate::json::{Member, Value};
use library::number::{DEPTH, NITRATE, NITRIFICATION, SHEET, SOLIDS, SURFACE, TERM_NITRATE};
use library::sheet::GRID;
use library::{explain, Candidate, Figures, Request, TermFigures, FIGURES_LENGTH};
use Side::{AtLeast, AtMost};

/// Least solids, g/m3.
pub const LEAST_SOLIDS: u64 = 1_000;
/// Largest diluted sludge volume, l/m3.
pub const MOST_SLUDGE_VOLUME: u64 = 600;
/// Largest aerobic share of a term, thousandths of the sludge age.
pub const MOST_AEROBIC_SHARE: u64 = 1_000;
/// Least fraction of a term at which the tank's own carbon removes nitrate,
/// thousandths.
pub const LEAST_FRACTION: u64 = 200;
/// Parts of the dose, as COD, that remove one part of nitrate.
const COD_PER_NITRATE: u64 = 5;

/// The figures of a candidate, or the number of its refusal.
pub fn figures(request: &Request, candidate: Candidate) -> Result<Figures, u32> {
    let mut page = [0; FIGURES_LENGTH];
    match explain(&request.to_examine(candidate), &mut page) {
        (SHEET, _) => Ok(Figures::from_page(&page)),
        (number, _) => Err(number),
    }
}

/// What the nitrate that the tank's own carbon removes is reckoned from.
pub fn carbon(request: &Request) -> &'static str {
    match request.removes_by_cod() {
        true => "COD",
        false => "BOD",
    }
}

/// The readings that the cover asks of; the BOD keeps nitrogen in the sludge,
/// whatever removes the nitrate.
pub fn readings(request: &Request) -> &'static str {
    match request.removes_by_cod() {
        true => "nitrogen, bod, cod and solids",
        false => "nitrogen and bod",
    }
}

/// The figures of the request's terms, in their order.
pub fn terms<'a>(request: &Request, figures: &'a Figures) -> &'a [TermFigures] {
    &figures.terms[..request.terms.named().len()]
}

/// The least dose, mg/m3 as COD, with which the candidate's nitrate is
/// covered: reckoned from its figures, and told only where the library accepts
/// that dose and finds the nitrate covered with it.
pub fn least_dose(request: &Request, candidate: Candidate) -> Option<u32> {
    let now = figures(request, candidate).ok()?;
    let left = now.nitrate_to_remove.saturating_sub(now.removed_by_bod);
    confirmed(request, candidate, left, &[NITRATE])
}

/// The same for the nitrate in every term too.
pub fn least_dose_of_terms(request: &Request, candidate: Candidate) -> Option<u32> {
    let now = figures(request, candidate).ok()?;
    let left = now.nitrate_to_remove.saturating_sub(now.removed_by_bod);
    let in_terms = terms(request, &now)
        .iter()
        .map(|term| term.nitrate_to_remove.saturating_sub(term.removed_by_bod));
    let left = in_terms.fold(left, u64::max);
    let rules = [NITRATE, NITRIFICATION, TERM_NITRATE];
    confirmed(request, candidate, left, &rules)
}

/// The dose that removes so much nitrate, where the candidate keeps the rules
/// with it.
fn confirmed(request: &Request, candidate: Candidate, left: u64, rules: &[u32]) -> Option<u32> {
    let dose = u32::try_from(left.saturating_mul(COD_PER_NITRATE)).ok()?;
    let dosed = figures(&Request { dose, ..*request }, candidate).ok()?;
    let broken = rules.iter().any(|rule| dosed.verdict == u64::from(*rule));
    (!broken).then_some(dose)
}

/// The lowest target with which a term's nitrate is covered, mg/m3, by its
/// place: reckoned and confirmed like the least dose.
pub fn least_target(request: &Request, candidate: Candidate, place: usize) -> Option<u32> {
    let now = figures(request, candidate).ok()?.terms[place];
    let missing = now.nitrate_to_remove.saturating_sub(now.nitrate_removable);
    let mut looser = *request;
    let target = &mut looser.terms.entries[place].target;
    *target = target.checked_add(u32::try_from(missing).ok()?)?;
    let least = *target;
    let then = figures(&looser, candidate).ok()?.terms[place];
    (then.nitrate_to_remove <= then.nitrate_removable).then_some(least)
}

/// The least larger fraction with figures of this kind, as the library finds
/// it.
fn larger(
    request: &Request,
    candidate: Candidate,
    wanted: impl Fn(&Figures) -> bool,
) -> Option<u32> {
    let most = GRID[0].most(request.tank);
    (candidate.fraction + 1..=most).find(|&fraction| {
        let larger = Candidate {
            fraction,
            ..candidate
        };
        figures(request, larger).is_ok_and(|figures| wanted(&figures))
    })
}

/// The least larger fraction with which no term loses its nitrification.
pub fn least_fraction(request: &Request, candidate: Candidate) -> Option<u32> {
    larger(request, candidate, |figures| {
        let kept = |term: &TermFigures| term.aerobic_share <= MOST_AEROBIC_SHARE;
        terms(request, figures).iter().all(kept)
    })
}

/// Whether some larger fraction removes more nitrate, of that which is taken
/// from the figures. In the COD way the next one may remove less.
pub fn larger_removes_more(
    request: &Request,
    candidate: Candidate,
    removed: impl Fn(&Figures) -> u64,
) -> bool {
    let Ok(now) = figures(request, candidate) else {
        return false;
    };
    larger(request, candidate, |then| removed(then) > removed(&now)).is_some()
}

enum Side {
    AtMost,
    AtLeast,
}

/// What a figure is held to, and the refusal where it is not kept.
struct Limit {
    side: Side,
    value: u64,
    refusal: u32,
}

/// One figure, and its limit where it has one of its own.
pub struct Line {
    label: String,
    /// The label in the text, where that is another than the key of JSON
    in_text: Option<String>,
    figure: u64,
    unit: &'static str,
    limit: Option<Limit>,
}

/// A figure without a limit.
fn line(label: &str, figure: u64, unit: &'static str) -> Line {
    Line {
        label: label.to_string(),
        in_text: None,
        figure,
        unit,
        limit: None,
    }
}

/// The nitrate that the tank's own carbon removes. The key of JSON is always
/// `by-bod`; the text says what it is reckoned from.
fn by_carbon(start: &str, request: &Request, figure: u64) -> Line {
    let carbon = carbon(request).to_lowercase();
    let in_text = Some(format!("{start}-by-{carbon}"));
    let line = line(&format!("{start}-by-bod"), figure, "mg/m3");
    Line { in_text, ..line }
}

/// The eight lines of the design, the two nitrate columns first; the right one
/// is the sum of its parts. Then the five of each term.
pub fn lines(request: &Request, candidate: Candidate, figures: &Figures) -> Vec<Line> {
    let mut lines = Vec::from(design(request, figures));
    for (place, term) in terms(request, figures).iter().enumerate() {
        lines.extend(in_term(place + 1, request, candidate, term));
    }
    lines
}

fn design(request: &Request, figures: &Figures) -> [Line; 8] {
    let Figures {
        nitrate_to_remove: remove,
        removed_by_bod: by_bod,
        removed_by_dose: by_dose,
        nitrate_removable: removable,
        solids,
        sludge_volume,
        surface,
        depth,
        verdict: _,
        terms: _,
    } = *figures;
    let site_surface = u64::from(request.site_surface);
    let site_depth = u64::from(request.site_depth);
    [
        line("nitrate-to-remove", remove, "mg/m3").held(AtMost, removable, NITRATE),
        by_carbon("nitrate-removed", request, by_bod),
        line("nitrate-removed-by-dose", by_dose, "mg/m3"),
        line("nitrate-removable", removable, "mg/m3").held(AtLeast, remove, NITRATE),
        line("solids", solids, "g/m3").held(AtLeast, LEAST_SOLIDS, SOLIDS),
        line("sludge-volume", sludge_volume, "l/m3").held(AtMost, MOST_SLUDGE_VOLUME, SOLIDS),
        line("surface", surface, "m2").held(AtMost, site_surface, SURFACE),
        line("depth", depth, "mm").held(AtMost, site_depth, DEPTH),
    ]
}

/// The lines of a term: its fraction is at most the candidate's.
fn in_term(
    number: usize,
    request: &Request,
    candidate: Candidate,
    term: &TermFigures,
) -> [Line; 5] {
    let TermFigures {
        aerobic_share: share,
        fraction,
        nitrate_to_remove: remove,
        removed_by_bod: by_bod,
        nitrate_removable: removable,
    } = *term;
    let of = |label: &str, figure: u64, unit: &'static str| {
        line(&format!("term-{number}-{label}"), figure, unit)
    };
    let whole = u64::from(candidate.fraction);
    [
        of("aerobic-share", share, "thousandths").held(AtMost, MOST_AEROBIC_SHARE, NITRIFICATION),
        of("fraction", fraction, "thousandths").held(AtMost, whole, NITRIFICATION),
        of("to-remove", remove, "mg/m3").held(AtMost, removable, TERM_NITRATE),
        by_carbon(&format!("term-{number}-removed"), request, by_bod),
        of("removable", removable, "mg/m3").held(AtLeast, remove, TERM_NITRATE),
    ]
}

/// The lines as text, their columns one below the other.
pub fn text(lines: &[Line]) -> String {
    let unit = lines.iter().map(|line| line.unit.len()).max();
    let texts = lines.iter().map(|line| line.text(unit.unwrap_or(0)));
    texts.collect()
}

impl Limit {
    /// `kept`, or the refusal that the figure leads to.
    fn verdict(&self, figure: u64) -> String {
        let kept = match self.side {
            AtMost => figure <= self.value,
            AtLeast => figure >= self.value,
        };
        match kept {
            true => "kept".to_string(),
            false => format!("refusal {}", self.refusal),
        }
    }

    /// `at most` or `at least`.
    fn words(&self) -> &'static str {
        match self.side {
            AtMost => "at most",
            AtLeast => "at least",
        }
    }
}

impl Line {
    /// The figure held to a limit.
    fn held(self, side: Side, value: u64, refusal: u32) -> Line {
        let limit = Some(Limit {
            side,
            value,
            refusal,
        });
        Line { limit, ..self }
    }

    /// Label, figure, limit, unit in so many columns, and whether the limit is
    /// kept.
    fn text(&self, columns: usize) -> String {
        let label = self.in_text.as_ref().unwrap_or(&self.label);
        let (figure, unit) = (self.figure, self.unit);
        let (side, value, verdict) = match &self.limit {
            Some(limit) => (
                limit.words(),
                limit.value.to_string(),
                limit.verdict(figure),
            ),
            None => Default::default(),
        };
        let line =
            format!("{label:<23} {figure:>8}  {side:<8} {value:>8} {unit:<columns$}  {verdict}");
        line.trim_end().to_string() + "\n"
    }

    /// The figure, and its limit as `label-at-most` or `label-at-least`.
    pub fn members(&self) -> Vec<Member> {
        let figure = (self.label.clone(), Value::Number(self.figure));
        let limit = self.limit.as_ref().map(|limit| {
            let side = limit.words().replace(' ', "-");
            let key = format!("{}-{side}", self.label);
            (key, Value::Number(limit.value))
        });
        [figure].into_iter().chain(limit).collect()
    }
}
