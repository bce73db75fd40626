//! Refusals 15 and 16: the terms that break the rule, their figures, and what
//! moves them.

use crate::consent::{list, title};
use crate::explanation::{self, LEAST_FRACTION, MOST_AEROBIC_SHARE};
use crate::keys::DEGREES;
use crate::refusal::{columns, least_dose};
use library::sheet::GRID;
use library::{Candidate, Figures, Request, TermFigures};

/// Whether a term loses its nitrification.
fn is_lost(term: &TermFigures) -> bool {
    term.aerobic_share > MOST_AEROBIC_SHARE
}

/// Whether a term's nitrate is not covered.
fn is_short(term: &TermFigures) -> bool {
    term.nitrate_removable < term.nitrate_to_remove
}

/// The places, from 0 on, of the terms that break a rule.
fn breaking(request: &Request, figures: &Figures, broken: fn(&TermFigures) -> bool) -> Vec<usize> {
    let terms = explanation::terms(request, figures);
    (0..terms.len())
        .filter(|place| broken(&terms[*place]))
        .collect()
}

/// A colder design, where there is one, lengthens the sludge age.
fn colder_design(request: &Request) -> &'static str {
    match request.design_temperature > DEGREES.0 {
        true => ", a lower design-temperature",
        false => "",
    }
}

/// What moves nitrification: the terms that lose it, and the sludge age.
pub fn nitrification_keys(request: &Request, figures: &Figures) -> String {
    let lost = list(&breaking(request, figures, is_lost));
    format!("the temperature of {lost}{}", colder_design(request))
}

/// Refusal 15: each term that loses its nitrification, its share, what to look
/// at, and whether a larger fraction helps.
pub fn nitrification(
    request: &Request,
    candidate: Candidate,
    figures: &Figures,
) -> (String, String, bool) {
    let mut text = "nitrification is lost in a term.".to_string();
    for place in breaking(request, figures, is_lost) {
        text += &format!(
            "\n  {}:\n  \
             aerobic share {} thousandths of the sludge age, at most {MOST_AEROBIC_SHARE} thousandths.",
            title(place, &request.terms.entries[place]),
            figures.terms[place].aerobic_share
        );
    }
    let most = GRID[0].most(request.tank);
    let least = explanation::least_fraction(request, candidate);
    text += &match least {
        Some(least) => {
            format!("\n  A larger F lengthens the sludge age: {least} is the least that keeps it.")
        }
        None if candidate.fraction < most => {
            format!("\n  A larger F lengthens the sludge age, but none up to {most} keeps it.")
        }
        None => String::new(),
    };
    (text, nitrification_keys(request, figures), least.is_some())
}

/// What moves the nitrate of the terms that are short of it; a dose, in these
/// words, where one covers them.
pub fn nitrate_keys(request: &Request, figures: &Figures, dose: Option<String>) -> String {
    let short = list(&breaking(request, figures, is_short));
    let dose = dose.map(|dose| format!(" {dose},")).unwrap_or_default();
    let readings = explanation::readings(request);
    let colder = colder_design(request);
    format!("a looser target of {short},{dose} {readings}{colder}")
}

/// Refusal 16: each term that is short, its columns, the lowest target that it
/// covers; the least dose that covers all of them, what to look at, and whether
/// a larger fraction helps.
pub fn nitrate(
    request: &Request,
    candidate: Candidate,
    figures: &Figures,
) -> (String, String, bool) {
    let mut text = "the tank cannot remove enough nitrate in a term.".to_string();
    let carbon = explanation::carbon(request);
    let short = breaking(request, figures, is_short);
    for &place in &short {
        let term = &figures.terms[place];
        let title = title(place, &request.terms.entries[place]);
        text += &format!("\n  {title}, fraction {}:", term.fraction);
        text += &columns(
            carbon,
            term.nitrate_to_remove,
            [term.removed_by_bod, figures.removed_by_dose],
            term.nitrate_removable,
        );
        if term.fraction < LEAST_FRACTION {
            text += &format!(
                "\n  At a fraction under {LEAST_FRACTION} the tank's {carbon} removes nothing."
            );
        }
        if let Some(target) = explanation::least_target(request, candidate, place) {
            text += &format!("\n  The lowest target that it covers: {target} mg/m3.");
        }
    }
    let dose = explanation::least_dose_of_terms(request, candidate);
    text += &least_dose(request.way, dose, "every term");
    let keys = nitrate_keys(request, figures, dose.map(|_| "dose".to_string()));
    let helps = explanation::larger_removes_more(request, candidate, |figures| {
        let removed = |place: &usize| figures.terms[*place].nitrate_removable;
        short.iter().map(removed).sum()
    });
    (text, keys, helps)
}
