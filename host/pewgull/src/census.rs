//! The census of the grid: its lines, and what to look at first where no
//! candidate is permitted.

use crate::explanation::{figures, least_dose, least_dose_of_terms, readings};
use crate::keys::{MOST_DOSE, TERM_TARGET};
use crate::season;
use crate::values::{filled, listed};
use library::number::{self, DEPTH, NITRATE, NITRIFICATION, SHEET, SOLIDS, SURFACE, TERM_NITRATE};
use library::sheet::GRID;
use library::{Candidate, Census, Request, CENSUS_LENGTH, COUNTED};

/// The census of a plant, or the number of its refusal.
pub fn counts(request: &Request) -> Result<Census, u32> {
    let mut page = [0; CENSUS_LENGTH];
    match library::census(&request.to_choose(), &mut page) {
        (SHEET, _) => Ok(Census::from_page(&page)),
        (number, _) => Err(number),
    }
}

/// What the candidates are called that are answered with a number.
pub fn label(number: u32) -> String {
    match number {
        SHEET => "permitted".to_string(),
        _ => number::word(number).unwrap_or("unknown").replace(' ', "-"),
    }
}

/// Each label with its count.
pub fn lines(census: &Census) -> impl Iterator<Item = String> + '_ {
    COUNTED
        .iter()
        .map(|&number| format!("{} {}", label(number), census.count(number)))
}

/// The rules that ask of the fraction alone, in their order; the others ask of
/// the tank alone.
const OF_FRACTION: [u32; 3] = [NITRATE, NITRIFICATION, TERM_NITRATE];

/// Whether a rule asks of the fraction alone.
pub fn is_of_fraction(rule: u32) -> bool {
    OF_FRACTION.contains(&rule)
}

/// The rule to look at first where none is permitted. Where some fraction keeps
/// its rules, every tank is stopped, and only another tank or site can help:
/// the tank's rule that stops the most. Else every fraction is stopped, and
/// what keeps the earlier rules is stopped by the last: only that can help.
fn first(census: &Census) -> u32 {
    let stopping = |rule: &u32| *rule != SHEET && census.count(*rule) > 0;
    let rules = COUNTED.into_iter().filter(stopping);
    let (of_fraction, of_tank): (Vec<u32>, Vec<u32>) =
        rules.partition(|rule| is_of_fraction(*rule));
    let most = of_tank.iter().rev().max_by_key(|rule| census.count(**rule));
    *most.or(of_fraction.last()).unwrap_or(&NITRATE)
}

/// The rules of the fraction before this one that stop any candidate.
fn earlier(census: &Census, rule: u32) -> Vec<u32> {
    let before = OF_FRACTION.into_iter().take_while(|other| *other != rule);
    before.filter(|other| census.count(*other) > 0).collect()
}

/// A candidate of each fraction, the largest first. In the COD way what the
/// tank can remove may fall with the fraction, so none speaks for the others.
fn of_each_fraction(request: &Request) -> impl Iterator<Item = Candidate> {
    let [fraction, return_ratio, thickening] = &GRID;
    let fractions = fraction.least..=fraction.most(request.tank);
    fractions.rev().map(|fraction| Candidate {
        fraction,
        return_ratio: return_ratio.least,
        thickening: thickening.least,
    })
}

/// The least of the doses that a fraction takes, where any takes one.
fn least_of(request: &Request, dose: fn(&Request, Candidate) -> Option<u32>) -> Option<u32> {
    let doses = of_each_fraction(request).filter_map(|candidate| dose(request, candidate));
    doses.min()
}

fn at_least(dose: u32) -> String {
    format!("a dose of at least {dose} mg/m3 as COD")
}

/// What moves the candidates that nitrate stops, where it stops all; a dose
/// only where one covers some of them.
fn nitrate_remedy(request: &Request) -> String {
    let dose = least_of(request, least_dose_of_terms).or_else(|| least_of(request, least_dose));
    let dose = dose.map(|dose| format!(" {},", at_least(dose)));
    format!(
        "a looser nitrate-target,{} another process, the readings of {}",
        dose.unwrap_or_default(),
        readings(request)
    )
}

/// What moves the candidates that a term stops: those of the largest fraction
/// among them.
fn term_remedy(rule: u32, request: &Request) -> String {
    let stopped = of_each_fraction(request)
        .filter_map(|candidate| figures(request, candidate).ok())
        .find(|figures| figures.verdict == u64::from(rule));
    let Some(figures) = stopped else {
        return "the lines 'term'".to_string();
    };
    match rule {
        NITRIFICATION => season::nitrification_keys(request, &figures),
        _ => {
            let dose = least_of(request, least_dose_of_terms);
            season::nitrate_keys(request, &figures, dose.map(at_least))
        }
    }
}

/// What moves the candidates that a rule stops.
fn remedy(rule: u32, request: &Request) -> String {
    match rule {
        NITRATE => return nitrate_remedy(request),
        NITRIFICATION | TERM_NITRATE => return term_remedy(rule, request),
        SOLIDS => "another removal, another sludge-volume-index",
        SURFACE => "a larger site-surface, another tank or removal, the wet-weather-flow",
        DEPTH => "a larger site-depth, another tank or removal",
        _ => "the candidates that it stops",
    }
    .to_string()
}

/// What alone cannot help where the fractions that keep nitrate are stopped by
/// a rule of the terms: told where the library finds none permitted with the
/// loosest target and, for nitrification, the largest dose.
fn cannot_help(request: &Request, rule: u32) -> &'static str {
    let mut looser = *request;
    looser.nitrate_target = TERM_TARGET.most;
    if rule == NITRIFICATION {
        looser.dose = MOST_DOSE;
    }
    let helps = counts(&looser).is_ok_and(|census| census.permitted() > 0);
    match rule {
        _ if helps => "",
        NITRIFICATION => {
            " (a looser nitrate-target or a dose alone cannot help: every fraction is stopped)"
        }
        _ => " (a looser nitrate-target alone cannot help: every fraction is stopped)",
    }
}

/// Which rule to look at first, and why that one.
fn look_first(request: &Request, census: &Census, rule: u32) -> String {
    let mut text = format!("Look first at {}, which stops the most", label(rule));
    let others = earlier(census, rule);
    let stopped: u64 = others.iter().map(|other| census.count(*other)).sum();
    if stopped > census.count(rule) || (is_of_fraction(rule) && stopped > 0) {
        let others: Vec<String> = others.into_iter().map(label).collect();
        text += &format!(" of those that keep {}", listed(&others));
        text += match is_of_fraction(rule) {
            true => cannot_help(request, rule),
            false => " (a looser target or a dose alone cannot help: every tank is stopped)",
        };
    }
    text + ":"
}

/// The lines of a census without a permitted candidate, and where to look
/// first.
pub fn advice(request: &Request, census: &Census) -> String {
    let lines: String = lines(census).map(|line| format!("\n  {line}")).collect();
    let rule = first(census);
    lines
        + &filled(&look_first(request, census, rule))
        + &filled(&format!("{}.", remedy(rule, request)))
}

#[cfg(test)]
mod tests {
    use super::*;

    /// A census of these counts, nitrate first, with none permitted.
    fn stopped(counts: [u64; 6]) -> Census {
        let mut page = [0; CENSUS_LENGTH];
        for (rule, count) in COUNTED[1..].iter().zip(counts) {
            let place = 8 * *rule as usize;
            page[place..place + 8].copy_from_slice(&count.to_le_bytes());
        }
        Census::from_page(&page)
    }

    #[test]
    fn the_rule_to_look_at_first() {
        for (counts, rule) in [
            ([9, 0, 0, 0, 0, 0], NITRATE),
            ([0, 0, 0, 3, 2, 2], SOLIDS),
            ([1, 0, 0, 2, 4, 3], SURFACE),
            ([1, 0, 0, 2, 3, 4], DEPTH),
            ([9, 0, 0, 0, 1, 2], DEPTH),
            ([9, 0, 0, 1, 1, 1], SOLIDS),
            ([0, 9, 0, 0, 0, 0], NITRIFICATION),
            ([8, 1, 0, 0, 0, 0], NITRIFICATION),
            ([0, 0, 9, 0, 0, 0], TERM_NITRATE),
            ([7, 8, 1, 0, 0, 0], TERM_NITRATE),
            ([3, 3, 3, 0, 0, 1], DEPTH),
        ] {
            assert_eq!(first(&stopped(counts)), rule, "{counts:?}");
        }
    }

    #[test]
    fn why_that_rule() {
        let told = |counts| {
            let census = stopped(counts);
            look_first(&Request::default(), &census, first(&census))
        };
        for (counts, words) in [
            ([9, 0, 0, 0, 0, 0], "at nitrate, which stops the most:"),
            ([0, 9, 0, 0, 0, 0], "nitrification, which stops the most:"),
            ([1, 0, 0, 2, 4, 3], "at surface, which stops the most:"),
            ([8, 1, 0, 0, 0, 0], "of those that keep nitrate (a looser"),
            ([0, 8, 1, 0, 0, 0], "of those that keep nitrification ("),
            (
                [7, 8, 1, 0, 0, 0],
                "of those that keep nitrate and nitrification (a looser nitrate-target alone",
            ),
            (
                [3, 0, 3, 0, 0, 1],
                "of those that keep nitrate and term-nitrate (a looser target or a dose alone",
            ),
        ] {
            assert!(told(counts).contains(words), "{}", told(counts));
        }
    }

    #[test]
    fn every_rule_has_its_remedy() {
        let of = |rule| remedy(rule, &Request::default());
        let mut remedies: Vec<String> = COUNTED[1..].iter().map(|rule| of(*rule)).collect();
        remedies.sort();
        remedies.dedup();
        assert_eq!(remedies.len(), 5);
        assert!(!remedies.contains(&of(SHEET)));
    }
}
