//! What a refusal means, in words, and what to look at.

use crate::census;
use crate::culprit;
use crate::explanation::{self, LEAST_SOLIDS, MOST_SLUDGE_VOLUME};
use crate::keys::{INDEX, MOST_DOSE, MOST_DOSE_WITHOUT_SLUDGE};
use crate::plant_file::PlantFile;
use crate::season;
use crate::values::{filled, grouped};
use library::number::{self, *};
use library::sheet::{candidates, GRID};
use library::{Candidate, Figures, Request, TankFlow, Way};

/// The message of a refusal.
pub fn words(number: u32, file: &PlantFile, candidate: Option<Candidate>) -> String {
    let request = &file.request;
    let text = match number {
        PLANT_DATA => "a plant or site figure is outside its range".to_string(),
        NO_NUMBER => "the value of a reading is no number, or below zero".to_string(),
        READING_RANGE => "a head count or the result of a reading is outside its range".to_string(),
        COD_RATIO => "five times the COD is more than eleven times the BOD".to_string(),
        BULKING => format!(
            "the sludge volume index is above {} {}, a fault to cure before building",
            INDEX.most, INDEX.unit
        ),
        NO_DESIGN => no_design(request),
        OFF_GRID => off_grid(request.tank, candidate),
        TERMS => "a term of the consent is not valid, or there are too many".to_string(),
        _ => candidate.map_or_else(String::new, |candidate| {
            explanation::figures(request, candidate).map_or_else(
                |_| String::new(),
                |figures| broken_limit(number, request, candidate, &figures),
            )
        }),
    };
    let mut message = headed(number, &text);
    for line in culprit::lines(number, file) {
        message += &format!("\n  {line}");
    }
    if number == COD_RATIO {
        message += COD_WAY;
    }
    message
}

/// A refusal's number, its word, and what is said of it.
pub fn headed(number: u32, text: &str) -> String {
    let word = number::word(number).unwrap_or("unknown");
    format!("refused {number} ({word}): {text}")
}

/// What to do at refusal 4.
const COD_WAY: &str = "\n  Check both readings. Industrial works with so much COD take 'way cod':\
    \n  sludge and oxygen come from the COD then, and this limit is not held to";

fn flow_name(tank: TankFlow) -> &'static str {
    match tank {
        TankFlow::Horizontal => "horizontal",
        TankFlow::Vertical => "vertical",
    }
}

/// How many candidates the grid holds, where none is permitted.
pub fn none_permitted(request: &Request) -> String {
    format!(
        "the grid holds {} candidates in {} flow, and none is permitted.",
        grouped(candidates(request.tank).into()),
        flow_name(request.tank)
    )
}

/// The census, and what to look at first.
fn no_design(request: &Request) -> String {
    let counts = census::counts(request);
    let advice = counts.map(|counts| census::advice(request, &counts) + EXPLAIN);
    none_permitted(request) + &advice.unwrap_or_default()
}

/// Where to look next at refusal 5.
const EXPLAIN: &str =
    "\n  'pewgull explain FILE F R H' shows how far a candidate is from its limits";

fn off_grid(tank: TankFlow, candidate: Option<Candidate>) -> String {
    let sides = candidate.map(|candidate| off_sides(tank, candidate));
    format!(
        "the candidate is not on the grid{}",
        sides.unwrap_or_default()
    )
}

/// The sides of the grid that the candidate is not on, a line each.
pub fn off_sides(tank: TankFlow, candidate: Candidate) -> String {
    let mut text = String::new();
    for side in &GRID {
        let (least, most) = (side.least, side.most(tank));
        let value = side.of(&candidate);
        if value < least || value > most {
            text += &format!(
                "\n  {} {value}: expected {least}..{most} {} in {} flow",
                side.letter,
                side.unit,
                flow_name(tank)
            );
        }
    }
    text
}

/// Ways to move numbers of the candidate, by their letters.
enum Move {
    None,
    Larger(&'static [&'static str]),
    Smaller(&'static [&'static str]),
}

/// Such of the moves as the grid has room for, in words: `, a larger F`.
fn moves(way: Move, tank: TankFlow, candidate: Candidate) -> String {
    let (word, letters, larger) = match way {
        Move::None => return String::new(),
        Move::Larger(letters) => ("larger", letters, true),
        Move::Smaller(letters) => ("smaller", letters, false),
    };
    let open: Vec<&str> = GRID
        .iter()
        .filter(|side| letters.contains(&side.letter))
        .filter(|side| match larger {
            true => side.of(&candidate) < side.most(tank),
            false => side.of(&candidate) > side.least,
        })
        .map(|side| side.letter)
        .collect();
    match open.is_empty() {
        true => String::new(),
        false => format!(", a {word} {}", open.join(" or ")),
    }
}

/// A larger fraction, where it helps.
fn larger_fraction(helps: bool) -> Move {
    match helps {
        true => Move::Larger(&["F"]),
        false => Move::None,
    }
}

/// The rule that a candidate of existing tanks breaks, with its figure and its
/// limit; what to look at, where it is a rule of the fraction alone.
pub fn broken_rule(number: u32, request: &Request, candidate: Candidate) -> String {
    let text = explanation::figures(request, candidate).map(|figures| {
        if census::is_of_fraction(number) {
            return broken_limit(number, request, candidate, &figures);
        }
        let limit = limit(number, request, candidate, &figures);
        limit.map(|(text, _, _)| text).unwrap_or_default()
    });
    headed(number, &text.unwrap_or_default())
}

/// Refusals 7, 15, 16 and 8 to 10: the figure and its limit, keys to look at,
/// and moves.
fn broken_limit(number: u32, request: &Request, candidate: Candidate, figures: &Figures) -> String {
    let Some((text, keys, way)) = limit(number, request, candidate, figures) else {
        return String::new();
    };
    let moves = moves(way, request.tank, candidate);
    text + &filled(&format!("Look at {keys}{moves}"))
}

/// The figure and its limit, the keys to look at, and the move that helps.
fn limit(
    number: u32,
    request: &Request,
    candidate: Candidate,
    figures: &Figures,
) -> Option<(String, String, Move)> {
    let rule = match number {
        NITRATE => nitrate,
        NITRIFICATION => season::nitrification,
        TERM_NITRATE => season::nitrate,
        _ => return limit_of_tank(number, request, figures),
    };
    let (text, keys, helps) = rule(request, candidate, figures);
    Some((text, keys, larger_fraction(helps)))
}

/// The same of the rules that ask of the tank alone.
fn limit_of_tank(
    number: u32,
    request: &Request,
    figures: &Figures,
) -> Option<(String, String, Move)> {
    let both = &["R", "H"];
    let (text, keys, way) = match number {
        SOLIDS if figures.solids < LEAST_SOLIDS => (
            few_solids(figures),
            "sludge-volume-index, removal",
            Move::Larger(both),
        ),
        SOLIDS => (much_volume(figures), "removal", Move::Smaller(both)),
        SURFACE => (
            surface(request, figures),
            "site-surface, wet-weather-flow, tank, removal",
            Move::Smaller(both),
        ),
        DEPTH => (
            depth(request, figures),
            "site-depth, R and H, tank, removal",
            Move::None,
        ),
        _ => return None,
    };
    Some((text, keys.to_string(), way))
}

/// The two nitrate columns, with the parts of the right one.
pub fn columns(carbon: &str, to_remove: u64, parts: [u64; 2], removable: u64) -> String {
    let [by_carbon, by_dose] = parts;
    format!(
        "\n  \
         to be removed             {to_remove:>8} mg/m3\n  \
         removed by the tank's {carbon} {by_carbon:>8} mg/m3\n  \
         removed by the dose       {by_dose:>8} mg/m3\n  \
         the tank can remove       {removable:>8} mg/m3"
    )
}

/// What a dose does beside covering nitrate, where it does more.
fn added_sludge(way: Way, dose: u32) -> String {
    match way {
        Way::Cod if dose > MOST_DOSE_WITHOUT_SLUDGE => {
            format!("; above {MOST_DOSE_WITHOUT_SLUDGE} it adds sludge")
        }
        _ => String::new(),
    }
}

/// The least dose that covers something, or that none does.
pub fn least_dose(way: Way, dose: Option<u32>, what: &str) -> String {
    filled(&match dose {
        Some(dose) => format!(
            "The least dose that covers {what}: {dose} mg/m3 as COD{}.",
            added_sludge(way, dose)
        ),
        None => format!("No dose up to {MOST_DOSE} mg/m3 as COD covers {what}."),
    })
}

/// Refusal 7: the columns, the least dose that covers the left one, what to
/// look at, and whether a larger fraction helps.
fn nitrate(request: &Request, candidate: Candidate, figures: &Figures) -> (String, String, bool) {
    let dose = explanation::least_dose(request, candidate);
    let columns = columns(
        explanation::carbon(request),
        figures.nitrate_to_remove,
        [figures.removed_by_bod, figures.removed_by_dose],
        figures.nitrate_removable,
    );
    let mut text = format!("the tank cannot remove enough nitrate.{columns}");
    text += &least_dose(request.way, dose, "it");
    let of_terms = explanation::least_dose_of_terms(request, candidate);
    if of_terms.is_some() && of_terms != dose {
        text += &least_dose(request.way, of_terms, "the terms too");
    }
    let dose = if dose.is_some() { "dose, " } else { "" };
    let readings = explanation::readings(request);
    let keys = format!("nitrate-target, {dose}{readings}, design-temperature");
    let helps =
        explanation::larger_removes_more(request, candidate, |figures| figures.nitrate_removable);
    (text, keys, helps)
}

fn few_solids(figures: &Figures) -> String {
    format!(
        "too few solids in the reactor.\n  \
         solids {} g/m3, at least {LEAST_SOLIDS} g/m3.",
        figures.solids
    )
}

fn much_volume(figures: &Figures) -> String {
    format!(
        "the diluted sludge volume is too large.\n  \
         diluted sludge volume {} l/m3, at most {MOST_SLUDGE_VOLUME} l/m3.",
        figures.sludge_volume
    )
}

fn surface(request: &Request, figures: &Figures) -> String {
    format!(
        "the settling tank needs more surface than the site has.\n  \
         needed surface {} m2, site-surface {} m2.",
        figures.surface, request.site_surface
    )
}

fn depth(request: &Request, figures: &Figures) -> String {
    format!(
        "the settling tank needs more depth than the site has.\n  \
         needed depth {} mm, site-depth {} mm.",
        figures.depth, request.site_depth
    )
}
