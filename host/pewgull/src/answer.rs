//! The library's answers to the commands, as text and as members of JSON.

use crate::built;
use crate::census;
use crate::consent;
use crate::explanation;
use crate::json::{self, Member, Value};
use crate::works;
use library::number::{self, SHEET};
use library::sheet::{candidates, listing};
use library::{target_from_page, Date, Terms, TARGET_PAGE};
use library::{Built, Existing, Span, BUILT_PAGE};
use library::{Candidate, Load, Request, LOAD_PAGE, PAGE_LENGTH};
use library::{Price, Tariff, PRICE_PAGE};
use library::{Split, Works, WORKS_PAGE};

/// The library's number, what an answer that is no refusal is called, its
/// text and its members, and what is to be said of it on standard error. A
/// refusal has members beside its number and word, where they say more.
pub struct Answer {
    pub number: u32,
    pub kind: &'static str,
    pub text: Vec<u8>,
    pub members: Vec<Member>,
    pub remark: Option<String>,
}

/// The answer of `choose`.
pub fn choose(request: &Request) -> Answer {
    let mut page = [0; PAGE_LENGTH];
    let (number, written) = library::choose(&request.to_choose(), &mut page);
    listed(number, &page[..written as usize])
}

/// The answer of `examine`.
pub fn examine(request: &Request, candidate: Candidate) -> Answer {
    let mut page = [0; PAGE_LENGTH];
    let (number, written) = library::examine(&request.to_examine(candidate), &mut page);
    listed(number, &page[..written as usize])
}

/// A listing, as the library wrote it.
pub fn listed(number: u32, listing: &[u8]) -> Answer {
    let members = match number {
        SHEET => json::members(&String::from_utf8_lossy(listing)),
        _ => Vec::new(),
    };
    Answer {
        number,
        kind: "sheet",
        text: listing.to_vec(),
        members,
        remark: None,
    }
}

/// A refusal, as the library would list it.
pub fn refused(number: u32) -> Answer {
    listed(number, format!("refused {number}\n").as_bytes())
}

/// The answer of `census`: how many candidates are permitted, and how many
/// each rule is the first to stop.
pub fn census(request: &Request) -> Answer {
    let counts = match census::counts(request) {
        Err(number) => return refused(number),
        Ok(counts) => counts,
    };
    let text: String = census::lines(&counts).map(|line| line + "\n").collect();
    let mut members = json::members(&text);
    members.push(json::number("candidates", candidates(request.tank)));
    Answer {
        number: SHEET,
        kind: "census",
        text: text.into_bytes(),
        members,
        remark: None,
    }
}

/// The answer of `load`: the highest sum of 14 daily loads, and its first day.
pub fn load(log: &[u8]) -> Answer {
    let mut page = [0; LOAD_PAGE];
    let (number, _) = library::load(log, &mut page);
    if number != SHEET {
        return refused(number);
    }
    let Load { sum, day } = Load::from_page(&page);
    let text = format!("sum {sum}\nday {day}\n");
    Answer {
        number,
        kind: "load",
        members: json::members(&text),
        text: text.into_bytes(),
        remark: None,
    }
}

/// The answer of `target`: the lowest target in force, or 0 with a remark that
/// no term runs.
pub fn target(terms: &Terms, date: Date) -> Answer {
    let mut page = [0; TARGET_PAGE];
    let (number, _) = library::target(&terms.to_target(date), &mut page);
    if number != SHEET {
        return refused(number);
    }
    let target = target_from_page(&page);
    let text = format!("target {target}\n");
    Answer {
        number,
        kind: "target",
        members: json::members(&text),
        text: text.into_bytes(),
        remark: (target == 0).then(|| consent::no_term_runs(terms, date)),
    }
}

/// The answer of `explain`: figures beside limits, and the verdict, which is
/// the number that examining the candidate gives.
pub fn explain(request: &Request, candidate: Candidate) -> Answer {
    let figures = match explanation::figures(request, candidate) {
        Err(number) => return refused(number),
        Ok(figures) => figures,
    };
    let verdict = figures.verdict as u32;
    let lines = explanation::lines(request, candidate, &figures);
    let text = explanation::text(&lines) + &format!("verdict {verdict}\n");
    let mut members: Vec<Member> = lines.iter().flat_map(|line| line.members()).collect();
    members.push(json::number("verdict", verdict));
    members.push(json::text(
        "word",
        number::word(verdict).unwrap_or_default(),
    ));
    Answer {
        number: SHEET,
        kind: "figures",
        text: text.into_bytes(),
        members,
        remark: None,
    }
}

/// The answer of `works`: the sums over its lines, and each line's sheet; of a
/// refused works the first line that is refused, where it is one.
pub fn works(request: &Request, split: &Split) -> Answer {
    let mut page = [0; WORKS_PAGE];
    let (number, _) = library::works(&request.to_works(split), &mut page);
    if number != SHEET {
        let lines = works::refused_lines(request, split);
        let first = lines.first().map(|first| json::number("line", first.line));
        return Answer {
            members: first.into_iter().collect(),
            ..refused(number)
        };
    }
    let found = Works::from_page(&page);
    let mut text = works::sums(&found);
    let mut members = json::members(&text);
    let mut lines = Vec::new();
    for (line, listing) in works::listings(&found, split) {
        text += &format!("# line {line}\n{listing}");
        let mut object = vec![json::number("line", line)];
        object.extend(json::members(&listing));
        lines.push(object);
    }
    members.push(("lines".to_string(), Value::List(lines)));
    Answer {
        number,
        kind: "works",
        text: text.into_bytes(),
        members,
        remark: None,
    }
}

/// The answer of `built`: `held`, or the smallest index that is lost, with a
/// remark on what fails there.
pub fn built(request: &Request, existing: &Existing, span: &Span) -> Answer {
    let mut page = [0; BUILT_PAGE];
    let (number, _) = library::built(&request.to_built(existing, span), &mut page);
    match Built::from_page(number, &page) {
        Built::Refused(number) => refused(number),
        Built::Held => Answer {
            kind: "held",
            ..listed(number, b"held\n")
        },
        Built::Lost(index) => Answer {
            kind: "lost",
            members: vec![json::number("sludge-volume-index", index)],
            remark: Some(built::lost(request, existing, span, index as u32)),
            ..listed(number, format!("lost {index}\n").as_bytes())
        },
    }
}

/// The answer of `length`: how many bytes `choose` prints, or `examine` of the
/// candidate, also where that is a refusal, which a remark then tells of.
pub fn length(
    request: &Request,
    candidate: Option<Candidate>,
    words: impl FnOnce(u32) -> String,
) -> Answer {
    let (number, length) = match candidate {
        None => library::length_choose(&request.to_choose()),
        Some(candidate) => library::length_examine(&request.to_examine(candidate)),
    };
    if number != SHEET && !number::is_refusal(number) {
        return refused(number);
    }
    let text = format!("length {length}\n");
    let mut members = json::members(&text);
    members.push(json::number("number", number));
    members.push(json::text("word", number::word(number).unwrap_or_default()));
    Answer {
        number: SHEET,
        kind: "length",
        members,
        text: text.into_bytes(),
        remark: (number != SHEET).then(|| format!("the listing is no sheet: {}", words(number))),
    }
}

/// The answer of `price`: what the design chosen or a candidate costs; its
/// sheet is among the members alone.
pub fn price(request: &Request, candidate: Option<Candidate>, tariff: &Tariff) -> Answer {
    let mut page = [0; PRICE_PAGE];
    let (number, _) = match candidate {
        None => library::price_choose(&request.to_price_choose(tariff), &mut page),
        Some(candidate) => {
            let bytes = request.to_price_examine(candidate, tariff);
            library::price_examine(&bytes, &mut page)
        }
    };
    if number != SHEET {
        return refused(number);
    }
    let Price { sheet, price } = Price::from_page(&page);
    let text = format!("price {price}\n");
    Answer {
        number,
        kind: "price",
        members: json::members(&(listing(&sheet) + &text)),
        text: text.into_bytes(),
        remark: None,
    }
}
