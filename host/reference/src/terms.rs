//! Seasons of the consent: its terms, and the target in force on a day.

use crate::refusal;

/// Terms that a consent may name.
pub const MOST_TERMS: usize = 4;

/// A part of the year with a nitrate target of its own.
#[derive(Clone, Copy, Debug, Default, PartialEq, Eq)]
pub struct Term {
    pub first_month: u32,
    pub first_day: u32,
    pub last_month: u32,
    pub last_day: u32,
    /// Lowest temperature, degrees Celsius
    pub temperature: u32,
    /// mg/m3
    pub nitrate_target: u32,
}

/// The first `count` terms; the others are not looked at.
#[derive(Clone, Copy, Debug, PartialEq, Eq)]
pub struct Consent {
    pub count: u32,
    pub terms: [Term; MOST_TERMS],
}

/// Days of a month, 29 in February; 0 for a number that is no month.
pub fn days_of_month(month: u32) -> u32 {
    match month {
        1 | 3 | 5 | 7 | 8 | 10 | 12 => 31,
        4 | 6 | 9 | 11 => 30,
        2 => 29,
        _ => 0,
    }
}

pub fn is_date(month: u32, day: u32) -> bool {
    (1..=days_of_month(month)).contains(&day)
}

impl Term {
    pub fn is_valid(&self) -> bool {
        is_date(self.first_month, self.first_day)
            && is_date(self.last_month, self.last_day)
            && (4..=20).contains(&self.temperature)
            && (1_000..=50_000).contains(&self.nitrate_target)
    }

    /// Whether the term runs on a date; over the new year where its last day
    /// comes before its first.
    pub fn runs_on(&self, month: u32, day: u32) -> bool {
        let first = (self.first_month, self.first_day);
        let last = (self.last_month, self.last_day);
        let date = (month, day);
        if last < first {
            date >= first || date <= last
        } else {
            date >= first && date <= last
        }
    }
}

impl Consent {
    /// A consent that names no term.
    pub fn none() -> Self {
        Consent {
            count: 0,
            terms: [Term::default(); MOST_TERMS],
        }
    }

    /// The terms below the count, which must be at most four.
    pub fn named(&self) -> &[Term] {
        &self.terms[..self.count as usize]
    }

    pub fn is_valid(&self) -> bool {
        self.count as usize <= MOST_TERMS && self.named().iter().all(Term::is_valid)
    }
}

/// The lowest target of the terms that run on a date, none if no term runs,
/// or 14.
pub fn target_in_force(consent: &Consent, month: u32, day: u32) -> Result<Option<u32>, u8> {
    if !consent.is_valid() || !is_date(month, day) {
        return Err(refusal::CONSENT);
    }
    let running = consent.named().iter().filter(|t| t.runs_on(month, day));
    Ok(running.map(|term| term.nitrate_target).min())
}
