//! Which key a refusal of 1 to 4, 14 or 17 is due to. The number is the library's:
//! here the key is only looked for, and nothing is said where the finding is
//! another number.

use crate::consent;
use crate::keys::{Field, Key, Range, HEADS, KEYS, MOST_BULKING};
use crate::plant_file::PlantFile;
use library::number::{BULKING, COD_RATIO, NO_NUMBER, PLANT_DATA, READING_RANGE, TERMS};
use library::{Reading, Request, Way, MOST_INDEX};

/// What a reading comes to.
struct Outcome<'a> {
    key: &'a Key,
    range: &'a Range,
    reading: Reading,
    /// Thousandths of mg/l; exact, as a f32 times 1000 fits a f64
    thousandths: f64,
}

/// Load per head in tenths of g/d, by reading and primary settling.
const PER_HEAD: [[u32; 3]; 5] = [
    [600, 450, 400],
    [1_200, 900, 800],
    [700, 350, 250],
    [110, 100, 100],
    [18, 16, 16],
];

/// Lines that name the keys a refusal is due to, or none.
pub fn lines(number: u32, file: &PlantFile) -> Vec<String> {
    let request = &file.request;
    let outside = outside(request);
    if let Some(found) = due(request, &outside) {
        return if found == number { outside } else { Vec::new() };
    }
    let results = results(request);
    if let Some((found, line)) = results.iter().find_map(Outcome::fault) {
        return if found == number {
            vec![line]
        } else {
            Vec::new()
        };
    }
    let ratio = match request.way {
        Way::Bod => cod_ratio(&results[0], &results[1]),
        Way::Cod => Vec::new(),
    };
    match number {
        COD_RATIO => ratio,
        TERMS if ratio.is_empty() => consent::faults(file),
        _ => Vec::new(),
    }
}

/// The refusal that figures outside their ranges are due: 17 where it is the
/// index alone, and not past 200.
fn due(request: &Request, outside: &[String]) -> Option<u32> {
    let bulking = (MOST_INDEX + 1..=MOST_BULKING).contains(&request.sludge_volume_index);
    match outside.len() {
        0 => None,
        1 if bulking => Some(BULKING),
        _ => Some(PLANT_DATA),
    }
}

/// The plant and site figures outside their ranges.
fn outside(request: &Request) -> Vec<String> {
    let mut copy = *request;
    let mut lines = Vec::new();
    for key in &KEYS {
        if let Field::Whole(range, at) = &key.field {
            lines.extend(range.outside(key.name, *at(&mut copy)));
        }
    }
    lines
}

fn results(request: &Request) -> Vec<Outcome<'static>> {
    let mut copy = *request;
    let mut found = Vec::new();
    for key in &KEYS {
        if let Field::Reading(range, at) = &key.field {
            let reading = *at(&mut copy);
            let per_head = PER_HEAD[found.len()][request.primary_settling as usize];
            found.push(Outcome {
                key,
                range,
                reading,
                thousandths: thousandths(reading, per_head, request.flow),
            });
        }
    }
    found
}

/// The request with each head count as the measured reading that it comes to.
pub fn measured(request: &Request) -> Request {
    let mut measured = *request;
    for result in results(request) {
        if let (Field::Reading(_, at), Reading::Heads(_)) = (&result.key.field, result.reading) {
            *at(&mut measured) = Reading::Measured(nearest(result.thousandths));
        }
    }
    measured
}

/// The bits of the f32 nearest to so many thousandths of mg/l. Up to the
/// largest result of a reading it comes to these thousandths again.
fn nearest(thousandths: f64) -> u32 {
    ((thousandths / 1000.0) as f32).to_bits()
}

fn thousandths(reading: Reading, per_head: u32, flow: u32) -> f64 {
    let exact = |bits: u32| f64::from(f32::from_bits(bits)) * 1000.0;
    match reading {
        Reading::Measured(bits) => exact(bits).round_ties_even(),
        Reading::Below(bits) => (exact(bits) / 2.0).round_ties_even(),
        Reading::Heads(heads) => {
            let load = u64::from(heads) * u64::from(per_head) * 100;
            load.div_ceil(u64::from(flow.max(1))) as f64
        }
    }
}

impl Outcome<'_> {
    /// The refusal that the reading is due, with what is wrong.
    fn fault(&self) -> Option<(u32, String)> {
        let name = self.key.name;
        if let Reading::Measured(bits) | Reading::Below(bits) = self.reading {
            let value = f32::from_bits(bits);
            if !value.is_finite() || value < 0.0 {
                let line = format!("{}: expected a finite number, not below zero", self.given());
                return Some((NO_NUMBER, line));
            }
        }
        if let Reading::Heads(heads) = self.reading {
            if !HEADS.holds(heads) {
                let line = format!("{name} heads {heads}: expected {}", HEADS.digits());
                return Some((READING_RANGE, line));
            }
        }
        let (least, most) = (f64::from(self.range.least), f64::from(self.range.most));
        let half = match self.reading {
            Reading::Below(_) => "half of it, ",
            _ => "",
        };
        let inside = (1000.0 * least..=1000.0 * most).contains(&self.thousandths);
        let line = format!(
            "{} comes to {}{}: expected {} mg/l",
            self.given(),
            half,
            self.concentration(),
            self.range.digits()
        );
        (!inside).then_some((READING_RANGE, line))
    }

    /// The reading as it was given.
    fn given(&self) -> String {
        let name = self.key.name;
        match self.reading {
            Reading::Measured(bits) => format!("{name} measured {}", short(bits)),
            Reading::Below(bits) => format!("{name} below {}", short(bits)),
            Reading::Heads(heads) => format!("{name} heads {heads}"),
        }
    }

    /// Its result in mg/l.
    fn concentration(&self) -> String {
        match self.thousandths < 1e12 {
            true => format!("{:.3} mg/l", self.thousandths / 1000.0),
            false => format!("{:.3e} mg/l", self.thousandths / 1000.0),
        }
    }
}

/// A f32 in few digits.
pub fn short(bits: u32) -> String {
    let value = f32::from_bits(bits);
    let plain = value.to_string();
    match plain.len() > 16 {
        true => format!("{value:e}"),
        false => plain,
    }
}

/// The limit of the BOD way.
fn cod_ratio(bod: &Outcome, cod: &Outcome) -> Vec<String> {
    if 5.0 * cod.thousandths <= 11.0 * bod.thousandths {
        return Vec::new();
    }
    let (bod, cod) = (bod.concentration(), cod.concentration());
    vec![format!(
        "cod {cod}, bod {bod}: cod may be at most 2.2 times bod"
    )]
}

#[cfg(test)]
mod tests {
    use super::*;

    #[test]
    fn the_nearest_reading_comes_to_its_thousandths() {
        for wanted in 0..=4_400_000 {
            let wanted = f64::from(wanted);
            let reading = Reading::Measured(nearest(wanted));
            assert_eq!(thousandths(reading, 0, 0), wanted);
        }
    }
}
