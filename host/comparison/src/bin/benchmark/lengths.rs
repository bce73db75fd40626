//! The length of what is chosen, beside a choice and per second.

use super::{choice, rates, requests, row, share_of_time, Timed};
use cases::model;
use cases::request::*;

fn length_of_choice(request: &[u8]) -> u32 {
    library::length_choose(request).0
}

/// Rates of the call; the reference searches plainly.
pub fn rates_of_lengths(plants: &[Request]) {
    let all = requests(plants, |_| true);
    let by_reference = |request: &[u8]| model::length_choose(request).0;
    let found = rates(&all, length_of_choice, by_reference);
    row("length of the choice", found);
}

/// The time of the call in hundredths of that of a choice, over all plants, and how
/// long it may be.
pub fn limit(plants: &[Request]) {
    let all = requests(plants, |_| true);
    let share = share_of_time(all.iter().map(|request| {
        let pair: [Timed; 2] = [(choice, &request[..]), (length_of_choice, &request[..])];
        pair
    }));
    println!("time of the length of a choice beside a choice: {share:.0}%");
    assert!(
        share <= 110.0,
        "the length of a choice is to take at most a tenth more than a choice"
    );
}
