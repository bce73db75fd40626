//! Built tanks against the widest span, all of it held: beside a choice, and per
//! second.

use super::{choice, rates, row, share, times, Repeats, Timed, PAGE};
use cases::built::{with_size, Asked, Need, Run, Sizes, AMPLE, DEPTH, REACTOR, SURFACE};
use cases::model;
use cases::request::*;
use comparison::requests::figure;
use library::number::SHEET;
use library::BUILT_PAGE;
use reference::built::LEAST_INDEX;
use std::time::Duration;

/// Of calls that take some ten choices.
const OFTEN_ENOUGH: Repeats = Repeats {
    alternations: 20,
    places: 8,
};

/// Which of the tanks just does for the span. A small reactor takes large return
/// ratios, a small settling tank small ones.
const TANKS: [(&str, Option<usize>); 4] = [
    ("ample", None),
    ("small reactor", Some(REACTOR)),
    ("small surface", Some(SURFACE)),
    ("small depth", Some(DEPTH)),
];

/// The plant at fraction and time of its choice, if it has one.
fn at_choice(plant: &Request) -> Option<Request> {
    let mut page = [0; PAGE];
    let (number, written) = library::choose(&plant.choose_bytes(), &mut page);
    let figure = |label: &str| figure(&page[..written as usize], label);
    match number {
        SHEET => Some(plant.with_candidate(figure("fraction ")?, 30, figure("thickening ")?)),
        _ => None,
    }
}

/// Ample tanks, but one size is the least at which no index of the widest span
/// is lost; none where one is lost at any size.
fn least_sizes(run: &Run, small: Option<usize>) -> Option<Sizes> {
    let mut least = 0;
    for index in LEAST_INDEX..=MOST_INDEX {
        let needs = run.at(index);
        let size = |need: &Need| small.map_or(u32::MAX, |place| need.sizes[place]);
        least = needs.iter().map(size).min()?.max(least);
    }
    Some(small.map_or(AMPLE, |place| with_size(AMPLE, place, least)))
}

/// The requests to choose and for built tanks, all held, of the plants in vertical
/// flow.
fn held(plants: &[Request], small: Option<usize>) -> Vec<[Vec<u8>; 2]> {
    let vertical = plants.iter().filter(|plant| plant.get(TANK_FLOW) == 1);
    let pair = |plant: &Request| {
        let plant = at_choice(plant)?;
        let sizes = least_sizes(&Run::of(&plant)?, small)?;
        let tanks = Asked::of(plant, sizes, LEAST_INDEX, MOST_INDEX).bytes();
        let mut page = [0xff; BUILT_PAGE];
        assert_eq!(library::built(&tanks, &mut page).0, SHEET);
        assert_eq!(page, [0; BUILT_PAGE], "held");
        Some([plant.choose_bytes(), tanks])
    };
    vertical.filter_map(pair).collect()
}

fn built(request: &[u8]) -> u32 {
    library::built(request, &mut [0; BUILT_PAGE]).0
}

/// Rates of ample and of the smallest tanks.
pub fn rates_of_tanks(plants: &[Request]) {
    for (name, small) in TANKS {
        let requests: Vec<Vec<u8>> = held(plants, small).into_iter().map(|[_, it]| it).collect();
        let by_reference = |request: &[u8]| model::built(request, BUILT_PAGE).number;
        let name = format!("built, {name}");
        row(&name, rates(&requests, built, by_reference));
    }
}

/// How many times that of a choice is the time of built tanks, all together.
fn choices_of(times: [Duration; 2]) -> f64 {
    share(times) / 100.0
}

/// How many times that of a choice is the time of built tanks in vertical flow,
/// the whole span held: the most over the sorts of tanks.
pub fn tanks_beside_choice(plants: &[Request]) -> f64 {
    let mut most = 0.0_f64;
    for (name, small) in TANKS {
        let pairs = held(plants, small);
        let each: Vec<[Duration; 2]> = pairs
            .iter()
            .map(|[plant, tanks]| {
                let pair: [Timed; 2] = [(choice, &plant[..]), (built, &tanks[..])];
                times([pair].into_iter(), &OFTEN_ENOUGH)
            })
            .collect();
        let sum = |place: usize| each.iter().map(|times| times[place]).sum();
        let all = choices_of([sum(0), sum(1)]);
        let worst = each.iter().copied().map(choices_of).fold(0.0, f64::max);
        println!(
            "built, {name}, 50..180 held in vertical flow: the time of {all:.1} choices \
             over {} plants, at most {worst:.1}",
            pairs.len()
        );
        most = most.max(all);
    }
    most
}
