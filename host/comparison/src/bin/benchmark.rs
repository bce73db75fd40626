//! Choices, censuses, examinations, two-week loads, works in lines, whole sweeps,
//! built tanks, prices and lengths of listings per second of the library and of the
//! reference, on the same plants and day logs; the time of a census beside that of a choice, of a choice
//! with four terms beside one without, of one in the COD way beside one in the BOD
//! way, of a works beside as many choices as it has lines, of an advance beside as
//! many examinations, of a whole sweep and of built tanks beside a choice, of a priced
//! choice and of the length of one beside a choice; and the stack that a call takes.

#[path = "benchmark/built.rs"]
mod built;
#[path = "benchmark/lengths.rs"]
mod lengths;
#[path = "benchmark/prices.rs"]
mod prices;
#[path = "benchmark/sweeps.rs"]
mod sweeps;

use cases::built::{Asked, AMPLE};
use cases::model;
use cases::plants;
use cases::random::Random;
use cases::request::*;
use comparison::logs;
use comparison::stack::{further_down, stack_of, stack_of_advance, stack_of_examination, LENGTHS};
use comparison::sweep_calls::grid_number;
use comparison::targets;
use comparison::works;
use library::number::{NO_DESIGN, SHEET};
use library::{ADVANCE_MOST, PAGE_LENGTH as PAGE, WORKS_PAGE};
use std::hint::black_box;
use std::time::{Duration, Instant};

const ROUNDS: usize = 5;
/// Least time of a measurement.
const LEAST_TIME: Duration = Duration::from_millis(300);
/// Calls of which the least time is taken, at each place on the stack, and
/// places on the stack. A call that lies badly in its page of memory takes up to
/// half as long again.
struct Repeats {
    alternations: usize,
    places: usize,
}

/// Of calls that are done in some microseconds; the places go over more than a
/// page of memory.
const OFTEN: Repeats = Repeats {
    alternations: 100,
    places: 16,
};

fn chosen(request: &Request) -> u32 {
    library::choose(&request.choose_bytes(), &mut [0; PAGE]).0
}

/// For each tank flow and process three plants with a design and one
/// without, each with a candidate; none has a dose or a term, all are in the BOD
/// way.
fn benchmark_plants() -> Vec<Request> {
    let mut random = Random::new(6_000);
    let mut found = Vec::new();
    for flow in 0..=1 {
        for process in 0..=4 {
            let mut left = [3, 1];
            while left != [0, 0] {
                let plant = plants::plausible(&mut random)
                    .with(TANK_FLOW, flow)
                    .with(PROCESS, process)
                    .with(RETURN_RATIO, 50);
                let place = match chosen(&plant) {
                    SHEET => 0,
                    NO_DESIGN => 1,
                    _ => continue,
                };
                if left[place] > 0 {
                    left[place] -= 1;
                    found.push(plant);
                }
            }
        }
    }
    found
}

/// The same plants with a dose that removes 10 mg/l of nitrate.
fn dosed(plants: &[Request]) -> Vec<Request> {
    let dosed = |plant: &Request| plant.with(DOSE, 50_000);
    plants.iter().map(dosed).collect()
}

/// The same plants with a colder winter, whose target is looser, and three
/// warmer terms at the design's target.
fn with_four_terms(plants: &[Request]) -> Vec<Request> {
    let four = |plant: &Request| {
        let design = plant.get(DESIGN_TEMPERATURE);
        let target = plant.get(NITRATE_TARGET);
        let warmer = |degrees: u32| (design + degrees).min(20);
        plant.with_terms(&[
            [11, 16, 3, 15, design - 1, (2 * target).min(50_000)],
            [3, 16, 5, 31, warmer(1), target],
            [6, 1, 9, 15, warmer(4), target],
            [9, 16, 11, 15, warmer(2), target],
        ])
    };
    plants.iter().map(four).collect()
}

/// The same plants in the COD way.
fn by_cod(plants: &[Request]) -> Vec<Request> {
    let by_cod = |plant: &Request| plant.with(WAY, BY_COD);
    plants.iter().map(by_cod).collect()
}

/// Runs over all requests until the least time has passed: calls per second.
fn rate(requests: &[Vec<u8>], mut call: impl FnMut(&[u8]) -> u32) -> f64 {
    let start = Instant::now();
    let mut calls = 0;
    while start.elapsed() < LEAST_TIME {
        for request in requests {
            black_box(call(black_box(request)));
        }
        calls += requests.len();
    }
    calls as f64 / start.elapsed().as_secs_f64()
}

fn median(mut rates: Vec<f64>) -> f64 {
    rates.sort_by(f64::total_cmp);
    rates[rates.len() / 2]
}

/// Alternating rounds of library and reference, each at another place on the
/// stack, and their median rates.
fn rates(
    requests: &[Vec<u8>],
    by_library: impl Fn(&[u8]) -> u32,
    by_reference: impl Fn(&[u8]) -> u32,
) -> (f64, f64) {
    let (mut first, mut second) = (Vec::new(), Vec::new());
    for round in 0..ROUNDS {
        further_down(round, &mut || {
            first.push(rate(requests, &by_library));
            second.push(rate(requests, &by_reference));
        });
    }
    (median(first), median(second))
}

fn row(name: &str, (library, reference): (f64, f64)) {
    let ratio = library / reference;
    println!("{name:<28}{library:>14.0}{reference:>14.0}{ratio:>9.1}");
}

/// The requests to choose of some plants.
fn requests(plants: &[Request], wanted: impl Fn(&Request) -> bool) -> Vec<Vec<u8>> {
    plants
        .iter()
        .filter(|plant| wanted(plant))
        .map(Request::choose_bytes)
        .collect()
}

fn choice(request: &[u8]) -> u32 {
    library::choose(request, &mut [0; PAGE]).0
}

fn census(request: &[u8]) -> u32 {
    library::census(request, &mut [0; PAGE]).0
}

/// Rates of choosing for plants of one tank flow, with or without a design.
fn choices(name: &str, plants: &[Request], wanted: impl Fn(&Request) -> bool) {
    let some = requests(plants, wanted);
    let by_reference = |request: &[u8]| model::choose(request, PAGE).number;
    row(name, rates(&some, choice, by_reference));
}

fn censuses(plants: &[Request]) {
    let all = requests(plants, |_| true);
    let by_reference = |request: &[u8]| model::census(request, PAGE).number;
    row("census", rates(&all, census, by_reference));
}

/// A call and its request.
type Timed<'a> = (fn(&[u8]) -> u32, &'a [u8]);

/// The least times of two calls in turn: other work on the machine can only
/// add to them.
fn least_times(calls: [Timed; 2], alternations: usize) -> [Duration; 2] {
    let mut least = [Duration::MAX; 2];
    for _ in 0..alternations {
        for (least, (call, request)) in least.iter_mut().zip(calls) {
            let start = Instant::now();
            black_box(call(black_box(request)));
            *least = start.elapsed().min(*least);
        }
    }
    least
}

/// The times of all pairs of calls over all places on the stack.
fn times<'a>(pairs: impl Iterator<Item = [Timed<'a>; 2]>, repeats: &Repeats) -> [Duration; 2] {
    let mut all = [Duration::ZERO; 2];
    for pair in pairs {
        for place in 0..repeats.places {
            let times = further_down(place, &mut || least_times(pair, repeats.alternations));
            for (all, time) in all.iter_mut().zip(times) {
                *all += time;
            }
        }
    }
    all
}

/// The second of two times in hundredths of the first.
fn share([first, second]: [Duration; 2]) -> f64 {
    100.0 * second.as_secs_f64() / first.as_secs_f64()
}

/// The time of the second of all pairs of calls in hundredths of the first.
fn share_of_time<'a>(pairs: impl Iterator<Item = [Timed<'a>; 2]>) -> f64 {
    share(times(pairs, &OFTEN))
}

/// The time of a choice with four terms in hundredths of that without, over
/// all plants.
fn four_terms_beside_none(plants: &[Request]) -> f64 {
    let without = requests(plants, |_| true);
    let with = requests(&with_four_terms(plants), |_| true);
    let pairs = without.iter().zip(&with);
    let share = share_of_time(
        pairs.map(|(without, with)| [(choice as _, &without[..]), (choice as _, &with[..])]),
    );
    println!("time of a choice with four terms beside one without: {share:.0}%");
    share
}

/// The time of a choice in the COD way in hundredths of that in the BOD way,
/// over all plants.
fn cod_beside_bod(plants: &[Request]) {
    let by_bod = requests(plants, |_| true);
    let by_cod = requests(&by_cod(plants), |_| true);
    let pairs = by_bod.iter().zip(&by_cod);
    let share =
        share_of_time(pairs.map(|(bod, cod)| [(choice as _, &bod[..]), (choice as _, &cod[..])]));
    println!("time of a choice in the COD way beside one in the BOD way: {share:.0}%");
}

/// The time of a census in hundredths of that of a choice, over some plants.
fn census_beside_choice(name: &str, plants: &[Request], wanted: impl Fn(&Request) -> bool) -> f64 {
    let requests = requests(plants, wanted);
    let pairs = requests.iter();
    let share = share_of_time(
        pairs.map(|request| [(choice as _, &request[..]), (census as _, &request[..])]),
    );
    println!("census, {name}: {share:.0}% of the time of a choice");
    share
}

fn examinations(name: &str, plants: &[Request]) {
    let all: Vec<Vec<u8>> = plants.iter().map(Request::examine_bytes).collect();
    let by_library = |request: &[u8]| library::examine(request, &mut [0; PAGE]).0;
    let by_reference = |request: &[u8]| model::examine(request, PAGE).number;
    row(name, rates(&all, by_library, by_reference));
}

/// Logs of ten years: plausible days, and any days up to the limits.
fn ten_years() -> Vec<Vec<u8>> {
    let mut random = Random::new(6_100);
    let sorts = [1, 2].map(|sort| logs::days(&mut random, 3_660, sort));
    sorts.iter().map(|days| logs::log(days)).collect()
}

fn loads() {
    let by_library = |log: &[u8]| library::load(log, &mut [0; PAGE]).0;
    let by_reference = |log: &[u8]| model::load(log, PAGE).number;
    let rates = rates(&ten_years(), by_library, by_reference);
    row("load, log of 3,660 days", rates);
}

/// The numbers of lines that works are timed with.
const LINES: [u32; 3] = [2, 4, 8];

fn works_of(request: &[u8]) -> u32 {
    library::works(request, &mut [0; WORKS_PAGE]).0
}

/// Rates of works of so many equal lines.
fn works_rates(plants: &[Request], lines: u32) {
    let split = works::equal(lines);
    let all: Vec<Vec<u8>> = plants
        .iter()
        .map(|plant| plant.works_bytes(&split))
        .collect();
    let by_reference = |request: &[u8]| model::works(request, WORKS_PAGE).number;
    let name = format!("works of {lines} lines");
    row(&name, rates(&all, works_of, by_reference));
}

/// The times of a choice and of a works of so many equal lines, over plants with
/// a design or without.
fn choices_and_works(plants: &[Request], lines: u32, design: bool) -> [Duration; 2] {
    let split = works::equal(lines);
    let wanted = |plant: &&Request| (chosen(plant) == SHEET) == design;
    let pairs: Vec<[Vec<u8>; 2]> = plants
        .iter()
        .filter(wanted)
        .map(|plant| [plant.choose_bytes(), plant.works_bytes(&split)])
        .collect();
    let pairs = pairs.iter().map(|[plant, works]| {
        let choice: Timed = (choice, &plant[..]);
        [choice, (works_of, &works[..])]
    });
    times(pairs, &OFTEN)
}

/// The time of a works in hundredths of that of as many choices for the whole
/// plant as it has lines, over all plants.
fn works_beside_choices(plants: &[Request], lines: u32) -> f64 {
    let with = choices_and_works(plants, lines, true);
    let without = choices_and_works(plants, lines, false);
    let all = [with[0] + without[0], with[1] + without[1]];
    let [all, with, without] = [all, with, without].map(|times| share(times) / f64::from(lines));
    println!(
        "works of {lines} lines: {all:.0}% of the time of {lines} choices, \
         with a design {with:.0}%, without {without:.0}%"
    );
    all
}

/// The calls whose stack is measured.
const STACKS: &str = "choose, examine, explain, census, load, target, works, line, \
                      start of a sweep, advance, examine in a sweep, built tanks, \
                      price of the choice, price of a candidate, length of the choice, \
                      length of a candidate, length of a line";

/// The most stack that a call takes over all plants.
fn stacks(plants: &[Request]) {
    let mut most = [0; 17];
    let eight = works::equal(8);
    let log = &ten_years()[0];
    let target = targets::request(4, &[[11, 16, 3, 15, 8, 20_000]; MOST_TERMS], (2, 29));
    let mut page = [0; WORKS_PAGE];
    let four_terms = with_four_terms(plants);
    let by_cod = by_cod(&four_terms);
    for plant in plants.iter().chain(&four_terms).chain(&by_cod) {
        let (examine, choose) = (plant.examine_bytes(), plant.choose_bytes());
        let last = grid_number(plant) - ADVANCE_MOST;
        let state = plant.state_bytes(last, NONE_YET);
        let built = Asked::of(*plant, AMPLE, 50, 180).bytes();
        let [price_choose, price_examine] = prices::requests_of(plant);
        let taken = [
            stack_of(library::CHOOSE, &choose, &mut page),
            stack_of(library::EXAMINE, &examine, &mut page),
            stack_of(library::EXPLAIN, &examine, &mut page),
            stack_of(library::CENSUS, &choose, &mut page),
            stack_of(library::LOAD, log, &mut page),
            stack_of(library::TARGET, &target, &mut page),
            stack_of(library::WORKS, &plant.works_bytes(&eight), &mut page),
            stack_of(library::LINE, &plant.line_bytes(&eight, 8), &mut page),
            stack_of(library::SWEEP_START, &choose, &mut page),
            stack_of_advance(&state),
            stack_of_examination(&state),
            stack_of(library::BUILT, &built, &mut page),
            stack_of(library::PRICE_CHOOSE, &price_choose, &mut page),
            stack_of(library::PRICE_EXAMINE, &price_examine, &mut page),
            stack_of(LENGTHS[0], &choose, &mut page),
            stack_of(LENGTHS[1], &examine, &mut page),
            stack_of(LENGTHS[2], &plant.line_bytes(&eight, 8), &mut page),
        ];
        assert_eq!(taken[0].0, chosen(plant));
        for (most, (_, bytes)) in most.iter_mut().zip(taken) {
            *most = bytes.max(*most);
        }
    }
    let each = STACKS.split(", ").zip(most);
    let listed: Vec<String> = each.map(|(name, most)| format!("{name} {most}")).collect();
    println!("stack, bytes: {}", listed.join(", "));
}

/// Rates of choosing, by what the plants have.
fn all_choices(plants: &[Request]) {
    let with_design = |plant: &Request| chosen(plant) == SHEET;
    let four_terms = with_four_terms(plants);
    let cod_plants = by_cod(plants);
    choices("choose, all", plants, |_| true);
    choices("choose, all with a dose", &dosed(plants), |_| true);
    choices("choose, all with four terms", &four_terms, |_| true);
    choices("choose, horizontal flow", plants, |plant| {
        plant.get(TANK_FLOW) == 0
    });
    choices("choose, vertical flow", plants, |plant| {
        plant.get(TANK_FLOW) == 1
    });
    choices("choose, with a design", plants, with_design);
    choices("choose, without a design", plants, |plant| {
        !with_design(plant)
    });
    choices("choose, all by COD", &cod_plants, |_| true);
    choices("choose, by COD, four terms", &by_cod(&four_terms), |_| true);
    choices("choose, by COD, a design", &cod_plants, with_design);
    choices("choose, by COD, no design", &cod_plants, |plant| {
        !with_design(plant)
    });
}

/// Times of one call beside another, and how long they may be.
fn limits(plants: &[Request]) {
    let with_design = |plant: &Request| chosen(plant) == SHEET;
    census_beside_choice("with a design", plants, with_design);
    census_beside_choice("without a design", plants, |plant| !with_design(plant));
    cod_beside_bod(plants);
    let share = census_beside_choice("all plants", plants, |_| true);
    assert!(share <= 100.0, "a census is to be no slower than a choice");
    let share = four_terms_beside_none(plants);
    assert!(
        share <= 250.0,
        "a choice with four terms is to take at most 2.5 times that without"
    );
    for lines in LINES {
        let share = works_beside_choices(plants, lines);
        assert!(
            share <= 100.0,
            "a works is to be no slower than as many choices as it has lines"
        );
    }
    let share = sweeps::advance_beside_examinations(plants);
    assert!(
        share <= 10.0,
        "an advance is to take at most a tenth of as many examinations"
    );
    let choices = sweeps::sweep_beside_choice(plants);
    assert!(
        choices <= 150.0,
        "a whole sweep is to take at most the time of 150 choices"
    );
    let choices = built::tanks_beside_choice(plants);
    assert!(
        choices <= 60.0,
        "built tanks are to take at most the time of 60 choices"
    );
}

fn main() {
    let plants = benchmark_plants();
    let count = plants.len();
    println!("{count} plants; a request's bytes to its listing; medians of {ROUNDS} rounds");
    let title = "calls per second";
    println!(
        "{title:<28}{:>14}{:>14}{:>9}",
        "library", "reference", "ratio"
    );
    all_choices(&plants);
    censuses(&plants);
    examinations("examine", &plants);
    examinations("examine, by COD", &by_cod(&plants));
    loads();
    for lines in LINES {
        works_rates(&plants, lines);
    }
    sweeps::rates_of_sweeps(&plants);
    built::rates_of_tanks(&plants);
    prices::rates_of_prices(&plants);
    lengths::rates_of_lengths(&plants);
    stacks(&plants);
    limits(&plants);
    prices::limit(&plants);
    lengths::limit(&plants);
}
