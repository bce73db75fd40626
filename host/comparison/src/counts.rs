//! Work in parts on two threads, and counts of the answers.

use std::collections::BTreeMap;
use std::sync::atomic::{AtomicU64, Ordering};
use std::sync::Mutex;

pub type Counts = BTreeMap<u32, usize>;

/// Parts of the work; each has a seed of its own, so the requests do not
/// depend on the number of threads.
const PARTS: u64 = 16;
const THREADS: usize = 2;
/// Differences printed of each part.
const MOST_SHOWN: usize = 5;

/// What one part found.
#[derive(Default)]
pub struct Found {
    pub counts: Counts,
    pub differences: Vec<String>,
}

impl Found {
    pub fn add(&mut self, result: Result<u32, String>) {
        match result {
            Ok(number) => *self.counts.entry(number).or_default() += 1,
            Err(difference) => self.differences.push(difference),
        }
    }

    fn join(&mut self, other: Found) {
        for (number, count) in other.counts {
            *self.counts.entry(number).or_default() += count;
        }
        self.differences.extend(other.differences);
    }
}

/// Does every part, each with its seed and its share of the count.
pub fn in_parts(seed: u64, count: usize, part: impl Fn(u64, usize) -> Found + Sync) -> Found {
    let next = AtomicU64::new(0);
    let all = Mutex::new(Found::default());
    let share = count.div_ceil(PARTS as usize);
    std::thread::scope(|scope| {
        for _ in 0..THREADS {
            scope.spawn(|| loop {
                let place = next.fetch_add(1, Ordering::Relaxed);
                if place >= PARTS {
                    break;
                }
                let found = part(seed + place, share);
                all.lock().unwrap().join(found);
            });
        }
    });
    all.into_inner().unwrap()
}

/// Prints the counts and stops at a difference or a number that is missing.
pub fn settle(name: &str, found: &Found, wanted: &[(u32, usize)]) {
    let total: usize = found.counts.values().sum();
    println!("{name}: {total} the same, by number {:?}", found.counts);
    for difference in found.differences.iter().take(MOST_SHOWN) {
        println!("{difference}");
    }
    let differences = found.differences.len();
    assert_eq!(differences, 0, "{name}: {differences} answers differ");
    for (number, least) in wanted {
        let count = found.counts.get(number).copied().unwrap_or(0);
        assert!(
            count >= *least,
            "{name}: {count} answers {number}, wanted {least}"
        );
    }
}
