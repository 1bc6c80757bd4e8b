//! Calls timed by turns, on stores that are filled anew before each.

use std::time::{Duration, Instant};

use crate::sizes::{Cell, ROW_WIDTH, WORK_UNITS};
use crate::stores::Stores;

/// What stands in every lent cell before a run.
const PATTERN: Cell = 7;

/// Runs of a book are repeated until they took this long and are no fewer than the least, or there are enough of them.
pub struct Repetition {
    pub time: Duration,
    pub least: usize,
    pub most: usize,
}

/// Two calls that were timed by turns: median times, and the first's to the second's.
pub struct Turns {
    pub first: Duration,
    pub second: Duration,
    /// The median over runs beside each other, which a change of the machine's speed strikes alike.
    pub ratio: f64,
    /// The first's shortest time without the second's, in milliseconds: what a call does beside the check is small beside it.
    pub surplus: f64,
    pub runs: usize,
}

impl Turns {
    pub fn of(times: &[(Duration, Duration)]) -> Self {
        Turns {
            first: median(times.iter().map(|t| t.0)),
            second: median(times.iter().map(|t| t.1)),
            ratio: median(times.iter().map(|t| t.0.as_secs_f64() / t.1.as_secs_f64())),
            surplus: least(times.iter().map(|t| t.0)) - least(times.iter().map(|t| t.1)),
            runs: times.len(),
        }
    }
}

pub fn by_turns<R, Q>(
    repetition: &Repetition, stores: &mut Stores, mut first: impl FnMut(&mut Stores) -> R, mut second: impl FnMut(&mut Stores) -> Q,
) -> Turns {
    let mut times = Vec::new();
    let start = Instant::now();
    while times.len() < repetition.least || times.len() < repetition.most && start.elapsed() < repetition.time {
        times.push((timed(stores, &mut first).1, timed(stores, &mut second).1));
    }
    Turns::of(&times)
}

/// Stores in which a book of so many lines and bytes fits.
pub fn stores(lines: usize, bytes: usize, limit: u32) -> Stores {
    Stores {
        table: vec![0; ROW_WIDTH * lines], terms: vec![0; bytes], work: vec![0; WORK_UNITS * limit as usize],
        index: vec![0; bytes],
    }
}

/// Cuts off what the book that was checked does not need.
pub fn cut(stores: &mut Stores) {
    let lines = stores.table.len() / ROW_WIDTH;
    let cells = stores.recorded_cells(lines);
    let indexed = stores.indexed(lines);
    stores.terms.truncate(cells);
    stores.index.truncate(indexed);
}

fn reset(stores: &mut Stores) {
    stores.table.fill(PATTERN);
    stores.terms.fill(PATTERN);
    stores.work.fill(PATTERN);
    stores.index.fill(PATTERN);
}

/// The result and the time of a call on stores that hold the pattern.
pub fn timed<R>(stores: &mut Stores, call: impl FnOnce(&mut Stores) -> R) -> (R, Duration) {
    reset(stores);
    let start = Instant::now();
    let result = call(stores);
    (result, start.elapsed())
}

pub fn milliseconds(time: Duration) -> f64 {
    time.as_secs_f64() * 1e3
}

pub fn least(times: impl Iterator<Item = Duration>) -> f64 {
    milliseconds(times.min().unwrap_or_default())
}

pub fn median<T: PartialOrd + Copy>(items: impl Iterator<Item = T>) -> T {
    let mut items: Vec<T> = items.collect();
    items.sort_by(|a, b| a.partial_cmp(b).unwrap());
    items[items.len() / 2]
}
