//! Times of sheets: as many pairs as are listed cost one check of their book and their comparisons.

use super::measure::{self, Given, Listing};
use super::strings::Names;
use super::turns::{milliseconds, Repetition};
use super::{book, CALLED_LINES};
use crate::generate::{self, Kind, PairKind};
use crate::pairs::Pair;
use crate::sizes::LARGEST_LIMIT;

/// The lists, and how many pairs they have.
const LISTS: [(&str, fn(&Names, usize) -> (Pair, u32)); 2] = [("identical", identical), ("mixed", mixed)];
const COUNTS: [usize; 5] = [0, 1, 10, 100, 1_000];

/// How many cells the strings have, or about as many.
const CELLS: usize = 16;
const BUDGET: u32 = 9;

/// The baseline's least time that a ratio is given to: in microseconds, and of its check.
const LEAST_COMPARED: f64 = 0.5;
const LEAST_PART: f64 = 0.01;

/// What sheets take beside the check of a long and of a short book, and beside single calls.
pub fn sheets() -> Option<()> {
    let (book, lines) = book(Kind::Theories, CALLED_LINES);
    let short_book = PairKind::Differing.book(0);
    let long = Given { title: Kind::Theories.title(), book: &book, lines, limit: LARGEST_LIMIT };
    let short = Given { title: "short", book: &short_book, lines: generate::count_lines(&short_book), limit: LARGEST_LIMIT };
    println!("\nsheets, L = {LARGEST_LIMIT}: the call over theories of {lines} lines and over a book of {}, beside its check", short.lines);
    println!("and beside as many single calls, verified; and without the check, us, both programs");
    println!("book      list       pairs  steps  runs     sheet ms     check ms   ratio    singles ms    verified    baseline   ratio");
    for (given, end, repetition) in [(&long, "_0", &measure::MANY), (&short, "", &measure::SHORT)] {
        let names = Names::of(given.book, end);
        for (title, pair) in LISTS {
            for count in COUNTS {
                row(given, title, &(0..count).map(|at| pair(&names, at)).collect::<Vec<_>>(), repetition)?;
            }
        }
    }
    Some(())
}

fn row(given: &Given, list: &str, pairs: &[(Pair, u32)], repetition: &Repetition) -> Option<()> {
    let Listing { steps, verified, baseline, singles } = measure::sheet(given, pairs, repetition)?;
    let [own, others] = [&verified, &baseline].map(|turns| turns.surplus * 1e3);
    let compared = others >= LEAST_COMPARED && others >= LEAST_PART * milliseconds(baseline.second) * 1e3;
    println!(
        "{:<10}{list:<10}{:>6}{steps:>7}{:>6}{:>13.3}{:>13.3}{:>8.2}{:>14.3}{own:>12.1}{others:>12.1}{:>8}",
        given.title, pairs.len(), verified.runs, milliseconds(verified.first), milliseconds(verified.second), verified.ratio,
        milliseconds(singles.second), if compared { format!("{:.2}", own / others) } else { "-".to_string() },
    );
    Some(())
}

/// A string beside itself.
fn identical(names: &Names, _: usize) -> (Pair, u32) {
    let string = names.arguments(CELLS);
    (Pair { left: string.clone(), right: string }, BUDGET)
}

/// By turns: identical, equal and different after a step, 10 for depth, 11 without a step, 18 for a last cell that is missing.
fn mixed(names: &Names, at: usize) -> (Pair, u32) {
    let Names { one, suc, two, .. } = *names;
    let ending_in = |last: &[_]| names.ending_in(last, CELLS);
    let [left, right] = match at % 6 {
        0 => return identical(names, at),
        1 | 4 => [ending_in(&[two]), ending_in(&[suc, one])],
        2 => [ending_in(&[two]), ending_in(&[one])],
        3 => [names.deep(&[one]), names.deep(&[suc, one])],
        _ => [ending_in(&[one]), ending_in(&[])],
    };
    (Pair { left, right }, if at % 6 == 4 { 0 } else { BUDGET })
}
