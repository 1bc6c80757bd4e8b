//! Times of the verified program and of the baseline on large books.

mod desk;
mod measure;
mod sheets;
mod strings;
mod turns;

use std::time::{Duration, Instant};

use crate::generate::{self, Kind};
use crate::sizes::{LARGEST_LIMIT, MOST_LINES, NARROW_LINES, PAGE_ROW};
use crate::stores::Stores;
use crate::Outcome;
use measure::{Checked, Given};
use turns::{least, median, milliseconds, timed};

const SEED: u64 = 1;

/// The lines of the books whose time for a line is taken; the last is the most that there can be.
const SIZES: [usize; 8] = [500, 1_000, 2_000, 4_000, 8_000, 16_000, 32_000, MOST_LINES];
/// The lines of the books of which lists and pages are asked for, and at whose desk strings and lists of pairs are compared.
const CALLED_LINES: usize = 8_000;

/// The limits that are compared, and the books with their lines.
const LIMITS: [u32; 6] = [4_096, 2_048, 1_024, 512, 256, 128];
const LIMITED: [(Kind, usize); 4] =
    [(Kind::Theories, 11_000), (Kind::Theories, MOST_LINES), (Kind::Paragraphs, 11_000), (Kind::Sections, 11_000)];

const TIME_TO_PROFILE: Duration = Duration::from_secs(2);

pub type Check = fn(&[u8], u32, u32, &mut Stores) -> Outcome;

/// The tables with their titles. None is given if some book is not accepted by both with the same rows and cells, or a call differs.
const TABLES: [(&str, fn() -> Option<()>); 9] = [
    ("checks", ratios), ("lengths", lengths), ("limits", limits), ("resting", resting), ("pages", printing), ("pairs", desk::pairs),
    ("strings", desk::strings), ("orders", orders), ("sheets", sheets::sheets),
];

/// Prints the tables; false if there is a difference.
pub fn print() -> bool {
    TABLES.iter().all(|(_, table)| table().is_some())
}

/// Prints one of them.
pub fn print_one(title: &str) -> bool {
    let Some((_, table)) = TABLES.iter().find(|(other, _)| *other == title) else {
        eprintln!("no table has the title {title}");
        return false;
    };
    table().is_some()
}

/// The book of a kind with so many lines, or as many as there is room for, and how many it has.
fn book(kind: Kind, lines: usize) -> (Vec<u8>, usize) {
    let book = generate::book(kind, lines, SEED);
    let lines = generate::count_lines(&book);
    (book, lines)
}

fn ratios() -> Option<()> {
    println!("book            L  lines      bytes    steps  runs  verified ms  baseline ms   ratio");
    for kind in Kind::short() {
        ratio(kind, NARROW_LINES, kind.limit())?;
    }
    for kind in [Kind::Theories, Kind::Steps, Kind::Long, Kind::Paragraphs, Kind::Sections] {
        ratio(kind, MOST_LINES, LARGEST_LIMIT)?;
    }
    Some(())
}

fn ratio(kind: Kind, lines: usize, limit: u32) -> Option<()> {
    let (book, lines) = book(kind, lines);
    let title = kind.title();
    let Checked { outcome, turns } = measure::check(&Given { title, book: &book, lines, limit }, &measure::MANY)?;
    println!(
        "{title:<11}{limit:>6}{lines:>7}{:>11}{:>9}{:>6}{:>13.3}{:>13.3}{:>8.2}",
        book.len(), outcome.steps, turns.runs, milliseconds(turns.first), milliseconds(turns.second), turns.ratio,
    );
    Some(())
}

/// Times of both programs for a line, in columns.
#[derive(Default)]
struct Columns {
    heads: Vec<usize>,
    verified: Vec<f64>,
    baseline: Vec<f64>,
    ratios: Vec<f64>,
}

impl Columns {
    /// Adds the check of a book of so many lines, without the time that the empty book takes.
    fn add(&mut self, head: usize, lines: usize, checked: &Checked, empty: [Duration; 2]) {
        let each = |whole: Duration, part: Duration| whole.saturating_sub(part).as_secs_f64() * 1e9 / lines as f64;
        let turns = &checked.turns;
        self.heads.push(head);
        self.verified.push(each(turns.first, empty[0]));
        self.baseline.push(each(turns.second, empty[1]));
        self.ratios.push(turns.ratio);
    }

    fn print(&self, title: &str, head: &str) {
        print!("{title:<11}{head:<10}");
        self.heads.iter().for_each(|n| print!("{n:>9}"));
        println!("{:>10}", "quotient");
        for (who, times) in [("verified", &self.verified), ("baseline", &self.baseline)] {
            print!("{:<11}{who:<10}", "");
            times.iter().for_each(|t| print!("{t:>9.0}"));
            println!("{:>10.2}", times[times.len() - 1] / times[0]);
        }
        print!("{:<11}{:<10}", "", "ratio");
        self.ratios.iter().for_each(|r| print!("{r:>9.2}"));
        println!();
    }
}

/// What a line costs in longer books.
fn lengths() -> Option<()> {
    let limit = LARGEST_LIMIT;
    let empty = measure::check(&Given { title: "empty", book: &[], lines: 0, limit }, &measure::MANY)?.turns;
    let empty = [empty.first, empty.second];
    let [verified, baseline] = empty.map(|time| milliseconds(time) * 1e3);
    println!("\nns a line at so many lines, L = {limit}, and the last of them to the first; without what the empty book");
    println!("takes, {verified:.0} us verified and {baseline:.0} us baseline");
    for kind in Kind::all() {
        let (_, most) = book(kind, MOST_LINES);
        let mut columns = Columns::default();
        for size in SIZES.into_iter().filter(|&n| n < most).chain([most]) {
            let (book, lines) = book(kind, size);
            let checked = measure::check(&Given { title: kind.title(), book: &book, lines, limit }, &measure::MANY)?;
            columns.add(lines, lines, &checked, empty);
        }
        columns.print(kind.title(), "lines");
    }
    Some(())
}

/// What a line costs under smaller limits, which leave less room to find names.
fn limits() -> Option<()> {
    println!("\nns a line under so large limits, and the last of them to the first");
    for (kind, lines) in LIMITED {
        let (book, lines) = book(kind, lines);
        let mut columns = Columns::default();
        for limit in LIMITS {
            let checked = measure::check(&Given { title: kind.title(), book: &book, lines, limit }, &measure::FEW)?;
            columns.add(limit as usize, lines, &checked, [Duration::ZERO; 2]);
        }
        columns.print(kind.title(), &format!("{lines}, L"));
    }
    Some(())
}

fn resting() -> Option<()> {
    println!("\nwhat line {CALLED_LINES} rests on, beside the check of its book; verified");
    println!("book       PN lines  index cells  runs  rests_on ms     check ms   ratio");
    for kind in Kind::short() {
        let (book, lines) = book(kind, CALLED_LINES);
        let m = measure::rests_on(&Given { title: kind.title(), book: &book, lines, limit: kind.limit() })?;
        println!(
            "{:<11}{:>8}{:>13}{:>6}{:>13.3}{:>13.3}{:>8.2}",
            kind.title(), m.length, m.indexed, m.turns.runs, milliseconds(m.turns.first), milliseconds(m.turns.second), m.turns.ratio,
        );
    }
    Some(())
}

fn printing() -> Option<()> {
    println!("\npages of books of {CALLED_LINES} lines, beside their check; verified. Without the check: both programs");
    println!("book         rows  runs     pages ms     check ms   ratio  pages alone  baseline's   ratio");
    for kind in Kind::short() {
        let (book, lines) = book(kind, CALLED_LINES);
        let m = measure::pages(&Given { title: kind.title(), book: &book, lines, limit: kind.limit() })?;
        println!(
            "{:<11}{:>6}{:>6}{:>13.3}{:>13.3}{:>8.2}{:>13.3}{:>12.3}{:>8.2}",
            kind.title(), m.length as usize / PAGE_ROW, m.verified.runs, milliseconds(m.verified.first),
            milliseconds(m.verified.second), m.verified.ratio, m.verified.surplus, m.baseline.surplus,
            m.verified.surplus / m.baseline.surplus,
        );
    }
    Some(())
}

/// What the check of a book would take with the second comparison.
fn orders() -> Option<()> {
    println!("\nsteps of the check, and of the baseline's with the second comparison in the place of the first, and its code");
    println!("book         lines    first   second  quotient  code");
    for kind in Kind::short() {
        let (book, lines) = book(kind, NARROW_LINES);
        let [first, second] = measure::orders(&Given { title: kind.title(), book: &book, lines, limit: kind.limit() })?;
        let quotient = if first.steps == 0 { 1.0 } else { second.steps as f64 / first.steps as f64 };
        println!("{:<11}{lines:>7}{:>9}{:>9}{quotient:>10.2}{:>6}", kind.title(), first.steps, second.steps, second.code);
    }
    Some(())
}

/// Runs one program on one book for some seconds, for a profiler; prints the shortest and the median time.
pub fn profile(kind: Kind, check: Check, lines: usize, limit: u32) {
    let (book, lines) = book(kind, lines);
    let mut stores = turns::stores(lines, book.len(), limit);
    let outcome = check(&book, u32::MAX, limit, &mut stores);
    if outcome.code == 0 {
        turns::cut(&mut stores);
    }
    let start = Instant::now();
    let mut times = Vec::new();
    while start.elapsed() < TIME_TO_PROFILE {
        times.push(timed(&mut stores, |s| check(&book, u32::MAX, limit, s)).1);
    }
    let (usual, shortest) = (milliseconds(median(times.iter().copied())), least(times.iter().copied()));
    println!("{} with {lines} lines, {} bytes, limit {limit}: {outcome:?}", kind.title(), book.len());
    println!("{usual:.3} ms, {shortest:.3} at least, {} runs", times.len());
}
