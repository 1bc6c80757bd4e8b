//! Runs the verified program and the baseline on many small books and compares what they give and leave.

mod blocks;
mod calls;
mod closed;
mod comparison;
mod desk;
mod divided;
mod division;
mod expressions;
mod extremes;
mod faults;
mod flat;
mod largest;
mod layout;
mod lists;
mod many;
mod mutate;
mod pairs;
mod place;
mod printed;
mod sheets;
mod short;
mod situations;
mod spoiled;
mod stored;
mod strings;
mod text;
mod theory;
mod trees;
mod typed;
mod whole;
mod widths;
mod worked;
mod worked_sheets;

use std::path::Path;
use std::time::{Duration, Instant};

use crate::generate::{self, Kind};
use crate::random::Random;
use calls::Calls;
use comparison::Comparison;

const SEED: u64 = 1;
const BOOKS: usize = 400_000;
const LEAST_BOOKS: usize = 100_000;
/// A run on a busy machine stops here.
const LONGEST: Duration = Duration::from_secs(150);
/// So many books are made from one.
const BOOKS_FROM_ONE: usize = 15;

/// Prints how often each code, and each situation of refused and of completed lines, of paragraphs, of lists, of pages, of narrowed
/// shelves, of pairs, of strings and of sheets, was met; false if there was a difference, or one of these was not met.
pub fn run() -> bool {
    let start = Instant::now();
    let mut comparison = Comparison::default();
    let mut calls = Calls::default();
    let mut random = Random::new(SEED);
    for (book, call) in largest::books() {
        let outcome = comparison.check(&book, &call);
        comparison.shelf_of_book(&outcome);
        comparison.last_line(&book, &call, &outcome);
        comparison.whole_pages(&book, &call, &outcome);
        comparison.strings_of_largest(&book, &call, &outcome);
    }
    comparison.shelves();
    comparison.worked_pairs();
    comparison.worked_sheets();
    comparison.pairs_of_table();
    comparison.short_strings();
    comparison.extreme_strings();
    let written = written_books();
    let mut books = 0;
    while books < BOOKS && start.elapsed() < LONGEST {
        let base = base(&mut random, &written, &mut comparison);
        for _ in 0..BOOKS_FROM_ONE {
            let book = changed(&mut random, &base);
            let call = calls.call(&mut random, &book);
            comparison.compare(&mut random, &book, &call);
            books += 1;
        }
    }
    println!("{books} books, {} s", start.elapsed().as_secs());
    if books < LEAST_BOOKS {
        println!("stopped early: the time was over");
    }
    comparison.report() && books >= LEAST_BOOKS
}

/// The books of examples/ and of the test programs, from the repository's root.
fn written_books() -> Vec<Vec<u8>> {
    let mut books = Vec::new();
    for (folder, header) in [("examples", false), ("crates/cases/data", true), ("crates/call_cases/data", true)] {
        let mut files: Vec<_> = std::fs::read_dir(folder).into_iter().flatten().flatten().map(|f| f.path()).collect();
        files.sort();
        for file in files.iter().filter(|f| header || is_book(f)) {
            let bytes = std::fs::read(file).unwrap_or_default();
            books.push(if header { behind_header(&bytes).to_vec() } else { bytes });
        }
    }
    books.retain(|b| b.len() < 4_096);
    assert!(!books.is_empty(), "run from the root of the repository");
    books
}

/// A header of nine numbers has a line of its own behind it in call_cases, the strings that are compared; in cases it has none.
fn behind_header(bytes: &[u8]) -> &[u8] {
    let mut lines = bytes.splitn(3, |&b| b == b'\n');
    let first = lines.next().unwrap_or_default();
    let second = lines.next().unwrap_or_default();
    let strings = first.iter().filter(|&&b| b == b' ').count() == 8 && second.iter().all(|b| b.is_ascii_digit() || *b == b' ');
    let skipped = if strings { first.len() + second.len() + 2 } else { first.len() + 1 };
    &bytes[skipped.min(bytes.len())..]
}

fn is_book(file: &Path) -> bool {
    file.extension().is_some_and(|e| e == "aut")
}

/// Half of the books without paragraphs are divided into some.
fn base(random: &mut Random, written: &[Vec<u8>], comparison: &mut Comparison) -> Vec<u8> {
    let book = undivided(random, written);
    let Some(divided) = divided::divide(random, &book).filter(|_| random.once_in(2)) else { return book };
    comparison.division(&book, &divided);
    divided.book
}

fn undivided(random: &mut Random, written: &[Vec<u8>]) -> Vec<u8> {
    match random.below(100) {
        0..=28 => random.choose(written).clone(),
        29..=40 => {
            let kinds = [Kind::Theories, Kind::Theories, Kind::Steps, Kind::Names, Kind::Deep, Kind::Paragraphs, Kind::Sections];
            generate::book(*random.choose(&kinds), random.between(10, 60), random.next())
        }
        41..=50 => blocks::book(random),
        51 => many::book(random),
        _ => {
            let lines = random.between(4, 30);
            typed::book(random, lines)
        }
    }
}

fn changed(random: &mut Random, base: &[u8]) -> Vec<u8> {
    let mut book = base.to_vec();
    let changes = match random.below(10) {
        0..=1 => 0,
        2..=7 => 1,
        _ => random.between(2, 4),
    };
    for _ in 0..changes {
        mutate::mutate(random, &mut book);
    }
    layout::lay_out(random, &mut book);
    book
}
