//! The published procedure, written by hand in plain Rust: the yardstick for the verified program.
//!
//! It was written from the specification and docs/ (how open points are read, the cases' outcomes), without the verified
//! code in view. Expressions are cells in prefix order, as in the term store; temporary
//! expressions lie in vectors that are reused from line to line.

mod accepted;
mod admission;
mod bytes;
mod category;
pub mod cells;
mod comparison;
mod dependencies;
mod hash;
mod lines;
mod names;
mod notes;
mod pages;
mod reader;
mod scope;
mod sheet;
mod source;
mod whole;
mod widths;

use crate::pairs::{Order, Request};
use crate::sizes::{LARGEST_LIMIT, MOST_BYTES, SMALLEST_LIMIT, WORK_UNITS};
use crate::stores::Stores;
use crate::{Answer, Outcome};
pub use accepted::Accepted;
use admission::Admission;
use lines::Lines;
pub use dependencies::primitives;
pub use notes::{Notes, PairNotes};
pub use pages::{page_length, read_back, text_lengths};
pub use sheet::compare_sheet;
pub use widths::{narrow, widen};

/// Why a book or a call is refused; the numbers are the specification's codes.
#[derive(Clone, Copy, Debug, PartialEq, Eq)]
#[repr(u8)]
pub enum Refusal {
    WorkTooSmall = 1,
    LimitOutOfRange = 2,
    Malformed = 3,
    Duplicate = 4,
    UnknownName = 5,
    WrongArity = 6,
    NotFunction = 7,
    NotType = 8,
    Mismatch = 9,
    TooLarge = 10,
    OutOfBudget = 11,
    OutOfSpace = 12,
    NoSuchLine = 13,
    NotInContext = 14,
    StoreTooSmall = 15,
    CellTooWide = 16,
    Unbalanced = 17,
    NotWhole = 18,
}

pub fn check(book: &[u8], budget: u32, limit: u32, stores: &mut Stores) -> Outcome {
    check_noting(book, budget, limit, stores, &mut Notes::default())
}

pub fn check_noting(book: &[u8], budget: u32, limit: u32, stores: &mut Stores, notes: &mut Notes) -> Outcome {
    check_in_order(Order::StepsFirst, book, budget, limit, stores, notes).0
}

/// The check with the second comparison in the place of the first.
pub fn check_parts_first(book: &[u8], budget: u32, limit: u32, stores: &mut Stores) -> Outcome {
    check_in_order(Order::PartsFirst, book, budget, limit, stores, &mut Notes::default()).0
}

/// What the check ends with, and the lines that it accepted.
fn check_in_order(
    order: Order, book: &[u8], budget: u32, limit: u32, stores: &mut Stores, notes: &mut Notes,
) -> (Outcome, Lines) {
    let early = |refusal: Refusal| (Outcome { code: refusal as u32, line: 0, steps: 0 }, Lines::new());
    if !(SMALLEST_LIMIT..=LARGEST_LIMIT).contains(&limit) {
        return early(Refusal::LimitOutOfRange);
    }
    let limit = limit as usize;
    if stores.work.len() < WORK_UNITS * limit {
        return early(Refusal::WorkTooSmall);
    }
    stores.work[..WORK_UNITS * limit].fill(0);
    if book.len() > MOST_BYTES {
        return early(Refusal::OutOfSpace);
    }
    let mut admission = Admission::new(budget, limit, order, stores, notes);
    let refusal = admission.book(book).err();
    let (line, steps) = (admission.lines() as u32, u64::from(admission.steps()));
    let outcome = match refusal {
        None => Outcome { code: 0, line, steps },
        Some(r) => Outcome { code: r as u32, line: line + 1, steps },
    };
    (outcome, admission.into_lines())
}

/// What a call ends with that writes nothing; of a call on a book, behind its admission.
fn declined(refusal: Refusal) -> Answer {
    Answer { code: refusal as u32, line: 0, steps: 0, length: 0 }
}

/// What a call ends with that wrote an answer of this length.
fn answered(length: usize) -> Answer {
    Answer { code: 0, line: 0, steps: 0, length: length as u32 }
}

/// Admits a book for another call on it: its lines, or the refusal, passed on.
fn admit(book: &[u8], budget: u32, limit: u32, stores: &mut Stores) -> Result<Lines, Answer> {
    let (outcome, lines) = check_in_order(Order::StepsFirst, book, budget, limit, stores, &mut Notes::default());
    let Outcome { code, line, steps } = outcome;
    if code == 0 { Ok(lines) } else { Err(Answer { code, line, steps: steps as u32, length: 0 }) }
}

/// What a line of an accepted book rests on, from cell 0 of the answer.
pub fn rests_on(book: &[u8], budget: u32, limit: u32, stores: &mut Stores, line: u32, answer: &mut [u32]) -> Answer {
    let last = match admit(book, budget, limit, stores) {
        Ok(lines) => lines.count(),
        Err(refused) => return refused,
    };
    let line = line as usize;
    if line == 0 || line > last {
        return declined(Refusal::NoSuchLine);
    }
    let list = primitives(line, stores);
    if list.len() > answer.len() {
        return declined(Refusal::OutOfSpace);
    }
    answer[..list.len()].copy_from_slice(&list);
    answered(list.len())
}

/// The pages of an accepted book, from byte 0 of the page store.
pub fn pages(book: &[u8], budget: u32, limit: u32, stores: &mut Stores, page: &mut [u8]) -> Answer {
    if let Err(refused) = admit(book, budget, limit, stores) {
        return refused;
    }
    let length = page_length(book);
    if length > page.len() {
        return declined(Refusal::StoreTooSmall);
    }
    pages::put_pages(book, &mut page[..length]);
    answered(length)
}

/// A request at the desk of an accepted book.
pub fn compare(book: &[u8], budget: u32, limit: u32, stores: &mut Stores, request: &Request) -> Answer {
    compare_noting(book, budget, limit, stores, request).0
}

/// The same, and what was met in the comparison.
pub fn compare_noting(
    book: &[u8], budget: u32, limit: u32, stores: &mut Stores, request: &Request,
) -> (Answer, PairNotes) {
    match admit(book, budget, limit, stores) {
        Ok(lines) => Accepted::new(lines, &stores.terms).answer(limit, request),
        Err(refused) => (refused, PairNotes::default()),
    }
}
