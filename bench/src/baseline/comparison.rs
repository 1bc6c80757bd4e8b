//! Head steps, and the comparison of two expressions.

use super::cells::{self, Output};
use super::lines::{Kind, Lines};
use super::notes::PairNotes;
use super::Refusal;
use crate::pairs::Order;
use crate::sizes::{Cell, NESTING};

/// The accepted lines with their cells, and the size that an expression may have.
#[derive(Clone, Copy)]
pub struct Book<'a> {
    pub lines: &'a Lines,
    pub terms: &'a [Cell],
    pub limit: usize,
}

/// The head steps that were made, of those allowed, and what was met in comparisons.
pub struct Budget {
    pub steps: u32,
    pub most: u32,
    pub notes: PairNotes,
}

impl Budget {
    pub fn new(most: u32) -> Self {
        Budget { steps: 0, most, notes: PairNotes::default() }
    }
}

/// The head step that an expression has, `at` the cell where it begins.
#[derive(Clone, Copy)]
enum Head {
    None,
    Contract { at: usize, function: usize },
    Unfold { at: usize, line: Cell },
}

fn head(cells: &[Cell], lines: &Lines) -> Head {
    let mut at = 0;
    loop {
        let c = cells[at];
        match cells::kind(c) {
            cells::APPLICATION => {
                let function = cells::end(cells, at + 1, lines);
                if cells[function] == cells::ABSTRACTION {
                    return Head::Contract { at, function };
                }
                at = function;
            }
            cells::CONSTANT if lines.kind(cells::value(c)) == Kind::Abbreviation => {
                return Head::Unfold { at, line: cells::value(c) };
            }
            _ => return Head::None,
        }
    }
}

/// The two cell stores in which the versions of an expression follow each other.
#[derive(Default)]
pub struct Versions {
    current: Vec<Cell>,
    next: Vec<Cell>,
    arguments: Vec<(u32, u32)>,
}

/// An expression that head steps are made in.
struct Side<'s> {
    given: &'s [Cell],
    stepped: bool,
    head: Head,
    versions: &'s mut Versions,
}

impl<'s> Side<'s> {
    fn new(given: &'s [Cell], versions: &'s mut Versions, lines: &Lines) -> Self {
        Side { given, stepped: false, head: head(given, lines), versions }
    }

    #[inline]
    fn cells(&self) -> &[Cell] {
        if self.stepped { &self.versions.current } else { self.given }
    }

    /// Makes the step of the head, which there is.
    fn step(&mut self, book: &Book, budget: &mut Budget) -> Result<(), Refusal> {
        if budget.steps == budget.most {
            return Err(Refusal::OutOfBudget);
        }
        let Versions { current, next, arguments } = &mut *self.versions;
        let cells = if self.stepped { current.as_slice() } else { self.given };
        next.clear();
        let mut out = Output::new(next, book.limit);
        match self.head {
            Head::None => {}
            Head::Contract { at, function } => {
                out.copy(&cells[..at])?;
                let body = cells::end(cells, function + 1, book.lines);
                cells::substitute(&cells[body..], &cells[at + 1..function], book.lines, &mut out)?;
            }
            Head::Unfold { at, line } => {
                out.copy(&cells[..at])?;
                arguments.clear();
                let mut start = at + 1;
                for _ in 0..book.lines.context_length(line) {
                    let end = cells::end(cells, start, book.lines);
                    arguments.push((start as u32, end as u32));
                    start = end;
                }
                cells::instantiate(book.lines.middle(line, book.terms), cells, arguments, book.lines, &mut out)?;
            }
        }
        std::mem::swap(current, next);
        self.stepped = true;
        budget.steps += 1;
        self.head = head(&self.versions.current, book.lines);
        Ok(())
    }
}

/// The domain and body of the abstraction that head steps lead to; `given` or a version holds it.
pub fn abstraction<'s>(
    given: &'s [Cell], versions: &'s mut Versions, book: &Book, budget: &mut Budget,
) -> Result<(&'s [Cell], &'s [Cell]), Refusal> {
    let mut side = Side::new(given, versions, book.lines);
    while side.cells()[0] != cells::ABSTRACTION {
        if let Head::None = side.head {
            return Err(Refusal::NotFunction);
        }
        side.step(book, budget)?;
    }
    let Side { given, stepped, versions, .. } = side;
    let cells = if stepped { versions.current.as_slice() } else { given };
    let body = cells::end(cells, 1, book.lines);
    Ok((&cells[1..body], &cells[body..]))
}

/// The stores that comparisons share.
pub struct Comparer {
    /// A pair of sides for each depth.
    levels: Vec<(Versions, Versions)>,
}

impl Comparer {
    pub fn new() -> Self {
        Comparer { levels: (0..NESTING).map(|_| Default::default()).collect() }
    }

    pub fn compare(
        &mut self, order: Order, left: &[Cell], right: &[Cell], book: &Book, budget: &mut Budget,
    ) -> Result<(), Refusal> {
        if left == right {
            return Ok(());
        }
        match order {
            Order::StepsFirst => differing::<false>(left, right, &mut self.levels, book, budget),
            Order::PartsFirst => differing::<true>(left, right, &mut self.levels, book, budget),
        }
    }
}

/// Compares sides that are not identical.
fn differing<const PARTS_FIRST: bool>(
    left: &[Cell], right: &[Cell], levels: &mut [(Versions, Versions)], book: &Book, budget: &mut Budget,
) -> Result<(), Refusal> {
    let ((lefts, rights), deeper) = levels.split_first_mut().unwrap();
    let mut left = Side::new(left, lefts, book.lines);
    let mut right = Side::new(right, rights, book.lines);
    while let Some(left_steps) = left_steps(left.head, right.head) {
        // As a side has a head step, these are two uses of one abbreviation or two applications.
        if PARTS_FIRST && left.cells()[0] == right.cells()[0] {
            let before = budget.steps;
            match parts::<PARTS_FIRST>(left.cells(), right.cells(), deeper, book, budget) {
                Err(Refusal::Mismatch) => budget.notes.fail(budget.steps - before),
                answer => return answer,
            }
        }
        let side = if left_steps { &mut left } else { &mut right };
        side.step(book, budget)?;
        if left.cells() == right.cells() {
            return Ok(());
        }
    }
    if left.cells()[0] != right.cells()[0] {
        return Err(Refusal::Mismatch);
    }
    parts::<PARTS_FIRST>(left.cells(), right.cells(), deeper, book, budget)
}

/// Whether the next head step is the left side's, if there is one.
#[inline]
fn left_steps(left: Head, right: Head) -> Option<bool> {
    match (left, right) {
        (Head::None, Head::None) => None,
        (Head::Contract { .. }, _) => Some(true),
        (_, Head::Contract { .. }) => Some(false),
        (Head::Unfold { .. }, Head::None) => Some(true),
        (Head::None, Head::Unfold { .. }) => Some(false),
        (Head::Unfold { line: l, .. }, Head::Unfold { line: r, .. }) => Some(l >= r),
    }
}

/// Compares the parts of sides that are not identical and have the same first cell.
fn parts<const PARTS_FIRST: bool>(
    left: &[Cell], right: &[Cell], deeper: &mut [(Versions, Versions)], book: &Book, budget: &mut Budget,
) -> Result<(), Refusal> {
    if deeper.is_empty() {
        budget.notes.too_deep = true;
        return Err(Refusal::TooLarge);
    }
    let (mut l, mut r) = (1, 1);
    for _ in 0..cells::parts(left[0], book.lines) {
        let left_end = cells::end(left, l, book.lines);
        let right_end = cells::end(right, r, book.lines);
        if left[l..left_end] != right[r..right_end] {
            differing::<PARTS_FIRST>(&left[l..left_end], &right[r..right_end], deeper, book, budget)?;
        }
        (l, r) = (left_end, right_end);
    }
    Ok(())
}
