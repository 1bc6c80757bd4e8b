//! The desk of an accepted book: strings of cells that are tested, then compared.

use super::comparison::{Book, Budget, Comparer};
use super::lines::Lines;
use super::notes::PairNotes;
use super::whole::Tester;
use super::{declined, Refusal};
use crate::pairs::{Order, Request};
use crate::sizes::{Cell, ROW_WIDTH};
use crate::stores::Stores;
use crate::Answer;

/// The lines of an accepted book and their cells, and the stores that tests and comparisons share.
pub struct Accepted<'t> {
    lines: Lines,
    terms: &'t [Cell],
    tester: Tester,
    comparer: Comparer,
}

impl<'t> Accepted<'t> {
    pub fn new(lines: Lines, terms: &'t [Cell]) -> Self {
        Accepted { lines, terms, tester: Tester::default(), comparer: Comparer::new() }
    }

    /// So many lines, as the check left them.
    pub fn of_stores(lines: usize, stores: &'t Stores) -> Self {
        Accepted::new(Lines::of_rows(&stores.table[..ROW_WIDTH * lines]), &stores.terms)
    }

    pub fn is_whole(&mut self, string: &[Cell]) -> bool {
        self.tester.is_whole(string, &self.lines)
    }

    /// What a request ends with, and what was met in its comparison.
    pub fn answer(&mut self, limit: u32, request: &Request) -> (Answer, PairNotes) {
        self.judge(limit, request.order, request.pair.sides(), request.budget)
    }

    /// What two strings end with. Nothing but the shared vectors is written.
    pub fn judge(&mut self, limit: u32, order: Order, [left, right]: [&[Cell]; 2], budget: u32) -> (Answer, PairNotes) {
        let limit = limit as usize;
        if !self.is_whole(left) || !self.is_whole(right) {
            return (declined(Refusal::NotWhole), PairNotes::default());
        }
        if left.len() > limit || right.len() > limit {
            return (declined(Refusal::TooLarge), PairNotes::default());
        }
        let book = Book { lines: &self.lines, terms: self.terms, limit };
        let mut budget = Budget::new(budget);
        let refusal = self.comparer.compare(order, left, right, &book, &mut budget).err();
        let code = refusal.map_or(0, |r| r as u32);
        (Answer { code, line: 0, steps: budget.steps, length: 0 }, budget.notes)
    }
}
