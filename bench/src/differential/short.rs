//! All short strings over a small book, and their number counted in another way.

use super::calls::Call;
use super::comparison::Comparison;
use super::desk::Desk;
use crate::baseline::cells::{cell, ABSTRACTION, APPLICATION, BOUND, CONSTANT, TYPE, VARIABLE};
use crate::pairs::{Order, Pair, Request};
use crate::sizes::{Cell, SMALLEST_LIMIT};

/// Lines 1 to 5: a constant, a variable, a constant of one argument, a variable, an abbreviation of two arguments.
const BOOK: &str = "\
*nat:=PN:type
*n:=EB:nat
n*suc:=PN:nat
n*m:=EB:nat
m*left:=suc(n):nat
";
const LAST: Cell = 5;
const BUDGET: u32 = 9;

/// The cells that may stand in a whole string of more than one cell, with few bound variables.
const CELLS: [Cell; 9] = [
    cell(CONSTANT, 1), cell(VARIABLE, 2), cell(CONSTANT, 3), cell(VARIABLE, 4), cell(CONSTANT, 5), cell(BOUND, 0), cell(BOUND, 1),
    APPLICATION, ABSTRACTION,
];
/// Cells that may not.
const OTHERS: [Cell; 13] = [
    TYPE, cell(TYPE, 1), cell(VARIABLE, 0), cell(CONSTANT, 0), cell(VARIABLE, 1), cell(CONSTANT, 2), cell(VARIABLE, LAST + 1),
    cell(CONSTANT, LAST + 1), cell(APPLICATION, 1), cell(ABSTRACTION, 1), 6, 7, Cell::MAX,
];
/// The most cells of a string of the first ones, and of all.
const LENGTH: usize = 5;
const LENGTH_OF_ALL: usize = 4;

/// How many expressions of so many cells there are under so many bindings.
fn count(length: usize, bindings: usize) -> usize {
    if length < 2 {
        // Beside bound variables there are `nat`, `n` and `m`.
        return if length == 1 { 3 + bindings.min(2) } else { 0 };
    }
    let pair = |first: usize, under: usize| count(first, bindings) * count(length - 1 - first, under);
    let pairs = |under: usize| (1..length - 1).map(|first| pair(first, under)).sum::<usize>();
    // Under `suc`, under `left` and in applications, in abstractions.
    count(length - 1, bindings) + 2 * pairs(bindings) + pairs(bindings + 1)
}

impl Comparison {
    /// Strings of up to so many cells, each on one side of a request by one of the comparisons; over the empty book, too.
    pub fn short_strings(&mut self) {
        let all = [&CELLS[..], &OTHERS].concat();
        let book = BOOK.as_bytes();
        let desk = Desk::new(book, Call::ample(book, SMALLEST_LIMIT));
        let whole = self.whole_among(&desk, &CELLS, LENGTH);
        let whole_of_all = self.whole_among(&desk, &all, LENGTH_OF_ALL);
        let whole_without_lines = self.whole_among(&Desk::new(b"", Call::ample(b"", SMALLEST_LIMIT)), &all, LENGTH_OF_ALL - 1);
        let counted = |length| (1..=length).map(|length| count(length, 0)).sum::<usize>();
        // `type` is among the others.
        let expected = [counted(LENGTH), counted(LENGTH_OF_ALL) + 1, 1];
        if [whole, whole_of_all, whole_without_lines] != expected {
            self.differ(book, &format!("{whole}, {whole_of_all} and {whole_without_lines} strings are whole, not {expected:?}"));
        }
    }

    /// How many strings of at most so many of these cells do not get 18.
    fn whole_among(&mut self, desk: &Desk, cells: &[Cell], length: usize) -> usize {
        let mut whole = 0;
        for length in 0..=length {
            for number in 0..cells.len().pow(length as u32) {
                let digits = (0..length).map(|place| number / cells.len().pow(place as u32) % cells.len());
                let string: Vec<Cell> = digits.map(|digit| cells[digit]).collect();
                let order = Order::BOTH[number % 2];
                let pair = match number / 2 % 3 {
                    0 => Pair { left: string, right: vec![TYPE] },
                    1 => Pair { left: vec![TYPE], right: string },
                    _ => Pair { left: string.clone(), right: string },
                };
                let (answer, _) = self.request(desk, &Request { order, pair: &pair, budget: BUDGET });
                whole += usize::from(answer.code != 18);
            }
        }
        self.strings.short += whole;
        whole
    }
}
