//! Whole strings of any length over the books of the table.

use crate::baseline::cells::{cell, ABSTRACTION, APPLICATION, BOUND, CONSTANT};
use crate::sizes::{Cell, NESTING};

/// The cells of constants that the books have.
pub struct Names {
    nat: Cell,
    pub one: Cell,
    pub suc: Cell,
    pub two: Cell,
    plus: Cell,
}

impl Names {
    /// In a book without paragraphs, under names with this end.
    pub fn of(book: &[u8], end: &str) -> Names {
        let [nat, one, suc, two, plus] = ["nat", "one", "suc", "two", "plus"].map(|name| {
            let named = format!("*{name}{end}:=");
            let is_its = |line: &[u8]| line.windows(named.len()).any(|part| part == named.as_bytes());
            let place = book.split(|&b| b == b'\n').position(is_its).expect("a line of this name");
            cell(CONSTANT, place as Cell + 1)
        });
        Names { nat, one, suc, two, plus }
    }

    /// `suc(plus(one,plus(one,..)))`.
    pub fn arguments(&self, length: usize) -> Vec<Cell> {
        self.ending_in(&[self.one], length)
    }

    /// The same with another last argument, which may have more cells.
    pub fn ending_in(&self, last: &[Cell], length: usize) -> Vec<Cell> {
        [&[self.suc], &[self.plus, self.one].repeat((length - 2) / 2)[..], last].concat()
    }

    /// `suc(suc(..))`, so many around this that their last parts would be compared too deep.
    pub fn deep(&self, last: &[Cell]) -> Vec<Cell> {
        [&[self.suc; NESTING], last].concat()
    }

    /// `[x,nat]suc(<x><x>..x)`.
    pub fn bound(&self, length: usize) -> Vec<Cell> {
        let variable = cell(BOUND, 0);
        [vec![ABSTRACTION, self.nat, self.suc], [APPLICATION, variable].repeat((length - 4) / 2), vec![variable]].concat()
    }

    /// `[x,nat]suc([y,<x>x][z,<x>x]..x)`: every variable is the outermost binding's.
    pub fn bindings(&self, length: usize) -> Vec<Cell> {
        let mut string = vec![ABSTRACTION, self.nat, self.suc];
        let count = (length - 4) / 4;
        let outermost = |inside: usize| cell(BOUND, inside as Cell);
        (0..count).for_each(|inside| string.extend([ABSTRACTION, APPLICATION, outermost(inside), outermost(inside)]));
        string.push(outermost(count));
        string
    }
}
