//! Lists of pairs whose strings lie in one slice of cells, for a sheet of answers.

use std::fmt;

use crate::sizes::Cell;

const SHOWN: usize = 400;

/// Where a string begins in the cells, and its length.
#[repr(C)]
#[derive(Clone, Copy, Debug, PartialEq, Eq)]
pub struct Span {
    pub start: u32,
    pub length: u32,
}

impl Span {
    /// One past its last cell, which may lie past the cells.
    pub fn end(self) -> u64 {
        u64::from(self.start) + u64::from(self.length)
    }

    /// The string, if the cells go so far.
    pub fn string(self, cells: &[Cell]) -> Option<&[Cell]> {
        cells.get(self.start as usize..self.end() as usize)
    }
}

/// A pair of a list, with its own budget.
#[repr(C)]
#[derive(Clone, Copy, Debug, PartialEq, Eq)]
pub struct ListedPair {
    pub left: Span,
    pub right: Span,
    pub budget: u32,
}

impl ListedPair {
    /// Both strings, if the cells go so far.
    pub fn sides(self, cells: &[Cell]) -> Option<[&[Cell]; 2]> {
        Some([self.left.string(cells)?, self.right.string(cells)?])
    }
}

/// What is brought for a sheet: the pairs, and the cells that their strings lie in.
#[derive(Default)]
pub struct List {
    pub cells: Vec<Cell>,
    pub pairs: Vec<ListedPair>,
}

impl List {
    /// Puts a string behind the cells.
    pub fn put(&mut self, string: &[Cell]) -> Span {
        let start = self.cells.len() as u32;
        self.cells.extend(string);
        Span { start, length: string.len() as u32 }
    }
}

/// The first cells and pairs, and how many there are.
impl fmt::Debug for List {
    fn fmt(&self, f: &mut fmt::Formatter) -> fmt::Result {
        let List { cells, pairs } = self;
        write!(f, "{:?}, {} cells, ", &cells[..cells.len().min(SHOWN)], cells.len())?;
        write!(f, "{:?}, {} pairs", &pairs[..pairs.len().min(SHOWN)], pairs.len())
    }
}
