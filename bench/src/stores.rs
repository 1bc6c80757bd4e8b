//! The stores that are lent to a call.

use crate::sizes::{Cell, CATEGORY, MIDDLE, ROW_WIDTH, TERMS_END};

#[derive(Default, PartialEq)]
pub struct Stores {
    pub table: Vec<u32>,
    pub terms: Vec<Cell>,
    pub work: Vec<Cell>,
    pub index: Vec<u32>,
}

impl Stores {
    /// How many cells of the term store the first lines take.
    pub fn recorded_cells(&self, lines: usize) -> usize {
        lines.checked_sub(1).map_or(0, |last| self.row(last)[TERMS_END] as usize)
    }

    /// The row of a recorded line; lines count from 0 here.
    pub fn row(&self, line: usize) -> &[u32] {
        &self.table[ROW_WIDTH * line..][..ROW_WIDTH]
    }

    /// The middle of a recorded line, empty if it has none, and its category.
    pub fn parts(&self, line: usize) -> [&[Cell]; 2] {
        let row = self.row(line);
        [MIDDLE, CATEGORY].map(|part| &self.terms[row[part] as usize..row[part + 1] as usize])
    }

    /// Makes them as long as others, with the same cells.
    pub fn copy_from(&mut self, other: &Stores) {
        self.table.clone_from(&other.table);
        self.terms.clone_from(&other.terms);
        self.work.clone_from(&other.work);
        self.index.clone_from(&other.index);
    }

    /// How many cells of the index the entries of the first lines take.
    pub fn indexed(&self, lines: usize) -> usize {
        (0..lines).fold(0, |at, _| at + 1 + self.index[at] as usize)
    }
}
