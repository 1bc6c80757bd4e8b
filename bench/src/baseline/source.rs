//! Lines as they were read, with arguments left out put in.

use super::lines::{Context, Kind};
use crate::sizes::Cell;

/// A line of right form. Its cells are in the reader, the middle's first.
pub struct Line<'b> {
    pub start: usize,
    pub identifier: &'b [u8],
    pub indicator: Cell,
    pub context: Context,
    pub kind: Kind,
    pub middle: Part,
    pub category: Part,
}

impl Line<'_> {
    pub fn parts(&self) -> [Part; 2] {
        [self.middle, self.category]
    }

    /// Whether its middle or category has too many cells or is nested too deep when completed.
    pub fn too_large(&self) -> bool {
        self.parts().iter().any(|p| p.too_large || p.too_deep)
    }
}

/// A line that opens or closes the paragraph of this name.
pub enum ParagraphLine<'b> {
    Opening(&'b [u8]),
    Closing(&'b [u8]),
}

/// A middle or category.
#[derive(Clone, Copy, Default)]
pub struct Part {
    /// How many cells it has.
    pub length: usize,
    /// How many of them are variables that were put in.
    pub put_in: usize,
    /// Whether it has more cells than the limit when completed; then some were not put in.
    pub too_large: bool,
    /// Whether it is nested too deep when completed.
    pub too_deep: bool,
}

impl Part {
    /// How many cells it has as written.
    pub fn written(&self) -> usize {
        self.length - self.put_in
    }
}
