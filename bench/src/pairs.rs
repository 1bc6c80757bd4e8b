//! The two comparisons, and the pairs of strings that are brought to them.

use std::fmt;

use crate::sizes::Cell;
use crate::stores::Stores;
use crate::Answer;

const CELLS_SHOWN: usize = 400;

/// The two comparisons.
#[derive(Clone, Copy, Debug, PartialEq, Eq)]
pub enum Order {
    /// The first, which decides every check: head steps as long as there are any, then parts.
    StepsFirst,
    /// The second: the parts of two uses of one abbreviation, and of two applications, ahead of each head step.
    PartsFirst,
}

impl Order {
    pub const BOTH: [Order; 2] = [Order::StepsFirst, Order::PartsFirst];
}

/// Two strings of cells.
pub struct Pair {
    pub left: Vec<Cell>,
    pub right: Vec<Cell>,
}

impl Pair {
    /// The middles of the last two of so many lines.
    pub fn of_last_lines(lines: usize, stores: &Stores) -> Pair {
        let [left, right] = [2, 1].map(|from_last| stores.parts(lines - from_last)[0].to_vec());
        Pair { left, right }
    }

    pub fn sides(&self) -> [&[Cell]; 2] {
        [&self.left, &self.right]
    }
}

/// The first cells of each, and how many there are.
impl fmt::Debug for Pair {
    fn fmt(&self, f: &mut fmt::Formatter) -> fmt::Result {
        let shown = |side: &[Cell]| format!("{:?}, {} cells", &side[..side.len().min(CELLS_SHOWN)], side.len());
        let [left, right] = self.sides().map(shown);
        write!(f, "left {left}, right {right}")
    }
}

/// What is asked at the desk over a book: a pair, by one of the comparisons, with a budget apart from that of the book's check.
#[derive(Clone, Copy, Debug)]
pub struct Request<'r> {
    pub order: Order,
    pub pair: &'r Pair,
    pub budget: u32,
}

impl Answer {
    /// Of a request: whether the sides are known to be equal or different. In a refusal that is passed on there is a line.
    pub fn ended(&self) -> bool {
        self.line == 0 && matches!(self.code, 0 | 9)
    }
}
