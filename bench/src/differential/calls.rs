//! What is lent beside a book: limits, budgets and store lengths, often where the book just fits or just does not.

use super::place::is_paragraph_line;
use crate::baseline;
use crate::random::Random;
use crate::sizes::{Cell, NarrowCell, LARGEST_LIMIT, ROW_WIDTH, SMALLEST_LIMIT, WORK_UNITS};
use crate::stores::Stores;
use crate::Outcome;

pub const USUAL_LIMIT: u32 = 256;

/// How many cells an answer may have beyond those that it needs.
pub const MORE_ROOM: usize = 9;

/// Lengths are in cells.
#[derive(Clone, Copy, Debug)]
pub struct Call {
    pub budget: u32,
    pub limit: u32,
    pub table: usize,
    pub terms: usize,
    pub work: usize,
    pub index: usize,
}

/// What stands in a 32-bit cell before a call.
pub fn pattern(at: usize) -> u32 {
    (at as u32).wrapping_mul(0x9e37_79b1) ^ 0x5555_aaaa
}

/// What stands in a byte of a page store before a call.
pub fn byte_pattern(at: usize) -> u8 {
    pattern(at) as u8
}

/// What stands in a term or working cell before a call.
pub fn cell_pattern(at: usize) -> Cell {
    (at as Cell).wrapping_mul(0x85eb_ca6b) ^ 0x5a5a_a5a5
}

/// What stands in a cell of 16 bits before a call.
pub fn narrow_pattern(at: usize) -> NarrowCell {
    cell_pattern(at) as NarrowCell
}

/// Makes a store so long and puts in every cell what stands there before a call.
pub fn filled<T>(store: &mut Vec<T>, length: usize, pattern: fn(usize) -> T) {
    store.clear();
    store.extend((0..length).map(pattern));
}

impl Call {
    /// Stores in which the book fits when completed, and all the budget.
    pub fn ample(book: &[u8], limit: u32) -> Call {
        let lines = book.split(|&b| b == b'\n').filter(|line| !is_paragraph_line(line)).count();
        let variables = book.windows(2).filter(|w| w == b"EB").count();
        let largest = 2 * limit.min(LARGEST_LIMIT) as usize;
        let terms = (book.len() * (1 + variables)).min(lines * largest) + 1;
        let work = WORK_UNITS * limit as usize;
        Call { budget: u32::MAX, limit, table: ROW_WIDTH * lines, terms, work, index: terms + 2 * lines }
    }

    /// The same under another limit, with as many working cells beyond those that it needs.
    pub fn with_limit(&self, limit: u32) -> Call {
        let more = self.work - WORK_UNITS * self.limit as usize;
        Call { limit, work: WORK_UNITS * limit as usize + more, ..*self }
    }

    /// Stores as long as the call says, every cell with its pattern.
    pub fn prepare(&self, stores: &mut Stores) {
        filled(&mut stores.table, self.table, pattern);
        filled(&mut stores.terms, self.terms, cell_pattern);
        filled(&mut stores.work, self.work, cell_pattern);
        filled(&mut stores.index, self.index, pattern);
    }

    /// Whether every cell that the outcome leaves alone has its pattern, and the working cells are zero.
    pub fn left_alone(&self, stores: &Stores, outcome: &Outcome) -> bool {
        let Stores { table, terms, work, index } = stores;
        let recorded = outcome.recorded();
        let cleared = if outcome.code == 1 || outcome.code == 2 { 0 } else { WORK_UNITS * self.limit as usize };
        (ROW_WIDTH * recorded..table.len()).all(|i| table[i] == pattern(i))
            && (stores.recorded_cells(recorded)..terms.len()).all(|i| terms[i] == cell_pattern(i))
            && (stores.indexed(recorded)..index.len()).all(|i| index[i] == pattern(i))
            && work[..cleared].iter().all(|&c| c == 0)
            && (cleared..work.len()).all(|i| work[i] == cell_pattern(i))
    }
}

/// A line to ask about, and the cells for the answer.
#[derive(Clone, Copy, Debug)]
pub struct Question {
    pub line: u32,
    pub room: usize,
}

impl Question {
    /// About a book that ended so and left these stores; the answer often just fits or just does not.
    pub fn new(random: &mut Random, outcome: &Outcome, stores: &Stores) -> Question {
        let last = outcome.recorded();
        let line = match random.below(12) {
            0 => 0,
            1 => last + 1,
            2 => *random.choose(&[last + 2, last + 64, 65_536 + 1, u32::MAX as usize]),
            3..=4 => last,
            _ => random.between(last.min(1), last),
        };
        let accepted = outcome.code == 0 && (1..=last).contains(&line);
        let length = if accepted { baseline::primitives(line, stores).len() } else { random.below(4) };
        Question { line: line as u32, room: room(random, length, MORE_ROOM) }
    }
}

/// Room for an answer of this length: often just enough, or one less; seldom none; else up to so much more.
pub fn room(random: &mut Random, length: usize, more: usize) -> usize {
    match random.below(10) {
        0..=3 => length,
        4..=5 => length.saturating_sub(1),
        6 => 0,
        7 => random.between(0, length + more),
        _ => length + random.between(1, more),
    }
}

/// Makes calls; the stores are those of the runs that they are made from.
#[derive(Default)]
pub struct Calls {
    stores: Stores,
}

impl Calls {
    /// Limits and store lengths for a book.
    pub fn call(&mut self, random: &mut Random, book: &[u8]) -> Call {
        let limit = match random.below(100) {
            0..=2 => *random.choose(&[SMALLEST_LIMIT - 1, LARGEST_LIMIT + 1, 0, u32::MAX]),
            3..=4 => LARGEST_LIMIT,
            5..=14 => *random.choose(&[16, 17, 18, 20, 32]),
            15..=24 => random.between(16, 80) as u32,
            25..=44 => (self.least_limit(book) - random.below(2) as u32).max(SMALLEST_LIMIT),
            45..=54 => 64,
            _ => USUAL_LIMIT,
        };
        let mut call = Call::ample(book, limit);
        if !(SMALLEST_LIMIT..=LARGEST_LIMIT).contains(&limit) {
            call.work = random.between(0, WORK_UNITS * 20);
            return call;
        }
        let outcome = self.probe(book, &call);
        let recorded = outcome.recorded();
        let steps = outcome.steps as usize;
        call.budget = match random.below(10) {
            0..=4 => u32::MAX,
            5..=6 => steps as u32,
            7 => steps.saturating_sub(1) as u32,
            8 => random.below(4) as u32,
            _ => random.between(0, steps + 1) as u32,
        };
        call.table = match random.below(20) {
            0..=16 => call.table,
            17 => (ROW_WIDTH * recorded + random.below(ROW_WIDTH + 1)).saturating_sub(1),
            18 => ROW_WIDTH * recorded,
            _ => random.between(0, ROW_WIDTH * recorded + ROW_WIDTH),
        };
        call.terms = near(random, call.terms, self.stores.recorded_cells(recorded));
        call.index = near(random, call.index, self.stores.indexed(recorded));
        call.work = match random.below(50) {
            0 => call.work - 1,
            1 => random.below(call.work),
            2..=11 => call.work + random.between(1, 130),
            _ => call.work,
        };
        call
    }

    /// The least limit up to the usual one under which no size is refused.
    fn least_limit(&mut self, book: &[u8]) -> u32 {
        let (mut refused, mut enough) = (15, USUAL_LIMIT);
        while enough - refused > 1 {
            let limit = (refused + enough) / 2;
            if self.probe(book, &Call::ample(book, limit)).code == 10 { refused = limit } else { enough = limit }
        }
        enough
    }

    fn probe(&mut self, book: &[u8], call: &Call) -> Outcome {
        call.prepare(&mut self.stores);
        baseline::check(book, call.budget, call.limit, &mut self.stores)
    }
}

/// The length of a store of which so many cells are needed: most often it is ample.
fn near(random: &mut Random, ample: usize, needed: usize) -> usize {
    match random.below(20) {
        0..=16 => ample,
        17 => (needed + random.below(4)).saturating_sub(1),
        18 => needed,
        _ => random.between(0, needed + 4),
    }
}
