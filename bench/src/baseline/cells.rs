//! Expressions in prefix order, one cell a symbol, and what is put in them.

use super::lines::Lines;
use super::Refusal;
use crate::sizes::{Cell, CELL_FACTOR};

pub const TYPE: Cell = 0;
pub const VARIABLE: Cell = 1;
pub const BOUND: Cell = 2;
pub const CONSTANT: Cell = 3;
pub const APPLICATION: Cell = 4;
pub const ABSTRACTION: Cell = 5;

#[inline]
pub const fn cell(kind: Cell, value: Cell) -> Cell {
    CELL_FACTOR * value + kind
}

#[inline]
pub fn kind(cell: Cell) -> Cell {
    cell % CELL_FACTOR
}

#[inline]
pub fn value(cell: Cell) -> Cell {
    cell / CELL_FACTOR
}

/// How many expressions follow the cell as its parts.
#[inline]
pub fn parts(cell: Cell, lines: &Lines) -> usize {
    match kind(cell) {
        CONSTANT => lines.context_length(value(cell)),
        APPLICATION | ABSTRACTION => 2,
        _ => 0,
    }
}

/// Where the expression that begins at `at` ends.
#[inline]
pub fn end(cells: &[Cell], mut at: usize, lines: &Lines) -> usize {
    let mut open = 1;
    while open > 0 {
        open += parts(cells[at], lines);
        open -= 1;
        at += 1;
    }
    at
}

#[inline]
pub fn has_bound(cells: &[Cell]) -> bool {
    cells.iter().any(|&c| kind(c) == BOUND)
}

/// A store that takes at most so many cells.
pub struct Output<'o> {
    cells: &'o mut Vec<Cell>,
    most: usize,
}

impl<'o> Output<'o> {
    /// Takes `limit` cells behind those that are there.
    pub fn new(cells: &'o mut Vec<Cell>, limit: usize) -> Self {
        Output { most: cells.len() + limit, cells }
    }

    #[inline]
    pub fn push(&mut self, cell: Cell) -> Result<(), Refusal> {
        if self.cells.len() >= self.most {
            return Err(Refusal::TooLarge);
        }
        self.cells.push(cell);
        Ok(())
    }

    #[inline]
    pub fn copy(&mut self, cells: &[Cell]) -> Result<(), Refusal> {
        if self.cells.len() + cells.len() > self.most {
            return Err(Refusal::TooLarge);
        }
        self.cells.extend_from_slice(cells);
        Ok(())
    }
}

/// What becomes of the variables of an expression, `depth` bindings inside it.
trait Replace {
    fn variable(&self, line: Cell, depth: usize, lines: &Lines, out: &mut Output) -> Result<(), Refusal>;
    fn bound(&self, between: usize, depth: usize, lines: &Lines, out: &mut Output) -> Result<(), Refusal>;

    /// The expression that fills `cells`.
    #[inline]
    fn whole(&self, cells: &[Cell], lines: &Lines, out: &mut Output) -> Result<(), Refusal> {
        let mut at = 0;
        while at < cells.len() {
            let c = cells[at];
            at += 1;
            match kind(c) {
                VARIABLE => self.variable(value(c), 0, lines, out)?,
                BOUND => self.bound(value(c) as usize, 0, lines, out)?,
                ABSTRACTION => {
                    out.push(c)?;
                    at = self.one(cells, at, 0, lines, out)?;
                    at = self.one(cells, at, 1, lines, out)?;
                }
                _ => out.push(c)?,
            }
        }
        Ok(())
    }

    /// The expression that begins at `at`; gives its end.
    fn one(&self, cells: &[Cell], mut at: usize, depth: usize, lines: &Lines, out: &mut Output) -> Result<usize, Refusal> {
        let mut open = 1;
        while open > 0 {
            let c = cells[at];
            at += 1;
            open -= 1;
            match kind(c) {
                VARIABLE => self.variable(value(c), depth, lines, out)?,
                BOUND => self.bound(value(c) as usize, depth, lines, out)?,
                ABSTRACTION => {
                    out.push(c)?;
                    at = self.one(cells, at, depth, lines, out)?;
                    at = self.one(cells, at, depth + 1, lines, out)?;
                }
                _ => {
                    open += parts(c, lines);
                    out.push(c)?;
                }
            }
        }
        Ok(at)
    }
}

/// Moves an expression under `by` more bindings.
struct Lift {
    by: usize,
}

impl Replace for Lift {
    #[inline]
    fn variable(&self, line: Cell, _: usize, _: &Lines, out: &mut Output) -> Result<(), Refusal> {
        out.push(cell(VARIABLE, line))
    }

    #[inline]
    fn bound(&self, between: usize, depth: usize, _: &Lines, out: &mut Output) -> Result<(), Refusal> {
        let by = if between < depth { 0 } else { self.by };
        out.push(cell(BOUND, (between + by) as Cell))
    }
}

pub fn lift(cells: &[Cell], by: usize, lines: &Lines, out: &mut Output) -> Result<(), Refusal> {
    if by == 0 || !has_bound(cells) {
        out.copy(cells)
    } else {
        Lift { by }.whole(cells, lines, out)
    }
}

/// Puts an expression in for the outermost bound variable of a body.
struct Substitute<'a> {
    argument: &'a [Cell],
}

impl Replace for Substitute<'_> {
    #[inline]
    fn variable(&self, line: Cell, _: usize, _: &Lines, out: &mut Output) -> Result<(), Refusal> {
        out.push(cell(VARIABLE, line))
    }

    #[inline]
    fn bound(&self, between: usize, depth: usize, lines: &Lines, out: &mut Output) -> Result<(), Refusal> {
        if between == depth {
            return lift(self.argument, depth, lines, out);
        }
        let removed = usize::from(between > depth);
        out.push(cell(BOUND, (between - removed) as Cell))
    }
}

pub fn substitute(body: &[Cell], argument: &[Cell], lines: &Lines, out: &mut Output) -> Result<(), Refusal> {
    Substitute { argument }.whole(body, lines, out)
}

/// Puts arguments in for the variables of a context, all at once.
struct Instantiate<'a> {
    cells: &'a [Cell],
    arguments: &'a [(u32, u32)],
}

impl Replace for Instantiate<'_> {
    #[inline]
    fn variable(&self, line: Cell, depth: usize, lines: &Lines, out: &mut Output) -> Result<(), Refusal> {
        let (start, end) = self.arguments[lines.context_length(line)];
        lift(&self.cells[start as usize..end as usize], depth, lines, out)
    }

    #[inline]
    fn bound(&self, between: usize, _: usize, _: &Lines, out: &mut Output) -> Result<(), Refusal> {
        out.push(cell(BOUND, between as Cell))
    }
}

/// The arguments are parts of `cells`, each with its start and end.
pub fn instantiate(
    template: &[Cell], cells: &[Cell], arguments: &[(u32, u32)], lines: &Lines, out: &mut Output,
) -> Result<(), Refusal> {
    Instantiate { cells, arguments }.whole(template, lines, out)
}
