//! Strings of cells that are one whole expression.

use super::cells;
use super::lines::{Kind, Lines};
use crate::sizes::Cell;

/// Expressions that must come next: how many, and how many bindings are around each.
#[derive(Clone, Copy)]
struct Awaited {
    count: usize,
    bindings: usize,
}

/// The store that tests share: the expressions still to come, the next last.
#[derive(Default)]
pub struct Tester {
    awaited: Vec<Awaited>,
}

impl Tester {
    /// Whether a string is `type` alone or one expression over the lines: arguments in full, every bound variable under its binding.
    pub fn is_whole(&mut self, string: &[Cell], lines: &Lines) -> bool {
        self.awaited.clear();
        self.awaited.push(Awaited { count: 1, bindings: 0 });
        string == [cells::TYPE] || is_expression(string, &mut self.awaited, lines)
    }
}

/// Whether a string is what is awaited, no more and no less.
fn is_expression(string: &[Cell], awaited: &mut Vec<Awaited>, lines: &Lines) -> bool {
    for &cell in string {
        let Some(bindings) = next(awaited) else { return false };
        let (line, number) = (cells::value(cell), cells::value(cell) as usize);
        let here = |count| Awaited { count, bindings };
        match cells::kind(cell) {
            cells::VARIABLE if is_variable(line, lines) == Some(true) => {}
            cells::BOUND if number < bindings => {}
            cells::CONSTANT if is_variable(line, lines) == Some(false) => awaited.push(here(lines.context_length(line))),
            cells::APPLICATION if number == 0 => awaited.push(here(2)),
            cells::ABSTRACTION if number == 0 => awaited.extend([Awaited { count: 1, bindings: bindings + 1 }, here(1)]),
            _ => return false,
        }
    }
    next(awaited).is_none()
}

/// Takes the expression that must come next, if there is one: how many bindings are around it.
fn next(awaited: &mut Vec<Awaited>) -> Option<usize> {
    while awaited.last()?.count == 0 {
        awaited.pop();
    }
    let last = awaited.last_mut()?;
    last.count -= 1;
    Some(last.bindings)
}

/// Of a number that is a line's: whether this is a variable.
fn is_variable(line: Cell, lines: &Lines) -> Option<bool> {
    (1..=lines.count()).contains(&(line as usize)).then(|| lines.kind(line) == Kind::Variable)
}
