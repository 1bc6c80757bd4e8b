//! What names mean in one line.

use super::cells;
use super::lines::{Context, Kind, Lines};
use super::names::Names;
use super::Refusal;
use crate::sizes::Cell;

/// The cell of a name and how many arguments it takes; or that no line has it, or a variable outside the context.
pub type Meaning = Result<(Cell, usize), Refusal>;

pub struct Scope<'s, 'b> {
    pub lines: &'s Lines,
    pub names: &'s Names<'b>,
    pub context: Context,
}

impl Scope<'_, '_> {
    /// Of a name that finds this line, or none.
    #[inline]
    pub fn meaning(&self, line: Option<Cell>) -> Meaning {
        let line = line.ok_or(Refusal::UnknownName)?;
        if self.lines.kind(line) != Kind::Variable {
            Ok((cells::cell(cells::CONSTANT, line), self.lines.context_length(line)))
        } else if self.lines.in_context(self.context, line) {
            Ok((cells::cell(cells::VARIABLE, line), 0))
        } else {
            Err(Refusal::NotInContext)
        }
    }
}
