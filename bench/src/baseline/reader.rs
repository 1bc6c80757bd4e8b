//! One walk over a line's bytes: its form, its cells with arguments left out put in, and the first name or count that is
//! refused.

use super::bytes::{is_name_byte, Bytes};
use super::cells;
use super::lines::{Kind, Lines};
use super::names::Names;
use super::notes::Faults;
use super::scope::{Meaning, Scope};
use super::source::{Line, ParagraphLine, Part};
use super::Refusal;
use crate::sizes::{Cell, NESTING};

pub struct Reader<'b> {
    bytes: Bytes<'b>,
    limit: usize,
    cells: Vec<Cell>,
    /// The current middle or category, whose length is that of the cells from `begin` on.
    part: Part,
    begin: usize,
    /// The bound names around the current place, outermost first.
    bound: Vec<&'b [u8]>,
    /// The leftmost refusal of a name or argument count, and the place of that name.
    refused: Option<(usize, Refusal)>,
    /// All that is refused in the line so far.
    faults: Faults,
}

impl<'b> Reader<'b> {
    pub fn new(book: &'b [u8], limit: usize) -> Self {
        let (cells, bound) = (Vec::new(), Vec::with_capacity(NESTING));
        Reader { bytes: Bytes::new(book), limit, cells, part: Part::default(), begin: 0, bound, refused: None, faults: Faults::default() }
    }

    pub fn at(&self) -> usize {
        self.bytes.at
    }

    pub fn at_end(&self) -> bool {
        self.bytes.at_end()
    }

    pub fn cells(&self) -> &[Cell] {
        &self.cells
    }

    pub fn name_refusal(&self) -> Option<Refusal> {
        self.refused.map(|(_, refusal)| refusal)
    }

    /// Where the refused name begins, if one is refused.
    pub fn refused_name(&self) -> Option<usize> {
        self.refused.map(|(at, _)| at)
    }

    pub fn faults(&self) -> Faults {
        self.faults
    }

    /// Reads a line that opens or closes a paragraph, if one begins here.
    pub fn paragraph_line(&mut self) -> Result<Option<ParagraphLine<'b>>, Refusal> {
        self.bytes.spaces();
        let line = match self.bytes.peek() {
            b'+' => ParagraphLine::Opening,
            b'-' => ParagraphLine::Closing,
            _ => return Ok(None),
        };
        self.bytes.at += 1;
        self.bytes.spaces();
        let name = self.bytes.name()?;
        self.bytes.end_line()?;
        Ok(Some(line(name)))
    }

    /// Reads a line. A refusal of its indicator is given too; later ones are left to the caller, in their order.
    pub fn line(&mut self, lines: &mut Lines, names: &Names<'b>) -> Result<Line<'b>, Refusal> {
        self.cells.clear();
        self.begin = 0;
        self.bound.clear();
        self.refused = None;
        self.faults = Faults::default();

        self.bytes.spaces();
        let first = self.bytes.at;
        let named = if self.bytes.at_name() { self.indicator(names)? } else { Some(0) };
        self.bytes.symbol(b'*')?;
        let indicator = named.filter(|&line| line == 0 || lines.kind(line) == Kind::Variable);
        let context = lines.extend(indicator.unwrap_or(0));
        let scope = Scope { lines, names, context };

        self.bytes.spaces();
        let start = self.bytes.at;
        let identifier = self.bytes.name()?;
        self.bytes.symbol(b':')?;
        if self.bytes.peek() != b'=' {
            return Err(Refusal::Malformed);
        }
        self.bytes.at += 1;

        let kind = self.middle(&scope)?;
        let middle = self.end_part();
        self.bytes.symbol(b':')?;
        self.category(&scope)?;
        let category = self.end_part();
        self.bytes.end_line()?;
        let Some(indicator) = indicator else {
            // Without its context nothing is said of its names.
            self.faults = Faults::default();
            self.faults.constant_indicator = named.is_some();
            self.refused = Some((first, Refusal::UnknownName));
            return Err(Refusal::UnknownName);
        };
        Ok(Line { start, identifier, indicator, context, kind, middle, category })
    }

    /// The line that the indicator means, if there is one.
    fn indicator(&mut self, names: &Names<'b>) -> Result<Option<Cell>, Refusal> {
        let name = self.bytes.name()?;
        self.bytes.spaces();
        if self.bytes.peek() == b'.' { self.line_inside(names, name) } else { Ok(names.find(name)) }
    }

    /// The part that was read; the next begins.
    fn end_part(&mut self) -> Part {
        let mut part = std::mem::take(&mut self.part);
        part.length = self.cells.len() - self.begin;
        part.too_large |= part.length > self.limit;
        self.begin = self.cells.len();
        part
    }

    fn middle(&mut self, scope: &Scope<'_, 'b>) -> Result<Kind, Refusal> {
        self.bytes.spaces();
        if !self.bytes.at_name() {
            self.expression(scope, 1)?;
            return Ok(Kind::Abbreviation);
        }
        let start = self.bytes.at;
        match self.bytes.word()? {
            b"EB" => Ok(Kind::Variable),
            b"PN" => Ok(Kind::Primitive),
            b"type" => Err(Refusal::Malformed),
            name => self.named(scope, start, name, 1).map(|()| Kind::Abbreviation),
        }
    }

    fn category(&mut self, scope: &Scope<'_, 'b>) -> Result<(), Refusal> {
        self.bytes.spaces();
        if !self.bytes.at_name() {
            return self.expression(scope, 1);
        }
        let start = self.bytes.at;
        match self.bytes.word()? {
            b"type" => {
                self.cells.push(cells::TYPE);
                Ok(())
            }
            b"EB" | b"PN" => Err(Refusal::Malformed),
            name => self.named(scope, start, name, 1),
        }
    }

    fn expression(&mut self, scope: &Scope<'_, 'b>, depth: usize) -> Result<(), Refusal> {
        self.bytes.spaces();
        let first = self.bytes.peek();
        if is_name_byte(first) {
            if depth > NESTING {
                return Err(Refusal::TooLarge);
            }
            let start = self.bytes.at;
            let name = self.bytes.name()?;
            return self.named(scope, start, name, depth);
        }
        match first {
            b'<' | b'[' if depth > NESTING => Err(Refusal::TooLarge),
            b'<' => {
                self.bytes.at += 1;
                self.cells.push(cells::APPLICATION);
                self.expression(scope, depth + 1)?;
                self.bytes.symbol(b'>')?;
                self.expression(scope, depth + 1)
            }
            b'[' => {
                self.bytes.at += 1;
                self.cells.push(cells::ABSTRACTION);
                self.bytes.spaces();
                let name = self.bytes.name()?;
                self.bytes.symbol(b',')?;
                self.expression(scope, depth + 1)?;
                self.bytes.symbol(b']')?;
                self.bound.push(name);
                self.expression(scope, depth + 1)?;
                self.bound.pop();
                Ok(())
            }
            _ => Err(Refusal::Malformed),
        }
    }

    /// The name whose first part was read at `start`, and its arguments.
    fn named(&mut self, scope: &Scope<'_, 'b>, start: usize, first: &'b [u8], depth: usize) -> Result<(), Refusal> {
        self.bytes.spaces();
        let meaning = match self.bytes.peek() {
            b'.' => self.meaning_inside(scope, first)?,
            _ => self.meaning(scope, first),
        };
        if let Err(refusal) = meaning {
            self.refuse(start, refusal);
        }
        // A name that is refused stands for one cell.
        let (cell, wanted) = meaning.unwrap_or((cells::TYPE, 0));
        self.cells.push(cell);
        let arguments = self.cells.len();
        let mut found = 0;
        if self.bytes.peek() == b'(' {
            self.bytes.at += 1;
            loop {
                self.expression(scope, depth + 1)?;
                found += 1;
                self.bytes.spaces();
                match self.bytes.peek() {
                    b',' => self.bytes.at += 1,
                    b')' => break,
                    _ => return Err(Refusal::Malformed),
                }
            }
            self.bytes.at += 1;
        }
        if found < wanted {
            self.complete(scope, start, cells::value(cell), arguments, found, depth);
        } else if found > wanted && meaning != Err(Refusal::UnknownName) {
            self.refuse(start, Refusal::WrongArity);
        }
        Ok(())
    }

    /// Puts in front of a constant's arguments, which begin at `arguments`, the first variables of its context, as many as
    /// are left out. They must be the first of the line's own context: one line at the last of these places is enough.
    #[inline(never)]
    fn complete(
        &mut self, scope: &Scope<'_, 'b>, start: usize, constant: Cell, arguments: usize, found: usize, depth: usize,
    ) {
        let variables = scope.lines.variables(constant);
        let missing = &variables[..variables.len() - found];
        if !scope.lines.in_context(scope.context, missing[missing.len() - 1]) {
            self.refuse(start, Refusal::WrongArity);
            return;
        }
        let fits = self.cells.len() - self.begin + missing.len() <= self.limit;
        self.part.too_deep |= depth == NESTING;
        self.part.too_large |= !fits;
        if fits {
            self.cells.splice(arguments..arguments, missing.iter().map(|&v| cells::cell(cells::VARIABLE, v)));
            self.part.put_in += missing.len();
        }
    }

    #[inline]
    fn meaning(&self, scope: &Scope<'_, 'b>, name: &[u8]) -> Meaning {
        if let Some(between) = self.bound.iter().rev().position(|&b| b == name) {
            return Ok((cells::cell(cells::BOUND, between as Cell), 0));
        }
        scope.meaning(scope.names.find(name))
    }

    /// Of a name behind a point, which is next; bindings do not hide it.
    #[inline(never)]
    fn meaning_inside(&mut self, scope: &Scope<'_, 'b>, paragraph: &'b [u8]) -> Result<Meaning, Refusal> {
        let line = self.line_inside(scope.names, paragraph)?;
        Ok(scope.meaning(line))
    }

    /// The line that a name behind a point, which is next, means.
    fn line_inside(&mut self, names: &Names<'b>, paragraph: &'b [u8]) -> Result<Option<Cell>, Refusal> {
        self.bytes.at += 1;
        self.bytes.spaces();
        let name = self.bytes.name()?;
        self.bytes.spaces();
        Ok(names.find_inside(paragraph, name))
    }

    /// Keeps the refusal of the leftmost name; at one name the earlier refusal stays.
    fn refuse(&mut self, at: usize, refusal: Refusal) {
        self.faults.add(refusal);
        if self.refused.map_or(true, |(earliest, _)| at < earliest) {
            self.refused = Some((at, refusal));
        }
    }
}
