//! What names mean at the current place of a book: its lines, and its paragraphs.

use std::collections::HashMap;

use super::hash::Words;
use super::Refusal;
use crate::sizes::{Cell, MOST_OPEN};

/// The lines, or the closed paragraphs, that names find first from the innermost open paragraph outward.
#[derive(Default)]
struct Found<'b> {
    /// 0 for one that is found no longer.
    numbers: HashMap<&'b [u8], u32, Words>,
    /// The names given in open paragraphs, and what each finds outside of its paragraph.
    outside: Vec<(&'b [u8], u32)>,
}

impl<'b> Found<'b> {
    #[inline]
    fn get(&self, name: &[u8]) -> u32 {
        self.numbers.get(name).copied().unwrap_or(0)
    }

    fn give(&mut self, name: &'b [u8], number: u32, outside: bool) {
        let before = self.numbers.insert(name, number).unwrap_or(0);
        if !outside {
            self.outside.push((name, before));
        }
    }

    /// Takes back the names given from this one on; each with its number.
    fn take_back(&mut self, first: usize) -> impl Iterator<Item = (&'b [u8], u32)> + '_ {
        let numbers = &mut self.numbers;
        self.outside.drain(first..).map(|(name, before)| (name, numbers.insert(name, before).unwrap_or(0)))
    }
}

struct Open<'b> {
    name: &'b [u8],
    number: u32,
    /// How many lines there were.
    lines: Cell,
    /// Where its names begin among those of lines and of paragraphs.
    first: [usize; 2],
}

#[derive(Default)]
pub struct Names<'b> {
    lines: Found<'b>,
    closed: Found<'b>,
    /// The lines of closed paragraphs.
    inside: HashMap<(u32, &'b [u8]), Cell, Words>,
    /// The open paragraphs, outermost first.
    open: Vec<Open<'b>>,
    /// How many paragraphs were opened, and how many lines there are.
    opened: u32,
    count: Cell,
}

impl<'b> Names<'b> {
    /// The line that a name means.
    #[inline]
    pub fn find(&self, name: &[u8]) -> Option<Cell> {
        Some(self.lines.get(name)).filter(|&line| line != 0)
    }

    /// The line of this name of a closed paragraph.
    pub fn find_inside(&self, paragraph: &'b [u8], name: &'b [u8]) -> Option<Cell> {
        self.inside.get(&(self.closed.get(paragraph), name)).copied()
    }

    /// Whether the innermost open paragraph has a line or a paragraph of this name: those found first that came behind its opening
    /// are its own.
    pub fn taken(&self, name: &[u8]) -> bool {
        let (lines, number) = self.open.last().map_or((0, 0), |open| (open.lines, open.number));
        self.lines.get(name) > lines || self.closed.get(name) > number
    }

    /// The number of the innermost open paragraph, 0 outside.
    pub fn paragraph(&self) -> u32 {
        self.open.last().map_or(0, |open| open.number)
    }

    pub fn any_open(&self) -> bool {
        !self.open.is_empty()
    }

    pub fn insert(&mut self, name: &'b [u8], line: Cell) {
        self.lines.give(name, line, self.open.is_empty());
        self.count = line;
    }

    pub fn open(&mut self, name: &'b [u8]) -> Result<(), Refusal> {
        if self.taken(name) {
            return Err(Refusal::Duplicate);
        }
        if self.open.len() == MOST_OPEN {
            return Err(Refusal::OutOfSpace);
        }
        self.opened += 1;
        let first = [self.lines.outside.len(), self.closed.outside.len()];
        self.open.push(Open { name, number: self.opened, lines: self.count, first });
        Ok(())
    }

    pub fn close(&mut self, name: &'b [u8]) -> Result<(), Refusal> {
        let Open { number, first: [line, paragraph], .. } =
            self.open.pop_if(|open| open.name == name).ok_or(Refusal::Unbalanced)?;
        self.inside.extend(self.lines.take_back(line).map(|(name, line)| ((number, name), line)));
        self.closed.take_back(paragraph).for_each(drop);
        self.closed.give(name, number, self.open.is_empty());
        Ok(())
    }
}
