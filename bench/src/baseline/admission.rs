//! The lines of a book, admitted one after another.

use super::category::Checker;
use super::dependencies::Dependencies;
use super::lines::Lines;
use super::names::Names;
use super::notes::Notes;
use super::reader::Reader;
use super::source::{Line, ParagraphLine};
use super::Refusal;
use crate::pairs::Order;
use crate::sizes::{Cell, MOST_LINES, ROW_WIDTH};
use crate::stores::Stores;

pub struct Admission<'b, 's> {
    limit: usize,
    stores: &'s mut Stores,
    notes: &'s mut Notes,
    lines: Lines,
    names: Names<'b>,
    dependencies: Dependencies,
    checker: Checker,
    /// How many cells of the term store and of the index are used.
    used: usize,
    indexed: usize,
}

impl<'b, 's> Admission<'b, 's> {
    pub fn new(budget: u32, limit: usize, order: Order, stores: &'s mut Stores, notes: &'s mut Notes) -> Self {
        let (lines, names, dependencies) = (Lines::new(), Names::default(), Dependencies::default());
        let checker = Checker::new(budget, limit, order);
        Admission { limit, stores, notes, lines, names, dependencies, checker, used: 0, indexed: 0 }
    }

    pub fn lines(&self) -> usize {
        self.lines.count()
    }

    pub fn steps(&self) -> u32 {
        self.checker.steps()
    }

    /// The lines that were accepted.
    pub fn into_lines(self) -> Lines {
        self.lines
    }

    pub fn book(&mut self, book: &'b [u8]) -> Result<(), Refusal> {
        let mut reader = Reader::new(book, self.limit);
        while !reader.at_end() {
            self.notes.line = reader.at();
            let read = self.next(&mut reader);
            self.notes.stopped = reader.at();
            read?;
        }
        self.notes.line = reader.at();
        if self.names.any_open() { Err(Refusal::Unbalanced) } else { Ok(()) }
    }

    /// A line of either form.
    fn next(&mut self, reader: &mut Reader<'b>) -> Result<(), Refusal> {
        match reader.paragraph_line()? {
            Some(ParagraphLine::Opening(name)) => self.names.open(name),
            Some(ParagraphLine::Closing(name)) => self.names.close(name),
            None => self.line(reader),
        }
    }

    fn line(&mut self, reader: &mut Reader<'b>) -> Result<(), Refusal> {
        let read = reader.line(&mut self.lines, &self.names);
        self.notes.faults = reader.faults();
        self.notes.name = reader.refused_name();
        let line = read?;
        let cells = reader.cells();
        let count = self.lines.count();
        let entry = self.dependencies.of_line(count as u32 + 1, line.indicator, cells);
        let Stores { table, terms, index, .. } = &mut *self.stores;
        let full = table.len() / ROW_WIDTH <= count || terms.len() - self.used < cells.len() || index.len() - self.indexed <= entry.len();
        // In the order in which they are looked at.
        let faults = [
            self.names.taken(line.identifier).then_some(Refusal::Duplicate),
            reader.name_refusal(),
            line.too_large().then_some(Refusal::TooLarge),
            (full || count == MOST_LINES).then_some(Refusal::OutOfSpace),
        ];
        if let Some(&refusal) = faults.iter().flatten().next() {
            self.notes.refused(refusal, &faults, &line, self.limit);
            return Err(refusal);
        }
        self.checker.line(&self.lines, &terms[..self.used], cells, line.middle.length)?;

        index[self.indexed] = entry.len() as u32;
        index[self.indexed + 1..self.indexed + 1 + entry.len()].copy_from_slice(entry);
        self.indexed += 1 + entry.len();
        self.record(&line, cells);
        Ok(())
    }

    /// Records a line that is accepted, its entry in the index apart.
    fn record(&mut self, line: &Line<'b>, cells: &[Cell]) {
        let Stores { table, terms, .. } = &mut *self.stores;
        let (count, start) = (self.lines.count(), self.used);
        let places = [start, start + line.middle.length, start + cells.len()];
        terms[start..places[2]].copy_from_slice(cells);
        let row = [
            line.start as u32, line.identifier.len() as u32, line.indicator,
            line.context.length(), line.kind as u32,
            places[0] as u32, places[1] as u32, places[2] as u32,
            self.names.paragraph(),
        ];
        table[ROW_WIDTH * count..ROW_WIDTH * (count + 1)].copy_from_slice(&row);
        let number = self.lines.push(line.kind, line.context, places);
        self.names.insert(line.identifier, number);
        self.notes.put_in += line.parts().iter().map(|p| p.put_in).sum::<usize>();
        self.used = places[2];
    }
}
