//! A book without paragraphs, with what each of its names means.

use std::collections::{HashMap, HashSet};

use super::mutate::{lines, symbols};

/// A symbol of a line.
pub enum Piece {
    /// The identifier of the line.
    Identifier,
    /// A name that means a line, known by its place from 0.
    Use(usize),
    Other(Vec<u8>),
}

pub struct Line {
    pub identifier: Vec<u8>,
    pub pieces: Vec<Piece>,
}

pub struct Flat {
    pub lines: Vec<Line>,
    /// The names that are bound somewhere.
    pub bound: HashSet<Vec<u8>>,
}

/// Reads a book all of whose lines are of the form without paragraphs.
pub fn read(book: &[u8]) -> Option<Flat> {
    let mut flat = Flat { lines: Vec::new(), bound: HashSet::new() };
    let mut places = HashMap::new();
    for line in lines(book) {
        let symbols: Vec<Vec<u8>> = symbols(&line).into_iter().filter(|s| s != b" ").collect();
        let mut walk = Walk { symbols: &symbols, places: &places, pieces: Vec::new(), around: Vec::new(), bound: &mut flat.bound };
        let identifier = walk.line()?;
        let pieces = walk.pieces;
        places.entry(identifier.clone()).or_insert(flat.lines.len());
        flat.lines.push(Line { identifier, pieces });
    }
    Some(flat)
}

struct Walk<'w> {
    /// What is still to be read.
    symbols: &'w [Vec<u8>],
    places: &'w HashMap<Vec<u8>, usize>,
    pieces: Vec<Piece>,
    /// The bound names around the current place.
    around: Vec<Vec<u8>>,
    bound: &'w mut HashSet<Vec<u8>>,
}

impl Walk<'_> {
    /// Reads the line; gives its identifier.
    fn line(&mut self) -> Option<Vec<u8>> {
        if self.symbols.first()? != b"*" {
            self.name()?;
        }
        self.expect(b"*")?;
        let identifier = self.next()?;
        self.pieces.push(Piece::Identifier);
        self.expect(b":=")?;
        self.expression()?;
        self.expect(b":")?;
        self.expression()?;
        self.expect(b"\n")?;
        Some(identifier)
    }

    fn next(&mut self) -> Option<Vec<u8>> {
        let (first, rest) = self.symbols.split_first()?;
        self.symbols = rest;
        Some(first.clone())
    }

    fn expect(&mut self, symbol: &[u8]) -> Option<()> {
        let next = self.next().filter(|next| next == symbol)?;
        self.pieces.push(Piece::Other(next));
        Some(())
    }

    fn name(&mut self) -> Option<()> {
        let name = self.next()?;
        let line = if self.around.contains(&name) { None } else { self.places.get(&name) };
        self.pieces.push(line.map_or(Piece::Other(name), |&line| Piece::Use(line)));
        Some(())
    }

    fn expression(&mut self) -> Option<()> {
        match &self.symbols.first()?[..] {
            b"<" => {
                self.expect(b"<")?;
                self.expression()?;
                self.expect(b">")?;
                self.expression()
            }
            b"[" => {
                self.expect(b"[")?;
                let name = self.next()?;
                self.pieces.push(Piece::Other(name.clone()));
                self.expect(b",")?;
                self.expression()?;
                self.expect(b"]")?;
                self.bound.insert(name.clone());
                self.around.push(name);
                self.expression()?;
                self.around.pop();
                Some(())
            }
            _ => {
                self.name()?;
                self.arguments()
            }
        }
    }

    fn arguments(&mut self) -> Option<()> {
        if self.symbols.first()? != b"(" {
            return Some(());
        }
        self.expect(b"(")?;
        loop {
            self.expression()?;
            if self.symbols.first()? != b"," {
                return self.expect(b")");
            }
            self.expect(b",")?;
        }
    }
}
