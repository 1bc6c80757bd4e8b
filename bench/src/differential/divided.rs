//! Books divided into paragraphs. Lines get identifiers that repeat, and each name is written as it finds its line there.

use super::flat::{self, Flat, Piece};
use super::place::{Paragraph, Place};
use crate::random::Random;
use crate::sizes::MOST_OPEN;

/// Names that come again and again; some of them are lines' and paragraphs'.
const IDENTIFIERS: [&str; 6] = ["a", "b", "c", "d", "p", "q"];
const PARAGRAPHS: [&str; 6] = ["p", "q", "r", "s", "a", "b"];

/// How an author divides a book: how often in sixteenths a paragraph is opened or closed ahead of a line, and how many at once.
struct Habit {
    opens: usize,
    closes: usize,
    at_once: usize,
    /// Whether paragraphs are sometimes closed too early, or left open, and names hidden that are used.
    careless: bool,
}

struct Division<'d> {
    random: &'d mut Random,
    flat: &'d Flat,
    habit: Habit,
    /// The last line that names each line.
    last_use: Vec<usize>,
    /// The identifiers that were given.
    names: Vec<Vec<u8>>,
    place: Place,
    opened: usize,
    text: Vec<u8>,
}

/// A divided book, and whether its names mean what they meant.
pub struct Divided {
    pub book: Vec<u8>,
    pub careful: bool,
}

/// A book divided, unless it has paragraphs or is of another form.
pub fn divide(random: &mut Random, book: &[u8]) -> Option<Divided> {
    let flat = flat::read(book)?;
    let mut last_use = vec![0; flat.lines.len()];
    for (at, line) in flat.lines.iter().enumerate() {
        line.pieces.iter().for_each(|piece| if let Piece::Use(named) = piece { last_use[*named] = at });
    }
    let (opens, closes, at_once) = *random.choose(&[(6, 8, 1), (4, 4, 2), (8, 2, 3), (3, 1, MOST_OPEN)]);
    let habit = Habit { opens, closes, at_once, careless: random.once_in(4) };
    let (place, names) = (Place::beginning(), Vec::new());
    let mut division = Division { random, flat: &flat, habit, last_use, names, place, opened: 0, text: Vec::new() };
    division.book();
    Some(Divided { book: division.text, careful: !division.habit.careless })
}

impl Division<'_> {
    fn book(&mut self) {
        for at in 0..self.flat.lines.len() {
            self.borders(at);
            self.line(at);
        }
        let left_open = usize::from(self.habit.careless && self.random.once_in(8));
        while self.place.depth() > left_open {
            self.close();
        }
    }

    /// Paragraph lines ahead of a line.
    fn borders(&mut self, at: usize) {
        while self.place.depth() > 0 && self.random.below(16) < self.habit.closes && self.may_close(at) {
            self.close();
        }
        if self.random.once_in(12) && self.place.depth() < MOST_OPEN {
            self.open(at);
            self.close();
        }
        if self.random.below(16) < self.habit.opens {
            for _ in 0..self.random.between(1, self.habit.at_once) {
                if self.place.depth() < MOST_OPEN || self.habit.careless && self.random.once_in(8) {
                    self.open(at);
                }
            }
        }
    }

    fn careless(&mut self) -> bool {
        self.habit.careless && self.random.once_in(20)
    }

    /// Whether no line from this one on names what stands in a paragraph of the innermost one.
    fn may_close(&mut self, at: usize) -> bool {
        !self.place.innermost().closed.iter().any(|closed| self.is_used(closed, at)) || self.careless()
    }

    fn is_used(&self, paragraph: &Paragraph, at: usize) -> bool {
        paragraph.lines.iter().any(|&(_, line)| self.last_use[line] >= at)
    }

    fn open(&mut self, at: usize) {
        let mut name = self.random.choose(&PARAGRAPHS).as_bytes().to_vec();
        let hides = self.place.closed(&name).is_some_and(|closed| self.is_used(closed, at));
        if self.place.taken(&name).is_some() || hides && !self.careless() {
            name = format!("section{}", self.opened).into_bytes();
        }
        self.opened += 1;
        self.text.extend([b"+", &name[..], b"\n"].concat());
        self.place.open(name);
    }

    fn close(&mut self) {
        let name = &self.place.innermost().name;
        self.text.extend([b"-", &name[..], b"\n"].concat());
        self.place.close();
    }

    fn line(&mut self, at: usize) {
        let name = self.identifier(at);
        for piece in &self.flat.lines[at].pieces {
            match piece {
                Piece::Identifier => self.text.extend(&name),
                Piece::Use(line) => self.text.extend(self.reference(*line)),
                Piece::Other(symbol) => self.text.extend(symbol),
            }
        }
        self.place.insert(name.clone(), at);
        self.names.push(name);
    }

    /// The identifier of a line: often one that comes again, if that hides no line which is still named.
    fn identifier(&mut self, at: usize) -> Vec<u8> {
        let own = self.flat.lines[at].identifier.clone();
        let other = self.random.choose(&IDENTIFIERS).as_bytes().to_vec();
        let repeats = self.random.once_in(2) && !self.flat.bound.contains(&other);
        for name in [repeats.then_some(other), Some(own)].into_iter().flatten() {
            let hides = self.place.lines(&name).next().is_some_and(|line| self.last_use[line] >= at);
            if self.place.taken(&name).is_none() && (!hides || self.careless()) {
                return name;
            }
        }
        format!("line{at}").into_bytes()
    }

    /// A line as it is named here; its identifier alone if it cannot be.
    fn reference(&self, line: usize) -> Vec<u8> {
        let name = &self.names[line];
        let holder = self.place.open.iter().flat_map(|open| &open.closed).find(|closed| closed.line(name) == Some(line));
        match holder {
            Some(Paragraph { name: paragraph, .. }) => [paragraph, &b"."[..], name].concat(),
            None => name.clone(),
        }
    }
}
