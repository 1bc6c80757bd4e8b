//! Large correct books, the same at every run.

mod deep;
mod names;
mod pairs;
mod paragraphs;
mod sections;
mod steps;
mod theories;

use std::borrow::Borrow;

use crate::random::Random;
use crate::sizes::MOST_BYTES;
pub use pairs::PairKind;

/// What stands outside the paragraphs of a book, ahead of them.
const NUMBERS: &str = "
    *nat:=PN:type
    *one:=PN:nat
    *n:=EB:nat
    n*suc:=PN:nat
    n*m:=EB:nat
    m*plus:=PN:nat
    m*is:=PN:type
    n*refl:=PN:is(n,n)
";

/// In a long book so many bytes for each line leave room for the most lines.
const BYTES_A_LINE: usize = 254;

#[derive(Clone, Copy, Debug, PartialEq, Eq)]
pub enum Kind {
    /// Copies of a theory of numbers, equality and implication, with lemmas of their own.
    Theories,
    /// Many head steps: chains of abbreviations, redexes, numerals by doubling.
    Steps,
    /// Names of 28 to 32 bytes with common prefixes, contexts of 20 to 40 variables.
    Names,
    /// Nesting up to 32, and expressions near the limit.
    Deep,
    /// Parts of the four by turns.
    Mixed,
    /// As names, with contexts of 2 to 4 variables.
    Narrow,
    /// As deep, without the expressions near the limit.
    Nested,
    /// Parts of theories and steps by turns, and where the bytes allow it of names and deep.
    Long,
    /// Thousands of closed paragraphs beside each other, with the same identifiers in each.
    Paragraphs,
    /// Up to 32 paragraphs open, names from many paragraphs outward.
    Sections,
}

impl Kind {
    pub const USUAL: [Kind; 5] = [Kind::Theories, Kind::Steps, Kind::Names, Kind::Deep, Kind::Mixed];
    /// In place of the last three, of which the most lines have too many bytes.
    pub const LONG: [Kind; 3] = [Kind::Narrow, Kind::Nested, Kind::Long];
    pub const DIVIDED: [Kind; 2] = [Kind::Paragraphs, Kind::Sections];

    pub fn all() -> impl Iterator<Item = Kind> {
        Kind::USUAL.into_iter().chain(Kind::LONG).chain(Kind::DIVIDED)
    }

    /// Those that are taken with about 8,000 lines.
    pub fn short() -> impl Iterator<Item = Kind> {
        Kind::USUAL.into_iter().chain(Kind::DIVIDED)
    }

    pub fn title(self) -> &'static str {
        match self {
            Kind::Theories => "theories",
            Kind::Steps => "steps",
            Kind::Names => "names",
            Kind::Deep => "deep",
            Kind::Mixed => "mixed",
            Kind::Narrow => "narrow",
            Kind::Nested => "nested",
            Kind::Long => "long",
            Kind::Paragraphs => "paragraphs",
            Kind::Sections => "sections",
        }
    }

    /// The limit of cells under which the book is accepted.
    pub fn limit(self) -> u32 {
        match self {
            Kind::Deep | Kind::Mixed | Kind::Long => 2_050,
            _ => 1_024,
        }
    }

    /// What the next part is of, behind so many parts, of which some are of names or deep.
    fn turn(self, part: usize, large_parts: &mut usize, writer: &Writer) -> Kind {
        match self {
            Kind::Mixed => Kind::USUAL[part % 4],
            Kind::Long if writer.text.len() < BYTES_A_LINE * writer.lines => {
                *large_parts += 1;
                [Kind::Names, Kind::Deep][*large_parts % 2]
            }
            Kind::Long => [Kind::Theories, Kind::Steps][(part - *large_parts) % 2],
            kind => kind,
        }
    }
}

/// A name with its arguments, if it is written with any.
pub fn with_arguments<S: Borrow<str>>(name: &str, arguments: &[S]) -> String {
    if arguments.is_empty() { name.to_string() } else { format!("{name}({})", arguments.join(",")) }
}

/// A book of so many lines, or of as many as there is room for, paragraph lines apart. Its prefixes of whole lines, with their
/// paragraphs closed, are correct books too.
pub fn book(kind: Kind, lines: usize, seed: u64) -> Vec<u8> {
    let mut writer = Writer { most: lines, ..Writer::default() };
    let mut random = Random::new(seed);
    let mut first_theory = None;
    let mut part = 0;
    let mut large_parts = 0;
    while !writer.full() {
        match kind.turn(part, &mut large_parts, &writer) {
            Kind::Theories | Kind::Mixed | Kind::Long => {
                let first = *first_theory.get_or_insert(part);
                theories::part(&mut writer, &mut random, part, first);
            }
            Kind::Steps => steps::part(&mut writer, &mut random, part),
            Kind::Names => names::part(&mut writer, &mut random, part, &names::WIDE),
            Kind::Narrow => names::part(&mut writer, &mut random, part, &names::NARROW),
            Kind::Deep => deep::part(&mut writer, &mut random, part),
            Kind::Nested => deep::nested_part(&mut writer, &mut random, part),
            Kind::Paragraphs => paragraphs::part(&mut writer, &mut random, part),
            Kind::Sections => sections::part(&mut writer, &mut random, part),
        }
        part += 1;
    }
    writer.text
}

/// How many lines a book of the table has, paragraph lines apart.
pub fn count_lines(book: &[u8]) -> usize {
    book.split_inclusive(|&b| b == b'\n').filter(|line| !matches!(line[0], b'+' | b'-')).count()
}

/// A book being written; lines past the wanted number or the most bytes are dropped.
#[derive(Default)]
struct Writer {
    text: Vec<u8>,
    lines: usize,
    most: usize,
    no_room: bool,
    /// The open paragraphs, outermost first, and how many openings inside them were dropped.
    open: Vec<String>,
    dropped: usize,
}

impl Writer {
    fn full(&self) -> bool {
        self.no_room || self.lines == self.most
    }

    /// Whether there is room for one more line of this length and for the closings.
    fn has_room(&mut self, length: usize) -> bool {
        let closings: usize = self.open.iter().map(|name| name.len() + 2).sum();
        self.no_room |= self.text.len() + length + closings >= MOST_BYTES;
        !self.full()
    }

    fn put(&mut self, line: &str) {
        self.text.extend_from_slice(line.as_bytes());
        self.text.push(b'\n');
    }

    fn line(&mut self, line: &str) {
        if self.has_room(line.len()) {
            self.put(line);
            self.lines += 1;
        }
    }

    /// A text of several lines, in which `@` stands for what makes the names of this part its own.
    fn lines(&mut self, text: &str, own: &str) {
        for line in text.lines().map(str::trim).filter(|l| !l.is_empty()) {
            self.line(&line.replace('@', own));
        }
    }

    fn open(&mut self, name: &str) {
        if self.has_room(2 * (name.len() + 2)) {
            self.put(&format!("+{name}"));
            self.open.push(name.to_string());
        } else {
            self.dropped += 1;
        }
    }

    /// Closes the paragraph that was opened last.
    fn close(&mut self) {
        if self.dropped > 0 {
            self.dropped -= 1;
        } else if let Some(name) = self.open.pop() {
            self.put(&format!("-{name}"));
        }
    }
}
