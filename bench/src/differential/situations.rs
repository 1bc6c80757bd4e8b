//! What was met of paragraphs, in accepted books and where others were refused.

use std::collections::HashSet;

use super::mutate::{lines, symbols, WORDS};
use super::place::{identifier, paragraph_line, Named, Place};
use crate::baseline::Notes;
use crate::sizes::{KIND, MOST_OPEN, PARAGRAPH, SMALLEST_LIMIT};
use crate::stores::Stores;
use crate::Outcome;

const REFUSED: [&str; 18] = [
    "3 in a paragraph line",
    "3 at a point",
    "4 for a line in a paragraph, as a line",
    "4 for a line, as a paragraph",
    "4 for a paragraph, as a line",
    "4 for a paragraph, as a paragraph",
    "4 for a paragraph, 32 being open",
    "5 at p.a, no such paragraph",
    "5 at p.a, p being open",
    "5 at p.a, no such line in p",
    "5 at p.a as indicator",
    "6 at p.a",
    "12 for a paragraph",
    "14 at p.a",
    "14 through a variable that hides a line",
    "17 for a closing, another being innermost",
    "17 for a closing, none being open",
    "17 at the end",
];
const ACCEPTED: [&str; 9] = [
    "accepted books with paragraphs",
    "accepted books with p.a",
    "accepted books with p.a as indicator",
    "accepted books with p.a before arguments",
    "accepted books with p.a whose arguments are left out",
    "accepted books with an identifier that repeats",
    "accepted books with a name from 16 or more paragraphs outward",
    "accepted books with 32 paragraphs open",
    "accepted books with 60 or more closed in one, L = 16",
];
const FAR: usize = 16;
const MANY: usize = 60;

#[derive(Default)]
pub struct Situations {
    refused: [usize; REFUSED.len()],
    accepted: [usize; ACCEPTED.len()],
}

impl Situations {
    /// Each count that must not be 0, with what it counts.
    pub fn counts(&self) -> impl Iterator<Item = (&'static str, usize)> + '_ {
        REFUSED.into_iter().zip(self.refused).chain(ACCEPTED.into_iter().zip(self.accepted))
    }

    /// Notes a book with this outcome, that left these stores.
    pub fn note(&mut self, book: &[u8], limit: u32, outcome: &Outcome, notes: &Notes, stores: &Stores) {
        if outcome.line == 0 && outcome.code != 0 || !book.iter().any(|b| b"+-.".contains(b)) {
            return;
        }
        if outcome.code == 0 {
            add(&mut self.accepted, accepted(book, limit, stores));
        } else {
            add(&mut self.refused, refused(book, outcome.code, notes));
        }
    }
}

fn add<const N: usize>(counts: &mut [usize; N], met: [bool; N]) {
    counts.iter_mut().zip(met).for_each(|(count, met)| *count += usize::from(met));
}

fn refused(book: &[u8], code: u32, notes: &Notes) -> [bool; REFUSED.len()] {
    let place = Place::behind(&book[..notes.line]);
    let line = lines(&book[notes.line..]).into_iter().next().unwrap_or_default();
    let sign = paragraph_line(&line);
    let name = sign.as_ref().map(|(_, name)| name.clone()).or_else(|| identifier(&line)).unwrap_or_default();
    let taken = |by: Named, of: Named| code == 4 && place.taken(&name) == Some(by) && sign.is_some() == (of == Named::Paragraph);
    let (first, second, behind) = notes.name.map_or(Default::default(), |at| name_at(&book[at..]));
    let inside = second.as_ref().filter(|_| matches!(code, 5 | 6 | 14));
    let closed = place.closed(&first);
    let is_open = |name: &[u8]| place.open[1..].iter().any(|open| open.name == name);
    let unknown = |met: bool| code == 5 && inside.is_some() && met;
    let closing = code == 17 && sign.is_some();
    [
        code == 3 && sign.is_some(),
        code == 3 && at_point(&book[notes.line..notes.stopped], book.get(notes.stopped)),
        taken(Named::Line, Named::Line) && place.depth() > 0,
        taken(Named::Paragraph, Named::Line),
        taken(Named::Line, Named::Paragraph),
        taken(Named::Paragraph, Named::Paragraph),
        code == 4 && sign.is_some() && place.depth() == MOST_OPEN,
        unknown(closed.is_none() && !is_open(&first)),
        unknown(closed.is_none() && is_open(&first)),
        unknown(closed.is_some_and(|closed| inside.is_some_and(|name| closed.line(name).is_none()))),
        unknown(behind == b"*"),
        code == 6 && inside.is_some(),
        code == 12 && sign.is_some(),
        code == 14 && inside.is_some(),
        code == 14 && inside.is_none() && place.lines(&first).nth(1).is_some(),
        closing && place.depth() > 0,
        closing && place.depth() == 0,
        code == 17 && notes.line == book.len(),
    ]
}

/// Whether reading stopped at a point or at what stands behind one.
fn at_point(read: &[u8], next: Option<&u8>) -> bool {
    let last: Vec<Vec<u8>> = symbols(read).into_iter().rev().filter(|s| s != b" ").take(2).collect();
    let is_word = |symbol: &[u8]| WORDS.iter().any(|word| word.as_bytes() == symbol);
    let behind_point = match &last[..] {
        [word, point] if is_word(word) => point == b".",
        [point, ..] => point == b".",
        [] => false,
    };
    next == Some(&b'.') || behind_point
}

/// The name that a text begins with, what stands behind its point, if it has one, and the symbol behind it.
fn name_at(text: &[u8]) -> (Vec<u8>, Option<Vec<u8>>, Vec<u8>) {
    let end = text.iter().position(|&b| b == b'\n').unwrap_or(text.len());
    let mut symbols = symbols(&text[..end]).into_iter().filter(|s| s != b" ");
    let mut next = || symbols.next().unwrap_or_default();
    let (first, behind) = (next(), next());
    if behind == b"." { (first, Some(next()), next()) } else { (first, None, behind) }
}

fn accepted(book: &[u8], limit: u32, stores: &Stores) -> [bool; ACCEPTED.len()] {
    let mut place = Place::beginning();
    let mut depths = vec![0];
    let mut most_closed = 0;
    let (mut count, mut identifiers) = (0, HashSet::new());
    // With p.a at all, as indicator, before arguments, without those that it takes.
    let mut points = [false; 4];
    for line in lines(book) {
        match paragraph_line(&line) {
            Some((b'+', name)) => {
                place.open(name);
                depths.push(place.depth());
            }
            Some(_) => {
                place.close();
                most_closed = most_closed.max(place.innermost().closed.len());
            }
            None => {
                note_points(&line, &place, stores, &mut points);
                let name = identifier(&line).unwrap_or_default();
                identifiers.insert(name.clone());
                place.insert(name, count);
                count += 1;
            }
        }
    }
    let [inside, indicator, arguments, left_out] = points;
    let deepest = depths.iter().max() == Some(&MOST_OPEN);
    [
        depths.len() > 1, inside, indicator, arguments, left_out,
        identifiers.len() < count, names_far(count, &depths, stores), deepest,
        most_closed >= MANY && limit == SMALLEST_LIMIT,
    ]
}

fn note_points(line: &[u8], place: &Place, stores: &Stores, points: &mut [bool; 4]) {
    let symbols: Vec<Vec<u8>> = symbols(line).into_iter().filter(|s| s != b" ").collect();
    for window in symbols.windows(4).filter(|window| window[1] == b".") {
        let [paragraph, _, name, behind] = window else { continue };
        let named = place.closed(paragraph).and_then(|closed| closed.line(name));
        let takes = named.is_some_and(|line| {
            let row = stores.row(line);
            row[KIND] != 0 && row[KIND - 1] > 0
        });
        let (indicator, arguments) = (behind == b"*", behind == b"(");
        let met = [true, indicator, arguments, !arguments && takes];
        points.iter_mut().zip(met).for_each(|(point, met)| *point |= met);
    }
}

/// Whether a line names one that stands many paragraphs outward. Each paragraph's depth is given.
fn names_far(count: usize, depths: &[usize], stores: &Stores) -> bool {
    let depth = |line: usize| depths[stores.row(line)[PARAGRAPH] as usize];
    let mut at = 0;
    (0..count).any(|line| {
        let named = &stores.index[at + 1..][..stores.index[at] as usize];
        at += 1 + named.len();
        named.iter().any(|&other| depth(line) >= depth(other as usize - 1) + FAR)
    })
}
