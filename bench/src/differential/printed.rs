//! The pages of a book by both programs, and the book that is read back from them.

use super::calls::{byte_pattern, room, Call};
use super::comparison::Comparison;
use super::place::is_paragraph_line;
use crate::baseline;
use crate::random::Random;
use crate::sizes::{CODES, PAGE_ROW, ROW_WIDTH, TEXT_COLUMNS};
use crate::stores::Stores;
use crate::{verified, Outcome};

/// Of the accepted and of the refused books every so many is printed.
const ACCEPTED_PRINTED: usize = 4;
const REFUSED_PRINTED: usize = 16;
/// Of the printed books every so many is read back.
const READ_BACK: usize = 2;

/// What was met in printing.
#[derive(Default)]
pub struct Printed {
    pub codes: [usize; CODES],
    /// Books with spaces; lines of more than one row; lines that fill their last row; paragraph lines behind such a one; books read
    /// back; of these, books with paragraphs.
    spaced: usize,
    long_lines: usize,
    full_rows: usize,
    behind_full_rows: usize,
    read_back: usize,
    divided_read_back: usize,
    /// Of the book that is read back.
    again: Stores,
}

impl Printed {
    /// Each count that must not be 0, with what it counts.
    pub fn counts(&self) -> [(&'static str, usize); 6] {
        [
            ("printed books with spaces", self.spaced),
            ("printed lines of more than one row", self.long_lines),
            ("printed lines that fill their last row", self.full_rows),
            ("printed paragraph lines behind such a line", self.behind_full_rows),
            ("books read back", self.read_back),
            ("books with paragraphs read back", self.divided_read_back),
        ]
    }

    fn note(&mut self, book: &[u8]) {
        self.spaced += usize::from(book.contains(&b' '));
        let mut full = false;
        for (line, length) in book.split_inclusive(|&b| b == b'\n').zip(baseline::text_lengths(book)) {
            self.behind_full_rows += usize::from(full && is_paragraph_line(line));
            full = length % TEXT_COLUMNS == 0;
            self.long_lines += usize::from(length > TEXT_COLUMNS);
            self.full_rows += usize::from(full);
        }
    }

    /// Whether the book in columns 7 to 72 leaves what the printed one left, but for where identifiers begin.
    fn reads_back(&mut self, pages: &[u8], call: &Call, outcome: &Outcome, stores: &Stores) -> bool {
        let again = &mut self.again;
        call.prepare(again);
        let other = baseline::check(&baseline::read_back(pages), call.budget, call.limit, again);
        for line in 0..outcome.recorded() {
            again.table[ROW_WIDTH * line] = stores.table[ROW_WIDTH * line];
        }
        self.read_back += 1;
        self.divided_read_back += usize::from(pages.contains(&b'+'));
        other == *outcome && *again == *stores
    }
}

impl Comparison {
    /// Compares the pages of some books.
    pub fn print(&mut self, random: &mut Random, book: &[u8], call: &Call, outcome: &Outcome) {
        if random.once_in(if outcome.code == 0 { ACCEPTED_PRINTED } else { REFUSED_PRINTED }) {
            let room = room(random, baseline::page_length(book), PAGE_ROW + 1);
            let reads = random.once_in(READ_BACK);
            self.pages(book, call, outcome, room, reads);
        }
    }

    /// The pages of an accepted book with just enough room and with one byte less.
    pub fn whole_pages(&mut self, book: &[u8], call: &Call, outcome: &Outcome) {
        if outcome.code == 0 {
            let length = baseline::page_length(book);
            self.pages(book, call, outcome, length, true);
            self.pages(book, call, outcome, length - 1, false);
        }
    }

    /// The pages of a book, by a call whose check has this outcome: it leaves what the check leaves, and the pages.
    fn pages(&mut self, book: &[u8], call: &Call, outcome: &Outcome, room: usize, reads: bool) {
        call.prepare(&mut self.ours);
        call.prepare(&mut self.theirs);
        let mut page: Vec<u8> = (0..room).map(byte_pattern).collect();
        let mut other = page.clone();
        let ours = verified::pages(book, call.budget, call.limit, &mut self.ours, &mut page);
        let theirs = baseline::pages(book, call.budget, call.limit, &mut self.theirs, &mut other);
        let alike = self.ours == self.theirs && page == other;
        let length = theirs.length as usize;
        let untouched = (length..room).all(|i| other[i] == byte_pattern(i));
        if ours != theirs || !alike || !untouched || !call.left_alone(&self.theirs, outcome) {
            self.differ(book, &format!("{call:?} room {room}\n{ours:?} verified\n{theirs:?} baseline, stores alike: {alike}"));
        }
        self.printed.codes[theirs.code as usize] += 1;
        if theirs.code != 0 {
            return;
        }
        self.printed.note(book);
        if reads && !self.printed.reads_back(&other[..length], call, outcome, &self.theirs) {
            self.differ(book, &format!("{call:?}\n{outcome:?}: read back from its pages it is another"));
        }
    }
}
