//! Widening and narrowing by both programs: of shelves of any cells, and of those that accepted books leave.

use super::calls::{cell_pattern, narrow_pattern, room, MORE_ROOM};
use super::comparison::Comparison;
use crate::random::Random;
use crate::sizes::{Cell, NarrowCell, CODES};
use crate::{baseline, verified, Answer, Outcome};

const SEED: u64 = 2;
const SHELVES: usize = 40_000;
const LONGEST_SHELF: usize = 300;
/// Of the accepted books every so many has its shelf narrowed.
const BOOKS_NARROWED: usize = 4;

const LARGEST_NARROW: Cell = NarrowCell::MAX as Cell;
/// The cells about the width that is gained, and the ends.
const EDGES: [Cell; 5] = [0, LARGEST_NARROW - 1, LARGEST_NARROW, LARGEST_NARROW + 1, Cell::MAX];

/// What was met in widening and narrowing.
#[derive(Default)]
pub struct Widths {
    pub widened: [usize; CODES],
    pub narrowed: [usize; CODES],
    /// Shelves that were widened and narrowed again, and those the other way round.
    narrowed_back: usize,
    widened_back: usize,
    accepted: usize,
    /// Shelves of books that came back, and that have a cell too wide.
    books_back: usize,
    books_too_wide: usize,
}

impl Widths {
    /// Each count that must not be 0, with what it counts.
    pub fn counts(&self) -> [(&'static str, usize); 4] {
        [
            ("shelves widened, then narrowed back", self.narrowed_back),
            ("shelves narrowed, then widened back", self.widened_back),
            ("shelves of books narrowed, then widened back", self.books_back),
            ("shelves of books with a cell above 65,535", self.books_too_wide),
        ]
    }
}

impl Comparison {
    /// Compares both calls on many shelves.
    pub fn shelves(&mut self) {
        let mut random = Random::new(SEED);
        for _ in 0..SHELVES {
            let narrow = narrow_shelf(&mut random);
            let target = room(&mut random, narrow.len(), MORE_ROOM);
            if let Some(wide) = self.widen(&narrow, target) {
                self.widths.narrowed_back += 1;
                let back = self.narrow(&wide, narrow.len());
                self.same("narrowed back", back.as_ref() == Some(&narrow));
            }
            let wide = shelf(&mut random);
            let target = room(&mut random, wide.len(), MORE_ROOM);
            self.widths.widened_back += usize::from(self.there_and_back(&wide, target));
        }
    }

    /// The shelf that the check of every so many an accepted book has left.
    pub fn shelf_of_some_books(&mut self, outcome: &Outcome) {
        self.widths.accepted += usize::from(outcome.code == 0);
        if outcome.code == 0 && self.widths.accepted % BOOKS_NARROWED == 0 {
            self.shelf_of_book(outcome);
        }
    }

    /// The shelf that the check of an accepted book has left: narrowed where it can be, and widened back.
    pub fn shelf_of_book(&mut self, outcome: &Outcome) {
        if outcome.code == 0 {
            let cells = self.theirs.recorded_cells(outcome.recorded());
            let shelf = self.theirs.terms[..cells].to_vec();
            let back = self.there_and_back(&shelf, cells);
            self.widths.books_back += usize::from(back);
            self.widths.books_too_wide += usize::from(!back);
        }
    }

    /// Whether a shelf can be narrowed in so many cells; then it is, and widened back.
    fn there_and_back(&mut self, shelf: &[Cell], target: usize) -> bool {
        let Some(narrow) = self.narrow(shelf, target) else { return false };
        let back = self.widen(&narrow, shelf.len());
        self.same("widened back", back.as_deref() == Some(shelf));
        true
    }

    fn widen(&mut self, source: &[NarrowCell], room: usize) -> Option<Vec<Cell>> {
        let calls = [verified::widen, baseline::widen].map(|call| called(call, source, room, cell_pattern));
        let (answer, target) = self.alike(calls, source, room, cell_pattern);
        self.widths.widened[answer.code as usize] += 1;
        (answer.code == 0).then_some(target)
    }

    fn narrow(&mut self, source: &[Cell], room: usize) -> Option<Vec<NarrowCell>> {
        let calls = [verified::narrow, baseline::narrow].map(|call| called(call, source, room, narrow_pattern));
        let (answer, target) = self.alike(calls, source, room, narrow_pattern);
        self.widths.narrowed[answer.code as usize] += 1;
        (answer.code == 0).then_some(target)
    }

    /// Compares the two answers and targets; gives the answer, and what was written.
    fn alike<S: std::fmt::Debug, T: Copy + PartialEq>(
        &mut self, calls: [(Answer, Vec<T>); 2], source: &[S], room: usize, pattern: fn(usize) -> T,
    ) -> (Answer, Vec<T>) {
        let [(ours, target), (theirs, mut other)] = calls;
        let length = theirs.length as usize;
        let untouched = (length..room).all(|i| other[i] == pattern(i));
        if ours != theirs || target != other || !untouched {
            let shown = &source[..source.len().min(LONGEST_SHELF)];
            let alike = target == other;
            self.differ(b"", &format!("{shown:?} room {room}\n{ours:?} verified\n{theirs:?} baseline, targets alike: {alike}"));
        }
        other.truncate(length);
        (theirs, other)
    }

    fn same(&mut self, how: &str, same: bool) {
        if !same {
            self.differ(b"", &format!("a shelf {how} is another"));
        }
    }
}

/// What a call answers and leaves in a target that held the pattern.
fn called<S, T>(call: fn(&[S], &mut [T]) -> Answer, source: &[S], room: usize, pattern: fn(usize) -> T) -> (Answer, Vec<T>) {
    let mut target: Vec<T> = (0..room).map(pattern).collect();
    (call(source, &mut target), target)
}

/// Empty, short or longer.
fn length(random: &mut Random) -> usize {
    match random.below(8) {
        0 => 0,
        1..=5 => random.between(1, 9),
        _ => random.between(10, LONGEST_SHELF),
    }
}

/// A shelf of cells as books have them, or with some at the edges, or of any.
fn shelf(random: &mut Random) -> Vec<Cell> {
    let edges = random.below(4);
    (0..length(random))
        .map(|_| match edges {
            0 => random.below(LARGEST_NARROW as usize + 1) as Cell,
            1 => *random.choose(&EDGES[..3]),
            2 if random.once_in(30) => *random.choose(&EDGES),
            2 => random.below(200) as Cell,
            _ => random.next() as Cell,
        })
        .collect()
}

fn narrow_shelf(random: &mut Random) -> Vec<NarrowCell> {
    shelf(random).iter().map(|&c| c as NarrowCell).collect()
}
