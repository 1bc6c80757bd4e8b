//! The verified program and the baseline on the same calls, and what they leave in every cell.

use super::calls::{pattern, Call, Question};
use super::pairs::Pairs;
use super::printed::Printed;
use super::sheets::Sheets;
use super::situations::Situations;
use super::strings::Strings;
use super::widths::Widths;
use crate::baseline::{self, Notes};
use crate::random::Random;
use crate::sizes::CODES;
use crate::stores::Stores;
use crate::{verified, Outcome};

const MOST_SHOWN: usize = 5;
/// Of the refused books every so many is asked about, of the accepted ones every second.
const REFUSED_ASKED: usize = 8;

/// Two faults in one line: the code that it gets, and the one that it would get without the first.
const RIVALS: [[usize; 2]; 11] =
    [[3, 14], [4, 14], [5, 14], [6, 14], [10, 14], [14, 5], [14, 6], [14, 10], [14, 12], [5, 10], [6, 10]];

/// The two programs side by side, and the counts of what they gave.
#[derive(Default)]
pub struct Comparison {
    pub(super) ours: Stores,
    pub(super) theirs: Stores,
    codes: [usize; CODES],
    /// Books with variables put in, with 10 for a completed size alone, for a completed nesting alone.
    completed: [usize; 3],
    /// Books with two faults in the refused line; with 5 for a constant as indicator.
    rivals: [usize; RIVALS.len()],
    constant_indicators: usize,
    situations: Situations,
    /// Books that kept their cells when they were divided.
    pub(super) divisions: usize,
    /// The codes of `rests_on`; of those with 12, the lists that do not fit.
    answers: [usize; CODES],
    unfit: usize,
    pub(super) printed: Printed,
    pub(super) widths: Widths,
    pub(super) pairs: Pairs,
    pub(super) strings: Strings,
    pub(super) sheets: Sheets,
    steps: u64,
    differences: usize,
}

impl Comparison {
    /// Compares the checks of a book, then of some books what a line rests on, their pages, and pairs, strings and lists at their
    /// desks.
    pub fn compare(&mut self, random: &mut Random, book: &[u8], call: &Call) {
        let outcome = self.check(book, call);
        self.shelf_of_some_books(&outcome);
        if random.once_in(if outcome.code == 0 { 2 } else { REFUSED_ASKED }) {
            let question = Question::new(random, &outcome, &self.theirs);
            self.rests_on(book, call, &outcome, question);
        }
        self.print(random, book, call, &outcome);
        self.pairs_of_some_books(book, call, &outcome);
        self.strings_of_some_books(book, call, &outcome);
        self.sheets_of_some_books(book, call, &outcome);
    }

    pub fn check(&mut self, book: &[u8], call: &Call) -> Outcome {
        let mut notes = Notes::default();
        call.prepare(&mut self.ours);
        call.prepare(&mut self.theirs);
        let ours = verified::check(book, call.budget, call.limit, &mut self.ours);
        let theirs = baseline::check_noting(book, call.budget, call.limit, &mut self.theirs, &mut notes);
        let alike = self.ours == self.theirs;
        if ours != theirs || !alike || !call.left_alone(&self.theirs, &theirs) {
            self.differ(book, &format!("{call:?}\n{ours:?} verified\n{theirs:?} baseline, stores alike: {alike}"));
        }
        self.codes[theirs.code as usize] += 1;
        self.steps += theirs.steps;
        self.note(&notes, theirs.code as usize);
        self.situations.note(book, call.limit, &theirs, &notes, &self.theirs);
        theirs
    }

    fn note(&mut self, notes: &Notes, code: usize) {
        let met = [notes.put_in > 0, notes.only_completed_size, notes.only_completed_nesting];
        met.iter().zip(&mut self.completed).for_each(|(met, count)| *count += usize::from(*met));
        for ([first, other], count) in RIVALS.iter().zip(&mut self.rivals) {
            *count += usize::from(*first == code && notes.faults.has(*other));
        }
        self.constant_indicators += usize::from(notes.faults.constant_indicator);
    }

    /// What the last line of an accepted book rests on, with just enough room and with one cell less.
    pub fn last_line(&mut self, book: &[u8], call: &Call, outcome: &Outcome) {
        if outcome.code != 0 {
            return;
        }
        let length = baseline::primitives(outcome.line as usize, &self.theirs).len();
        for room in [length, length.saturating_sub(1)] {
            self.rests_on(book, call, outcome, Question { line: outcome.line, room });
        }
    }

    /// What a line rests on, by a call whose check has this outcome: it leaves what the check leaves, and the answer.
    fn rests_on(&mut self, book: &[u8], call: &Call, outcome: &Outcome, question: Question) {
        call.prepare(&mut self.ours);
        call.prepare(&mut self.theirs);
        let Question { line, room } = question;
        let mut answer: Vec<u32> = (0..room).map(pattern).collect();
        let mut list = answer.clone();
        let ours = verified::rests_on(book, call.budget, call.limit, &mut self.ours, line, &mut answer);
        let theirs = baseline::rests_on(book, call.budget, call.limit, &mut self.theirs, line, &mut list);
        let alike = self.ours == self.theirs && answer == list;
        let untouched = (theirs.length as usize..room).all(|i| list[i] == pattern(i));
        if ours != theirs || !alike || !untouched || !call.left_alone(&self.theirs, outcome) {
            self.differ(book, &format!("{call:?} {question:?}\n{ours:?} verified\n{theirs:?} baseline, stores alike: {alike}"));
        }
        self.answers[theirs.code as usize] += 1;
        self.unfit += usize::from(outcome.code == 0 && theirs.code == 12);
    }

    pub(super) fn differ(&mut self, book: &[u8], how: &str) {
        self.differences += 1;
        if self.differences <= MOST_SHOWN {
            let shown = &book[..book.len().min(20_000)];
            println!("{how}\n{}\n", shown.escape_ascii().to_string().replace("\\n", "\n"));
        }
    }

    /// Prints the counts; true if there was no difference and each code and each situation was met.
    pub fn report(&self) -> bool {
        println!("code    check rests_on    pages    widen   narrow    first   second    sheet   places");
        for code in 0..CODES {
            print!("{code:>4}");
            self.calls().iter().for_each(|(counts, _)| print!(" {:>8}", counts[code]));
            println!();
        }
        let [put_in, size, nesting] = self.completed;
        println!("12 for a list that does not fit: {}", self.unfit);
        println!("arguments put in: {put_in} books");
        println!("10 on the completed form alone: {size} for its size, {nesting} for its nesting");
        for ([first, other], count) in RIVALS.iter().zip(&self.rivals) {
            println!("{first} ahead of {other}: {count}");
        }
        println!("5 for a constant as indicator: {}", self.constant_indicators);
        let divisions = ("accepted books divided into paragraphs, with the same cells", self.divisions);
        let others = self.situations.counts().chain([divisions]).chain(self.printed.counts()).chain(self.widths.counts());
        let others = others.chain(self.pairs.counts()).chain(self.sheets.counts()).map(|(what, count)| (what.to_string(), count));
        let others: Vec<_> = others.chain(self.strings.counts()).collect();
        for (what, count) in &others {
            println!("{what}: {count}");
        }
        println!("{} head steps, {} differences", self.steps, self.differences);
        let counts = self.completed.iter().chain(&self.rivals).chain([&self.unfit, &self.constant_indicators]);
        let others = others.iter().map(|(_, count)| count);
        self.differences == 0 && self.all_codes_met() && counts.chain(others).all(|&count| count > 0)
    }

    /// How often each call gave each code, and the codes that it can give.
    fn calls(&self) -> [(&[usize; CODES], fn(usize) -> bool); 9] {
        [
            (&self.codes, |code| code <= 12 || code == 14 || code == 17),
            (&self.answers, |code| code <= 14 || code == 17),
            (&self.printed.codes, |code| code <= 12 || code == 14 || code == 15 || code == 17),
            (&self.widths.widened, |code| code == 0 || code == 15),
            (&self.widths.narrowed, |code| code == 0 || code == 15 || code == 16),
            (&self.pairs.codes[0], |code| code <= 12 || code == 14 || code == 17 || code == 18),
            (&self.pairs.codes[1], |code| code <= 12 || code == 14 || code == 17 || code == 18),
            (&self.sheets.codes, |code| code <= 12 || code == 14 || code == 15 || code == 17),
            (&self.sheets.places, |code| matches!(code, 0 | 9 | 10 | 11 | 18)),
        ]
    }

    /// Each call gave those codes that it can give.
    fn all_codes_met(&self) -> bool {
        self.calls().iter().all(|(counts, given)| (0..CODES).all(|code| (counts[code] > 0) == given(code)))
    }
}
