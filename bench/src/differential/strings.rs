//! Strings of cells at the desk: whole ones, often about as long as the limit or far longer, and ones with a fault.

use super::calls::{Call, USUAL_LIMIT};
use super::comparison::Comparison;
use super::desk::Desk;
use super::expressions::Maker;
use super::faults::{Fault, Spoiler, FAULTS};
use super::pairs::AMPLE;
use super::stored;
use super::theory::Theory;
use super::whole::Vocabulary;
use crate::baseline::{cells, Accepted};
use crate::pairs::{Order, Pair, Request};
use crate::random::Random;
use crate::sizes::{Cell, LARGEST_LIMIT, SMALLEST_LIMIT};
use crate::{Answer, Outcome};

/// Of the accepted and of the refused books every so many gets strings; so many pairs of them, and one over a refused book or under
/// a limit above the usual one.
const ACCEPTED_ASKED: usize = 8;
const REFUSED_ASKED: usize = 16;
const PAIRS: usize = 8;
/// Most strings that are as long as comes about have no more cells than this.
const SHORT: usize = 12;
/// Strings above the limit have at most so many cells.
const LONGEST: usize = 6_000;

const MET: [&str; 11] = [
    "pairs of strings over refused books",
    "pairs of whole strings that are compared",
    "18 for the left string alone",
    "18 for the right string alone",
    "18 for both strings",
    "18 for a string above the limit",
    "18 for the string beside a whole one above the limit",
    "10 for a whole string above the limit",
    "10 for a whole string of one cell above the limit",
    "whole strings of as many cells as the limit, compared",
    "strings with a change that are whole",
];

/// What was met in strings.
#[derive(Default)]
pub struct Strings {
    accepted: usize,
    refused: usize,
    met: [usize; MET.len()],
    /// Strings that are not whole for each of the faults.
    faults: [usize; FAULTS.len()],
    /// Whole strings among all short ones; strings at the extremes.
    pub short: usize,
    pub extreme: usize,
}

impl Strings {
    /// Each count that must not be 0, with what it counts.
    pub fn counts(&self) -> Vec<(String, usize)> {
        let faults = FAULTS.iter().zip(self.faults).map(|((_, title), count)| (format!("18 for {title}"), count));
        let others = [("whole strings among all short ones", self.short), ("strings at the extremes", self.extreme)];
        MET.into_iter().zip(self.met).chain(others).map(|(title, count)| (title.to_string(), count)).chain(faults).collect()
    }

    /// Notes a pair over an accepted book, by which of its strings are whole.
    fn note(&mut self, pair: &Pair, whole: [bool; 2], limit: usize) {
        let lengths = pair.sides().map(<[Cell]>::len);
        let both = whole == [true; 2];
        let longest = lengths[0].max(lengths[1]);
        let sides = || lengths.into_iter().zip(whole);
        let met = [
            false,
            both && longest <= limit,
            whole == [false, true],
            whole == [true, false],
            whole == [false; 2],
            sides().any(|(length, whole)| !whole && length > limit),
            !both && sides().any(|(length, whole)| whole && length > limit),
            both && longest > limit,
            both && longest == limit + 1,
            both && longest == limit,
            false,
        ];
        self.met.iter_mut().zip(met).for_each(|(count, met)| *count += usize::from(met));
    }

    fn note_fault(&mut self, fault: Fault, whole: bool) {
        let place = FAULTS.iter().position(|(other, _)| *other == fault).expect("each fault is listed");
        let count = if whole { &mut self.met[MET.len() - 1] } else { &mut self.faults[place] };
        *count += 1;
    }
}

/// A string, and the fault that was put in it.
pub struct Made {
    pub string: Vec<Cell>,
    pub fault: Option<Fault>,
}

/// Makes strings over some lines.
pub struct StringMaker<'s> {
    pub random: &'s mut Random,
    pub theory: &'s Theory,
    pub vocabulary: &'s Vocabulary,
    pub limit: usize,
}

impl StringMaker<'_> {
    pub fn pair(&mut self) -> [Made; 2] {
        let faulty = match self.random.below(6) {
            0..=1 => [true, false],
            2..=3 => [false, true],
            both => [both == 4; 2],
        };
        let first = self.whole();
        let second = if self.random.once_in(3) { first.clone() } else { self.whole() };
        let [left, right] = [(first, faulty[0]), (second, faulty[1])]
            .map(|(string, faulty)| if faulty { self.spoiled(string) } else { Made { string, fault: None } });
        [left, right]
    }

    fn spoiled(&mut self, string: Vec<Cell>) -> Made {
        let (fault, _) = *self.random.choose(&FAULTS);
        let spoiled = Spoiler { random: self.random, vocabulary: self.vocabulary }.spoiled(string.clone(), fault);
        let fault = spoiled.is_some().then_some(fault);
        Made { string: spoiled.unwrap_or(string), fault }
    }

    /// A whole string: of the book, put together, about as long as the limit, or longer.
    fn whole(&mut self) -> Vec<Cell> {
        let limit = self.limit;
        let length = match self.random.below(16) {
            0 => return vec![cells::TYPE],
            1..=4 if self.vocabulary.lines > 0 => return self.taken(),
            1..=8 => self.random.between(1, SHORT),
            9..=12 => limit - 1 + self.random.below(3),
            13 => limit + self.random.between(1, 2 * limit),
            14 => 10 * limit,
            _ => self.random.between(1, limit),
        };
        self.vocabulary.string(self.random, length.min(LONGEST))
    }

    /// A side of a pair of expressions.
    fn taken(&mut self) -> Vec<Cell> {
        let [side, _] = Maker { random: self.random, theory: self.theory }.pair();
        stored::cells(&side)
    }
}

impl Comparison {
    /// Strings at the desk of some books.
    pub fn strings_of_some_books(&mut self, book: &[u8], call: &Call, outcome: &Outcome) {
        let accepted = outcome.code == 0;
        let Strings { accepted: accepted_books, refused, .. } = &mut self.strings;
        let (count, asked) = if accepted { (accepted_books, ACCEPTED_ASKED) } else { (refused, REFUSED_ASKED) };
        *count += 1;
        if *count % asked != 0 {
            return;
        }
        // With random numbers of their own, so that they change no other book.
        let random = &mut Random::new(*count as u64);
        let desk = Desk::new(book, *call);
        let pairs = if accepted && call.limit <= USUAL_LIMIT { PAIRS } else { 1 };
        self.strings_at(random, &desk, pairs);
    }

    /// So many pairs of strings at a desk.
    pub fn strings_at(&mut self, random: &mut Random, desk: &Desk, pairs: usize) {
        let theory = stored::theory(desk.outcome.recorded(), &desk.left);
        let vocabulary = Vocabulary::of(&theory);
        let limit = desk.call.limit.clamp(SMALLEST_LIMIT, LARGEST_LIMIT) as usize;
        for _ in 0..pairs {
            let made = StringMaker { random, theory: &theory, vocabulary: &vocabulary, limit }.pair();
            if desk.accepted() {
                self.made(random, desk, made);
            } else {
                let [left, right] = made.map(|side| side.string);
                self.strings.met[0] += 1;
                let budget = *random.choose(&[0, AMPLE, u32::MAX]);
                self.pair(desk, &Pair { left, right }, budget);
            }
        }
    }

    /// A pair at the desk of an accepted book: 18 if a string has a fault that says so, and none without a fault.
    fn made(&mut self, random: &mut Random, desk: &Desk, [left, right]: [Made; 2]) {
        let faults = [left.fault, right.fault];
        let pair = Pair { left: left.string, right: right.string };
        let mut accepted = Accepted::of_stores(desk.outcome.recorded(), &desk.left);
        let whole = pair.sides().map(|side| accepted.is_whole(side));
        for (fault, whole) in faults.into_iter().zip(whole) {
            if whole != fault.is_none() && fault.is_none_or(Fault::is_certain) {
                self.differ(desk.book, &format!("{pair:?}\n{faults:?}, whole by the baseline: {whole:?}"));
            }
            fault.into_iter().for_each(|fault| self.strings.note_fault(fault, whole));
        }
        self.strings.note(&pair, whole, desk.call.limit as usize);
        let budget = budget(random, &mut accepted, desk.call.limit, &pair);
        let answers = self.pair(desk, &pair, budget);
        self.strings_ended(desk, &pair, whole, answers);
    }

    /// 18 is given where a string is not whole, and 10 without a step where a whole one is above the limit.
    fn strings_ended(&mut self, desk: &Desk, pair: &Pair, whole: [bool; 2], answers: [Answer; 2]) {
        let above = pair.sides().iter().any(|side| side.len() > desk.call.limit as usize);
        let fits = |answer: &Answer| match whole {
            [true, true] if above => (answer.code, answer.steps) == (10, 0),
            [true, true] => matches!(answer.code, 0 | 9 | 10 | 11),
            _ => (answer.code, answer.steps) == (18, 0),
        };
        if !answers.iter().all(fits) {
            self.differ(desk.book, &format!("{pair:?}\n{answers:?}, whole: {whole:?}, above the limit: {above}"));
        }
    }
}

/// A budget: none, few steps, or all of them where the comparison ends.
fn budget(random: &mut Random, accepted: &mut Accepted, limit: u32, pair: &Pair) -> u32 {
    let ends = |order| accepted.answer(limit, &Request { order, pair, budget: AMPLE }).0.code != 11;
    let most = if Order::BOTH.map(ends) == [true; 2] { u32::MAX } else { AMPLE };
    *random.choose(&[0, 1, AMPLE, most, most])
}
