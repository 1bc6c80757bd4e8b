//! Sheets of answers by both programs, and each pair alone.

use super::calls::{pattern, room, Call, MORE_ROOM, USUAL_LIMIT};
use super::comparison::Comparison;
use super::desk::Desk;
use super::lists::ListMaker;
use super::stored;
use super::strings::StringMaker;
use super::whole::Vocabulary;
use crate::baseline::{self, Accepted};
use crate::pairs::{Order, Pair, Request};
use crate::random::Random;
use crate::sheets::{List, ListedPair, Span};
use crate::sizes::{CODES, LARGEST_LIMIT, SMALLEST_LIMIT};
use crate::{verified, Answer, Outcome};

/// Of the accepted and of the refused books every so many gets a list; under a limit above the usual one it has at most so many pairs.
const ACCEPTED_ASKED: usize = 4;
const REFUSED_ASKED: usize = 16;
const PAIRS_UNDER_LARGER: usize = 3;
/// About so many pairs of a sheet are compared alone, too.
const ALONE: usize = 6;
const HUNDRED: usize = 100;

const NOT_WHOLE: Answer = Answer { code: 18, line: 0, steps: 0, length: 0 };

const CALLS: [&str; 7] = [
    "lists over refused books",
    "lists over refused books, the sheet too short",
    "lists without pairs",
    "lists of a hundred pairs or more, compared",
    "sheets one place too short",
    "sheets just long enough",
    "sheets with places past the list",
];
const PLACES: [&str; 13] = [
    "18 in a sheet for a string of no cells",
    "18 in a sheet for a string that ends past the cells",
    "18 in a sheet for a string that begins past the cells",
    "18 in a sheet for a string that ends past 2^32",
    "18 in a sheet beside a string above the limit",
    "10 in a sheet for a whole string above the limit",
    "10 in a sheet behind steps",
    "11 in a sheet without a step",
    "pairs compared in a sheet whose strings share cells",
    "pairs compared in a sheet that are one string",
    "pairs that end in a sheet, the one before not",
    "pairs that come again in a sheet",
    "pairs that come again in a sheet, their budget spent once",
];

/// What was met in sheets.
#[derive(Default)]
pub struct Sheets {
    /// The codes of the call, and those of its places.
    pub codes: [usize; CODES],
    pub places: [usize; CODES],
    accepted: usize,
    refused: usize,
    calls_met: [usize; CALLS.len()],
    places_met: [usize; PLACES.len()],
    alone: usize,
}

impl Sheets {
    /// Each count that must not be 0, with what it counts.
    pub fn counts(&self) -> impl Iterator<Item = (&'static str, usize)> + '_ {
        let alone = ("places of sheets that hold what the single call gives", self.alone);
        CALLS.into_iter().zip(self.calls_met).chain(PLACES.into_iter().zip(self.places_met)).chain([alone])
    }

    /// Notes a call over an accepted or refused book.
    fn note(&mut self, accepted: bool, pairs: usize, room: usize) {
        let met = [
            !accepted,
            !accepted && room < pairs,
            accepted && pairs == 0,
            accepted && room >= pairs && pairs >= HUNDRED,
            accepted && room + 1 == pairs,
            accepted && room == pairs && pairs > 0,
            accepted && room > pairs,
        ];
        add(&mut self.calls_met, met);
    }

    /// Notes a pair with what it ended with, behind others.
    fn note_place(&mut self, list: &List, at: usize, sheet: &[Answer], limit: u32) {
        let (pair, answer) = (list.pairs[at], sheet[at]);
        let ListedPair { left, right, .. } = pair;
        let cells = list.cells.len() as u64;
        let any = |fits: &dyn Fn(Span) -> bool| [left, right].into_iter().any(fits);
        let above = any(&|span| span.end() <= cells && span.length > limit);
        let not_whole = answer.code == 18;
        let compared = !not_whole && !above;
        let shared = left.end() > u64::from(right.start) && right.end() > u64::from(left.start);
        let earlier = || list.pairs[..at].iter().zip(sheet).filter(|(other, _)| (other.left, other.right) == (left, right));
        let met = [
            not_whole && any(&|span| span.length == 0),
            not_whole && any(&|span| u64::from(span.start) < cells && span.end() > cells),
            not_whole && any(&|span| u64::from(span.start) >= cells && span.length > 0),
            not_whole && any(&|span| span.end() > u64::from(u32::MAX)),
            not_whole && above,
            answer.code == 10 && above,
            answer.code == 10 && answer.steps > 0,
            answer.code == 11 && answer.steps == 0,
            compared && shared && left != right,
            compared && left == right,
            answer.ended() && at > 0 && !sheet[at - 1].ended(),
            earlier().any(|(other, _)| other.budget == pair.budget),
            earlier().any(|(_, other)| (other.code == 11) != (answer.code == 11)),
        ];
        add(&mut self.places_met, met);
    }
}

fn add<const COUNT: usize>(counts: &mut [usize; COUNT], met: [bool; COUNT]) {
    counts.iter_mut().zip(met).for_each(|(count, met)| *count += usize::from(met));
}

impl Comparison {
    /// A list at the desk of some books.
    pub fn sheets_of_some_books(&mut self, book: &[u8], call: &Call, outcome: &Outcome) {
        let accepted = outcome.code == 0;
        let Sheets { accepted: accepted_books, refused, .. } = &mut self.sheets;
        let (count, asked) = if accepted { (accepted_books, ACCEPTED_ASKED) } else { (refused, REFUSED_ASKED) };
        *count += 1;
        if *count % asked != 1 {
            return;
        }
        // With random numbers of their own, so that they change no other book.
        let random = &mut Random::new(*count as u64);
        let desk = Desk::new(book, *call);
        let list = list(random, &desk);
        let room = room(random, list.pairs.len(), MORE_ROOM);
        self.sheets.note(accepted, list.pairs.len(), room);
        if let Some(sheet) = self.sheet(&desk, &list, room) {
            (0..sheet.len()).for_each(|at| self.sheets.note_place(&list, at, &sheet, call.limit));
            self.each_alone(random, &desk, &list, &sheet);
        }
    }

    /// What both programs write, if they do. The answer must be the call's, the rest of the sheet as it was, and every cell of the stores
    /// as the check leaves it.
    pub fn sheet(&mut self, desk: &Desk, list: &List, room: usize) -> Option<Vec<Answer>> {
        let Desk { book, call, lent, left, .. } = desk;
        self.ours.copy_from(lent);
        self.theirs.copy_from(lent);
        let mut sheet = lent_sheet(room);
        let mut other = sheet.clone();
        let ours = verified::compare_sheet(book, call.budget, call.limit, &mut self.ours, list, &mut sheet);
        let theirs = baseline::compare_sheet(book, call.budget, call.limit, &mut self.theirs, list, &mut other);
        let kept = [&self.ours, &self.theirs].map(|stores| stores == left);
        let (expected, written) = expected(desk.refusal(), list.pairs.len(), room);
        let untouched = other[written..] == lent_sheet(room)[written..];
        let proper = other[..written].iter().all(|place| place.line == 0 && place.length == 0);
        if [ours, theirs] != [expected; 2] || sheet != other || !untouched || !proper || kept != [true; 2] {
            let how = format!("{ours:?} verified\n{theirs:?} baseline, not {expected:?}; cells as after the check: {kept:?}");
            let first = sheet.iter().zip(&other).enumerate().find(|(_, (ours, theirs))| ours != theirs);
            self.differ(book, &format!("{call:?} room {room} {list:?}\n{how}\nfirst other place: {first:?}"));
        }
        self.sheets.codes[theirs.code as usize] += 1;
        other.truncate(written);
        other.iter().for_each(|place| self.sheets.places[place.code as usize] += 1);
        (theirs.code == 0).then_some(other)
    }

    /// Pairs of a sheet, all of few, must have got what the single call gives.
    fn each_alone(&mut self, random: &mut Random, desk: &Desk, list: &List, sheet: &[Answer]) {
        for (at, (listed, answer)) in list.pairs.iter().zip(sheet).enumerate() {
            if random.below(list.pairs.len()) >= ALONE {
                continue;
            }
            let alone = listed.sides(&list.cells).map_or(NOT_WHOLE, |sides| {
                let [left, right] = sides.map(<[_]>::to_vec);
                let request = Request { order: Order::StepsFirst, pair: &Pair { left, right }, budget: listed.budget };
                self.request(desk, &request).0
            });
            if *answer != alone {
                self.differ(desk.book, &format!("{:?} {list:?}\npair {at}: {answer:?}, alone {alone:?}", desk.call));
            }
            self.sheets.alone += 1;
        }
    }
}

/// A sheet of so many places as it is lent.
fn lent_sheet(room: usize) -> Vec<Answer> {
    let place = |at: usize| [0, 1, 2, 3].map(|field| pattern(4 * at + field));
    (0..room).map(place).map(|[code, line, steps, length]| Answer { code, line, steps, length }).collect()
}

/// What the call gives, and how many places it writes.
fn expected(refusal: Option<Answer>, pairs: usize, room: usize) -> (Answer, usize) {
    let own = |code, length| Answer { code, line: 0, steps: 0, length };
    match refusal {
        Some(refusal) => (refusal, 0),
        None if room < pairs => (own(15, 0), 0),
        None => (own(0, pairs as u32), pairs),
    }
}

/// A list over the lines that the check of a book recorded.
fn list(random: &mut Random, desk: &Desk) -> List {
    let recorded = desk.outcome.recorded();
    let theory = stored::theory(recorded, &desk.left);
    let vocabulary = Vocabulary::of(&theory);
    let limit = desk.call.limit.clamp(SMALLEST_LIMIT, LARGEST_LIMIT);
    let most = if limit > USUAL_LIMIT { PAIRS_UNDER_LARGER } else { usize::MAX };
    let strings = StringMaker { random, theory: &theory, vocabulary: &vocabulary, limit: limit as usize };
    let accepted = desk.accepted().then(|| Accepted::of_stores(recorded, &desk.left));
    ListMaker { strings, accepted }.list(most)
}
