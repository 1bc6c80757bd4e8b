//! Pairs of expressions over accepted books, at the desk.

use super::calls::{Call, USUAL_LIMIT};
use super::comparison::Comparison;
use super::desk::Desk;
use super::expressions::Maker;
use super::stored;
use crate::baseline::{Accepted, PairNotes};
use crate::generate::PairKind;
use crate::pairs::{Order, Pair, Request};
use crate::random::Random;
use crate::sizes::{CODES, LARGEST_LIMIT, NESTING, SMALLEST_LIMIT};
use crate::{Answer, Outcome};

/// Of the accepted books every so many gets pairs, and so many of them; under a limit above the usual one a single pair.
const BOOKS_WITH_PAIRS: usize = 4;
const PAIRS: usize = 6;
/// Of these books one in so many is lent stores for the largest limit.
const UNDER_LARGEST: usize = 64;
/// Most pairs that end do so in fewer steps, and many of the table's.
pub const AMPLE: u32 = 200;
const AMPLE_FOR_TABLE: u32 = 5_000;

const MET: [&str; 12] = [
    "pairs that both comparisons call equal",
    "pairs that both comparisons call different",
    "pairs that the first comparison ends alone",
    "pairs that the second comparison ends alone",
    "10 for depth by the first comparison",
    "10 for depth by the second comparison",
    "10 for size by the first comparison",
    "10 for size by the second comparison",
    "equal by the second comparison behind an attempt that failed",
    "different by the second comparison behind an attempt that failed",
    "10 or 11 by the second comparison behind an attempt that failed",
    "second comparisons with an attempt that made steps and failed",
];

/// What was met in comparing pairs.
#[derive(Default)]
pub struct Pairs {
    /// The codes of the first comparison and of the second.
    pub codes: [[usize; CODES]; 2],
    accepted: usize,
    pairs: usize,
    met: [usize; MET.len()],
    /// Comparisons that end under smaller bounds, too; pairs whose book is refused under these.
    kept: [usize; 2],
    refused: usize,
}

impl Pairs {
    /// Each count that must not be 0, with what it counts.
    pub fn counts(&self) -> impl Iterator<Item = (&'static str, usize)> + '_ {
        let others = [
            ("pairs, each under two bounds", self.pairs),
            ("pairs whose book is refused under the smaller bounds", self.refused),
            ("first comparisons that end alike under the smaller bounds", self.kept[0]),
            ("second comparisons that end alike under the smaller bounds", self.kept[1]),
        ];
        others.into_iter().chain(MET.into_iter().zip(self.met))
    }

    /// Notes a pair of strings that are not above the limit.
    fn note(&mut self, [first, second]: [Answer; 2], notes: [PairNotes; 2]) {
        let [too_deep, second_too_deep] = notes.map(|n| n.too_deep);
        let failed = notes[1].failed > 0;
        let met = [
            first.code == 0 && second.code == 0,
            first.code == 9 && second.code == 9,
            first.ended() && !second.ended(),
            second.ended() && !first.ended(),
            too_deep,
            second_too_deep,
            first.code == 10 && !too_deep,
            second.code == 10 && !second_too_deep,
            failed && second.code == 0,
            failed && second.code == 9,
            failed && !second.ended(),
            notes[1].failed_with_steps > 0,
        ];
        self.met.iter_mut().zip(met).for_each(|(count, met)| *count += usize::from(met));
    }
}

impl Comparison {
    /// Pairs over every so many an accepted book, which was checked by this call.
    pub fn pairs_of_some_books(&mut self, book: &[u8], call: &Call, outcome: &Outcome) {
        self.pairs.accepted += usize::from(outcome.code == 0);
        if outcome.code != 0 || outcome.line == 0 || self.pairs.accepted % BOOKS_WITH_PAIRS != 0 {
            return;
        }
        // With random numbers of their own, so that they change no other book.
        let random = &mut Random::new(self.pairs.accepted as u64);
        let desk = Desk::new(book, call.with_limit(limit(random, call.limit)));
        if desk.outcome != *outcome {
            self.differ(book, &format!("{call:?}\n{outcome:?}, and {:?} with {:?}", desk.outcome, desk.call));
            return;
        }
        let theory = stored::theory(outcome.recorded(), &desk.left);
        let pairs = if desk.call.limit > USUAL_LIMIT { 1 } else { PAIRS };
        for _ in 0..pairs {
            let [left, right] = Maker { random, theory: &theory }.pair().map(|side| stored::cells(&side));
            self.pair_twice(random, &desk, &Pair { left, right }, AMPLE);
        }
    }

    /// The pairs of the table with each length, as far as their books are accepted.
    pub fn pairs_of_table(&mut self) {
        let random = &mut Random::new(0);
        for (kind, length) in PairKind::ALL.into_iter().flat_map(|kind| (0..NESTING).map(move |length| (kind, length))) {
            let book = kind.book(length);
            let desk = Desk::new(&book, Call::ample(&book, USUAL_LIMIT));
            if desk.accepted() {
                let pair = Pair::of_last_lines(desk.outcome.recorded(), &desk.left);
                self.pair_twice(random, &desk, &pair, AMPLE_FOR_TABLE);
            }
        }
    }

    /// A pair under the limit of the desk and this budget, and under smaller ones: what ends under these must end alike.
    fn pair_twice(&mut self, random: &mut Random, desk: &Desk, pair: &Pair, budget: u32) {
        self.pairs.pairs += 1;
        let ample = self.pair(desk, pair, budget);
        let (limit, smaller_budget) = smaller(random, desk, pair, budget, &ample);
        let smaller_desk = (limit < desk.call.limit).then(|| Desk::new(desk.book, desk.call.with_limit(limit)));
        let smaller_desk = smaller_desk.as_ref().unwrap_or(desk);
        let smaller = self.pair(smaller_desk, pair, smaller_budget);
        for (at, (under_smaller, under_ample)) in smaller.iter().zip(&ample).enumerate() {
            if under_smaller.ended() && under_smaller != under_ample {
                let how = format!("{budget} steps: {ample:?}\nL = {limit}, {smaller_budget} steps: {smaller:?}");
                self.differ(desk.book, &format!("{:?} {pair:?}\n{how}", desk.call));
            }
            let less = limit < desk.call.limit || smaller_budget < budget;
            self.pairs.kept[at] += usize::from(under_smaller.ended() && less);
        }
        self.pairs.refused += usize::from(!smaller_desk.accepted());
    }

    /// A pair by both comparisons of both programs; where both comparisons end, they must agree.
    pub fn pair(&mut self, desk: &Desk, pair: &Pair, budget: u32) -> [Answer; 2] {
        let answers = Order::BOTH.map(|order| self.request(desk, &Request { order, pair, budget }));
        let [first, second] = answers.map(|(answer, _)| answer);
        if first.ended() && second.ended() && first.code != second.code {
            self.differ(desk.book, &format!("{:?} {pair:?}\n{first:?} and {second:?} by the two comparisons", desk.call));
        }
        if desk.accepted() && pair.sides().iter().all(|side| side.len() <= desk.call.limit as usize) {
            self.pairs.note([first, second], answers.map(|(_, notes)| notes));
        }
        [first, second]
    }
}

/// A limit for the pairs over a book that is accepted under this one: often the usual one, if that is larger.
fn limit(random: &mut Random, accepted: u32) -> u32 {
    match random.below(UNDER_LARGEST) {
        0 => LARGEST_LIMIT,
        1..24 => accepted,
        _ => accepted.max(USUAL_LIMIT),
    }
}

/// A limit and a budget, of which none is larger than that under which the comparisons ended so: often what one of them just needs,
/// or a step or a cell less.
fn smaller(random: &mut Random, desk: &Desk, pair: &Pair, budget: u32, ample: &[Answer; 2]) -> (u32, u32) {
    let order = *random.choose(&Order::BOTH);
    let steps = ample[order as usize].steps;
    let smaller_budget = match random.below(8) {
        0..=2 => steps,
        3..=4 => steps.saturating_sub(1),
        5 => random.below(4) as u32,
        _ => budget,
    };
    let request = Request { order, pair, budget };
    // Under a limit below this the book is refused.
    let largest_part = (0..desk.outcome.recorded()).flat_map(|line| desk.left.parts(line)).map(<[_]>::len).max();
    let least = (largest_part.unwrap_or(0) as u32).max(SMALLEST_LIMIT);
    let limit = match random.below(4) {
        0 => least_limit(desk, &request, least),
        1 => (least_limit(desk, &request, least) - 1).max(least),
        _ => desk.call.limit,
    };
    (limit, smaller_budget)
}

/// The least limit, from this one on, under which no size is refused, if there is one below that of the desk.
fn least_limit(desk: &Desk, request: &Request, least: u32) -> u32 {
    let mut accepted = Accepted::of_stores(desk.outcome.recorded(), &desk.left);
    let (mut refused, mut enough) = (least - 1, desk.call.limit);
    while enough - refused > 1 {
        let limit = (refused + enough) / 2;
        let (answer, _) = accepted.answer(limit, request);
        if answer.code == 10 { refused = limit } else { enough = limit }
    }
    enough
}
