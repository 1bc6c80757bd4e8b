//! The measured calls. Both programs must agree before a time is taken.

use std::time::Duration;

use super::turns::{by_turns, cut, stores, timed, Repetition, Turns};
use crate::pairs::{Order, Pair, Request};
use crate::sheets::{List, ListedPair};
use crate::stores::Stores;
use crate::{baseline, verified, Answer, Outcome};

pub const MANY: Repetition = Repetition { time: Duration::from_millis(1_200), least: 11, most: 101 };
pub const FEW: Repetition = Repetition { time: Duration::from_millis(600), least: 3, most: 21 };
/// Of short calls, and of requests that take long.
pub const SHORT: Repetition = Repetition { time: Duration::from_millis(300), least: 11, most: 2_001 };
const FEWEST: Repetition = Repetition { time: Duration::from_millis(100), least: 5, most: 5 };
const LONG_REQUEST: Duration = Duration::from_millis(40);
/// Of many single calls, which may take long.
const SINGLES: Repetition = Repetition { time: Duration::from_millis(300), least: 1, most: 101 };
/// A check that takes longer is not repeated.
const LONGEST_REPEATED: Duration = Duration::from_secs(2);

/// A book of the tables, and the limit that it is checked with.
pub struct Given<'g> {
    pub title: &'g str,
    pub book: &'g [u8],
    pub lines: usize,
    pub limit: u32,
}

impl Given<'_> {
    fn stores(&self) -> Stores {
        stores(self.lines, self.book.len(), self.limit)
    }

    fn verified(&self, stores: &mut Stores) -> Outcome {
        verified::check(self.book, u32::MAX, self.limit, stores)
    }

    fn baseline(&self, stores: &mut Stores) -> Outcome {
        baseline::check(self.book, u32::MAX, self.limit, stores)
    }

    /// What both checks leave, and their times, if they agree and the book is accepted.
    fn checked(&self) -> Option<(Outcome, [Stores; 2], [Duration; 2])> {
        let mut ours = self.stores();
        let mut theirs = self.stores();
        let (outcome, our_time) = timed(&mut ours, |s| self.verified(s));
        let (other, their_time) = timed(&mut theirs, |s| self.baseline(s));
        let alike = ours == theirs;
        if outcome != other || !alike || outcome.code != 0 {
            self.differs("check", format!("{outcome:?} verified, {other:?} baseline, stores alike: {alike}"));
            return None;
        }
        Some((outcome, [ours, theirs], [our_time, their_time]))
    }

    fn differs(&self, what: &str, how: String) {
        println!("{}, {} lines, limit {}, {what}: {how}", self.title, self.lines, self.limit);
    }
}

/// The check of a book by both programs.
pub struct Checked {
    pub outcome: Outcome,
    pub turns: Turns,
}

/// Checks that both agree on the book, then times them by turns.
pub fn check(given: &Given, repetition: &Repetition) -> Option<Checked> {
    let (outcome, [mut ours, _], [our_time, their_time]) = given.checked()?;
    if our_time > LONGEST_REPEATED {
        return Some(Checked { outcome, turns: Turns::of(&[(our_time, their_time)]) });
    }
    cut(&mut ours);
    let turns = by_turns(repetition, &mut ours, |s| given.verified(s), |s| given.baseline(s));
    Some(Checked { outcome, turns })
}

/// What the last line of a book rests on, and the call beside the check, both by the verified program.
pub struct Resting {
    pub length: u32,
    pub indexed: usize,
    pub turns: Turns,
}

/// Checks that both agree on what the last line rests on, then times the call and the check by turns.
pub fn rests_on(given: &Given) -> Option<Resting> {
    let Given { book, lines, limit, .. } = *given;
    let mut ours = given.stores();
    let mut theirs = given.stores();
    let mut list = vec![0; lines];
    let mut other_list = list.clone();
    let last = lines as u32;
    let (answer, _) = timed(&mut ours, |s| verified::rests_on(book, u32::MAX, limit, s, last, &mut list));
    let (other, _) = timed(&mut theirs, |s| baseline::rests_on(book, u32::MAX, limit, s, last, &mut other_list));
    if answer != other || list != other_list || ours != theirs || answer.code != 0 {
        let alike = list == other_list;
        given.differs("rests_on", format!("{answer:?} verified, {other:?} baseline, lists alike: {alike}"));
        return None;
    }
    cut(&mut ours);
    let indexed = ours.index.len();
    let turns = by_turns(
        &MANY, &mut ours, |s| verified::rests_on(book, u32::MAX, limit, s, last, &mut list), |s| given.verified(s),
    );
    Some(Resting { length: answer.length, indexed, turns })
}

/// The pages of a book, and the call beside the check, by each program.
pub struct Printing {
    pub length: u32,
    pub verified: Turns,
    pub baseline: Turns,
}

/// Checks that both print the same pages, then times the call and the check by turns, of each program.
pub fn pages(given: &Given) -> Option<Printing> {
    let Given { book, limit, .. } = *given;
    let mut ours = given.stores();
    let mut theirs = given.stores();
    let mut page = vec![0; baseline::page_length(book)];
    let mut other_page = page.clone();
    let (answer, _) = timed(&mut ours, |s| verified::pages(book, u32::MAX, limit, s, &mut page));
    let (other, _) = timed(&mut theirs, |s| baseline::pages(book, u32::MAX, limit, s, &mut other_page));
    if answer != other || page != other_page || ours != theirs || answer.code != 0 {
        let alike = page == other_page;
        given.differs("pages", format!("{answer:?} verified, {other:?} baseline, pages alike: {alike}"));
        return None;
    }
    cut(&mut ours);
    let verified = by_turns(
        &MANY, &mut ours, |s| verified::pages(book, u32::MAX, limit, s, &mut page), |s| given.verified(s),
    );
    let baseline = by_turns(
        &MANY, &mut ours, |s| baseline::pages(book, u32::MAX, limit, s, &mut page), |s| given.baseline(s),
    );
    Some(Printing { length: answer.length, verified, baseline })
}

/// What a request is timed beside: the check of its book, or another request there.
pub enum Beside<'r> {
    Check,
    Request(&'r Request<'r>),
}

/// A request at the desk, beside another call, by each program.
pub struct Comparing {
    pub answer: Answer,
    pub verified: Turns,
    pub baseline: Turns,
}

/// Checks that both give one answer to a request and leave the same, then times it and the other call by turns, of each program.
pub fn request(given: &Given, request: &Request, beside: &Beside, repetition: &Repetition) -> Option<Comparing> {
    let Given { book, limit, .. } = *given;
    let mut ours = given.stores();
    let mut theirs = given.stores();
    let (answer, time) = timed(&mut ours, |s| verified::compare(book, u32::MAX, limit, s, request));
    let (other, _) = timed(&mut theirs, |s| baseline::compare(book, u32::MAX, limit, s, request));
    let alike = ours == theirs;
    if answer != other || !alike || answer.line != 0 {
        let order = request.order;
        given.differs("request", format!("{order:?}: {answer:?} verified, {other:?} baseline, stores alike: {alike}"));
        return None;
    }
    cut(&mut ours);
    let repetition = if time > LONG_REQUEST { &FEWEST } else { repetition };
    let verified = |s: &mut Stores, request| verified::compare(book, u32::MAX, limit, s, request);
    let baseline = |s: &mut Stores, request| baseline::compare(book, u32::MAX, limit, s, request);
    let [verified, baseline] = match beside {
        Beside::Check => [
            by_turns(repetition, &mut ours, |s| verified(s, request), |s| given.verified(s)),
            by_turns(repetition, &mut ours, |s| baseline(s, request), |s| given.baseline(s)),
        ],
        Beside::Request(other) => [
            by_turns(repetition, &mut ours, |s| verified(s, request), |s| verified(s, other)),
            by_turns(repetition, &mut ours, |s| baseline(s, request), |s| baseline(s, other)),
        ],
    };
    Some(Comparing { answer, verified, baseline })
}

/// A sheet, beside the check of its book by each program, and beside as many single calls by the verified one.
pub struct Listing {
    /// Of all pairs.
    pub steps: u32,
    pub verified: Turns,
    pub baseline: Turns,
    pub singles: Turns,
}

/// Checks that both fill the sheet alike and leave the same, then times the call and the others by turns. Single calls must give the same.
pub fn sheet(given: &Given, pairs: &[(Pair, u32)], repetition: &Repetition) -> Option<Listing> {
    let Given { book, limit, .. } = *given;
    let list = listed(pairs);
    let mut ours = given.stores();
    let mut theirs = given.stores();
    let mut sheet = vec![Answer { code: 0, line: 0, steps: 0, length: 0 }; pairs.len()];
    let mut other_sheet = sheet.clone();
    let (answer, _) = timed(&mut ours, |s| verified::compare_sheet(book, u32::MAX, limit, s, &list, &mut sheet));
    let (other, _) = timed(&mut theirs, |s| baseline::compare_sheet(book, u32::MAX, limit, s, &list, &mut other_sheet));
    if answer != other || sheet != other_sheet || ours != theirs || answer.code != 0 {
        let alike = sheet == other_sheet;
        given.differs("sheet", format!("{answer:?} verified, {other:?} baseline, sheets alike: {alike}"));
        return None;
    }
    cut(&mut ours);
    let mut verified = |s: &mut Stores| verified::compare_sheet(book, u32::MAX, limit, s, &list, &mut sheet);
    let beside = by_turns(repetition, &mut ours, &mut verified, |s| given.verified(s));
    let baseline = by_turns(
        repetition, &mut ours, |s| baseline::compare_sheet(book, u32::MAX, limit, s, &list, &mut other_sheet), |s| given.baseline(s),
    );
    let mut alone = Vec::new();
    let singles = by_turns(&SINGLES, &mut ours, &mut verified, |s| alone = single_calls(given, s, pairs));
    if alone != sheet {
        given.differs("sheet", "single calls give other answers".to_string());
        return None;
    }
    let steps = sheet.iter().map(|place| place.steps).sum();
    Some(Listing { steps, verified: beside, baseline, singles })
}

/// The list of these pairs with their budgets.
fn listed(pairs: &[(Pair, u32)]) -> List {
    let mut list = List::default();
    for (pair, budget) in pairs {
        let [left, right] = pair.sides().map(|side| list.put(side));
        list.pairs.push(ListedPair { left, right, budget: *budget });
    }
    list
}

/// What the verified program gives for each pair alone, one after another.
fn single_calls(given: &Given, stores: &mut Stores, pairs: &[(Pair, u32)]) -> Vec<Answer> {
    let request = |(pair, budget): &'_ (Pair, u32)| {
        let request = Request { order: Order::StepsFirst, pair, budget: *budget };
        verified::compare(given.book, u32::MAX, given.limit, stores, &request)
    };
    pairs.iter().map(request).collect()
}

/// The middles of the last two lines of a book that both accept.
pub fn last_lines(given: &Given) -> Option<Pair> {
    let (_, [stores, _], _) = given.checked()?;
    Some(Pair::of_last_lines(given.lines, &stores))
}

/// The check of a book, which both programs agree on, and its check with the second comparison in the place of the first.
pub fn orders(given: &Given) -> Option<[Outcome; 2]> {
    let (outcome, [_, mut stores], _) = given.checked()?;
    let (other, _) = timed(&mut stores, |s| baseline::check_parts_first(given.book, u32::MAX, given.limit, s));
    Some([outcome, other])
}
