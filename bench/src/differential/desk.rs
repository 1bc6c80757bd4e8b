//! Requests at the desk of a book, by both programs.

use super::calls::Call;
use super::comparison::Comparison;
use crate::baseline::{self, PairNotes};
use crate::pairs::Request;
use crate::stores::Stores;
use crate::{verified, Answer, Outcome};

/// A book with what is lent beside it, and what its check ends with and leaves.
pub struct Desk<'b> {
    pub book: &'b [u8],
    pub call: Call,
    pub outcome: Outcome,
    /// The stores before a call, and as the check leaves them.
    pub lent: Stores,
    pub left: Stores,
}

impl<'b> Desk<'b> {
    pub fn new(book: &'b [u8], call: Call) -> Desk<'b> {
        let [mut lent, mut left] = [Stores::default(), Stores::default()];
        call.prepare(&mut lent);
        left.copy_from(&lent);
        let outcome = baseline::check(book, call.budget, call.limit, &mut left);
        Desk { book, call, outcome, lent, left }
    }

    pub fn accepted(&self) -> bool {
        self.outcome.code == 0
    }

    /// What any call on the book gives if it is refused.
    pub fn refusal(&self) -> Option<Answer> {
        let Outcome { code, line, steps } = self.outcome;
        (!self.accepted()).then_some(Answer { code, line, steps: steps as u32, length: 0 })
    }

    /// Whether an answer is one that this book can get: the check's refusal, or line 0 and no length.
    fn may_give(&self, answer: &Answer) -> bool {
        self.refusal().map_or(answer.line == 0 && answer.length == 0, |refusal| *answer == refusal)
    }
}

impl Comparison {
    /// What both programs answer, and what was met in the comparison. Every cell of the stores must be as the check leaves it.
    pub fn request(&mut self, desk: &Desk, request: &Request) -> (Answer, PairNotes) {
        let Desk { book, call, lent, left, .. } = desk;
        self.ours.copy_from(lent);
        self.theirs.copy_from(lent);
        let ours = verified::compare(book, call.budget, call.limit, &mut self.ours, request);
        let (theirs, notes) = baseline::compare_noting(book, call.budget, call.limit, &mut self.theirs, request);
        let kept = [&self.ours, &self.theirs].map(|stores| stores == left);
        if ours != theirs || kept != [true; 2] || !desk.may_give(&theirs) {
            let how = format!("{ours:?} verified\n{theirs:?} baseline, cells as after the check: {kept:?}");
            self.differ(book, &format!("{call:?} {request:?}\n{how}"));
        }
        self.pairs.codes[request.order as usize][theirs.code as usize] += 1;
        (theirs, notes)
    }
}
