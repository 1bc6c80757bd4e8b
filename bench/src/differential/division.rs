//! A book before and behind its division into paragraphs.

use super::calls::{Call, USUAL_LIMIT};
use super::comparison::Comparison;
use super::divided::Divided;
use crate::sizes::{INDICATOR, PARAGRAPH, ROW_WIDTH};
use crate::verified;

impl Comparison {
    /// An accepted book that is divided with care keeps its outcome, its cells and its index, and of its rows all but identifiers and
    /// paragraphs. This is asked of the verified program alone.
    pub fn division(&mut self, undivided: &[u8], divided: &Divided) {
        let call = Call::ample(undivided, USUAL_LIMIT);
        call.prepare(&mut self.ours);
        call.prepare(&mut self.theirs);
        let before = verified::check(undivided, call.budget, call.limit, &mut self.ours);
        if !divided.careful || before.code != 0 {
            return;
        }
        let behind = verified::check(&divided.book, call.budget, call.limit, &mut self.theirs);
        // From the indicator on, up to the paragraph, the cells of a row are not touched.
        let kept = |at: &usize| (INDICATOR..PARAGRAPH).contains(&(at % ROW_WIDTH));
        let rows = (0..ROW_WIDTH * before.recorded()).filter(kept).all(|at| self.ours.table[at] == self.theirs.table[at]);
        let alike = rows && self.ours.terms == self.theirs.terms && self.ours.index == self.theirs.index;
        if before != behind || !alike {
            self.differ(&divided.book, &format!("{call:?}\n{before:?} undivided\n{behind:?} divided, stores alike: {alike}"));
        }
        self.divisions += 1;
    }
}
