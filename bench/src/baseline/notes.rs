//! What was met in a check, for the counts of the differential run.

use super::source::Line;
use super::Refusal;

#[derive(Clone, Copy, Debug, Default)]
pub struct Notes {
    /// Variables put in, in lines that are recorded.
    pub put_in: usize,
    /// The outcome is 10, of a line that is within the limits as written: its completed size or nesting is above them.
    pub only_completed_size: bool,
    pub only_completed_nesting: bool,
    pub faults: Faults,
    /// Where the last line that was looked at begins, the book's end if all are accepted; where reading it stopped; and where its
    /// leftmost refused name begins.
    pub line: usize,
    pub stopped: usize,
    pub name: Option<usize>,
}

/// What is wrong in the refused line, from its identifier to its storage, as far as it was read; the outcome may be ahead of it.
#[derive(Clone, Copy, Debug, Default)]
pub struct Faults {
    /// A bit for each code.
    codes: u32,
    /// The outcome is 5, for an indicator that is a constant.
    pub constant_indicator: bool,
}

/// What was met in comparisons of expressions.
#[derive(Clone, Copy, Debug, Default)]
pub struct PairNotes {
    /// Attempts of the second comparison, at parts ahead of a head step, that failed.
    pub failed: u32,
    /// Those of them in which head steps were made.
    pub failed_with_steps: u32,
    /// Whether a pair would have been opened too deep.
    pub too_deep: bool,
}

impl PairNotes {
    pub(super) fn fail(&mut self, steps: u32) {
        self.failed += 1;
        self.failed_with_steps += u32::from(steps > 0);
    }
}

impl Notes {
    /// Notes a line that is refused for the first of these faults.
    pub(super) fn refused(&mut self, refusal: Refusal, faults: &[Option<Refusal>], line: &Line, limit: usize) {
        faults.iter().flatten().for_each(|&fault| self.faults.add(fault));
        let only_completed = refusal == Refusal::TooLarge && line.parts().iter().all(|p| p.written() <= limit);
        self.only_completed_size = only_completed && line.parts().iter().any(|p| p.too_large);
        self.only_completed_nesting = only_completed && line.parts().iter().any(|p| p.too_deep);
    }
}

impl Faults {
    pub(super) fn add(&mut self, refusal: Refusal) {
        self.codes |= 1 << refusal as u8;
    }

    pub fn has(&self, code: usize) -> bool {
        self.codes >> code & 1 == 1
    }
}
