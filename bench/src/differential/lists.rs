//! Lists of pairs for a sheet: strings laid out in one slice, parts of them, spans beside them and past the slice, pairs that come again.

use super::expressions::Maker;
use super::pairs::AMPLE;
use super::stored;
use super::strings::{Made, StringMaker};
use crate::baseline::Accepted;
use crate::pairs::Order;
use crate::random::Random;
use crate::sheets::{List, ListedPair, Span};
use crate::sizes::Cell;

/// How many times two strings are laid out, and at most how many cells lie ahead of each string.
const MOST_LAID: usize = 4;
const MOST_BETWEEN: usize = 3;
/// Sheets of a hundred pairs and more have up to so many.
const MOST_PAIRS: usize = 130;

/// A string of the slice, and those of its parts that are whole by themselves.
struct Laid {
    span: Span,
    parts: Vec<Span>,
}

/// Makes lists over some lines; the budgets are for the book's desk, if it is accepted.
pub struct ListMaker<'l, 't> {
    pub strings: StringMaker<'l>,
    pub accepted: Option<Accepted<'t>>,
}

impl ListMaker<'_, '_> {
    /// A list of at most so many pairs.
    pub fn list(&mut self, most: usize) -> List {
        let mut list = List::default();
        let laid = self.laid(&mut list);
        let random = self.random();
        let count = match random.below(24) {
            0 => 0,
            1..=4 => 1,
            _ if laid.is_empty() => 2,
            5..=17 => random.between(2, 6),
            18..=22 => random.between(7, 16),
            _ => random.between(100, MOST_PAIRS),
        };
        for _ in 0..count.min(most) {
            let pair = self.pair(&list, &laid);
            list.pairs.push(pair);
        }
        list
    }

    /// Lays strings out, seldom none, with other cells between them and behind.
    fn laid(&mut self, list: &mut List) -> Vec<Laid> {
        let times = if self.random().once_in(24) { 0 } else { self.random().between(1, MOST_LAID) };
        let mut laid = Vec::new();
        for _ in 0..times {
            for Made { string, fault } in self.two_strings() {
                put_between(self.random(), list);
                let span = list.put(&string);
                let parts = if fault.is_none() { self.whole_parts(&string, span.start) } else { Vec::new() };
                laid.push(Laid { span, parts });
            }
        }
        if times > 0 {
            put_between(self.random(), list);
        }
        laid
    }

    fn random(&mut self) -> &mut Random {
        self.strings.random
    }

    /// Two expressions, or two strings of any length and with any faults.
    fn two_strings(&mut self) -> [Made; 2] {
        if self.strings.vocabulary.lines == 0 || self.random().once_in(4) {
            return self.strings.pair();
        }
        let theory = self.strings.theory;
        Maker { random: self.random(), theory }.pair().map(|side| Made { string: stored::cells(&side), fault: None })
    }

    /// The parts of a whole string around which there is no binding.
    fn whole_parts(&self, string: &[Cell], start: u32) -> Vec<Span> {
        let outline = self.strings.vocabulary.outline(string);
        let closed = outline.iter().enumerate().filter(|(_, part)| part.bindings == 0);
        closed.map(|(at, part)| Span { start: start + at as u32, length: (part.end - at) as u32 }).collect()
    }

    /// A pair; or one of before, with its budget or another.
    fn pair(&mut self, list: &List, laid: &[Laid]) -> ListedPair {
        if !list.pairs.is_empty() && self.random().once_in(6) {
            let earlier = *self.random().choose(&list.pairs);
            let again = self.random().once_in(2);
            return if again { earlier } else { self.with_budget(list, earlier.left, earlier.right) };
        }
        let [left, right] = self.spans(list, laid);
        self.with_budget(list, left, right)
    }

    /// Two strings that were laid out together, one with itself, or any two; one of them may be exchanged for a span that is not one.
    fn spans(&mut self, list: &List, laid: &[Laid]) -> [Span; 2] {
        let cells = list.cells.len() as u32;
        let random = self.random();
        if laid.is_empty() {
            return [(); 2].map(|_| outside(random, Span { start: 0, length: 0 }, cells));
        }
        let one = random.below(laid.len());
        let other = match random.below(8) {
            0 => one,
            1..=2 => random.below(laid.len()),
            _ => one ^ 1,
        };
        let mut spans = [one, other].map(|at| if random.once_in(6) { part(random, &laid[at]) } else { laid[at].span });
        if random.once_in(6) {
            let side = &mut spans[random.below(2)];
            *side = another(random, *side, cells);
        }
        spans
    }

    /// None, few steps, what the pair just needs, a step less, or all of them where it ends.
    fn with_budget(&mut self, list: &List, left: Span, right: Span) -> ListedPair {
        let limit = self.strings.limit as u32;
        let pair = ListedPair { left, right, budget: AMPLE };
        let answer = match (&mut self.accepted, pair.sides(&list.cells)) {
            (Some(accepted), Some(sides)) => Some(accepted.judge(limit, Order::StepsFirst, sides, AMPLE).0),
            _ => None,
        };
        let (steps, ends) = answer.map_or((0, true), |answer| (answer.steps, answer.code != 11));
        let most = if ends { u32::MAX } else { AMPLE };
        let budget = *self.random().choose(&[0, 1, steps, steps.saturating_sub(1), AMPLE, most, most]);
        ListedPair { budget, ..pair }
    }
}

/// A part that is whole by itself, if the string has any.
fn part(random: &mut Random, laid: &Laid) -> Span {
    if laid.parts.is_empty() { laid.span } else { *random.choose(&laid.parts) }
}

/// Cells of no string: any, or such as strings have.
fn put_between(random: &mut Random, list: &mut List) {
    for _ in 0..random.below(MOST_BETWEEN + 1) {
        let any = if random.once_in(2) { random.next() as Cell } else { random.below(64) as Cell };
        list.cells.push(any);
    }
}

/// A span beside this one, any of the slice, one of no cells, or one past the slice.
fn another(random: &mut Random, span: Span, cells: u32) -> Span {
    let Span { start, length } = span;
    match random.below(8) {
        0 => Span { start, length: length + 1 },
        1 => Span { start, length: length.saturating_sub(1) },
        2 => Span { start: start.saturating_sub(1), length: length + 1 },
        3 => Span { start: start + 1, length: length.saturating_sub(1) },
        4 => {
            let start = random.below(cells as usize + 1) as u32;
            Span { start, length: random.below((cells - start) as usize + 1) as u32 }
        }
        5 => Span { start: *random.choose(&[start, cells, cells + 1, u32::MAX]), length: 0 },
        _ => outside(random, span, cells),
    }
}

/// A span past the slice: cells too long, from its end or from far behind; or one for which a sum of 32 bits comes back into it.
fn outside(random: &mut Random, span: Span, cells: u32) -> Span {
    let Span { start, length } = span;
    let few = random.below(4) as u32;
    match random.below(8) {
        0..=1 => Span { start, length: cells - start + 1 + few },
        2 => Span { start: cells + few, length: length.max(1) },
        3 => Span { start: start + *random.choose(&[1 << 16, 1 << 31]), length: length.max(1) },
        4..=5 => Span { start: u32::MAX - few, length: start + length + 1 + few },
        6 => Span { start: start.max(1), length: u32::MAX },
        _ => Span { start: u32::MAX - few, length: u32::MAX - few },
    }
}
