//! Strings far above the limit, in which a number of cells, of parts still to come or of bindings passes a power of two.

use super::calls::Call;
use super::comparison::Comparison;
use super::desk::Desk;
use crate::baseline::cells::{cell, ABSTRACTION, APPLICATION, BOUND, CONSTANT, VARIABLE};
use crate::pairs::{Order, Pair, Request};
use crate::sheets::{List, ListedPair};
use crate::sizes::{Cell, CONTEXT_LENGTH, KIND, LARGEST_LIMIT, MOST_LINES, SMALLEST_LIMIT};
use crate::Outcome;

const BOOK: &[u8] = b"*nat:=PN:type\n";
const NAT: Cell = cell(CONSTANT, 1);
const MANY: usize = 1 << 16;
/// Far from their binding.
const VARIABLES: usize = 4_000;

/// Strings over the book, and whether they are whole.
fn strings() -> Vec<(Vec<Cell>, bool)> {
    let nested = |outer: Cell, leaves: usize| [vec![outer; MANY], vec![NAT; leaves]].concat();
    let bodies = |count: usize, last: usize| [[ABSTRACTION, NAT].repeat(count), vec![cell(BOUND, last as Cell)]].concat();
    let far = |last: Cell| {
        let variables = [APPLICATION, cell(BOUND, 0)].repeat(VARIABLES);
        [vec![ABSTRACTION, NAT], variables, vec![cell(BOUND, last)]].concat()
    };
    vec![
        (vec![APPLICATION; MANY - 1], false),
        (nested(APPLICATION, 0), false),
        (nested(APPLICATION, MANY), false),
        (nested(APPLICATION, MANY + 1), true),
        (nested(APPLICATION, MANY + 2), false),
        (nested(ABSTRACTION, MANY), false),
        (nested(ABSTRACTION, MANY + 1), true),
        ([APPLICATION, NAT].repeat(MANY), false),
        ([[APPLICATION, NAT].repeat(MANY), vec![NAT]].concat(), true),
        (bodies(MANY, 0), true),
        (bodies(MANY, MANY - 1), true),
        (bodies(MANY, MANY), false),
        (bodies(MANY + 1, MANY), true),
        (far(0), true),
        (far(1), false),
    ]
}

/// The last line of a book with all arguments, one more and one fewer, and a line above it. Where it takes very many, as many uses of
/// it inside each other as await 2^32 parts or more, with so many behind that a number of 32 bits would say none is missing.
fn strings_of_last(desk: &Desk) -> Vec<(Vec<Cell>, bool)> {
    let named = |line: u32| {
        let variable = desk.left.row(line as usize - 1)[KIND] == 0;
        cell(if variable { VARIABLE } else { CONSTANT }, line)
    };
    let last = desk.outcome.line;
    let row = desk.left.row(last as usize - 1);
    let arguments = if named(last) == cell(CONSTANT, last) { row[CONTEXT_LENGTH] as usize } else { 0 };
    let applied = |uses: usize, count: usize| [vec![named(last); uses], vec![named(1); count]].concat();
    let above = [VARIABLE, CONSTANT].map(|kind| (vec![cell(kind, last + 1)], false));
    let mut strings = vec![(applied(1, arguments), true), (applied(1, arguments + 1), false)];
    strings.extend(above);
    if arguments > 0 {
        strings.push((applied(1, arguments - 1), false));
    }
    if arguments > MANY / 2 {
        let uses = (1 << 32) / (arguments - 1) + 1;
        strings.push((applied(uses, uses * (arguments - 1) + 1 - (1 << 32)), false));
    }
    strings
}

impl Comparison {
    pub fn extreme_strings(&mut self) {
        let desk = Desk::new(BOOK, Call::ample(BOOK, SMALLEST_LIMIT));
        self.extremes(&desk, strings());
    }

    /// Over an accepted book of as many lines as there can be, under the largest limit.
    pub fn strings_of_largest(&mut self, book: &[u8], call: &Call, outcome: &Outcome) {
        if outcome.code == 0 && outcome.line as usize == MOST_LINES && call.limit == LARGEST_LIMIT {
            let desk = Desk::new(book, *call);
            let strings = strings_of_last(&desk);
            self.extremes(&desk, strings);
        }
    }

    /// Each string on both sides, alone and in one list: 0 if it is whole, 10 if it is above the limit too.
    fn extremes(&mut self, desk: &Desk, strings: Vec<(Vec<Cell>, bool)>) {
        let mut list = List::default();
        let mut codes = Vec::new();
        for (number, (string, whole)) in strings.into_iter().enumerate() {
            let code = match (whole, string.len() > desk.call.limit as usize) {
                (false, _) => 18,
                (true, true) => 10,
                (true, false) => 0,
            };
            let pair = Pair { left: string.clone(), right: string };
            let (answer, _) = self.request(desk, &Request { order: Order::BOTH[number % 2], pair: &pair, budget: 0 });
            if answer.code != code {
                let length = pair.left.len();
                self.differ(&[], &format!("string {number} of {length} cells: {answer:?}, not {code}"));
            }
            self.strings.extreme += 1;
            let [left, right] = pair.sides().map(|side| list.put(side));
            list.pairs.push(ListedPair { left, right, budget: 0 });
            codes.push(code);
        }
        let sheet = self.sheet(desk, &list, codes.len()).unwrap_or_default();
        if !sheet.iter().map(|place| place.code).eq(codes.iter().copied()) {
            self.differ(&[], &format!("{} strings in a list: {sheet:?}, not {codes:?}", codes.len()));
        }
    }
}
