//! Pairs whose codes and steps were worked out by hand.

use super::calls::Call;
use super::comparison::Comparison;
use super::desk::Desk;
use crate::baseline::cells;
use crate::pairs::{Order, Pair};
use crate::sizes::{Cell, NESTING, SMALLEST_LIMIT};

pub const BOOK: &str = "\
*nat:=PN:type
*one:=PN:nat
*n:=EB:nat
n*suc:=PN:nat
*two:=suc(one):nat
n*dbl:=suc(suc(n)):nat
n*big:=dbl(dbl(dbl(dbl(n)))):nat
*F:=[x,nat]nat:type
*add2:=[x,nat]suc(suc(x)):F
n*k:=one:nat
n*m:=EB:nat
m*fst:=n:nat
*f:=EB:F
f*tw:=[x,nat]<<x>f>f:F
";
pub const LIMIT: u32 = 128;

/// A pair, one word a cell, names and numbers; the budget; and the code and the steps of the first comparison, then of the second.
struct Worked {
    left: String,
    right: String,
    budget: u32,
    ends: [(u32, u32); 2],
}

fn worked(left: &str, right: &str, budget: u32, ends: [(u32, u32); 2]) -> Worked {
    Worked { left: left.to_string(), right: right.to_string(), budget, ends }
}

/// Pairs of expressions.
fn pairs() -> Vec<Worked> {
    let deep = |inner: &str| "suc ".repeat(NESTING - 1) + inner;
    let endless = |domain: &str| format!("< [ {domain} < x x [ {domain} < x x");
    vec![
        // The arguments agree after one step.
        worked("big two", "big suc one", 1000, [(0, 11), (0, 1)]),
        worked("big two", "big suc one", 1, [(11, 1), (0, 1)]),
        worked("big two", "big two", 1000, [(0, 0), (0, 0)]),
        // The argument is ignored; the step of the attempt that fails stays counted.
        worked("k one", "k two", 1000, [(0, 2), (0, 3)]),
        worked("k one", "k two", 2, [(0, 2), (11, 2)]),
        worked("dbl one", "dbl two", 1000, [(9, 3), (9, 4)]),
        worked("fst two one", "fst suc one two", 1000, [(0, 3), (0, 5)]),
        worked("< two add2", "< suc one add2", 1000, [(0, 5), (0, 1)]),
        worked("< one [ nat one", "< two [ nat one", 1000, [(0, 2), (0, 3)]),
        // Neither side has a head step.
        worked("< one f", "< suc one f", 1000, [(9, 0), (9, 0)]),
        worked("< one f", "< two f", 1000, [(9, 1), (9, 1)]),
        worked("dbl one", "< one add2", 1000, [(0, 3), (0, 3)]),
        // An attempt inside an attempt.
        worked("dbl k one", "dbl k two", 1000, [(0, 4), (0, 3)]),
        worked(&endless("nat"), &endless("nat"), 1000, [(0, 0), (0, 0)]),
        worked(&endless("nat"), &endless("F"), 50, [(11, 50), (11, 50)]),
        worked("type", "type", 1000, [(0, 0), (0, 0)]),
        worked("type", "nat", 1000, [(9, 0), (9, 0)]),
        // The second opens depth 33.
        worked(&deep("< one [ nat one"), &deep("< suc one [ nat one"), 1000, [(0, 2), (10, 0)]),
        worked(&deep("one"), &deep("suc one"), 1000, [(9, 0); 2]),
        worked(&deep("suc one"), &deep("suc suc one"), 1000, [(10, 0); 2]),
        worked("two", "suc one", 1000, [(0, 1); 2]),
        worked("two", "suc one", 0, [(11, 0); 2]),
        worked("n", "one", 1000, [(9, 0); 2]),
        worked("[ nat x", "[ nat one", 1000, [(9, 0); 2]),
        // Not correct; without end, growing, dropped by a step.
        worked("< one one", "< two one", 1000, [(9, 1); 2]),
        worked("< one two", "< one suc one", 1000, [(0, 1); 2]),
        worked(&endless("nat"), "nat", 1000, [(11, 1000); 2]),
        worked("< [ nat < x < x x [ nat < x < x x", "nat", 1000, [(10, 14); 2]),
        worked(&format!("< {} [ nat one", endless("nat")), "one", 1000, [(0, 1); 2]),
    ]
}

/// Strings that are not whole, each beside `one`.
const NOT_WHOLE: [&str; 24] = [
    "", "suc", "suc one one", "one one", "suc 0", "0 0", "[ n suc", "17", "27", "3", "1", "123", "6", "7", "12 one one", "13 nat one",
    "8", "4294967295", "x", "[ x one", "[ nat 10", "< [ nat x x", "< one", "[ nat",
];

/// Pairs under the smallest limit: strings of 15 cells, of 16 and of 17, and such that are not whole.
fn long_pairs() -> Vec<Worked> {
    let bodies = |count: usize, last: &str| "[ nat ".repeat(count) + last;
    vec![
        worked(&bodies(7, "nat"), &bodies(7, "nat"), 1000, [(0, 0); 2]),
        worked(&bodies(7, "suc one"), &bodies(7, "two"), 1000, [(0, 1); 2]),
        worked(&bodies(8, "nat"), &bodies(8, "nat"), 1000, [(10, 0); 2]),
        worked(&bodies(8, "nat"), "nat", 1000, [(10, 0); 2]),
        worked("nat", &bodies(8, "x"), 0, [(10, 0); 2]),
        worked(&bodies(8, "nat"), "[", 1000, [(18, 0); 2]),
        worked("", &bodies(8, "nat"), 1000, [(18, 0); 2]),
        worked(&bodies(8, "66"), "nat", 1000, [(18, 0); 2]),
        worked(&bodies(8, "58"), "nat", 1000, [(10, 0); 2]),
    ]
}

fn cell(word: &str) -> Cell {
    let named = |(line, text): (usize, &str)| {
        let (_, rest) = text.split_once('*')?;
        let (_, behind) = rest.split_once(":=").filter(|(name, _)| *name == word)?;
        let kind = if behind.starts_with("EB") { cells::VARIABLE } else { cells::CONSTANT };
        Some(cells::cell(kind, line as Cell + 1))
    };
    match word {
        "type" => cells::TYPE,
        "<" => cells::APPLICATION,
        "[" => cells::ABSTRACTION,
        "x" => cells::cell(cells::BOUND, 0),
        _ => word.parse().ok().or_else(|| BOOK.lines().enumerate().find_map(named)).expect("a number, or a name of the book"),
    }
}

pub fn side(words: &str) -> Vec<Cell> {
    words.split_whitespace().map(cell).collect()
}

impl Comparison {
    /// Both programs must give what was worked out.
    pub fn worked_pairs(&mut self) {
        let beside = |string: &&str| [worked(string, "one", 1000, [(18, 0); 2]), worked("one", string, 1000, [(18, 0); 2])];
        self.worked(LIMIT, pairs());
        self.worked(LIMIT, NOT_WHOLE.iter().flat_map(beside).collect());
        self.worked(SMALLEST_LIMIT, long_pairs());
    }

    fn worked(&mut self, limit: u32, pairs: Vec<Worked>) {
        let book = BOOK.as_bytes();
        let desk = Desk::new(book, Call::ample(book, limit));
        for Worked { left, right, budget, ends } in pairs {
            let pair = Pair { left: side(&left), right: side(&right) };
            let answers = self.pair(&desk, &pair, budget);
            for ((order, answer), end) in Order::BOTH.into_iter().zip(answers).zip(ends) {
                if (answer.code, answer.steps) != end {
                    self.differ(book, &format!("{left} and {right}, {budget} steps: {order:?} {answer:?}, not {end:?}"));
                }
            }
        }
    }
}
