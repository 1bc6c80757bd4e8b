//! Sheets that were worked out by hand.

use super::calls::Call;
use super::comparison::Comparison;
use super::desk::Desk;
use super::worked::{side, BOOK, LIMIT};
use crate::baseline::cells::{ABSTRACTION, TYPE};
use crate::sheets::{List, ListedPair, Span};
use crate::sizes::{LARGEST_LIMIT, SMALLEST_LIMIT};

/// The cells of most lists, one word a cell.
const CELLS: &str = "two suc one big two type x [ nat x";

/// A book that takes a step to check.
const STEPPED_BOOK: &str = "\
*nat:=PN:type
*one:=PN:nat
*n:=EB:nat
n*suc:=PN:nat
*two:=suc(one):nat
*F:=[x,nat]nat:type
*plus2:=[x,nat]suc(suc(x)):F
*four:=<two>plus2:nat
";

/// More pairs than 16 bits can count.
const MANY: usize = (1 << 16) + 2;

/// Start and length of the left string, of the right one, and the budget.
type Numbers = [u32; 5];

/// Places of the sheet, the cells, the pairs, and the code and the steps of each; none, if the sheet is too short.
struct Worked {
    room: usize,
    cells: String,
    pairs: Vec<Numbers>,
    ends: Vec<(u32, u32)>,
}

fn worked(room: usize, cells: &str, pairs: &[Numbers], ends: &[(u32, u32)]) -> Worked {
    Worked { room, cells: cells.to_string(), pairs: pairs.to_vec(), ends: ends.to_vec() }
}

fn sheets() -> Vec<Worked> {
    vec![
        worked(3, CELLS, &[[0, 1, 1, 2, 9], [0, 1, 2, 1, 9], [5, 1, 5, 1, 0]], &[(0, 1), (9, 1), (0, 0)]),
        // Each pair has its own budget.
        worked(2, CELLS, &[[0, 1, 1, 2, 0], [0, 1, 1, 2, 1]], &[(11, 0), (0, 1)]),
        worked(1, CELLS, &[[0, 1, 0, 1, 0]], &[(0, 0)]),
        // Past the cells, from inside and from behind; by a sum of more than 32 bits.
        worked(2, CELLS, &[[9, 2, 0, 1, 9], [0, 1, 2, 1, 9]], &[(18, 0), (9, 1)]),
        worked(1, CELLS, &[[0, 1, 11, 1, 9]], &[(18, 0)]),
        worked(1, CELLS, &[[u32::MAX, 2, 0, 1, 9]], &[(18, 0)]),
        worked(2, CELLS, &[[0, 0, 0, 1, 9], [0, 1, 10, 0, 9]], &[(18, 0), (18, 0)]),
        worked(2, CELLS, &[[6, 1, 0, 1, 9], [7, 3, 7, 3, 9]], &[(18, 0), (0, 0)]),
        // What lies outside the strings is no expression.
        worked(1, &format!("{CELLS} 7 7 7"), &[[0, 1, 1, 2, 9]], &[(0, 1)]),
        worked(
            4, CELLS, &[[0, 1, 2, 1, 9], [0, 13, 2, 1, 9], [3, 2, 0, 1, 1], [0, 1, 2, 1, 9]],
            &[(9, 1), (18, 0), (11, 1), (9, 1)],
        ),
        worked(0, CELLS, &[], &[]),
        worked(0, "", &[], &[]),
        worked(1, CELLS, &[[0, 1, 1, 2, 9], [0, 1, 2, 1, 9]], &[]),
        worked(5, CELLS, &[[0, 1, 1, 2, 9]], &[(0, 1)]),
        worked(3, CELLS, &[[3, 2, 0, 1, 50]; 3], &[(9, 3); 3]),
    ]
}

fn listed([left, left_length, right, right_length, budget]: Numbers) -> ListedPair {
    let [left, right] = [(left, left_length), (right, right_length)].map(|(start, length)| Span { start, length });
    ListedPair { left, right, budget }
}

impl Comparison {
    /// Both programs must give what was worked out.
    pub fn worked_sheets(&mut self) {
        let desk = |book: &'static str, limit| Desk::new(book.as_bytes(), Call::ample(book.as_bytes(), limit));
        self.worked_lists(&desk(BOOK, LIMIT), sheets());
        // Without lines only `type` is whole.
        let pairs = [[0, 1, 0, 1, 0], [1, 1, 0, 1, 0], [2, 3, 0, 1, 0]];
        self.worked_lists(&desk("", LIMIT), vec![worked(3, "type nat [ type x", &pairs, &[(0, 0), (18, 0), (18, 0)])]);
        let long = "[ nat ".repeat(8) + "nat";
        let pairs = [[0, 17, 16, 1, 9], [16, 1, 16, 1, 9]];
        self.worked_lists(&desk("*nat:=PN:type\n", SMALLEST_LIMIT), vec![worked(2, &long, &pairs, &[(10, 0), (0, 0)])]);
        self.worked_refusals();
        self.many_pairs();
    }

    fn worked_lists(&mut self, desk: &Desk, lists: Vec<Worked>) {
        for Worked { room, cells, pairs, ends } in lists {
            let list = List { cells: side(&cells), pairs: pairs.into_iter().map(listed).collect() };
            let sheet = self.sheet(desk, &list, room).unwrap_or_default();
            if !sheet.iter().map(|place| (place.code, place.steps)).eq(ends.iter().copied()) {
                self.differ(desk.book, &format!("{list:?}, room {room}: {sheet:?}, not {ends:?}"));
            }
        }
    }

    /// A refused book comes ahead of a sheet that is too short.
    fn worked_refusals(&mut self) {
        let book = STEPPED_BOOK.as_bytes();
        let one_step = Call { budget: 1, ..Call::ample(book, LIMIT) };
        let list = List { cells: side(CELLS), pairs: vec![listed([0, 1, 1, 2, 9])] };
        for (call, room, refused) in [(one_step, 0, (11, 8, 1)), (Call::ample(book, LARGEST_LIMIT + 1), 1, (2, 0, 0))] {
            let desk = Desk::new(book, call);
            let refusal = desk.refusal().map(|answer| (answer.code, answer.line, answer.steps));
            if refusal != Some(refused) || self.sheet(&desk, &list, room).is_some() {
                self.differ(book, &format!("{call:?}: {refusal:?}, not {refused:?}"));
            }
        }
    }

    /// The last of very many pairs has a place of its own, too.
    fn many_pairs(&mut self) {
        let desk = Desk::new(b"", Call::ample(b"", SMALLEST_LIMIT));
        let pair = |at: usize| listed([0, 1, u32::from(at % 3 == 1), 1, at as u32]);
        let list = List { cells: vec![TYPE, ABSTRACTION], pairs: (0..MANY).map(pair).collect() };
        let sheet = self.sheet(&desk, &list, MANY).unwrap_or_default();
        if !sheet.iter().map(|place| place.code).eq((0..MANY).map(|at| if at % 3 == 1 { 18 } else { 0 })) {
            self.differ(b"", &format!("{MANY} pairs: the sheet is another"));
        }
    }
}
