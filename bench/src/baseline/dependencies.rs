//! The lines that a line names, and the `PN` lines that it rests on.

use super::cells;
use super::lines::Kind;
use crate::sizes::{Cell, KIND, ROW_WIDTH};
use crate::stores::Stores;

/// The lines named by one line; the store is shared by all.
#[derive(Default)]
pub struct Dependencies {
    entry: Vec<u32>,
    /// The last line that named each line.
    named_by: Vec<u32>,
}

impl Dependencies {
    /// The entry of a line in the index, without its count: its indicator and the lines of its cells, ascending, each once.
    pub fn of_line(&mut self, number: u32, indicator: Cell, cells: &[Cell]) -> &[u32] {
        self.entry.clear();
        self.named_by.resize(number as usize, 0);
        if indicator != 0 {
            self.name(number, indicator);
        }
        for &c in cells {
            if matches!(cells::kind(c), cells::VARIABLE | cells::CONSTANT) {
                self.name(number, cells::value(c));
            }
        }
        self.entry.sort_unstable();
        &self.entry
    }

    #[inline]
    fn name(&mut self, number: u32, named: Cell) {
        let last = &mut self.named_by[named as usize];
        if *last != number {
            *last = number;
            self.entry.push(named);
        }
    }
}

/// The `PN` lines reached from a line of an accepted book by following names, ascending.
pub fn primitives(line: usize, stores: &Stores) -> Vec<u32> {
    let Stores { table, index, .. } = stores;
    let mut starts = vec![0; line + 1];
    for v in 1..line {
        starts[v + 1] = starts[v] + 1 + index[starts[v]] as usize;
    }
    let mut reached = vec![false; line + 1];
    reached[line] = true;
    // A line names lines before it alone, so one pass is enough.
    for v in (1..=line).rev() {
        if reached[v] {
            let count = index[starts[v]] as usize;
            let names = &index[starts[v] + 1..][..count];
            names.iter().for_each(|&n| reached[n as usize] = true);
        }
    }
    let primitive = |v: &usize| table[ROW_WIDTH * (v - 1) + KIND] == Kind::Primitive as u32;
    (1..=line).filter(|&v| reached[v]).filter(primitive).map(|v| v as u32).collect()
}
