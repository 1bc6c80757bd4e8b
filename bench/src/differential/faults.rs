//! Faults for which a string of cells is not whole, and changes for which it may not be.

use super::whole::{Part, Vocabulary};
use crate::baseline::cells::{self, cell, kind, value};
use crate::random::Random;
use crate::sizes::{Cell, CELL_FACTOR};

#[derive(Clone, Copy, Debug, PartialEq, Eq)]
pub enum Fault {
    Empty,
    Cut,
    Behind,
    Row,
    TypeAndMore,
    LineZero,
    LineBeyond,
    ConstantsLine,
    VariablesLine,
    Unbound,
    TypeInside,
    ArgumentMissing,
    ArgumentTooMany,
    NoKind,
    Numbered,
    LargestCell,
    /// Behind these a string may be whole.
    LeftOut,
    OtherKind,
    OtherNumber,
    Exchanged,
    AnyCells,
}

pub const FAULTS: [(Fault, &str); 21] = [
    (Fault::Empty, "the empty string"),
    (Fault::Cut, "missing cells at the end"),
    (Fault::Behind, "cells behind an expression"),
    (Fault::Row, "two expressions in a row"),
    (Fault::TypeAndMore, "type and more"),
    (Fault::LineZero, "line 0"),
    (Fault::LineBeyond, "a line above the last"),
    (Fault::ConstantsLine, "a variable's cell with a constant's line"),
    (Fault::VariablesLine, "a constant's cell with a variable's line"),
    (Fault::Unbound, "a bound variable without its binding"),
    (Fault::TypeInside, "type inside"),
    (Fault::ArgumentMissing, "a part missing"),
    (Fault::ArgumentTooMany, "a part too many"),
    (Fault::NoKind, "kind 6 or 7"),
    (Fault::Numbered, "a number in kind 0, 4 or 5"),
    (Fault::LargestCell, "the largest cell"),
    (Fault::LeftOut, "a cell left out"),
    (Fault::OtherKind, "a cell of another kind"),
    (Fault::OtherNumber, "a cell with another number"),
    (Fault::Exchanged, "two cells exchanged"),
    (Fault::AnyCells, "random cells"),
];

const LARGEST_NUMBER: Cell = Cell::MAX / CELL_FACTOR;
/// How many random cells there are beside a string, and at most in place of one.
const FEW_CELLS: usize = 3;

impl Fault {
    /// Whether no string is whole that has it.
    pub fn is_certain(self) -> bool {
        !matches!(self, Fault::LeftOut | Fault::OtherKind | Fault::OtherNumber | Fault::Exchanged | Fault::AnyCells)
    }
}

/// Puts faults in strings over some lines.
pub struct Spoiler<'s> {
    pub random: &'s mut Random,
    pub vocabulary: &'s Vocabulary,
}

impl Spoiler<'_> {
    /// A whole string with this fault, if it can have it.
    pub fn spoiled(&mut self, mut string: Vec<Cell>, fault: Fault) -> Option<Vec<Cell>> {
        let length = string.len();
        let any = self.random.below(length);
        match fault {
            Fault::Empty => string.clear(),
            Fault::Cut if length == 1 => return None,
            Fault::Cut => string.truncate(self.random.between(1, length - 1)),
            Fault::Behind => {
                for _ in 0..self.random.between(1, FEW_CELLS) {
                    string.push(self.any_cell());
                }
            }
            Fault::Row => string.extend(self.another()),
            Fault::TypeAndMore => string.insert(0, cells::TYPE),
            Fault::LeftOut if length == 1 => return None,
            Fault::LeftOut => {
                string.remove(any);
            }
            Fault::OtherKind => string[any] = cell(self.random.below(CELL_FACTOR as usize) as Cell, value(string[any])),
            Fault::OtherNumber => string[any] = cell(kind(string[any]), self.number(value(string[any]))),
            Fault::Exchanged => string.swap(any, self.random.below(length)),
            Fault::AnyCells => string = (0..length).map(|_| self.any_cell()).collect(),
            Fault::Unbound | Fault::TypeInside | Fault::ArgumentMissing | Fault::ArgumentTooMany => {
                return self.spoiled_in_part(string, fault);
            }
            _ => return self.spoiled_in_cell(string, fault),
        }
        Some(string)
    }

    /// A fault that one cell has.
    fn spoiled_in_cell(&mut self, mut string: Vec<Cell>, fault: Fault) -> Option<Vec<Cell>> {
        let vocabulary = self.vocabulary;
        let is_name = |c| matches!(kind(c), cells::VARIABLE | cells::CONSTANT);
        let is_pair = |c| matches!(c, cells::APPLICATION | cells::ABSTRACTION);
        let at = match fault {
            Fault::LineZero | Fault::LineBeyond => self.place(&string, is_name),
            Fault::ConstantsLine => self.place(&string, |c| vocabulary.constants.contains(&c)),
            Fault::VariablesLine => self.place(&string, |c| kind(c) == cells::VARIABLE),
            Fault::Numbered => self.place(&string, is_pair),
            _ => self.random.below(string.len()),
        };
        let was = string[at];
        let name = if is_name(was) { kind(was) } else { *self.random.choose(&[cells::VARIABLE, cells::CONSTANT]) };
        let own = |of_kind, others: &[Cell]| if kind(was) == of_kind { Some(was) } else { others.first().copied() };
        let (number, last) = (self.number(value(was)), vocabulary.lines as Cell);
        string[at] = match fault {
            Fault::LineZero => cell(name, 0),
            Fault::LineBeyond => cell(name, *self.random.choose(&[last + 1, last + 2, last + 65_536, LARGEST_NUMBER])),
            Fault::ConstantsLine => cell(cells::VARIABLE, value(own(cells::CONSTANT, &vocabulary.constants)?)),
            Fault::VariablesLine => cell(cells::CONSTANT, value(own(cells::VARIABLE, &vocabulary.variables)?)),
            Fault::NoKind => cell(*self.random.choose(&[6, 7]), number),
            Fault::Numbered if is_pair(was) => cell(was, number.max(1)),
            Fault::Numbered => cell(cells::TYPE, number.max(1)),
            _ => Cell::MAX,
        };
        Some(string)
    }

    /// A fault in which a part of the string is replaced or left out, or one put in.
    fn spoiled_in_part(&mut self, mut string: Vec<Cell>, fault: Fault) -> Option<Vec<Cell>> {
        let outline = self.vocabulary.outline(&string);
        let at = self.random.below(string.len());
        let Part { end, bindings } = outline[at];
        match fault {
            Fault::Unbound => {
                let number = bindings as Cell + *self.random.choose(&[0, 0, 0, 1, LARGEST_NUMBER - bindings as Cell]);
                string.splice(at..end, [cell(cells::BOUND, number)]);
            }
            Fault::TypeInside if at == 0 => string.splice(0..0, [cells::APPLICATION, cells::TYPE]).for_each(drop),
            Fault::TypeInside => string.splice(at..end, [cells::TYPE]).for_each(drop),
            Fault::ArgumentMissing if at == 0 => return None,
            Fault::ArgumentMissing => string.drain(at..end).for_each(drop),
            _ => {
                let part = if self.vocabulary.lines == 0 { cells::TYPE } else { self.vocabulary.leaf(self.random, bindings) };
                string.insert(*self.random.choose(&[at, end]), part);
            }
        }
        Some(string)
    }

    /// The place of some cell that fits, or of any if there is none.
    fn place(&mut self, string: &[Cell], fits: impl Fn(Cell) -> bool) -> usize {
        let fitting: Vec<usize> = (0..string.len()).filter(|&at| fits(string[at])).collect();
        if fitting.is_empty() { self.random.below(string.len()) } else { *self.random.choose(&fitting) }
    }

    /// A number beside this one, of some line, or any.
    fn number(&mut self, number: Cell) -> Cell {
        match self.random.below(8) {
            0..=2 => (number + 1).min(LARGEST_NUMBER),
            3..=4 => number.saturating_sub(1),
            5..=6 => self.random.between(0, self.vocabulary.lines + 1) as Cell,
            _ => self.random.next() as Cell / CELL_FACTOR,
        }
    }

    /// A cell that may stand in an expression, seldom one that may not.
    fn any_cell(&mut self) -> Cell {
        let Vocabulary { functions, lines, .. } = self.vocabulary;
        match self.random.below(16) {
            0 => self.random.below(64) as Cell,
            1..=2 => cells::APPLICATION,
            3..=4 => cells::ABSTRACTION,
            5..=7 => cell(cells::BOUND, self.random.below(3) as Cell),
            8..=9 if !functions.is_empty() => *self.random.choose(functions),
            _ if *lines > 0 => self.vocabulary.leaf(self.random, 0),
            _ => cells::TYPE,
        }
    }

    /// Another whole string.
    fn another(&mut self) -> Vec<Cell> {
        let length = self.random.between(1, FEW_CELLS);
        self.vocabulary.string(self.random, length)
    }
}
