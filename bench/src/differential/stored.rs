//! The lines of an accepted book as its check left them: their cells read as trees, and trees as cells.

use super::theory::{Kind, Line, Theory};
use super::trees::Tree;
use crate::baseline::cells;
use crate::sizes::{Cell, INDICATOR, KIND};
use crate::stores::Stores;

const VARIABLE: u32 = 0;

/// The first lines, without their names.
pub fn theory(lines: usize, stores: &Stores) -> Theory {
    let mut theory = Theory { lines: Vec::new() };
    for line in 0..lines {
        let row = stores.row(line);
        let context = match row[INDICATOR] as usize {
            0 => Vec::new(),
            indicator => [&theory.lines[indicator - 1].context[..], &[indicator - 1]].concat(),
        };
        let [middle, category] = stores.parts(line);
        let kind = match (row[KIND], middle) {
            (VARIABLE, _) => Kind::Variable,
            (_, []) => Kind::Primitive,
            _ => Kind::Abbreviation(tree(middle, &theory)),
        };
        let category = tree(category, &theory);
        theory.lines.push(Line { name: String::new(), context, kind, category });
    }
    theory
}

/// The expression that these cells are.
fn tree(cells: &[Cell], theory: &Theory) -> Tree {
    next_tree(&mut cells.iter(), theory)
}

fn next_tree(cells: &mut std::slice::Iter<Cell>, theory: &Theory) -> Tree {
    let &cell = cells.next().expect("a whole expression");
    let mut part = || Box::new(next_tree(cells, theory));
    let value = cells::value(cell) as usize;
    match cells::kind(cell) {
        cells::VARIABLE => Tree::Variable(value - 1),
        cells::BOUND => Tree::Bound(value),
        cells::CONSTANT => Tree::Constant(value - 1, theory.lines[value - 1].context.iter().map(|_| *part()).collect()),
        cells::APPLICATION => Tree::Application(part(), part()),
        cells::ABSTRACTION => Tree::Abstraction(part(), part()),
        _ => Tree::Type,
    }
}

/// The cells of an expression.
pub fn cells(tree: &Tree) -> Vec<Cell> {
    let mut cells = Vec::new();
    put(tree, &mut cells);
    cells
}

fn put(tree: &Tree, cells: &mut Vec<Cell>) {
    let (kind, value) = match tree {
        Tree::Type => (cells::TYPE, 0),
        Tree::Variable(line) => (cells::VARIABLE, line + 1),
        Tree::Bound(between) => (cells::BOUND, *between),
        Tree::Constant(line, _) => (cells::CONSTANT, line + 1),
        Tree::Application(..) => (cells::APPLICATION, 0),
        Tree::Abstraction(..) => (cells::ABSTRACTION, 0),
    };
    cells.push(cells::cell(kind, value as Cell));
    match tree {
        Tree::Constant(_, arguments) => arguments.iter().for_each(|a| put(a, cells)),
        Tree::Application(a, b) | Tree::Abstraction(a, b) => [a, b].into_iter().for_each(|part| put(part, cells)),
        _ => {}
    }
}
