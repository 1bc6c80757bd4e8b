//! Whole strings of cells over the lines of an accepted book, of any length and nesting.

use super::theory::Theory;
use crate::baseline::cells::{self, cell};
use crate::random::Random;
use crate::sizes::Cell;

/// The cells that expressions over some lines are made of.
pub struct Vocabulary {
    pub lines: usize,
    /// Variables, and constants without and with arguments.
    pub variables: Vec<Cell>,
    pub constants: Vec<Cell>,
    pub functions: Vec<Cell>,
    /// How many arguments the lines take as constants.
    arguments: Vec<usize>,
}

/// A part of a whole string: where it ends, and how many bindings are around it.
#[derive(Clone, Copy)]
pub struct Part {
    pub end: usize,
    pub bindings: usize,
}

/// What is put around a part.
#[derive(Clone, Copy)]
enum Around {
    /// `<A>` before it, `<` `>A` around it.
    Function,
    Argument,
    /// `[x,A]` before it, `[x,` `]A` around it.
    Body,
    Domain,
    Constant,
}

impl Around {
    const ALL: [Around; 5] = [Around::Function, Around::Argument, Around::Body, Around::Domain, Around::Constant];
}

impl Vocabulary {
    pub fn of(theory: &Theory) -> Vocabulary {
        let mut all = Vocabulary {
            lines: theory.lines.len(), variables: Vec::new(), constants: Vec::new(), functions: Vec::new(), arguments: Vec::new(),
        };
        for (line, number) in theory.lines.iter().zip(1..) {
            let arguments = line.context.len();
            match (line.is_variable(), arguments) {
                (true, _) => all.variables.push(cell(cells::VARIABLE, number)),
                (_, 0) => all.constants.push(cell(cells::CONSTANT, number)),
                _ => all.functions.push(cell(cells::CONSTANT, number)),
            }
            all.arguments.push(arguments);
        }
        all
    }

    /// How many expressions follow a cell of a whole string as its parts.
    fn parts(&self, of: Cell) -> usize {
        match cells::kind(of) {
            cells::CONSTANT => self.arguments[cells::value(of) as usize - 1],
            cells::APPLICATION | cells::ABSTRACTION => 2,
            _ => 0,
        }
    }

    /// The part that begins at each cell of a whole string.
    pub fn outline(&self, string: &[Cell]) -> Vec<Part> {
        let mut outline = Vec::with_capacity(string.len());
        self.outline_of_part(string, 0, &mut outline);
        outline
    }

    fn outline_of_part(&self, string: &[Cell], bindings: usize, outline: &mut Vec<Part>) {
        let at = outline.len();
        outline.push(Part { end: at, bindings });
        for place in 0..self.parts(string[at]) {
            let binds = string[at] == cells::ABSTRACTION && place == 1;
            self.outline_of_part(string, bindings + usize::from(binds), outline);
        }
        outline[at].end = outline.len();
    }

    /// A variable or a constant without arguments; or, inside bindings, often a bound variable.
    pub fn leaf(&self, random: &mut Random, bindings: usize) -> Cell {
        if bindings > 0 && !random.once_in(3) {
            let number = if random.once_in(2) { random.below(bindings) } else { bindings - 1 };
            return cell(cells::BOUND, number as Cell);
        }
        let both = self.variables.len() + self.constants.len();
        let number = random.below(both);
        *self.variables.get(number).unwrap_or_else(|| &self.constants[number - self.variables.len()])
    }

    /// An expression of about this length: a cell is missing where one is left and no constant takes one argument. `type` if there
    /// are no lines.
    pub fn string(&self, random: &mut Random, length: usize) -> Vec<Cell> {
        if self.lines == 0 {
            return vec![cells::TYPE];
        }
        let mut front = Vec::new();
        // The last first.
        let mut behind = Vec::new();
        let mut bindings = 0;
        let habit = random.once_in(2).then(|| *random.choose(&Around::ALL));
        while let Some(around) = self.fitting(random, habit, length.saturating_sub(front.len() + 1 + behind.len())) {
            match around {
                Around::Function => front.extend([cells::APPLICATION, self.leaf(random, bindings)]),
                Around::Argument => {
                    front.push(cells::APPLICATION);
                    behind.push(self.leaf(random, bindings));
                }
                Around::Body => {
                    front.extend([cells::ABSTRACTION, self.leaf(random, bindings)]);
                    bindings += 1;
                }
                Around::Domain => {
                    front.push(cells::ABSTRACTION);
                    behind.push(self.leaf(random, bindings + 1));
                }
                Around::Constant => {
                    let most = length - front.len() - 1 - behind.len();
                    let constant = self.function(random, most).expect("one that fits");
                    let arguments = self.parts(constant);
                    let ahead = random.below(arguments);
                    front.push(constant);
                    front.extend((0..ahead).map(|_| self.leaf(random, bindings)));
                    behind.extend((ahead + 1..arguments).map(|_| self.leaf(random, bindings)));
                }
            }
        }
        front.push(self.leaf(random, bindings));
        front.extend(behind.iter().rev());
        front
    }

    /// What may be put around a part where so many cells are left, if anything.
    fn fitting(&self, random: &mut Random, habit: Option<Around>, left: usize) -> Option<Around> {
        let around = habit.unwrap_or_else(|| *random.choose(&Around::ALL));
        let constant = self.functions.iter().any(|&c| self.parts(c) <= left);
        match (around, left) {
            (_, 0) => None,
            (Around::Constant, 2..) if !constant => Some(Around::Function),
            (Around::Constant, _) | (_, 1) => constant.then_some(Around::Constant),
            _ => Some(around),
        }
    }

    /// A constant with at most so many arguments, and at least one.
    fn function(&self, random: &mut Random, most: usize) -> Option<Cell> {
        let fitting: Vec<Cell> = self.functions.iter().copied().filter(|&c| self.parts(c) <= most).collect();
        if fitting.is_empty() { None } else { Some(*random.choose(&fitting)) }
    }
}
