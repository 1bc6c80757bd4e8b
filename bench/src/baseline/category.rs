//! The category of an expression, and the checks of a line.

use super::cells::{self, Output};
use super::comparison::{abstraction, Book, Budget, Comparer, Versions};
use super::lines::Lines;
use super::Refusal;
use crate::pairs::Order;
use crate::sizes::{Cell, NESTING};

/// A category: cells that lie in the term store or the line, or that were written behind an output.
enum Category<'a> {
    Stored(&'a [Cell]),
    Made,
}

impl<'a> Category<'a> {
    fn cells<'c>(&self, made: &'c [Cell]) -> &'c [Cell]
    where
        'a: 'c,
    {
        match self {
            Category::Stored(cells) => cells,
            Category::Made => made,
        }
    }
}

/// The stores of one level of nesting.
#[derive(Default)]
struct Frame {
    found: Vec<Cell>,
    wanted: Vec<Cell>,
    versions: Versions,
}

/// Checks lines; holds the stores that they share.
pub struct Checker {
    budget: Budget,
    limit: usize,
    order: Order,
    comparer: Comparer,
    frames: Vec<Frame>,
    out: Vec<Cell>,
    /// The starts and ends of the arguments that are being checked.
    arguments: Vec<(u32, u32)>,
    /// The starts and ends of the domains around the current place, outermost first.
    domains: Vec<(u32, u32)>,
}

impl Checker {
    pub fn new(budget: u32, limit: usize, order: Order) -> Self {
        Checker {
            budget: Budget::new(budget),
            limit,
            order,
            comparer: Comparer::new(),
            frames: (0..NESTING).map(|_| Frame::default()).collect(),
            out: Vec::new(),
            arguments: Vec::new(),
            domains: Vec::new(),
        }
    }

    pub fn steps(&self) -> u32 {
        self.budget.steps
    }

    /// The written category, the middle, their comparison. The first `middle` cells are the middle's.
    pub fn line(&mut self, lines: &Lines, terms: &[Cell], cells: &[Cell], middle: usize) -> Result<(), Refusal> {
        let Checker { budget, limit, order, comparer, frames, out, arguments, domains } = self;
        arguments.clear();
        domains.clear();
        let book = Book { lines, terms, limit: *limit };
        let mut check = Check { book, cells, budget, order: *order, comparer, arguments, domains };
        let written = &cells[middle..];
        if written[0] != cells::TYPE {
            check.is_type(middle, out, frames)?;
        }
        if middle > 0 {
            out.clear();
            let (category, _) = check.category(0, out, frames)?;
            check.compare(category.cells(out), written)?;
        }
        Ok(())
    }
}

/// The check of one line.
struct Check<'a, 'b> {
    book: Book<'a>,
    cells: &'a [Cell],
    budget: &'b mut Budget,
    order: Order,
    comparer: &'b mut Comparer,
    arguments: &'b mut Vec<(u32, u32)>,
    domains: &'b mut Vec<(u32, u32)>,
}

impl<'a> Check<'a, '_> {
    fn compare(&mut self, found: &[Cell], wanted: &[Cell]) -> Result<(), Refusal> {
        self.comparer.compare(self.order, found, wanted, &self.book, self.budget)
    }

    /// The category of the expression at `at`, made behind `out` if it is not stored, and the expression's end.
    fn category(&mut self, at: usize, out: &mut Vec<Cell>, frames: &mut [Frame]) -> Result<(Category<'a>, usize), Refusal> {
        let c = self.cells[at];
        let line = cells::value(c);
        match cells::kind(c) {
            cells::VARIABLE => Ok((Category::Stored(self.book.lines.category(line, self.book.terms)), at + 1)),
            cells::BOUND => Ok((self.domain(line as usize, out)?, at + 1)),
            cells::CONSTANT => self.constant(line, at + 1, out, frames),
            cells::APPLICATION => self.application(at + 1, out, frames),
            _ => self.abstraction(at, out, frames),
        }
    }

    /// The domain of a bound variable, with `between` bindings between.
    fn domain(&self, between: usize, out: &mut Vec<Cell>) -> Result<Category<'a>, Refusal> {
        let (start, end) = self.domains[self.domains.len() - 1 - between];
        let domain = &self.cells[start as usize..end as usize];
        if !cells::has_bound(domain) {
            return Ok(Category::Stored(domain));
        }
        let mut out = Output::new(out, self.book.limit);
        cells::lift(domain, between + 1, self.book.lines, &mut out)?;
        Ok(Category::Made)
    }

    /// A constant whose arguments begin at `at`.
    fn constant(
        &mut self, line: Cell, mut at: usize, out: &mut Vec<Cell>, frames: &mut [Frame],
    ) -> Result<(Category<'a>, usize), Refusal> {
        let Book { lines, terms, limit } = self.book;
        let category = lines.category(line, terms);
        let variables = lines.variables(line);
        if variables.is_empty() {
            return Ok((Category::Stored(category), at));
        }
        let (Frame { found, wanted, .. }, deeper) = frames.split_first_mut().unwrap();
        let base = self.arguments.len();
        for &variable in variables {
            found.clear();
            let (category, end) = self.category(at, found, deeper)?;
            wanted.clear();
            let template = lines.category(variable, terms);
            cells::instantiate(template, self.cells, &self.arguments[base..], lines, &mut Output::new(wanted, limit))?;
            self.compare(category.cells(found), wanted)?;
            self.arguments.push((at as u32, end as u32));
            at = end;
        }
        let result = if category[0] == cells::TYPE {
            Category::Stored(category)
        } else {
            cells::instantiate(category, self.cells, &self.arguments[base..], lines, &mut Output::new(out, limit))?;
            Category::Made
        };
        self.arguments.truncate(base);
        Ok((result, at))
    }

    /// `<A>B` whose A begins at `at`.
    fn application(&mut self, at: usize, out: &mut Vec<Cell>, frames: &mut [Frame]) -> Result<(Category<'a>, usize), Refusal> {
        let Book { lines, limit, .. } = self.book;
        let (Frame { found, wanted, versions }, deeper) = frames.split_first_mut().unwrap();
        let function = cells::end(self.cells, at, lines);
        found.clear();
        let (category, end) = self.category(function, found, deeper)?;
        let (domain, body) = abstraction(category.cells(found), versions, &self.book, self.budget)?;
        wanted.clear();
        let (category, _) = self.category(at, wanted, deeper)?;
        self.compare(category.cells(wanted), domain)?;
        cells::substitute(body, &self.cells[at..function], lines, &mut Output::new(out, limit))?;
        Ok((Category::Made, end))
    }

    /// The abstraction at `at`.
    fn abstraction(&mut self, at: usize, out: &mut Vec<Cell>, frames: &mut [Frame]) -> Result<(Category<'a>, usize), Refusal> {
        let (Frame { found, .. }, deeper) = frames.split_first_mut().unwrap();
        let body = self.is_type(at + 1, found, deeper)?;
        self.domains.push((at as u32 + 1, body as u32));
        let start = out.len();
        out.extend_from_slice(&self.cells[at..body]);
        let (category, end) = self.category(body, out, deeper)?;
        self.domains.pop();
        if let Category::Stored(cells) = category {
            if cells[0] == cells::TYPE {
                out.truncate(start);
                return Ok((category, end));
            }
            out.extend_from_slice(cells);
        }
        if out.len() - start > self.book.limit {
            return Err(Refusal::TooLarge);
        }
        Ok((Category::Made, end))
    }

    /// Refuses the expression at `at` unless its category is `type`; gives its end.
    fn is_type(&mut self, at: usize, out: &mut Vec<Cell>, frames: &mut [Frame]) -> Result<usize, Refusal> {
        out.clear();
        let (category, end) = self.category(at, out, frames)?;
        if category.cells(out)[0] != cells::TYPE {
            return Err(Refusal::NotType);
        }
        Ok(end)
    }
}
