//! Random books that are mostly correct: each expression is made for the category that is wanted.

use super::text;
use super::theory::{Kind, Line, Theory};
use super::trees::{abstraction, application, Tree};
use crate::random::Random;

/// A book being written.
pub struct Typed<'r> {
    random: &'r mut Random,
    theory: Theory,
}

/// The variables at hand: those of a context, and the domains of bound ones, outermost first.
struct Scope {
    context: Vec<usize>,
    domains: Vec<Tree>,
}

pub fn book(random: &mut Random, lines: usize) -> Vec<u8> {
    let mut book = Typed { random, theory: Theory { lines: Vec::new() } };
    while book.theory.lines.len() < lines {
        book.line();
    }
    text::text(&book.theory, book.random).into_bytes()
}

impl Typed<'_> {
    fn line(&mut self) {
        let indicator = self.indicator();
        let context = indicator.map_or(Vec::new(), |v| [&self.theory.lines[v].context[..], &[v]].concat());
        let mut scope = Scope { context, domains: Vec::new() };
        let choice = self.random.below(10);
        let (kind, category) = match choice {
            _ if self.theory.lines.is_empty() => (Kind::Primitive, Tree::Type),
            0 => (Kind::Primitive, Tree::Type),
            1..=2 => (Kind::Variable, self.type_in(&mut scope, 2)),
            3..=4 => (Kind::Primitive, self.type_in(&mut scope, 3)),
            5 => (Kind::Abbreviation(self.type_in(&mut scope, 3)), Tree::Type),
            _ => match self.abbreviation(&mut scope) {
                Some(made) => made,
                None => return,
            },
        };
        let number = self.theory.lines.len();
        let name = match self.random.below(12) {
            0 => format!("n{}_{number}", "x".repeat(29 - number.to_string().len())),
            1..=3 => format!("name{number}"),
            _ => format!("{}{number}", *self.random.choose(&["a", "b", "c", "T", "P", "x"])),
        };
        self.theory.lines.push(Line { name, context: scope.context, kind, category });
    }

    fn abbreviation(&mut self, scope: &mut Scope) -> Option<(Kind, Tree)> {
        let wanted = self.type_in(scope, 2);
        let normal = self.theory.normal(&wanted)?;
        let middle = self.expression(scope, &normal, 4)?;
        let written = match self.random.below(3) {
            0 => normal,
            1 => wanted,
            _ => self.theory.category(&scope.domains, &middle)?,
        };
        Some((Kind::Abbreviation(middle), written))
    }

    /// A variable or none.
    fn indicator(&mut self) -> Option<usize> {
        let variables: Vec<usize> = (0..self.theory.lines.len()).filter(|&i| self.theory.lines[i].is_variable()).collect();
        if variables.is_empty() || self.random.once_in(3) {
            return None;
        }
        let from = if self.random.once_in(2) { variables.len().saturating_sub(3) } else { 0 };
        Some(*self.random.choose(&variables[from..]))
    }

    /// A type; there is a constant `type` at line 0.
    fn type_in(&mut self, scope: &mut Scope, depth: usize) -> Tree {
        for _ in 0..4 {
            if depth > 0 && self.random.once_in(4) {
                let domain = self.type_in(scope, depth - 1);
                scope.domains.push(domain.clone());
                let body = self.type_in(scope, depth - 1);
                scope.domains.pop();
                return abstraction(domain, body);
            }
            if let Some(found) = self.constant(scope, &Tree::Type, depth) {
                return found;
            }
        }
        Tree::Constant(0, Vec::new())
    }

    /// An expression whose category has this normal form.
    fn expression(&mut self, scope: &mut Scope, wanted: &Tree, depth: usize) -> Option<Tree> {
        if depth > 0 && self.random.once_in(6) {
            if let Some(found) = self.redex(scope, wanted, depth - 1) {
                return Some(found);
            }
        }
        if depth > 0 && self.random.below(3) < 2 {
            if let Some(found) = self.constant(scope, wanted, depth) {
                return Some(found);
            }
        }
        if depth > 0 && self.random.once_in(3) {
            if let Some(found) = self.applied(scope, wanted, depth) {
                return Some(found);
            }
        }
        if let (Tree::Abstraction(domain, body), true) = (wanted, depth > 0) {
            scope.domains.push((**domain).clone());
            let made = self.expression(scope, body, depth - 1);
            scope.domains.pop();
            return made.map(|body| abstraction((**domain).clone(), body));
        }
        self.variable(scope, wanted).or_else(|| if depth > 0 { self.constant(scope, wanted, depth) } else { None })
    }

    fn variable(&mut self, scope: &Scope, wanted: &Tree) -> Option<Tree> {
        let mut found: Vec<Tree> = Vec::new();
        for (i, domain) in scope.domains.iter().rev().enumerate() {
            if self.theory.normal(&domain.lift(i + 1)).as_ref() == Some(wanted) {
                found.push(Tree::Bound(i));
            }
        }
        for &line in &scope.context {
            if self.theory.normal(&self.theory.lines[line].category).as_ref() == Some(wanted) {
                found.push(Tree::Variable(line));
            }
        }
        for (line, l) in self.theory.lines.iter().enumerate() {
            let constant = l.context.is_empty() && !l.is_variable();
            if constant && l.category != Tree::Type && self.theory.normal(&l.category).as_ref() == Some(wanted) {
                found.push(Tree::Constant(line, Vec::new()));
            }
        }
        if found.is_empty() { None } else { Some(self.random.choose(&found).clone()) }
    }

    /// A constant with arguments: those that the wanted category shows, and others made for theirs; often the first are
    /// the variables that its context has in common with the line's.
    fn constant(&mut self, scope: &mut Scope, wanted: &Tree, depth: usize) -> Option<Tree> {
        for _ in 0..6 {
            let line = self.random.below(self.theory.lines.len());
            if let Some(found) = self.constant_of(line, scope, wanted, depth) {
                return Some(found);
            }
        }
        None
    }

    fn constant_of(&mut self, line: usize, scope: &mut Scope, wanted: &Tree, depth: usize) -> Option<Tree> {
        let l = &self.theory.lines[line];
        if l.is_variable() || (*wanted == Tree::Type) != (l.category == Tree::Type) {
            return None;
        }
        let (context, category) = (l.context.clone(), l.category.clone());
        let mut shown = vec![None; context.len()];
        wanted.matches(&self.theory.normal(&category)?, &context, &mut shown);
        let common = context.iter().zip(&scope.context).take_while(|(a, b)| a == b).count();
        let mut kept = if self.random.below(3) < 2 { common } else { 0 };
        let mut arguments = Vec::new();
        for (place, shown) in shown.into_iter().enumerate() {
            let own = Tree::Variable(context[place]);
            if shown.as_ref().is_some_and(|argument| *argument != own) {
                kept = kept.min(place);
            }
            let argument = match shown {
                Some(argument) => argument,
                None if place < kept => own,
                None => {
                    let needed = self.theory.lines[context[place]].category.instantiate(&context, &arguments);
                    let needed = self.theory.normal(&needed)?;
                    self.expression(scope, &needed, depth.checked_sub(1)?)?
                }
            };
            arguments.push(argument);
        }
        let made = category.instantiate(&context, &arguments);
        (self.theory.normal(&made)? == *wanted).then_some(Tree::Constant(line, arguments))
    }

    /// `<A>B` with a variable or constant B of a function type.
    fn applied(&mut self, scope: &mut Scope, wanted: &Tree, depth: usize) -> Option<Tree> {
        let mut functions: Vec<(Tree, Tree)> = Vec::new();
        for (i, domain) in scope.domains.iter().rev().enumerate() {
            functions.push((Tree::Bound(i), domain.lift(i + 1)));
        }
        for (line, l) in self.theory.lines.iter().enumerate() {
            if l.is_variable() && scope.context.contains(&line) {
                functions.push((Tree::Variable(line), l.category.clone()));
            } else if l.context.is_empty() && !l.is_variable() {
                functions.push((Tree::Constant(line, Vec::new()), l.category.clone()));
            }
        }
        for _ in 0..4 {
            let (function, category) = functions.get(self.random.below(functions.len().max(1)))?.clone();
            if let Some(Tree::Abstraction(domain, body)) = self.theory.normal(&category) {
                let argument = self.expression(scope, &domain, depth - 1)?;
                if self.theory.normal(&body.substitute(&argument)).as_ref() == Some(wanted) {
                    return Some(application(argument, function));
                }
            }
        }
        None
    }

    /// `<A>[x,P]T`.
    fn redex(&mut self, scope: &mut Scope, wanted: &Tree, depth: usize) -> Option<Tree> {
        let domain = self.type_in(scope, 1);
        let normal = self.theory.normal(&domain)?;
        let argument = self.expression(scope, &normal, depth)?;
        scope.domains.push(domain.clone());
        let body = self.expression(scope, &wanted.lift(1), depth);
        scope.domains.pop();
        Some(application(argument, abstraction(domain, body?)))
    }
}
