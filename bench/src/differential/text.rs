//! The text of a random book, with arguments left out.

use super::theory::{Kind, Theory};
use super::trees::Tree;
use crate::random::Random;

/// How an author leaves arguments out.
#[derive(Clone, Copy)]
struct Habit {
    /// How often an argument that may be left out is written, in eighths.
    written: usize,
    /// Whether sometimes others are left out, or one too many is written.
    careless: bool,
}

struct Writer<'w> {
    theory: &'w Theory,
    random: &'w mut Random,
    habit: Habit,
    text: String,
    /// The bound names around the current place, outermost first.
    bound: Vec<String>,
}

pub fn text(theory: &Theory, random: &mut Random) -> String {
    let habit = Habit { written: *random.choose(&[0, 0, 1, 4, 8]), careless: random.once_in(4) };
    let mut writer = Writer { theory, random, habit, text: String::new(), bound: Vec::new() };
    for line in &theory.lines {
        let indicator = line.context.last().map_or("", |&v| theory.lines[v].name.as_str());
        writer.text.push_str(&format!("{indicator}*{}:=", line.name));
        match &line.kind {
            Kind::Variable => writer.text.push_str("EB"),
            Kind::Primitive => writer.text.push_str("PN"),
            Kind::Abbreviation(middle) => writer.expression(middle),
        }
        writer.text.push(':');
        writer.expression(&line.category);
        writer.text.push('\n');
    }
    writer.text
}

impl Writer<'_> {
    /// A bound name sometimes hides another, and the book may then be wrong.
    fn expression(&mut self, tree: &Tree) {
        match tree {
            Tree::Type => self.text.push_str("type"),
            Tree::Variable(line) => self.text.push_str(&self.theory.lines[*line].name),
            Tree::Bound(i) => self.text.push_str(&self.bound[self.bound.len() - 1 - i]),
            Tree::Constant(line, arguments) => self.constant(*line, arguments),
            Tree::Application(a, b) => {
                self.text.push('<');
                self.expression(a);
                self.text.push('>');
                self.expression(b);
            }
            Tree::Abstraction(a, b) => {
                let name = match self.random.below(12) {
                    0 => self.random.choose(&self.theory.lines).name.clone(),
                    1 => "x".to_string(),
                    _ => format!("z{}", self.bound.len()),
                };
                self.text.push_str(&format!("[{name},"));
                self.expression(a);
                self.text.push(']');
                self.bound.push(name);
                self.expression(b);
                self.bound.pop();
            }
        }
    }

    fn constant(&mut self, line: usize, arguments: &[Tree]) {
        self.text.push_str(&self.theory.lines[line].name);
        let left_out = self.left_out(line, arguments);
        let too_many = self.habit.careless && self.random.once_in(40);
        let more = if too_many { arguments.last().cloned().unwrap_or(Tree::Constant(0, Vec::new())) } else { Tree::Type };
        let mut before = '(';
        for argument in arguments[left_out..].iter().chain(too_many.then_some(&more)) {
            self.text.push(before);
            self.expression(argument);
            before = ',';
        }
        if before == ',' {
            self.text.push(')');
        }
    }

    /// How many of the first arguments are left out: of those that are the variables of the constant's own context, or,
    /// without care, of all.
    fn left_out(&mut self, line: usize, arguments: &[Tree]) -> usize {
        if self.habit.careless && self.random.once_in(20) {
            return self.random.between(0, arguments.len());
        }
        let variables = &self.theory.lines[line].context;
        let most = variables.iter().zip(arguments).take_while(|&(v, a)| *a == Tree::Variable(*v)).count();
        if self.random.below(8) < self.habit.written { self.random.between(0, most) } else { most }
    }
}
