//! Books about long blocks: what their lines leave out makes them large or deep. Everything is of one type `t`.

use crate::generate::with_arguments;
use crate::random::Random;
use crate::sizes::NESTING;

/// A variable or a constant; a variable's context ends with itself, a constant has as many arguments.
struct Line {
    name: String,
    context: Vec<usize>,
}

struct Blocks<'r> {
    random: &'r mut Random,
    /// Whether arguments are sometimes left out where they may not be, one too many is written, or any variable is used.
    careless: bool,
    text: String,
    variables: Vec<Line>,
    constants: Vec<Line>,
}

pub fn book(random: &mut Random) -> Vec<u8> {
    let careless = random.once_in(3);
    let text = "*t:=PN:type\n*o:=PN:t\n".to_string();
    let mut book = Blocks { random, careless, text, variables: Vec::new(), constants: Vec::new() };
    book.block();
    for _ in 0..book.random.between(1, 4) {
        book.primitive();
    }
    for _ in 0..book.random.between(1, 6) {
        book.line("t");
    }
    // A name or a count that is wrong, however large the middle before it is.
    let category = *book.random.choose(&["t", "t", "nowhere", "t(t)", "v0", "v0(t)"]);
    book.line(category);
    book.text.into_bytes()
}

impl Blocks<'_> {
    /// A chain of variables, and sometimes another that parts from it.
    fn block(&mut self) {
        let length = if self.random.once_in(2) { self.random.between(1, 4) } else { self.random.between(5, 40) };
        let mut context: Vec<usize> = Vec::new();
        for _ in 0..length {
            context = self.variable(&context);
        }
        if self.random.once_in(2) {
            context.truncate(self.random.below(length + 1));
            for _ in 0..self.random.between(1, 3) {
                context = self.variable(&context);
            }
        }
    }

    fn variable(&mut self, context: &[usize]) -> Vec<usize> {
        let number = self.variables.len();
        let name = format!("v{number}");
        self.text.push_str(&format!("{}*{name}:=EB:t\n", self.indicator(context)));
        let context = [context, &[number]].concat();
        self.variables.push(Line { name, context: context.clone() });
        context
    }

    fn indicator(&self, context: &[usize]) -> &str {
        context.last().map_or("", |&v| &self.variables[v].name)
    }

    /// A context: mostly a whole block.
    fn context(&mut self) -> Vec<usize> {
        match self.random.below(8) {
            0 => Vec::new(),
            1..=3 => self.random.choose(&self.variables).context.clone(),
            _ => self.variables[self.variables.len() - 1 - self.random.below(self.variables.len().min(3))].context.clone(),
        }
    }

    fn primitive(&mut self) {
        let context = self.context();
        let name = format!("c{}", self.constants.len());
        self.text.push_str(&format!("{}*{name}:=PN:t\n", self.indicator(&context)));
        self.constants.push(Line { name, context });
    }

    fn line(&mut self, category: &str) {
        let context = self.context();
        let middle = match (self.around(&context), self.random.below(4)) {
            (Some(around), 0) => self.nested(&context, around),
            (Some(around), 1) => self.wide(around),
            _ => self.expression(&context, 3),
        };
        let name = format!("c{}", self.constants.len());
        self.text.push_str(&format!("{}*{name}:={middle}:{category}\n", self.indicator(&context)));
        self.constants.push(Line { name, context });
    }

    fn expression(&mut self, context: &[usize], depth: usize) -> String {
        match self.random.below(8) {
            0 if !context.is_empty() => self.variables[*self.random.choose(context)].name.clone(),
            1 if depth > 0 => {
                let (a, b) = (self.expression(context, depth - 1), self.expression(context, depth - 1));
                format!("<{a}>[{},t]{b}", self.random.choose(&["x", "v0", "c0"]))
            }
            _ => self.constant(context, depth),
        }
    }

    /// A constant with the arguments that cannot be left out, sometimes with more.
    fn constant(&mut self, context: &[usize], depth: usize) -> String {
        let constant = self.random.below(self.constants.len());
        let own = &self.constants[constant].context;
        let common = own.iter().zip(context).take_while(|(a, b)| a == b).count();
        let needed = own.len() - common;
        let written = match self.random.below(24) {
            0 if self.careless => own.len() + 1,
            1 if self.careless => needed.saturating_sub(1),
            0..=7 => self.random.between(needed, own.len()),
            _ => needed,
        };
        let deeper = if written < 4 { depth } else { 0 };
        self.applied(constant, written, |book| if deeper == 0 { book.leaf(context) } else { book.expression(context, deeper - 1) })
    }

    fn applied(&mut self, constant: usize, written: usize, mut argument: impl FnMut(&mut Self) -> String) -> String {
        let name = self.constants[constant].name.clone();
        let arguments: Vec<String> = (0..written).map(|_| argument(self)).collect();
        with_arguments(&name, &arguments)
    }

    /// A lone name: `o`, a variable or a constant.
    fn leaf(&mut self, context: &[usize]) -> String {
        match (self.random.below(8), self.around(context)) {
            (0, _) if self.careless => {
                let lines = if self.random.once_in(2) { &self.constants } else { &self.variables };
                self.random.choose(lines).name.clone()
            }
            (0..=2, Some(constant)) => self.constants[constant].name.clone(),
            (3..=6, _) if !context.is_empty() => self.variables[*self.random.choose(context)].name.clone(),
            _ => "o".to_string(),
        }
    }

    /// Nested about as deep as is allowed, with a lone name innermost.
    fn nested(&mut self, context: &[usize], around: usize) -> String {
        let depth = NESTING - 3 + self.random.below(4);
        let innermost = if self.random.once_in(3) { self.leaf(context) } else { self.constants[around].name.clone() };
        (1..depth).fold(innermost, |inner, _| format!("{}({inner})", self.constants[around].name))
    }

    /// Many lone names side by side.
    fn wide(&mut self, around: usize) -> String {
        let written = self.random.between(1, self.constants[around].context.len());
        self.applied(around, written, |book| book.constants[around].name.clone())
    }

    /// A constant that takes arguments, all of which may be left out in this context.
    fn around(&mut self, context: &[usize]) -> Option<usize> {
        let fitting: Vec<usize> = (0..self.constants.len())
            .filter(|&c| !self.constants[c].context.is_empty() && context.starts_with(&self.constants[c].context))
            .collect();
        if fitting.is_empty() { None } else { Some(*self.random.choose(&fitting)) }
    }
}
