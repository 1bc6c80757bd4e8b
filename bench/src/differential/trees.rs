//! Expressions as trees, for writing random books. A line is known by its place in the book, from 0.

#[derive(Clone, Debug, PartialEq)]
pub enum Tree {
    Type,
    Variable(usize),
    Bound(usize),
    Constant(usize, Vec<Tree>),
    Application(Box<Tree>, Box<Tree>),
    Abstraction(Box<Tree>, Box<Tree>),
}

use Tree::*;

pub fn application(argument: Tree, function: Tree) -> Tree {
    Application(Box::new(argument), Box::new(function))
}

pub fn abstraction(domain: Tree, body: Tree) -> Tree {
    Abstraction(Box::new(domain), Box::new(body))
}

impl Tree {
    /// The tree with `f` made of each variable, given how many bindings are around it.
    fn map(&self, depth: usize, f: &dyn Fn(&Tree, usize) -> Tree) -> Tree {
        match self {
            Type => Type,
            Variable(_) | Bound(_) => f(self, depth),
            Constant(line, arguments) => Constant(*line, arguments.iter().map(|a| a.map(depth, f)).collect()),
            Application(a, b) => application(a.map(depth, f), b.map(depth, f)),
            Abstraction(a, b) => abstraction(a.map(depth, f), b.map(depth + 1, f)),
        }
    }

    /// How many cells it has.
    pub fn size(&self) -> usize {
        match self {
            Constant(_, arguments) => 1 + arguments.iter().map(Tree::size).sum::<usize>(),
            Application(a, b) | Abstraction(a, b) => 1 + a.size() + b.size(),
            _ => 1,
        }
    }

    /// The part whose first cell has this number, and how many bindings are around it. Where there is none, the number is left as one
    /// behind the tree.
    pub fn part(&mut self, number: &mut usize, depth: usize) -> Option<(&mut Tree, usize)> {
        if *number == 0 {
            return Some((self, depth));
        }
        *number -= 1;
        match self {
            Constant(_, arguments) => arguments.iter_mut().find_map(|a| a.part(number, depth)),
            Application(a, b) => a.part(number, depth).or_else(|| b.part(number, depth)),
            Abstraction(a, b) => a.part(number, depth).or_else(|| b.part(number, depth + 1)),
            _ => None,
        }
    }

    /// Whether all its bound variables are bound in it.
    pub fn is_closed(&self) -> bool {
        self.closed_within(0)
    }

    fn closed_within(&self, depth: usize) -> bool {
        match self {
            Bound(i) => *i < depth,
            Constant(_, arguments) => arguments.iter().all(|a| a.closed_within(depth)),
            Application(a, b) => a.closed_within(depth) && b.closed_within(depth),
            Abstraction(a, b) => a.closed_within(depth) && b.closed_within(depth + 1),
            _ => true,
        }
    }

    pub fn lift(&self, by: usize) -> Tree {
        self.map(0, &|t, depth| match t {
            Bound(i) if *i >= depth => Bound(i + by),
            _ => t.clone(),
        })
    }

    /// The body of an abstraction with an argument put in.
    pub fn substitute(&self, argument: &Tree) -> Tree {
        self.map(0, &|t, depth| match t {
            Bound(i) if *i == depth => argument.lift(depth),
            Bound(i) if *i > depth => Bound(i - 1),
            _ => t.clone(),
        })
    }

    /// Arguments put in for variables; a variable without one stays.
    pub fn instantiate(&self, variables: &[usize], arguments: &[Tree]) -> Tree {
        self.map(0, &|t, depth| match t {
            Variable(line) => match variables.iter().zip(arguments).find(|(v, _)| *v == line) {
                Some((_, argument)) => argument.lift(depth),
                None => t.clone(),
            },
            _ => t.clone(),
        })
    }

    /// The arguments for which a pattern with these variables becomes `self`, as far as the pattern shows them.
    pub fn matches(&self, pattern: &Tree, variables: &[usize], found: &mut [Option<Tree>]) {
        match (pattern, self) {
            (Variable(line), _) => {
                if let Some(place) = variables.iter().position(|v| v == line) {
                    found[place].get_or_insert(self.clone());
                }
            }
            (Constant(c, ps), Constant(d, ts)) if c == d => {
                ps.iter().zip(ts).for_each(|(p, t)| t.matches(p, variables, found));
            }
            (Application(a, b), Application(c, d)) => {
                c.matches(a, variables, found);
                d.matches(b, variables, found);
            }
            _ => {}
        }
    }
}
