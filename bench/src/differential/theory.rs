//! The lines of a random book: categories and normal forms of their expressions.

use super::trees::{abstraction, application, Tree};

pub enum Kind {
    Variable,
    Primitive,
    Abbreviation(Tree),
}

pub struct Line {
    pub name: String,
    pub context: Vec<usize>,
    pub kind: Kind,
    pub category: Tree,
}

impl Line {
    pub fn is_variable(&self) -> bool {
        matches!(self.kind, Kind::Variable)
    }
}

pub struct Theory {
    pub lines: Vec<Line>,
}

/// How many steps a normal form may take.
const FUEL: usize = 200;

impl Theory {
    /// The category of a correct expression inside bindings with these domains, outermost first.
    pub fn category(&self, domains: &[Tree], expression: &Tree) -> Option<Tree> {
        Some(match expression {
            Tree::Type => return None,
            Tree::Variable(line) => self.lines[*line].category.clone(),
            Tree::Bound(i) => domains[domains.len() - 1 - i].lift(i + 1),
            Tree::Constant(line, arguments) => self.lines[*line].category.instantiate(&self.lines[*line].context, arguments),
            Tree::Application(a, b) => match self.normal(&self.category(domains, b)?)? {
                Tree::Abstraction(_, body) => body.substitute(a),
                _ => return None,
            },
            Tree::Abstraction(domain, body) => {
                let domains = [domains, &[(**domain).clone()]].concat();
                match self.category(&domains, body)? {
                    Tree::Type => Tree::Type,
                    category => abstraction((**domain).clone(), category),
                }
            }
        })
    }

    pub fn normal(&self, tree: &Tree) -> Option<Tree> {
        self.normal_within(tree, &mut { FUEL })
    }

    fn normal_within(&self, tree: &Tree, fuel: &mut usize) -> Option<Tree> {
        *fuel = fuel.checked_sub(1)?;
        Some(match tree {
            Tree::Constant(line, arguments) => match &self.lines[*line].kind {
                Kind::Abbreviation(middle) => {
                    self.normal_within(&middle.instantiate(&self.lines[*line].context, arguments), fuel)?
                }
                _ => {
                    let arguments: Option<Vec<Tree>> = arguments.iter().map(|a| self.normal_within(a, fuel)).collect();
                    Tree::Constant(*line, arguments?)
                }
            },
            Tree::Application(a, b) => match self.normal_within(b, fuel)? {
                Tree::Abstraction(_, body) => self.normal_within(&body.substitute(a), fuel)?,
                b => application(self.normal_within(a, fuel)?, b),
            },
            Tree::Abstraction(a, b) => abstraction(self.normal_within(a, fuel)?, self.normal_within(b, fuel)?),
            _ => tree.clone(),
        })
    }
}
