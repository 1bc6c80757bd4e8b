//! Pairs of expressions over an accepted book: of its own, alike but for steps, unlike in a part, without end, nested deep. They need
//! not be correct.

use super::theory::{Kind, Theory};
use super::trees::{abstraction, application, Tree};
use crate::random::Random;
use crate::sizes::NESTING;

/// Of larger expressions of the book a part is taken; constants with more arguments are used as they stand there alone.
const LARGEST_TAKEN: usize = 40;
const MOST_ARGUMENTS: usize = 6;
/// How deep uses of constants and applications are put inside each other.
const COMPOSED: usize = 3;

pub struct Maker<'m> {
    pub random: &'m mut Random,
    /// Lines of which there is at least one.
    pub theory: &'m Theory,
}

impl Maker<'_> {
    pub fn pair(&mut self) -> [Tree; 2] {
        match self.random.below(16) {
            0 => [self.whole(), self.whole()],
            1 => [self.expression(), self.expression()],
            2..=7 => self.alike(),
            8..=11 => self.unlike(),
            12..=13 => self.endless(),
            _ => self.nested(),
        }
    }

    /// A middle or category, `type` among them.
    fn whole(&mut self) -> Tree {
        let line = self.random.choose(&self.theory.lines);
        match &line.kind {
            Kind::Abbreviation(middle) if self.random.once_in(2) => middle.clone(),
            _ => line.category.clone(),
        }
    }

    /// A closed part of a middle or category.
    fn taken(&mut self) -> Tree {
        for _ in 0..8 {
            let mut whole = self.whole();
            let mut number = self.random.below(whole.size());
            if let Some((part, _)) = whole.part(&mut number, 0) {
                if *part != Tree::Type && part.size() <= LARGEST_TAKEN && part.is_closed() {
                    return part.clone();
                }
            }
        }
        self.leaf()
    }

    /// A variable, or a constant without arguments.
    fn leaf(&mut self) -> Tree {
        let lines = &self.theory.lines;
        let fits = |&line: &usize| lines[line].is_variable() || lines[line].context.is_empty();
        let fitting: Vec<usize> = (0..lines.len()).filter(fits).collect();
        let line = *self.random.choose(&fitting);
        if lines[line].is_variable() { Tree::Variable(line) } else { Tree::Constant(line, Vec::new()) }
    }

    fn expression(&mut self) -> Tree {
        if self.random.once_in(3) { self.taken() } else { self.composed(COMPOSED) }
    }

    /// Uses of constants, abbreviations above all, and applications inside each other.
    fn composed(&mut self, depth: usize) -> Tree {
        if depth == 0 || self.random.once_in(5) {
            return self.taken();
        }
        match (self.random.below(8), self.constant()) {
            (0, _) => application(self.composed(depth - 1), self.composed(depth - 1)),
            (1..=2, _) => application(self.composed(depth - 1), self.function(depth - 1)),
            (3, _) => self.function(depth - 1),
            (_, Some(line)) => {
                let count = self.theory.lines[line].context.len();
                Tree::Constant(line, (0..count).map(|_| self.composed(depth - 1)).collect())
            }
            _ => self.taken(),
        }
    }

    /// A constant with arguments, but not many.
    fn constant(&mut self) -> Option<usize> {
        let lines = &self.theory.lines;
        let fits = |&line: &usize| !lines[line].is_variable() && (1..=MOST_ARGUMENTS).contains(&lines[line].context.len());
        let fitting: Vec<usize> = (0..lines.len()).filter(fits).collect();
        let unfolded = |&line: &usize| matches!(lines[line].kind, Kind::Abbreviation(_));
        let abbreviations: Vec<usize> = fitting.iter().copied().filter(unfolded).collect();
        let among = if abbreviations.is_empty() || self.random.once_in(4) { fitting } else { abbreviations };
        if among.is_empty() { None } else { Some(*self.random.choose(&among)) }
    }

    /// An abstraction whose body has its variable, or ignores it.
    fn function(&mut self, depth: usize) -> Tree {
        let (domain, mut body) = (self.taken(), self.composed(depth));
        for _ in 0..self.random.below(3) {
            self.change(&mut body, |_, _, depth| Tree::Bound(depth));
        }
        abstraction(domain, body)
    }

    /// Changes some part, around which there are so many bindings.
    fn change(&mut self, tree: &mut Tree, change: impl FnOnce(&mut Self, &Tree, usize) -> Tree) {
        let mut number = self.random.below(tree.size());
        if let Some((part, depth)) = tree.part(&mut number, 0) {
            *part = change(self, part, depth);
        }
    }

    /// Two expressions with some parts expanded, unfolded or contracted.
    fn alike(&mut self) -> [Tree; 2] {
        let one = self.expression();
        self.alike_to(one)
    }

    fn alike_to(&mut self, one: Tree) -> [Tree; 2] {
        let mut pair = [one.clone(), one];
        for _ in 0..self.random.between(1, 4) {
            let side = &mut pair[self.random.below(2)];
            self.change(side, |maker, part, _| maker.stepped(part));
        }
        pair
    }

    /// Two expressions that are alike but for a part.
    fn unlike(&mut self) -> [Tree; 2] {
        let mut pair = self.alike();
        let side = &mut pair[self.random.below(2)];
        self.change(side, |maker, _, _| maker.taken());
        pair
    }

    /// An expression that a step leads from, or to.
    fn stepped(&mut self, tree: &Tree) -> Tree {
        match tree {
            Tree::Constant(line, arguments) if !self.random.once_in(3) => match &self.theory.lines[*line].kind {
                Kind::Abbreviation(middle) => middle.instantiate(&self.theory.lines[*line].context, arguments),
                _ => self.expanded(tree),
            },
            Tree::Application(argument, function) if self.random.once_in(2) => match &**function {
                Tree::Abstraction(_, body) => body.substitute(argument),
                _ => self.expanded(tree),
            },
            _ => self.expanded(tree),
        }
    }

    /// `<A>[x,P]T` that contracts to the expression: of one of its arguments, of itself, or of something ignored.
    fn expanded(&mut self, tree: &Tree) -> Tree {
        let domain = self.taken();
        match (tree, self.random.below(3)) {
            (Tree::Constant(line, arguments), 0) if !arguments.is_empty() => {
                let place = self.random.below(arguments.len());
                let mut inside: Vec<Tree> = arguments.iter().map(|a| a.lift(1)).collect();
                inside[place] = Tree::Bound(0);
                application(arguments[place].clone(), abstraction(domain, Tree::Constant(*line, inside)))
            }
            (_, 1) => application(self.taken(), abstraction(domain, tree.lift(1))),
            _ => application(tree.clone(), abstraction(domain, Tree::Bound(0))),
        }
    }

    /// Two expressions of which steps in some part have no end, or make it larger and larger.
    fn endless(&mut self) -> [Tree; 2] {
        let mut one = self.expression();
        self.change(&mut one, |maker, _, _| maker.self_application());
        let mut pair = self.alike_to(one);
        if self.random.once_in(2) {
            pair[self.random.below(2)] = self.self_application();
        }
        pair
    }

    /// `<[x,A]<x>x>[x,A]<x>x`, or with one more `<x>`.
    fn self_application(&mut self) -> Tree {
        let variable = || Tree::Bound(0);
        let twice = application(variable(), variable());
        let body = if self.random.once_in(3) { application(variable(), twice) } else { twice };
        let half = abstraction(self.leaf(), body);
        application(half.clone(), half)
    }

    /// Two expressions inside others, so that a comparison of their parts comes about as deep as it may.
    fn nested(&mut self) -> [Tree; 2] {
        let one = self.leaf();
        let mut pair = self.alike_to(one);
        if self.random.once_in(3) {
            pair[1] = self.leaf();
        }
        for _ in 0..NESTING - self.random.below(6) {
            pair = self.wrapped(pair);
        }
        pair
    }

    /// Both at the same place of an expression.
    fn wrapped(&mut self, pair: [Tree; 2]) -> [Tree; 2] {
        let leaf = self.leaf();
        match (self.random.below(12), self.constant()) {
            (0, _) => pair.map(|tree| application(tree, leaf.clone())),
            (1, _) => pair.map(|tree| application(leaf.clone(), tree)),
            (2, _) => pair.map(|tree| abstraction(tree, leaf.clone())),
            (3, _) | (_, None) => pair.map(|tree| abstraction(leaf.clone(), tree)),
            (_, Some(line)) => {
                let count = self.theory.lines[line].context.len();
                let place = self.random.below(count);
                pair.map(|tree| {
                    let mut arguments = vec![leaf.clone(); count];
                    arguments[place] = tree;
                    Tree::Constant(line, arguments)
                })
            }
        }
    }
}
