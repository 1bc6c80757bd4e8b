//! Long names with common prefixes, and wide contexts.

use super::{with_arguments, Writer};
use crate::random::Random;
use crate::sizes::LONGEST_NAME;

/// Prefixes of 22 bytes; what follows makes a name unique.
const PREFIXES: [&str; 4] = [
    "elements_of_the_set_of", "elements_of_the_sum_of", "equality_of_numbers_in", "equality_of_numbers_on",
];

/// The names of a part, of 28 to 32 bytes.
struct Names {
    part: usize,
    given: usize,
}

impl Names {
    fn fresh(&mut self, random: &mut Random) -> String {
        let filling = random.below(5);
        let prefix = random.choose(&PREFIXES);
        let number = format!("{:03}{:03}", self.part, self.given);
        self.given += 1;
        let filling = filling.min(LONGEST_NAME - prefix.len() - number.len());
        format!("{prefix}{}{number}", "_".repeat(filling))
    }
}

/// A variable of the context: a number, or a proof that this number of the context equals another.
#[derive(Clone, Copy)]
enum Variable {
    Number,
    Equal(usize),
}

/// The contexts of a book.
pub struct Shape {
    least: usize,
    most: usize,
    /// How many variables at the beginning are numbers.
    first_numbers: usize,
}

pub const WIDE: Shape = Shape { least: 20, most: 40, first_numbers: 6 };
pub const NARROW: Shape = Shape { least: 2, most: 4, first_numbers: 2 };

struct Context {
    first_numbers: usize,
    names: Vec<String>,
    variables: Vec<Variable>,
    /// For each number the first of those that proofs connect it with.
    groups: Vec<usize>,
}

pub fn part(writer: &mut Writer, random: &mut Random, part: usize, shape: &Shape) {
    let names = &mut Names { part, given: 0 };
    let number = names.fresh(random);
    writer.line(&format!("*{number}:=PN:type"));
    let (x, y) = (names.fresh(random), names.fresh(random));
    writer.line(&format!("*{x}:=EB:{number}"));
    writer.line(&format!("{x}*{y}:=EB:{number}"));
    let equal = names.fresh(random);
    writer.line(&format!("{y}*{equal}:=PN:type"));
    let reflexive = names.fresh(random);
    writer.line(&format!("{x}*{reflexive}:=PN:{equal}({x},{x})"));

    let context = context(writer, random, names, &number, &equal, shape);
    let indicator = context.names.last().unwrap();
    let mut constants: Vec<String> = Vec::new();
    for _ in 0..3 {
        let constant = names.fresh(random);
        writer.line(&format!("{indicator}*{constant}:=PN:{number}"));
        constants.push(constant);
    }
    for line in 0..50 {
        let name = names.fresh(random);
        let applied = applied(random, &context, &constants, &reflexive, left_out(line, context.names.len()));
        if random.once_in(4) {
            writer.line(&format!("{indicator}*{name}:={reflexive}({applied}):{equal}({applied},{applied})"));
        } else {
            writer.line(&format!("{indicator}*{name}:={applied}:{number}"));
            constants.push(name);
        }
    }
}

/// A context in which about each third variable is a proof.
fn context(writer: &mut Writer, random: &mut Random, names: &mut Names, number: &str, equal: &str, shape: &Shape) -> Context {
    let first_numbers = shape.first_numbers;
    let mut context = Context { first_numbers, names: Vec::new(), variables: Vec::new(), groups: Vec::new() };
    for place in 0..random.between(shape.least, shape.most) {
        let name = names.fresh(random);
        let indicator = context.names.last().map_or("", String::as_str);
        let numbers: Vec<usize> = (0..place).filter(|&i| matches!(context.variables[i], Variable::Number)).collect();
        if place < first_numbers || !random.once_in(3) {
            writer.line(&format!("{indicator}*{name}:=EB:{number}"));
            context.variables.push(Variable::Number);
            context.groups.push(place);
        } else {
            let (a, b) = (*random.choose(&numbers), *random.choose(&numbers));
            writer.line(&format!("{indicator}*{name}:=EB:{equal}({},{})", context.names[a], context.names[b]));
            context.variables.push(Variable::Equal(a));
            context.groups.push(place);
            let (keep, merged) = (context.groups[a], context.groups[b]);
            context.groups.iter_mut().filter(|g| **g == merged).for_each(|g| *g = keep);
        }
        context.names.push(name);
    }
    context
}

/// How many arguments a line leaves out: each fourth line all, half or three quarters of them by turns, the others none.
fn left_out(line: usize, width: usize) -> usize {
    match line % 12 {
        3 => width,
        7 => width / 2,
        11 => width * 3 / 4,
        _ => 0,
    }
}

/// A constant with its arguments: each group of connected numbers stays as it is, or becomes one expression. The first
/// `left_out` stay and are not written.
fn applied(random: &mut Random, context: &Context, constants: &[String], reflexive: &str, left_out: usize) -> String {
    let width = context.names.len();
    let mut becomes: Vec<Option<String>> = vec![None; width];
    let mut nested = false;
    for group in 0..width {
        if context.groups[group] != group || random.once_in(2) {
            continue;
        }
        let alone = context.groups.iter().filter(|&&g| g == group).count() == 1;
        becomes[group] = Some(if alone && !nested && random.once_in(8) {
            nested = true;
            format!("{}({})", random.choose(constants), context.names.join(","))
        } else {
            context.names[random.below(context.first_numbers)].clone()
        });
    }
    for place in 0..left_out {
        becomes[context.groups[place]] = None;
    }
    let arguments: Vec<String> = (left_out..width)
        .map(|place| match context.variables[place] {
            Variable::Number => becomes[context.groups[place]].clone().unwrap_or(context.names[place].clone()),
            Variable::Equal(a) => match &becomes[context.groups[a]] {
                Some(one) => format!("{reflexive}({one})"),
                None => context.names[place].clone(),
            },
        })
        .collect();
    let constant = random.choose(constants);
    with_arguments(constant, &arguments)
}
