//! Lines that use variables whose block has closed, often with another fault in the same line.

use super::mutate::{is_name, lines, parts, symbols, BYTES, WORDS};
use crate::random::Random;

/// How a variable V is used, beside another name O and one that no line has.
const USES: [&str; 13] = [
    "V", "V", "V(O)", "<V>O", "<O>V", "[x,V]O", "[V,V]O", "[V,O]V", "O(V)", "O(V,O)", "<V>nowhere", "<nowhere>V", "V(nowhere)",
];
/// What else may be wrong at a name O.
const FAULTS: [&str; 4] = ["nowhere", "O(nowhere)", "O(O)", "O(O,O,O)"];
/// So many abstractions make an expression too large under the smallest limit, or as deep as is allowed, or deeper.
const ABSTRACTIONS: [usize; 5] = [8, 8, 9, 31, 32];

/// The identifiers above a line.
#[derive(Default)]
struct Above {
    variables: Vec<Vec<u8>>,
    constants: Vec<Vec<u8>>,
}

struct Line {
    indicator: Vec<u8>,
    identifier: Vec<u8>,
    /// The symbols of the middle, and of the category.
    parts: [Vec<Vec<u8>>; 2],
}

/// Lets a line use a variable that stands above it, mostly outside its context.
pub fn use_variable(random: &mut Random, book: &mut Vec<u8>) {
    let mut all = lines(book);
    let read: Vec<Option<Line>> = all.iter().map(|line| Line::read(line)).collect();
    let Some(first) = read.iter().position(|line| line.as_ref().is_some_and(Line::is_variable)) else { return };
    if first + 1 == all.len() {
        return;
    }
    let at = random.between(first + 1, all.len() - 1);
    let mut above = Above::default();
    for line in read[..at].iter().flatten() {
        let identifiers = if line.is_variable() { &mut above.variables } else { &mut above.constants };
        identifiers.push(line.identifier.clone());
    }
    if let Some(mut line) = read.into_iter().nth(at).flatten() {
        line.put(random, &above, &USES);
        line.spoil(random, &above);
        all[at] = line.text();
        *book = all.concat();
    }
}

impl Above {
    fn constant(&self, random: &mut Random) -> Vec<u8> {
        if self.constants.is_empty() { b"nowhere".to_vec() } else { random.choose(&self.constants).clone() }
    }
}

impl Line {
    fn read(line: &[u8]) -> Option<Line> {
        let (head, middle, category) = parts(line.strip_suffix(b"\n")?)?;
        let star = head.iter().position(|&b| b == b'*')?;
        let identifier = head[star + 1..].strip_suffix(b":=")?.trim_ascii().to_vec();
        Some(Line { indicator: head[..star].to_vec(), identifier, parts: [symbols(middle), symbols(category)] })
    }

    fn text(&self) -> Vec<u8> {
        let [middle, category] = &self.parts;
        [&self.indicator[..], b"*", &self.identifier, b":=", &middle.concat(), b":", &category.concat(), b"\n"].concat()
    }

    fn is_variable(&self) -> bool {
        self.parts[0].iter().any(|s| s == b"EB")
    }

    /// Puts one of these in the place of a name, or of the whole middle or category.
    fn put(&mut self, random: &mut Random, above: &Above, templates: &[&str]) {
        let part = &mut self.parts[usize::from(random.once_in(3))];
        let names: Vec<usize> = (0..part.len()).filter(|&i| is_name(&part[i]) && !is_word(&part[i])).collect();
        let variable = random.choose(&above.variables);
        let template = random.choose(templates);
        if names.is_empty() || random.once_in(4) {
            *part = vec![filled(template, variable, &above.constant(random))];
        } else {
            let name = *random.choose(&names);
            part[name] = filled(template, variable, &part[name]);
        }
    }

    /// Makes something else wrong, too, or changes the context.
    fn spoil(&mut self, random: &mut Random, above: &Above) {
        match random.below(12) {
            0 => self.identifier = above.constant(random),
            1..=2 => self.indicator = above.constant(random),
            3 => self.indicator = random.choose(&above.variables).clone(),
            4 => self.indicator = Vec::new(),
            5..=6 => self.put(random, above, &FAULTS),
            7 => self.parts[random.below(2)].push(vec![*random.choose(BYTES)]),
            8..=9 => {
                let binding = filled("[x,O]", b"", &above.constant(random));
                let part = &mut self.parts[random.below(2)];
                if part.len() > 1 || part.iter().any(|s| !is_word(s)) {
                    part.insert(0, binding.repeat(*random.choose(&ABSTRACTIONS)));
                }
            }
            _ => {}
        }
    }
}

fn is_word(symbol: &[u8]) -> bool {
    WORDS.iter().any(|word| word.as_bytes() == symbol)
}

/// A template with these names for its V and O.
pub fn filled(template: &str, variable: &[u8], other: &[u8]) -> Vec<u8> {
    let put_in = |byte: u8| match byte {
        b'V' => variable.to_vec(),
        b'O' => other.to_vec(),
        _ => vec![byte],
    };
    template.bytes().flat_map(put_in).collect()
}
