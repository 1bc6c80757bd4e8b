//! Books in which one paragraph holds many closed ones: more than a small working store can note. Everything is of one type `t`.

use crate::random::Random;

const FEWEST: usize = 60;
const MOST: usize = 300;

/// What a closed paragraph holds: nothing, one line or two, or a paragraph with a line of the same name.
const INSIDE: [&str; 4] = ["", "*a:=PN:t\n", "*a:=PN:t\n*b:=a:t\n", "+a\n*a:=PN:t\n-a\n*b:=a.a:t\n"];

struct Many<'r> {
    random: &'r mut Random,
    /// Whether names are sometimes used that mean nothing, or given that are taken.
    careless: bool,
    prefix: &'static str,
    /// What each of the closed paragraphs holds.
    inside: Vec<&'static str>,
    text: String,
    /// The paragraphs that are open, innermost last.
    open: Vec<String>,
}

pub fn book(random: &mut Random) -> Vec<u8> {
    let careless = random.once_in(3);
    let prefix = *random.choose(&["", "q", "elements_of_the_set_of_"]);
    let text = "*t:=PN:type\n*o:=PN:t\n".to_string();
    let mut book = Many { random, careless, prefix, inside: Vec::new(), text, open: Vec::new() };
    for depth in 0..book.random.below(3) {
        book.open(format!("outer{depth}"));
    }
    for number in 0..book.random.between(FEWEST, MOST) {
        let inside = *book.random.choose(&INSIDE);
        let name = book.name(number);
        book.text.push_str(&format!("+{name}\n{inside}-{name}\n"));
        book.inside.push(inside);
    }
    for number in 0..book.random.between(3, 12) {
        book.line(number);
    }
    while !book.open.is_empty() {
        book.close();
    }
    book.text.into_bytes()
}

impl Many<'_> {
    fn open(&mut self, name: String) {
        self.text.push_str(&format!("+{name}\n"));
        self.open.push(name);
    }

    fn close(&mut self) {
        if let Some(name) = self.open.pop() {
            self.text.push_str(&format!("-{name}\n"));
        }
    }

    fn name(&self, number: usize) -> String {
        format!("{}{number}", self.prefix)
    }

    /// What is used behind them, or takes a name.
    fn line(&mut self, number: usize) {
        let paragraph = self.some();
        let paragraph = self.name(paragraph);
        let used = self.used();
        let line = match self.random.below(24) {
            0..=1 if self.careless => format!("*{paragraph}:=PN:t"),
            2..=3 if self.careless => format!("+{paragraph}\n-{paragraph}"),
            4 if self.careless => format!("*u{number}:={paragraph}:t"),
            5 if self.careless => format!("*u{number}:={paragraph}.c:t"),
            6..=7 => {
                self.open(format!("inner{number}"));
                format!("*{paragraph}:={used}:t")
            }
            8..=9 => format!("+v{number}\n*a:={used}:t\n-v{number}\n*u{number}:=v{number}.a:t"),
            10..=11 if self.open.len() > 2 => {
                self.close();
                format!("*u{number}:=PN:t")
            }
            _ => format!("*u{number}:={used}:t"),
        };
        self.text.push_str(&line);
        self.text.push('\n');
    }

    /// One of the paragraphs, often among the first or the last; without care also one behind them.
    fn some(&mut self) -> usize {
        let count = self.inside.len();
        match self.random.below(16) {
            0 if self.careless => count + self.random.below(2),
            0..=3 => self.random.below(4),
            4..=7 => count - 1 - self.random.below(4),
            _ => self.random.below(count),
        }
    }

    /// A line of one of the paragraphs, mostly one that there is.
    fn used(&mut self) -> String {
        let mut paragraph = self.some();
        while !self.careless && self.inside[paragraph].is_empty() {
            paragraph = self.some();
        }
        let line = if self.inside.get(paragraph).is_some_and(|inside| inside.contains("*b")) { "b" } else { "a" };
        format!("{}.{line}", self.name(paragraph))
    }
}
