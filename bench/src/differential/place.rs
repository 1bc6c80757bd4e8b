//! A place in a book: the paragraphs open there, and what names mean. All is sought in lists, as the specification has it.

use super::mutate::{is_name, lines, parts, symbols};

#[derive(Clone, Copy, Debug, PartialEq, Eq)]
pub enum Named {
    Line,
    Paragraph,
}

/// A paragraph with the lines and the closed paragraphs that stand in it directly.
#[derive(Default)]
pub struct Paragraph {
    pub name: Vec<u8>,
    pub lines: Vec<(Vec<u8>, usize)>,
    pub closed: Vec<Paragraph>,
}

impl Paragraph {
    pub fn line(&self, name: &[u8]) -> Option<usize> {
        self.lines.iter().find(|(other, _)| other == name).map(|&(_, line)| line)
    }
}

/// The open paragraphs, innermost last; the first is what stands outside of all.
pub struct Place {
    pub open: Vec<Paragraph>,
}

impl Place {
    pub fn beginning() -> Place {
        Place { open: vec![Paragraph::default()] }
    }

    /// The place behind lines that are accepted, which count from 0.
    pub fn behind(book: &[u8]) -> Place {
        let mut place = Place::beginning();
        let mut count = 0;
        for line in lines(book) {
            match paragraph_line(&line) {
                Some((b'+', name)) => place.open(name),
                Some(_) => place.close(),
                None => {
                    place.insert(identifier(&line).unwrap_or_default(), count);
                    count += 1;
                }
            }
        }
        place
    }

    /// How many paragraphs are open.
    pub fn depth(&self) -> usize {
        self.open.len() - 1
    }

    pub fn innermost(&self) -> &Paragraph {
        &self.open[self.depth()]
    }

    pub fn open(&mut self, name: Vec<u8>) {
        self.open.push(Paragraph { name, ..Paragraph::default() });
    }

    pub fn close(&mut self) {
        if self.depth() > 0 {
            let closed = self.open.pop().unwrap();
            self.open.last_mut().unwrap().closed.push(closed);
        }
    }

    pub fn insert(&mut self, name: Vec<u8>, line: usize) {
        self.open.last_mut().unwrap().lines.push((name, line));
    }

    /// What has this name in the innermost open paragraph.
    pub fn taken(&self, name: &[u8]) -> Option<Named> {
        let Paragraph { lines, closed, .. } = self.innermost();
        match () {
            () if lines.iter().any(|(other, _)| other == name) => Some(Named::Line),
            () if closed.iter().any(|other| other.name == name) => Some(Named::Paragraph),
            () => None,
        }
    }

    /// The lines of this name, innermost first; a name means the first.
    pub fn lines<'p>(&'p self, name: &'p [u8]) -> impl Iterator<Item = usize> + 'p {
        self.open.iter().rev().filter_map(move |paragraph| paragraph.line(name))
    }

    /// The closed paragraph that is meant by p in `p.a`.
    pub fn closed(&self, name: &[u8]) -> Option<&Paragraph> {
        self.open.iter().rev().find_map(|paragraph| paragraph.closed.iter().find(|other| other.name == name))
    }
}

/// Whether a line begins with the sign of a paragraph line.
pub fn is_paragraph_line(line: &[u8]) -> bool {
    matches!(line.trim_ascii_start().first(), Some(b'+' | b'-'))
}

/// The sign and the name of a paragraph line.
pub fn paragraph_line(line: &[u8]) -> Option<(u8, Vec<u8>)> {
    let text = line.trim_ascii();
    let sign = *text.first().filter(|sign| b"+-".contains(sign))?;
    Some((sign, text[1..].trim_ascii().to_vec()))
}

/// What stands behind the star of a line, if it is a name.
pub fn identifier(line: &[u8]) -> Option<Vec<u8>> {
    let (head, _, _) = parts(line)?;
    let star = head.iter().position(|&b| b == b'*')?;
    let name = head[star + 1..].strip_suffix(b":=")?.trim_ascii();
    (symbols(name).len() == 1 && is_name(name)).then(|| name.to_vec())
}
