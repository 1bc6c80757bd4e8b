//! Changes to a book: of its bytes, its symbols, its lines.

use super::{closed, spoiled};
use crate::random::Random;
use crate::sizes::LONGEST_NAME;

/// Bytes that stand in books, and some that do not.
pub const BYTES: &[u8] = b" \n*:=(),<>[]+-._aEPNTBtype019Zz\t\r\0@{}\x7f\x80\xff";
pub const WORDS: [&str; 3] = ["type", "PN", "EB"];

pub fn mutate(random: &mut Random, book: &mut Vec<u8>) {
    match random.below(18) {
        0 => byte(random, book),
        1..=5 => symbol(random, book),
        6..=8 => line(random, book),
        9..=12 => closed::use_variable(random, book),
        13..=16 => spoiled::spoil(random, book),
        _ => cut(random, book),
    }
}

fn byte(random: &mut Random, book: &mut Vec<u8>) {
    let at = random.below(book.len() + 1);
    let new = if random.once_in(8) { random.below(256) as u8 } else { *random.choose(BYTES) };
    match random.below(3) {
        0 => book.insert(at, new),
        1 if at < book.len() => book[at] = new,
        _ if at < book.len() => {
            book.remove(at);
        }
        _ => book.push(new),
    }
}

/// Cuts the end off, inside a line or behind one.
fn cut(random: &mut Random, book: &mut Vec<u8>) {
    book.truncate(random.below(book.len() + 1));
    if random.once_in(2) {
        book.push(b'\n');
    }
}

fn is_name_byte(byte: u8) -> bool {
    byte.is_ascii_alphanumeric() || byte == b'_'
}

/// The names and single bytes of a book; `:=` is one symbol.
pub fn symbols(book: &[u8]) -> Vec<Vec<u8>> {
    let mut symbols: Vec<Vec<u8>> = Vec::new();
    let mut at = 0;
    while at < book.len() {
        let length = match book[at] {
            b if is_name_byte(b) => book[at..].iter().take_while(|&&b| is_name_byte(b)).count(),
            b':' if book.get(at + 1) == Some(&b'=') => 2,
            _ => 1,
        };
        symbols.push(book[at..at + length].to_vec());
        at += length;
    }
    symbols
}

pub fn is_name(symbol: &[u8]) -> bool {
    is_name_byte(symbol[0])
}

fn symbol(random: &mut Random, book: &mut Vec<u8>) {
    let mut all = symbols(book);
    let names: Vec<usize> = (0..all.len()).filter(|&i| is_name(&all[i])).collect();
    if names.is_empty() {
        return;
    }
    let at = *random.choose(&names);
    let other = all[*random.choose(&names)].clone();
    match random.below(16) {
        0..=3 => all[at] = other,
        4 => drop_argument(random, &mut all),
        5 => {
            all.insert(at, [other, b",".to_vec()].concat());
        }
        6 => all[at] = [b"<", &all[at][..], b">[x,", &other, b"]x"].concat(),
        7 => all[at] = [b"[x,", &other[..], b"]", &all[at]].concat(),
        8 => all[at] = random.choose(&WORDS).as_bytes().to_vec(),
        9 => nest(random, &mut all[at], &other),
        10 => {
            let missing = random.between(LONGEST_NAME, LONGEST_NAME + 1).saturating_sub(all[at].len());
            let long = [&all[at][..], &vec![b'q'; missing]].concat();
            let old = all[at].clone();
            all.iter_mut().filter(|s| **s == old).for_each(|s| *s = long.clone());
        }
        12 => all[at] = [b"<", &all[at][..], b">", &other].concat(),
        13..=15 => leave_out(random, &mut all),
        _ => {
            for _ in 0..random.between(1, 8) {
                let place = random.below(all.len() + 1);
                all.insert(place, vec![b' '; random.between(1, 2)]);
            }
        }
    }
    *book = all.concat();
}

/// Takes a symbol with a comma beside it out.
fn drop_argument(random: &mut Random, all: &mut Vec<Vec<u8>>) {
    let commas: Vec<usize> = (1..all.len()).filter(|&i| all[i] == b"," && is_name(&all[i - 1])).collect();
    if !commas.is_empty() {
        let comma = *random.choose(&commas);
        all.drain(comma - 1..=comma);
    }
}

/// Takes the first arguments of a constant out, whatever they are; with the last of them the parentheses.
fn leave_out(random: &mut Random, all: &mut Vec<Vec<u8>>) {
    let open: Vec<usize> = (0..all.len()).filter(|&i| all[i] == b"(").collect();
    if open.is_empty() {
        return;
    }
    let start = *random.choose(&open);
    let mut ends = Vec::new();
    let mut depth = 0;
    for at in start..all.len() {
        match &all[at][..] {
            b"(" | b"[" => depth += 1,
            b")" | b"]" => depth -= 1,
            _ => {}
        }
        if depth == 0 {
            ends.push(at);
            break;
        }
        if depth == 1 && all[at] == b"," {
            ends.push(at);
        }
    }
    let Some(&last) = ends.last() else { return };
    match *random.choose(&ends) {
        end if end == last => all.drain(start..=last),
        end => all.drain(start + 1..=end),
    };
}

/// Nests an expression about as deep as is allowed.
fn nest(random: &mut Random, symbol: &mut Vec<u8>, other: &[u8]) {
    let (before, behind): (Vec<u8>, &[u8]) = match random.below(4) {
        0 => ([other, b"("].concat(), b")"),
        1 => ([b"[x,", other, b"]"].concat(), b""),
        2 => ([b"<", other, b">"].concat(), b""),
        _ => (b"<".to_vec(), b">x"),
    };
    let depth = random.between(28, 33);
    *symbol = [before.repeat(depth), symbol.clone(), behind.repeat(depth)].concat();
    if random.once_in(4) {
        symbol.insert(random.below(symbol.len()), *random.choose(BYTES));
    }
}

/// The lines with their byte 10; the last may lack it.
pub fn lines(book: &[u8]) -> Vec<Vec<u8>> {
    book.split_inclusive(|&b| b == b'\n').map(<[u8]>::to_vec).collect()
}

fn line(random: &mut Random, book: &mut Vec<u8>) {
    let mut all = lines(book);
    if all.is_empty() {
        return;
    }
    let (a, b) = (random.below(all.len()), random.below(all.len()));
    match random.below(12) {
        0 => all.swap(a, b),
        1 => {
            all.insert(b, all[a].clone());
        }
        2 => {
            all.remove(a);
        }
        3 => {
            let moved = all.remove(a);
            all.insert(random.below(all.len() + 1), moved);
        }
        4 => graft(&mut all, a, b, false),
        5 => graft(&mut all, a, b, true),
        6 => all[a] = parts(&all[a]).map_or(all[a].clone(), |(head, middle, _)| [head, middle, b":type\n"].concat()),
        7 => all[a] = parts(&all[a]).map_or(all[a].clone(), |(head, _, category)| [head, b"PN:", category].concat()),
        8..=9 => exchange_neighbours(random, &mut all),
        10 => take_indicator(&mut all, a, b),
        _ => shuffle(random, &mut all),
    }
    *book = all.concat();
}

fn shuffle(random: &mut Random, lines: &mut [Vec<u8>]) {
    for i in (1..lines.len()).rev() {
        lines.swap(i, random.below(i + 1));
    }
}

/// Changes the order only a little, so that the book often stays correct.
fn exchange_neighbours(random: &mut Random, lines: &mut [Vec<u8>]) {
    if lines.len() > 1 {
        for _ in 0..random.between(1, 6) {
            let at = random.below(lines.len() - 1);
            lines.swap(at, at + 1);
        }
    }
}

/// What stands up to `:=`, between it and the colon, and behind that.
pub fn parts(line: &[u8]) -> Option<(&[u8], &[u8], &[u8])> {
    let middle = line.windows(2).position(|w| w == b":=")? + 2;
    let colon = middle + line[middle..].iter().position(|&b| b == b':')?;
    Some((&line[..middle], &line[middle..colon], &line[colon + 1..]))
}

/// Gives one line the indicator of another.
fn take_indicator(all: &mut [Vec<u8>], to: usize, from: usize) {
    let star = |line: &[u8]| line.iter().position(|&b| b == b'*');
    if let (Some(old), Some(new)) = (star(&all[to]), star(&all[from])) {
        all[to] = [&all[from][..new], &all[to][old..]].concat();
    }
}

/// Gives one line the middle or the category of another.
fn graft(all: &mut [Vec<u8>], to: usize, from: usize, category: bool) {
    let grafted = match (parts(&all[to]), parts(&all[from])) {
        (Some((head, middle, _)), Some((_, _, other))) if category => [head, middle, b":", other].concat(),
        (Some((head, _, own)), Some((_, other, _))) => [head, other, b":", own].concat(),
        _ => return,
    };
    all[to] = grafted;
}
