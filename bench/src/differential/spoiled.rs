//! Faults about paragraphs: in their lines and in the order of these, at points, and in what names they take and hide.

use super::closed::filled;
use super::mutate::{is_name, lines, symbols, WORDS};
use super::place::{identifier, is_paragraph_line, paragraph_line};
use crate::random::Random;
use crate::sizes::{LONGEST_NAME, MOST_OPEN};

/// Lines that are no paragraph lines but nearly, with O for a name.
const MISFORMED: [&str; 18] = [
    "+", "-", "+ ", "+type", "-PN", "+EB", "+O.O", "+O O", "++O", "+-O", "+O:=PN:type", "+*O", "-O*", "+O,", "-O(", "O+", "*+O:=PN:type",
    "O",
];
/// Names with points, right ones and others, with O for a name and V for that of a paragraph.
const POINTS: [&str; 20] = [
    "V.O", "V.O", "V.O", "V . O", "O.O", "O.V", "V.O.O", "V..O", ".O", "O.", "V.type", "type.O", "V.PN", "EB.O", "V.O(O)", "O(V.O)",
    "[V,O]V.O", "[V,V.O]V", "V.O.", "V.*O",
];

pub fn spoil(random: &mut Random, book: &mut Vec<u8>) {
    let mut all = lines(book);
    match random.below(16) {
        0..=2 => unbalance(random, &mut all),
        3..=6 => take_name(random, &mut all),
        7 => nest(random, &mut all),
        8..=9 => misform(random, &mut all),
        10..=12 => point(random, &mut all),
        13 => drop_paragraph(random, &mut all),
        _ => hide(random, &mut all),
    }
    *book = all.concat();
}

/// The names of lines and of paragraphs.
fn given(all: &[Vec<u8>]) -> Vec<Vec<u8>> {
    all.iter().filter_map(|line| paragraph_line(line).map(|(_, name)| name).or_else(|| identifier(line))).collect()
}

fn paragraphs(all: &[Vec<u8>]) -> Vec<Vec<u8>> {
    all.iter().filter_map(|line| paragraph_line(line)).map(|(_, name)| name).collect()
}

fn one_of(random: &mut Random, names: &[Vec<u8>]) -> Vec<u8> {
    if names.is_empty() { b"p".to_vec() } else { random.choose(names).clone() }
}

fn insert(all: &mut Vec<Vec<u8>>, at: usize, line: Vec<u8>) {
    all.insert(at, [line, b"\n".to_vec()].concat());
}

/// Changes which paragraphs are opened and closed where.
fn unbalance(random: &mut Random, all: &mut Vec<Vec<u8>>) {
    let signs: Vec<usize> = (0..all.len()).filter(|&i| is_paragraph_line(&all[i])).collect();
    let name = one_of(random, &paragraphs(all));
    let place = random.below(all.len() + 1);
    if signs.is_empty() || random.once_in(4) {
        let sign = *random.choose(&["+", "-"]);
        insert(all, place, [sign.as_bytes(), &name].concat());
        return;
    }
    let (sign, other) = (*random.choose(&signs), *random.choose(&signs));
    match random.below(5) {
        0 => {
            all.remove(sign);
        }
        1 => all.swap(sign, other),
        2 => {
            let moved = all.remove(sign);
            all.insert(place.min(all.len()), moved);
        }
        3 => all[sign] = [b"-", &name[..], b"\n"].concat(),
        _ => all.truncate(sign + 1),
    }
}

/// Puts in a line or a paragraph whose name stands above, often not far.
fn take_name(random: &mut Random, all: &mut Vec<Vec<u8>>) {
    let place = random.below(all.len() + 1);
    let above = given(&all[..place]);
    let near = if random.once_in(2) { above.len().saturating_sub(4) } else { 0 };
    let name = one_of(random, &above[near..]);
    if random.once_in(2) {
        insert(all, place, [b"*", &name[..], b":=PN:type"].concat());
    } else {
        insert(all, place, [b"+", &name[..], b"\n-", &name].concat());
    }
}

/// Puts in about as many paragraphs inside each other as may be open; sometimes with a line in the innermost whose name the last of them
/// has, too.
fn nest(random: &mut Random, all: &mut Vec<Vec<u8>>) {
    let place = random.below(all.len() + 1);
    let signs = all[..place].iter().filter_map(|line| paragraph_line(line));
    let open: isize = signs.map(|(sign, _)| if sign == b'+' { 1 } else { -1 }).sum();
    let most = MOST_OPEN.saturating_sub(open.max(0) as usize);
    let count = most + random.below(3);
    let line = random.below(2) * count.saturating_sub(1);
    let mut text = Vec::new();
    for i in 0..count {
        text.extend_from_slice(if i > 0 && i == line { b"*p:=PN:type\n+p\n" } else { b"+p\n" });
    }
    text.extend(b"-p\n".repeat(count));
    all.insert(place, text);
}

fn misform(random: &mut Random, all: &mut Vec<Vec<u8>>) {
    let name = one_of(random, &given(all));
    let long = [&name[..], &vec![b'q'; random.between(LONGEST_NAME, LONGEST_NAME + 1).saturating_sub(name.len())]].concat();
    let line = match random.below(8) {
        0 => [b"+", &long[..]].concat(),
        1 => [b"-", &long[..]].concat(),
        _ => filled(*random.choose(&MISFORMED), b"", &name),
    };
    let signs: Vec<usize> = (0..all.len()).filter(|&i| is_paragraph_line(&all[i])).collect();
    if signs.is_empty() || random.once_in(2) {
        insert(all, random.below(all.len() + 1), line);
    } else {
        all[*random.choose(&signs)] = [line, b"\n".to_vec()].concat();
    }
}

/// A line with a name in it, its symbols, and where that name is among them.
fn some_name(random: &mut Random, all: &[Vec<u8>]) -> Option<(usize, Vec<Vec<u8>>, usize)> {
    let at = random.below(all.len().max(1));
    let symbols = symbols(all.get(at)?);
    let names: Vec<usize> = (0..symbols.len()).filter(|&i| is_name(&symbols[i])).collect();
    if names.is_empty() {
        return None;
    }
    let name = *random.choose(&names);
    Some((at, symbols, name))
}

/// Puts a point at a name.
fn point(random: &mut Random, all: &mut [Vec<u8>]) {
    let Some((at, mut symbols, name)) = some_name(random, all) else { return };
    let paragraph = one_of(random, &paragraphs(all));
    let other = one_of(random, &given(&all[..at]));
    let named = if random.once_in(2) { &symbols[name] } else { &other };
    symbols[name] = filled(*random.choose(&POINTS), &paragraph, named);
    all[at] = symbols.concat();
}

/// Takes a paragraph's name and the point behind it out, or puts another in its place.
fn drop_paragraph(random: &mut Random, all: &mut [Vec<u8>]) {
    let Some(at) = (0..all.len()).rev().find(|&i| all[i].contains(&b'.') && random.once_in(2)) else { return };
    let mut symbols = symbols(&all[at]);
    let Some(point) = symbols.iter().position(|s| s == b".").filter(|&point| point > 0) else { return };
    if random.once_in(2) {
        symbols.drain(point - 1..=point);
    } else {
        symbols[point - 1] = one_of(random, &paragraphs(&all[..at]));
    }
    all[at] = symbols.concat();
}

/// Puts a line ahead of another that names an earlier one: with that one's identifier, so that it is hidden inside a paragraph.
fn hide(random: &mut Random, all: &mut Vec<Vec<u8>>) {
    let Some((at, symbols, name)) = some_name(random, all) else { return };
    let name = &symbols[name];
    if WORDS.iter().any(|word| word.as_bytes() == name) {
        return;
    }
    let kind = *random.choose(&["EB", "EB", "PN"]);
    insert(all, at, [b"*", &name[..], b":=", kind.as_bytes(), b":type"].concat());
}
