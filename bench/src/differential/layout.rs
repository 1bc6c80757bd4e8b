//! How a book is laid out: spaces between its symbols, and lines that fill whole rows of a page.

use super::mutate::{lines, symbols};
use super::place::identifier;
use crate::baseline::text_lengths;
use crate::random::Random;
use crate::sizes::{LONGEST_NAME, TEXT_COLUMNS};

/// Lays some books out anew; what they say stays the same.
pub fn lay_out(random: &mut Random, book: &mut Vec<u8>) {
    if random.once_in(8) {
        fill_rows(random, book);
    }
    match random.below(8) {
        0 => space(random, book, |random| if random.once_in(6) { random.between(1, 3) } else { 0 }),
        1 => space(random, book, |_| 1),
        2 => {
            let gaps = symbols(book).len().max(1);
            space(random, book, |random| if random.once_in(gaps) { random.between(TEXT_COLUMNS - 6, 2 * TEXT_COLUMNS + 6) } else { 0 })
        }
        _ => {}
    }
}

/// Puts so many spaces ahead of each symbol, but behind none.
fn space(random: &mut Random, book: &mut Vec<u8>, count: impl Fn(&mut Random) -> usize) {
    let all = symbols(book);
    book.clear();
    for symbol in all {
        book.resize(book.len() + count(random), b' ');
        book.extend_from_slice(&symbol);
    }
}

/// Makes the identifier of a line longer, wherever it stands, so that what is printed of the line fills whole rows, or a byte less or
/// more.
fn fill_rows(random: &mut Random, book: &mut Vec<u8>) {
    let filling: Vec<(Vec<u8>, usize)> = lines(book).iter().zip(text_lengths(book)).filter_map(|(line, length)| {
        let identifier = identifier(line)?;
        let missing = length.next_multiple_of(TEXT_COLUMNS) - length;
        (identifier.len() + missing < LONGEST_NAME).then_some((identifier, missing))
    }).collect();
    if filling.is_empty() {
        return;
    }
    let (identifier, missing) = random.choose(&filling);
    let more = match random.below(4) {
        0 => missing.saturating_sub(1),
        1 => missing + 1,
        _ => *missing,
    };
    let longer = [&identifier[..], &vec![b'q'; more]].concat();
    *book = symbols(book).into_iter().map(|s| if s == *identifier { longer.clone() } else { s }).collect::<Vec<_>>().concat();
}
