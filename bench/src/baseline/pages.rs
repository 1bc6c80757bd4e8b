//! A book on paper 72 columns wide, and the book that is read back from it.

use crate::sizes::{NUMBER_COLUMNS, PAGE_ROW, TEXT_COLUMNS};

/// Where the text of a row begins: behind its number and a blank column.
const TEXT_START: usize = NUMBER_COLUMNS + 1;
const TEXT_END: usize = TEXT_START + TEXT_COLUMNS;

fn is_text(byte: u8) -> bool {
    byte != b' ' && byte != b'\n'
}

fn lines(bytes: &[u8]) -> impl Iterator<Item = &[u8]> {
    bytes.split_inclusive(|&b| b == b'\n')
}

/// How many bytes of each line are printed.
pub fn text_lengths(book: &[u8]) -> impl Iterator<Item = usize> + '_ {
    lines(book).map(|line| line.iter().filter(|&&b| is_text(b)).count())
}

/// How many bytes the pages have.
pub fn page_length(book: &[u8]) -> usize {
    PAGE_ROW * text_lengths(book).map(|text| text.div_ceil(TEXT_COLUMNS)).sum::<usize>()
}

/// Whether a line with this text opens or closes a paragraph. In no other line stands one of these signs.
fn is_paragraph_line(text: &[u8]) -> bool {
    matches!(text.first(), Some(b'+' | b'-'))
}

/// Fills the pages, which are as long as the book needs.
pub fn put_pages(book: &[u8], pages: &mut [u8]) {
    let mut rows = pages.chunks_exact_mut(PAGE_ROW);
    let mut kept = Vec::new();
    let mut number = 0;
    for line in lines(book) {
        let text = text_of(line, &mut kept);
        let numbered = !is_paragraph_line(text);
        number += usize::from(numbered);
        for (k, piece) in text.chunks(TEXT_COLUMNS).enumerate() {
            let row = rows.next().expect("a row for each piece");
            row.fill(b' ');
            if k == 0 && numbered {
                put_number(number, &mut row[..NUMBER_COLUMNS]);
            }
            row[TEXT_START..TEXT_START + piece.len()].copy_from_slice(piece);
            row[TEXT_END] = b'\n';
        }
    }
}

/// What is printed of a line: itself up to its end, or where it has spaces what is kept of it.
fn text_of<'t>(line: &'t [u8], kept: &'t mut Vec<u8>) -> &'t [u8] {
    if !line.contains(&b' ') {
        return line.strip_suffix(b"\n").unwrap_or(line);
    }
    kept.clear();
    kept.extend(line.iter().filter(|&&b| is_text(b)));
    kept
}

/// Right-justified in columns that are blank and wide enough.
fn put_number(number: usize, columns: &mut [u8]) {
    let mut rest = number;
    for column in columns.iter_mut().rev() {
        *column = b'0' + (rest % 10) as u8;
        rest /= 10;
        if rest == 0 {
            break;
        }
    }
}

/// What the text columns hold, line by line, without byte 32. On a line's further rows the last number column is blank and no
/// sign of a paragraph line comes first.
pub fn read_back(pages: &[u8]) -> Vec<u8> {
    let mut book = Vec::new();
    for row in lines(pages) {
        let text = &row[TEXT_START..TEXT_END];
        let begins = row[NUMBER_COLUMNS - 1] != b' ' || is_paragraph_line(text);
        if begins && !book.is_empty() {
            book.push(b'\n');
        }
        book.extend(text.iter().filter(|&&b| is_text(b)));
    }
    if !book.is_empty() {
        book.push(b'\n');
    }
    book
}
