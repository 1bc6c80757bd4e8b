//! Books at the largest sizes: of lines, of bytes, of completed lines, of lists of names, and with many paragraphs.

use super::calls::Call;
use crate::generate::with_arguments;
use crate::sizes::{LARGEST_LIMIT, MOST_BYTES, MOST_LINES, MOST_OPEN, NARROW_LINES, ROW_WIDTH, SMALLEST_LIMIT, WORK_UNITS};

/// The least, that of the listing program, the largest.
const LIMITS: [u32; 3] = [SMALLEST_LIMIT, 128, LARGEST_LIMIT];

/// How many lines one line names at most.
const NAMES: usize = 4_000;

/// Lines behind the last that there can be, with faults that are looked at before their storage, and with others.
const LASTS: [&str; 9] = [
    "*a:=PN:b\n", "*n7:=PN:type\n", "*a:=n0(n1):type\n", "*a:=n0:n1\n", "*a:=n2:n1\n", "*a:=PN:type", "a*b:=PN:type\n",
    "n1*b:=PN:type\n", "*a:=n65534:n65534\n",
];

/// What may stand behind the last line that there can be, and paragraph lines that may not; a line in a paragraph is one too many.
const LAST_PARAGRAPHS: [&str; 7] =
    ["+p\n-p\n", "+n7\n-n7\n", "-p\n", "+p\n", "+p", "+p\n*n7:=PN:type\n-p\n", "+p\n*u:=q.n7:type\n-p\n"];

/// How many paragraphs are beside each other under each limit, and under the largest.
const PARAGRAPHS: usize = 1_500;
const MORE_PARAGRAPHS: usize = 8_000;

/// What stands behind paragraphs q0, q1 and so on, which have a line a each.
const BEHIND: [&str; 6] =
    ["*u:=q0.a:type\n", "*u:=q1499.a:type\n", "*u:=q7.b:type\n", "*u:=q8000.a:type\n", "*q7:=PN:type\n", "+q7\n-q7\n"];

/// Each book with the limits and stores that it is checked with.
pub fn books() -> Vec<(Vec<u8>, Call)> {
    let mut books = Vec::new();
    for limit in LIMITS {
        books.extend((NARROW_LINES - 1..=NARROW_LINES + 2).map(|count| (lines(count), room_for(count + 4, limit))));
        books.extend([NARROW_LINES, NARROW_LINES + 2].map(|count| (chain(count), room_for(4 * count, limit))));
        books.extend((MOST_BYTES - 1..=MOST_BYTES + 1).map(|bytes| (spaces(bytes), room_for(1, limit))));
        books.extend((MOST_LINES - 1..=MOST_LINES + 1).map(|count| (lines(count), room_for(MOST_LINES + 4, limit))));
        books.extend(LASTS.map(|last| (with(last), room_for(MOST_LINES + 4, limit))));
        books.push((inside("*n7:=p.n0:type\n"), room_for(MOST_LINES + 4, limit)));
        books.extend(BEHIND.map(|last| (beside(PARAGRAPHS, last), room_for(2 * PARAGRAPHS, limit))));
    }
    books.extend(LAST_PARAGRAPHS.map(|last| (with(last), room_for(MOST_LINES + 4, SMALLEST_LIMIT))));
    books.extend([MOST_OPEN, MOST_OPEN + 1].map(|open| (with(&nested(open)), room_for(MOST_LINES + 4, SMALLEST_LIMIT))));
    books.extend(BEHIND.map(|last| (beside(MORE_PARAGRAPHS, last), room_for(2 * MORE_PARAGRAPHS, LARGEST_LIMIT))));
    books.push((chain(MOST_LINES), room_for(4 * MOST_LINES, LARGEST_LIMIT)));
    books.extend(["v0", "c"].map(|middle| (block(MOST_LINES, middle), room_for(3 * MOST_LINES, LARGEST_LIMIT))));
    books.extend(completed_books());
    books.extend(named_books());
    books
}

/// Room for so many lines, and for as many cells and cells of the index.
fn room_for(lines: usize, limit: u32) -> Call {
    Call { budget: 9, limit, table: ROW_WIDTH * lines, terms: lines, work: WORK_UNITS * limit as usize + 2, index: lines }
}

/// A book of so many lines that name nothing; the third is a variable.
fn lines(count: usize) -> Vec<u8> {
    let line = |i: usize| format!("*n{i}:={}:type\n", if i == 2 { "EB" } else { "PN" }).into_bytes();
    (0..count).flat_map(line).collect()
}

/// As many lines as there can be, and one more.
fn with(last: &str) -> Vec<u8> {
    [&lines(MOST_LINES)[..], last.as_bytes()].concat()
}

/// So many paragraphs inside each other.
fn nested(count: usize) -> String {
    "+p\n".repeat(count) + &"-p\n".repeat(count)
}

/// As many lines as there can be, all but the last in a paragraph.
fn inside(last: &str) -> Vec<u8> {
    [b"+p\n", &lines(MOST_LINES - 1)[..], b"-p\n", last.as_bytes()].concat()
}

/// So many paragraphs beside each other, and a line.
fn beside(count: usize, last: &str) -> Vec<u8> {
    let mut text: String = (0..count).map(|i| format!("+q{i}\n*a:=PN:type\n-q{i}\n")).collect();
    text.push_str(last);
    text.into_bytes()
}

/// A book of so many bytes in one line.
fn spaces(bytes: usize) -> Vec<u8> {
    let line = b"*a:=PN:type\n";
    [&vec![b' '; bytes - line.len()][..], line].concat()
}

/// A book in which every second line rests on all that stands before it.
fn chain(lines: usize) -> Vec<u8> {
    let mut text = String::from("*b0:=PN:type\n*x:=EB:type\nx*y:=EB:type\ny*pair:=PN:type\n");
    for i in 1..=(lines - 3) / 2 {
        text.push_str(&format!("*a{i}:=PN:type\n"));
        if 2 * i + 4 <= lines {
            text.push_str(&format!("*b{i}:=pair(b{},a{i}):type\n", i - 1));
        }
    }
    text.into_bytes()
}

/// A book of so many lines: a block of variables, each in the context of all before it, and in it a constant, then a line with
/// this middle.
fn block(lines: usize, middle: &str) -> Vec<u8> {
    let mut text = variables(lines - 2);
    let last = format!("v{}", lines - 3);
    text.push_str(&format!("{last}*c:=PN:type\n{last}*u:={middle}:type\n"));
    text.into_bytes()
}

/// A block of so many variables.
fn variables(count: usize) -> String {
    let mut text = String::from("*v0:=EB:type\n");
    (1..count).for_each(|v| text.push_str(&format!("v{}*v{v}:=EB:type\n", v - 1)));
    text
}

/// Lines of many names in four orders; the index has room, just room, or a cell too few.
fn named_books() -> Vec<(Vec<u8>, Call)> {
    let wide = room_for(8 * NAMES, LARGEST_LIMIT);
    // Two cells for each variable and for the constant but the first, one for each other line, and the last line's.
    let needed = 2 * NAMES + 1 + NAMES + (NAMES + 2);
    let orders = [|i| i, |i| NAMES - 1 - i, |i| i * 1_237 % NAMES, |i| i * i % NAMES / 16 * 16];
    let calls = [wide.index, needed, needed - 1].map(|index| Call { index, ..wide });
    orders.iter().flat_map(|&order| calls.map(|call| (named(order), call))).collect()
}

/// A book whose last line has so many names in this order.
fn named(order: fn(usize) -> usize) -> Vec<u8> {
    let mut text = variables(NAMES);
    text.push_str(&format!("v{}*c:=PN:type\n", NAMES - 1));
    (0..NAMES).for_each(|i| text.push_str(&format!("*n{i}:=PN:type\n")));
    let arguments: Vec<String> = (0..NAMES).map(|i| format!("n{}", order(i))).collect();
    text.push_str(&format!("*u:={}:type\n", with_arguments("c", &arguments)));
    text.into_bytes()
}

/// Lines of 2^16 + 1 and 2^32 + 1 cells when completed.
fn completed_books() -> Vec<(Vec<u8>, Call)> {
    let call = room_for(NARROW_LINES, SMALLEST_LIMIT);
    let sizes = [(256, 256), (4_096, 1 << 20)];
    sizes.iter().flat_map(|&(variables, names)| ["type", "nowhere"].map(|last| (completed(variables, names, last), call))).collect()
}

/// A block of variables, and in it a line of names that each lack arguments: variables × names + 1 cells when completed.
fn completed(count: usize, names: usize, category: &str) -> Vec<u8> {
    let mut arguments = Vec::new();
    let mut left = names - 1;
    while left > 0 {
        let lone = (left - 1).min(count - 1);
        arguments.push(with_arguments("c", &vec!["c"; lone]));
        left -= 1 + lone;
    }
    let mut text = variables(count);
    let block = format!("v{}", count - 1);
    text.push_str(&format!("{block}*c:=PN:type\n{block}*u:={}:{category}\n", with_arguments("c", &arguments)));
    text.into_bytes()
}
