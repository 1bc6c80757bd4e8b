//! Checks a book from standard input and prints its recorded lines and the outcome.
//!
//!     (cd crates/c_api && rt lib)
//!     rustc --edition 2021 -O examples/check.rs -L crates/c_api/out -l static=c_api -o check_rs
//!     ./check_rs < examples/sample.aut

use std::io::Read;
use std::process::ExitCode;

mod aut68 {
    /// Table cells for each line.
    pub const ROW_WIDTH: usize = 9;
    /// Working cells for each cell of the limit.
    pub const WORK_UNITS: usize = 128;
    /// A cell of the term store and of the working store.
    pub type Cell = u32;

    /// What the check of a book ends with; `include/aut68.h` lists the codes.
    #[repr(C)]
    #[derive(Clone, Copy, Debug, PartialEq, Eq)]
    pub struct Outcome {
        pub code: u32,
        pub line: u32,
        pub steps: u64,
    }

    /// Where an identifier stands in the book.
    #[repr(C)]
    struct Part {
        start: u64,
        length: u64,
    }

    extern "C" {
        fn aut68_check(
            book: *const u8, book_length: usize,
            budget: u32, limit: u32,
            table: *mut u32, table_length: usize,
            terms: *mut Cell, terms_length: usize,
            work: *mut Cell, work_length: usize,
            index: *mut u32, index_length: usize,
        ) -> Outcome;
        fn aut68_identifier(book: *const u8, book_length: usize, table: *const u32, table_length: usize, line: u32) -> Part;
    }

    /// Checks a book. Every argument is permitted: the function requires nothing.
    pub fn check(
        book: &[u8], budget: u32, limit: u32, table: &mut [u32], terms: &mut [Cell], work: &mut [Cell], index: &mut [u32],
    ) -> Outcome {
        // Sound: each pointer is valid for its length, and `&mut` slices do not overlap.
        unsafe {
            aut68_check(
                book.as_ptr(), book.len(), budget, limit,
                table.as_mut_ptr(), table.len(), terms.as_mut_ptr(), terms.len(), work.as_mut_ptr(), work.len(),
                index.as_mut_ptr(), index.len(),
            )
        }
    }

    /// The identifier of a line, from 1; empty if the table has no such row or the row points outside the book.
    pub fn identifier<'a>(book: &'a [u8], table: &[u32], line: u32) -> &'a [u8] {
        // Sound: each pointer is valid for its length.
        let part = unsafe { aut68_identifier(book.as_ptr(), book.len(), table.as_ptr(), table.len(), line) };
        &book[part.start as usize..(part.start + part.length) as usize]
    }

    impl Outcome {
        /// How many lines have a row in the table.
        pub fn recorded(&self) -> usize {
            let line = self.line as usize;
            if self.code == 0 { line } else { line.saturating_sub(1) }
        }
    }
}

const BUDGET: u32 = 100_000;
const LIMIT: usize = 4_096;
const LINES: usize = 65_535;
const TERMS: usize = 1 << 20;
const INDEX: usize = 1 << 20;

fn main() -> ExitCode {
    let mut book = Vec::new();
    if let Err(e) = std::io::stdin().read_to_end(&mut book) {
        eprintln!("reading the book: {e}");
        return ExitCode::from(2);
    }
    let mut table = vec![0; aut68::ROW_WIDTH * LINES];
    let mut terms = vec![0; TERMS];
    let mut work = vec![0; aut68::WORK_UNITS * LIMIT];
    let mut index = vec![0; INDEX];

    let o = aut68::check(&book, BUDGET, LIMIT as u32, &mut table, &mut terms, &mut work, &mut index);

    for (i, row) in table.chunks(aut68::ROW_WIDTH).take(o.recorded()).enumerate() {
        let [_start, _length, _indicator, variables, kind, middle, category, end, _paragraph] = row.try_into().expect("a whole row");
        let name = aut68::identifier(&book, &table, i as u32 + 1);
        println!("{:6}  {}  kind {kind}, {variables} variables, {} and {} cells", i + 1, String::from_utf8_lossy(name), category - middle, end - category);
    }
    println!("{} {} {}", o.code, o.line, o.steps);
    if o.code == 0 { ExitCode::SUCCESS } else { ExitCode::from(1) }
}
