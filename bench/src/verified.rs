//! The verified program, linked from its archive.

use crate::pairs::{Order, Request};
use crate::sheets::{List, ListedPair};
use crate::sizes::{Cell, NarrowCell};
use crate::stores::Stores;
use crate::{Answer, Outcome};

extern "C" {
    fn aut68_check(
        book: *const u8, book_length: usize,
        budget: u32, limit: u32,
        table: *mut u32, table_length: usize,
        terms: *mut Cell, terms_length: usize,
        work: *mut Cell, work_length: usize,
        index: *mut u32, index_length: usize,
    ) -> Outcome;
    fn aut68_rests_on(
        book: *const u8, book_length: usize,
        budget: u32, limit: u32,
        table: *mut u32, table_length: usize,
        terms: *mut Cell, terms_length: usize,
        work: *mut Cell, work_length: usize,
        index: *mut u32, index_length: usize,
        line: u32,
        answer: *mut u32, answer_length: usize,
    ) -> Answer;
    fn aut68_pages(
        book: *const u8, book_length: usize,
        budget: u32, limit: u32,
        table: *mut u32, table_length: usize,
        terms: *mut Cell, terms_length: usize,
        work: *mut Cell, work_length: usize,
        index: *mut u32, index_length: usize,
        page: *mut u8, page_length: usize,
    ) -> Answer;
    fn aut68_widen(source: *const NarrowCell, source_length: usize, target: *mut Cell, target_length: usize) -> Answer;
    fn aut68_narrow(source: *const Cell, source_length: usize, target: *mut NarrowCell, target_length: usize) -> Answer;
    fn aut68_compare(
        book: *const u8, book_length: usize,
        budget: u32, limit: u32,
        table: *mut u32, table_length: usize,
        terms: *mut Cell, terms_length: usize,
        work: *mut Cell, work_length: usize,
        index: *mut u32, index_length: usize,
        left: *const Cell, left_length: usize,
        right: *const Cell, right_length: usize,
        own_budget: u32,
    ) -> Answer;
    fn aut68_compare_parts_first(
        book: *const u8, book_length: usize,
        budget: u32, limit: u32,
        table: *mut u32, table_length: usize,
        terms: *mut Cell, terms_length: usize,
        work: *mut Cell, work_length: usize,
        index: *mut u32, index_length: usize,
        left: *const Cell, left_length: usize,
        right: *const Cell, right_length: usize,
        own_budget: u32,
    ) -> Answer;
    fn aut68_compare_sheet(
        book: *const u8, book_length: usize,
        budget: u32, limit: u32,
        table: *mut u32, table_length: usize,
        terms: *mut Cell, terms_length: usize,
        work: *mut Cell, work_length: usize,
        index: *mut u32, index_length: usize,
        cells: *const Cell, cells_length: usize,
        pairs: *const ListedPair, pairs_count: usize,
        sheet: *mut Answer, sheet_count: usize,
    ) -> Answer;
}

pub fn check(book: &[u8], budget: u32, limit: u32, stores: &mut Stores) -> Outcome {
    let Stores { table, terms, work, index } = stores;
    // Sound: each pointer is valid for its length, and no two stores overlap.
    unsafe {
        aut68_check(
            book.as_ptr(), book.len(), budget, limit,
            table.as_mut_ptr(), table.len(), terms.as_mut_ptr(), terms.len(), work.as_mut_ptr(), work.len(),
            index.as_mut_ptr(), index.len(),
        )
    }
}

pub fn rests_on(book: &[u8], budget: u32, limit: u32, stores: &mut Stores, line: u32, answer: &mut [u32]) -> Answer {
    let Stores { table, terms, work, index } = stores;
    // Sound: as above; the answer is borrowed apart from the stores.
    unsafe {
        aut68_rests_on(
            book.as_ptr(), book.len(), budget, limit,
            table.as_mut_ptr(), table.len(), terms.as_mut_ptr(), terms.len(), work.as_mut_ptr(), work.len(),
            index.as_mut_ptr(), index.len(), line, answer.as_mut_ptr(), answer.len(),
        )
    }
}

pub fn pages(book: &[u8], budget: u32, limit: u32, stores: &mut Stores, page: &mut [u8]) -> Answer {
    let Stores { table, terms, work, index } = stores;
    // Sound: as above; the page store is borrowed apart from the others.
    unsafe {
        aut68_pages(
            book.as_ptr(), book.len(), budget, limit,
            table.as_mut_ptr(), table.len(), terms.as_mut_ptr(), terms.len(), work.as_mut_ptr(), work.len(),
            index.as_mut_ptr(), index.len(), page.as_mut_ptr(), page.len(),
        )
    }
}

pub fn widen(source: &[NarrowCell], target: &mut [Cell]) -> Answer {
    // Sound: each pointer is valid for its length, and the two do not overlap.
    unsafe { aut68_widen(source.as_ptr(), source.len(), target.as_mut_ptr(), target.len()) }
}

pub fn narrow(source: &[Cell], target: &mut [NarrowCell]) -> Answer {
    // Sound: as above.
    unsafe { aut68_narrow(source.as_ptr(), source.len(), target.as_mut_ptr(), target.len()) }
}

pub fn compare(book: &[u8], budget: u32, limit: u32, stores: &mut Stores, request: &Request) -> Answer {
    let Stores { table, terms, work, index } = stores;
    let [left, right] = request.pair.sides();
    let call = match request.order {
        Order::StepsFirst => aut68_compare,
        Order::PartsFirst => aut68_compare_parts_first,
    };
    // Sound: as above; the strings are borrowed apart from the stores, for reading.
    unsafe {
        call(
            book.as_ptr(), book.len(), budget, limit,
            table.as_mut_ptr(), table.len(), terms.as_mut_ptr(), terms.len(), work.as_mut_ptr(), work.len(),
            index.as_mut_ptr(), index.len(), left.as_ptr(), left.len(), right.as_ptr(), right.len(), request.budget,
        )
    }
}

pub fn compare_sheet(book: &[u8], budget: u32, limit: u32, stores: &mut Stores, list: &List, sheet: &mut [Answer]) -> Answer {
    let Stores { table, terms, work, index } = stores;
    let List { cells, pairs } = list;
    // Sound: as above; cells and pairs are borrowed for reading, and the sheet apart from them and from the stores.
    unsafe {
        aut68_compare_sheet(
            book.as_ptr(), book.len(), budget, limit,
            table.as_mut_ptr(), table.len(), terms.as_mut_ptr(), terms.len(), work.as_mut_ptr(), work.len(),
            index.as_mut_ptr(), index.len(), cells.as_ptr(), cells.len(), pairs.as_ptr(), pairs.len(),
            sheet.as_mut_ptr(), sheet.len(),
        )
    }
}
