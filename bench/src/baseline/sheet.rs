//! A list of pairs at the desk of an accepted book, each compared as if it came alone.

use super::{admit, answered, declined, Accepted, Refusal};
use crate::pairs::Order;
use crate::sheets::List;
use crate::stores::Stores;
use crate::Answer;

/// What each pair of a list ends with, from place 0 of the sheet.
pub fn compare_sheet(book: &[u8], budget: u32, limit: u32, stores: &mut Stores, list: &List, sheet: &mut [Answer]) -> Answer {
    let lines = match admit(book, budget, limit, stores) {
        Ok(lines) => lines,
        Err(refused) => return refused,
    };
    let List { cells, pairs } = list;
    let Some(sheet) = sheet.get_mut(..pairs.len()) else { return declined(Refusal::StoreTooSmall) };
    let mut accepted = Accepted::new(lines, &stores.terms);
    for (place, pair) in sheet.iter_mut().zip(pairs) {
        *place = match pair.sides(cells) {
            Some(sides) => accepted.judge(limit, Order::StepsFirst, sides, pair.budget).0,
            None => declined(Refusal::NotWhole),
        };
    }
    answered(pairs.len())
}
