//! Term stores with cells of 16 bits and with those of 32.

use super::{answered, declined, Refusal};
use crate::sizes::{Cell, NarrowCell};
use crate::Answer;

pub fn widen(source: &[NarrowCell], target: &mut [Cell]) -> Answer {
    let Some(target) = target.get_mut(..source.len()) else { return declined(Refusal::StoreTooSmall) };
    for (to, &from) in target.iter_mut().zip(source) {
        *to = Cell::from(from);
    }
    answered(source.len())
}

pub fn narrow(source: &[Cell], target: &mut [NarrowCell]) -> Answer {
    let Some(target) = target.get_mut(..source.len()) else { return declined(Refusal::StoreTooSmall) };
    let bits = source.iter().fold(0, |bits, &cell| bits | cell);
    if bits > Cell::from(NarrowCell::MAX) {
        return declined(Refusal::CellTooWide);
    }
    for (to, &from) in target.iter_mut().zip(source) {
        *to = from as NarrowCell;
    }
    answered(source.len())
}
