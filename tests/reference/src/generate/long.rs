//! Formulas and lists of lengths around their limits, and the faults of lists
//! with a length of four bytes.

use super::formulas::holding;
use super::Grower;
use crate::compose::{atom, kern, list, long_list, underline, EMPTY};
use crate::{DEPTH_LIMIT, FORMULA_LIMIT, SHORT_LIST_LIMIT};

/// The longest formula that document 01 has; a longer one is like any other.
const FORMER_LIMIT: usize = 4096;

/// A length around a limit, so seldom around a great one that a run of cases
/// stays short; or an item with a fault of a long list.
pub fn long_formula(grower: &mut Grower) -> Vec<u8> {
    match grower.random.below(20) {
        0 => around_the_limit(grower),
        1 => with_a_long_list(grower),
        2..10 => {
            let length = around(grower, FORMER_LIMIT);
            exactly(grower, length)
        }
        _ => {
            let mut items = grower.items(2, 60);
            items.extend(long_list_fault(grower));
            if grower.random.percent(50) {
                items.extend(grower.items(2, 60));
            }
            items
        }
    }
}

/// A formula about as long as it may be, at times all in one list.
fn around_the_limit(grower: &mut Grower) -> Vec<u8> {
    let length = around(grower, FORMULA_LIMIT);
    if grower.random.percent(60) {
        return exactly(grower, length);
    }
    let most = length - 200;
    let inner = list(&exactly(grower, most));
    let mut items = holding(grower, inner);
    let rest = length.saturating_sub(items.len());
    items.extend(filled(rest));
    items
}

/// A list about as long as one with two bytes of length may be, in other lists
/// that are longer still; the inmost of them may be too deep.
fn with_a_long_list(grower: &mut Grower) -> Vec<u8> {
    let levels = *grower
        .random
        .pick(&[1, 1, 2, 3, DEPTH_LIMIT - 1, DEPTH_LIMIT]);
    let length = around(grower, SHORT_LIST_LIMIT);
    let mut items = exactly(grower, length);
    if grower.random.percent(15) {
        items = holding(grower, long_list(length as u32, &items));
    }
    for _ in 0..levels {
        items = holding(grower, list(&items));
        items.extend(grower.items(1, 40));
    }
    items
}

/// An item with a list field of kind 3 that can't be read: too short for its
/// kind, past the end of what holds it, or cut.
pub fn long_list_fault(grower: &mut Grower) -> Vec<u8> {
    let short = grower.items(1, 40);
    let length = short.len() as u32;
    let greatest = SHORT_LIST_LIMIT as u32;
    let lengths = [0, length, length, greatest, greatest + 1, 1 << 24, u32::MAX];
    let mut field = long_list(*grower.random.pick(&lengths), &short);
    if grower.random.percent(80) {
        return holding(grower, field);
    }
    field.truncate(1 + grower.random.below(4));
    let mut item = atom(0, 0, [&field, EMPTY, EMPTY]);
    item.truncate(item.len() - 2);
    item
}

/// The limit itself, the next length, or one near it.
fn around(grower: &mut Grower, limit: usize) -> usize {
    match grower.random.below(4) {
        0 => limit,
        1 => limit + 1,
        _ => grower.random.between(limit as i64 - 8, limit as i64 + 8) as usize,
    }
}

/// Items of exactly so many bytes, which are not few; at times one item again
/// and again.
fn exactly(grower: &mut Grower, length: usize) -> Vec<u8> {
    const MOST: usize = 200;
    let repeated = grower.random.percent(20).then(|| grower.empty_item());
    let mut items = Vec::with_capacity(length);
    while items.len() + MOST < length {
        match &repeated {
            Some(item) => items.extend(item),
            None => items.extend(grower.items(DEPTH_LIMIT - 2, MOST - 24)),
        }
    }
    items.extend(filled(length - items.len()));
    items
}

/// Kerns and lines of exactly so many bytes; of fewer than twenty it may be
/// none.
fn filled(length: usize) -> Vec<u8> {
    let (kern, line) = (kern(0), underline([EMPTY; 3]));
    let kerns = length % line.len();
    let lines = length.saturating_sub(kerns * kern.len()) / line.len();
    [kern.repeat(kerns), line.repeat(lines)].concat()
}
