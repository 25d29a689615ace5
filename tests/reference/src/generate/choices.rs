//! Styles and choices that stand close together, and their faults.

use super::formulas::holding;
use super::Grower;
use crate::compose::{choice, list, style, EMPTY};

/// A formula of short items, many of them styles and choices; at times with
/// one that can't be read.
pub fn choice_formula(grower: &mut Grower) -> Vec<u8> {
    let levels = grower.random.below(4) + 1;
    let mut items = close_items(grower, levels, 8);
    if grower.random.percent(15) {
        items.extend(choice_fault(grower));
        if grower.random.percent(50) {
            items.extend(close_items(grower, 1, 3));
        }
    }
    if grower.random.percent(30) {
        items = holding(grower, list(&items));
        items.extend(close_items(grower, 1, 3));
    }
    items
}

/// At most so many items, with choices in choices down to so many levels.
fn close_items(grower: &mut Grower, levels: usize, most: usize) -> Vec<u8> {
    (0..grower.random.below(most + 1))
        .flat_map(|_| close_item(grower, levels))
        .collect()
}

fn close_item(grower: &mut Grower, levels: usize) -> Vec<u8> {
    match grower.random.below(16) {
        0..3 => style(grower.random.below(8) as u8),
        3..7 if levels > 1 => choice_of(&close_lists(grower, levels - 1)),
        7 | 8 if levels > 1 => binary_before_choice(grower),
        9 => grower.item(2, 40),
        10 => grower.item(1, 0),
        _ => {
            let class = grower.plain_class();
            grower.bare_atom(class)
        }
    }
}

/// A Bin that may stay one; what the choice behind it takes decides that.
fn binary_before_choice(grower: &mut Grower) -> Vec<u8> {
    let mut items = grower.bare_atom(0);
    items.extend(grower.bare_atom(2));
    if grower.random.percent(60) {
        items.extend(style(grower.random.below(8) as u8));
    }
    items.extend(choice_of(&std::array::from_fn(|_| {
        let class = grower.plain_class();
        list(&grower.bare_atom(class))
    })));
    items
}

fn close_lists(grower: &mut Grower, levels: usize) -> [Vec<u8>; 4] {
    std::array::from_fn(|_| list(&close_items(grower, levels, 3)))
}

/// A choice with the given list in one of its places, mostly behind a style
/// that takes it.
pub fn choice_holding(grower: &mut Grower, given: Vec<u8>) -> Vec<u8> {
    let taken = grower.random.below(4);
    let mut lists = close_lists(grower, 1);
    lists[taken] = given;
    let mut items = Vec::new();
    if grower.random.percent(95) {
        let prime = grower.random.below(2);
        items.extend(style((2 * taken + prime) as u8));
    }
    items.extend(choice_of(&lists));
    items
}

/// A style or a choice that can't be read where it stands.
pub fn choice_fault(grower: &mut Grower) -> Vec<u8> {
    if grower.random.percent(25) {
        let number = *grower.random.pick(&[8, 8, 9, 16, 128, 255]);
        return style(number);
    }
    let mut fields = close_lists(grower, 1);
    let at = *grower.random.pick(&[0, 0, 0, 1, 2, 3]);
    match grower.random.below(5) {
        0 => fields[at] = EMPTY.to_vec(),
        1 | 2 => fields[at] = grower.symbol(),
        3 => fields[at][1] += 1 + grower.random.below(8) as u8,
        _ => fields[3].truncate(grower.random.below(3)),
    }
    choice_of(&fields)
}

pub fn choice_of(fields: &[Vec<u8>; 4]) -> Vec<u8> {
    choice(fields.each_ref().map(Vec::as_slice))
}
