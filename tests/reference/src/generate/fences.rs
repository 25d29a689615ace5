//! Fences and what tells at their lists' ends, and their faults.

use super::formulas::kerns;
use super::Grower;
use crate::compose::{atom, choice, fence, kern, list, style, EMPTY};
use crate::reading::FAMILY_LIMIT;
use crate::SIZE_LIMIT;

/// A formula of fences, in any style; at times with one that can't be read.
pub fn fence_formula(grower: &mut Grower) -> Vec<u8> {
    let mut items = Vec::new();
    for _ in 0..grower.random.below(4) + 1 {
        items.extend(match grower.random.below(10) {
            0 | 1 => style(grower.random.below(8) as u8),
            2 => grower.item(3, 60),
            3 => grower.root(4, 60),
            _ => grower.fence(4, 60),
        });
    }
    if grower.random.percent(12) {
        items.extend(fence_fault(grower));
    }
    items
}

/// A fence with a family that is too large, or without a list, or cut short;
/// at times what it holds can't be read either.
pub fn fence_fault(grower: &mut Grower) -> Vec<u8> {
    let mut sides = grower.sides();
    let mut fields = grower.fields(1, 0);
    let inside: &[u8] = if grower.random.percent(30) { b"z" } else { &[] };
    fields[0] = list(inside);
    let form = grower.random.below(10);
    match form {
        0..4 => {
            let family = *grower.random.pick(&[1, 1, 2, 16, 113, 240]);
            sides[form / 2][form % 2].0 = FAMILY_LIMIT + family;
        }
        4 | 5 => fields[0] = EMPTY.to_vec(),
        6 | 7 => fields[0] = grower.symbol(),
        8 => fields[0][0] = 4,
        _ => {}
    }
    let mut item = fence(sides, fields.each_ref().map(Vec::as_slice));
    if form == 9 {
        item.truncate(2 + grower.random.below(item.len() - 2));
    }
    item
}

/// A fence with the given list, mostly between its sides.
pub fn fence_holding(grower: &mut Grower, given: Vec<u8>) -> Vec<u8> {
    let mut fields = grower.fields(1, 0);
    fields[0] = list(&[]);
    fields[grower.mostly_first()] = given;
    fence(grower.sides(), fields.each_ref().map(Vec::as_slice))
}

/// A formula in which the width of a fence's list, or the place of a right
/// side, comes to the size limit, and most else keeps away from it.
pub fn wide_fence(grower: &mut Grower) -> Vec<u8> {
    const BLANK: i64 = 78_643;
    let edge = *grower.random.pick(&[SIZE_LIMIT, -SIZE_LIMIT]);
    let near = edge + grower.random.between(-2, 2);
    let [_, right] = grower.sides();
    let (before, width, last) = if grower.random.percent(50) {
        let punct = atom(6, 0, [EMPTY; 3]);
        (-edge / 2, near, punct)
    } else {
        let before = grower.random.between(-SIZE_LIMIT, SIZE_LIMIT);
        (before, near - before - BLANK, Vec::new())
    };
    let inner = list(&[kerns(width), last].concat());
    let item = fence([[(0, 0); 2], right], [&inner, EMPTY, EMPTY]);
    [kerns(before), item, kerns(-edge / 2)].concat()
}

impl Grower<'_> {
    /// A fence; `depth` is above 1.
    pub(super) fn fence(&mut self, depth: usize, most: usize) -> Vec<u8> {
        let mut fields = self.fields(depth, most);
        fields[0] = self.fenced_list(depth, most);
        fence(self.sides(), fields.each_ref().map(Vec::as_slice))
    }

    fn sides(&mut self) -> [[(u8, u8); 2]; 2] {
        [self.sign(), self.sign()]
    }

    /// A list, often with atoms that mind what stands beside them first and
    /// last, and with another style at its end.
    fn fenced_list(&mut self, depth: usize, most: usize) -> Vec<u8> {
        let mut items = Vec::new();
        if self.random.percent(30) {
            items.extend(self.bare_atom(2));
        }
        items.extend(self.items(depth - 1, most));
        if self.random.percent(40) {
            items.extend(style(self.random.below(8) as u8));
        }
        if self.random.percent(60) {
            let class = *self.random.pick(&[6, 6, 6, 6, 2, 2, 1, 3]);
            items.extend(self.bare_atom(class));
        }
        match self.random.below(10) {
            0 | 1 => items.extend(style(self.random.below(8) as u8)),
            2 => items.extend(kern(-5)),
            3 if depth > 2 => items.extend(choice([&list(&[]); 4])),
            _ => {}
        }
        list(&items)
    }
}
