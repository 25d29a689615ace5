//! Roots that stand close together, and their faults.

use super::Grower;
use crate::compose::{root, style};
use crate::reading::FAMILY_LIMIT;

/// A formula of roots, in any style; at times with one that can't be read.
pub fn root_formula(grower: &mut Grower) -> Vec<u8> {
    let mut items = Vec::new();
    for _ in 0..grower.random.below(5) + 1 {
        items.extend(match grower.random.below(10) {
            0 | 1 => style(grower.random.below(8) as u8),
            2 => grower.item(3, 60),
            _ => grower.root(4, 60),
        });
    }
    if grower.random.percent(8) {
        items.extend(root_fault(grower));
    }
    items
}

/// A root with a family that is too large, or one that is cut short.
pub fn root_fault(grower: &mut Grower) -> Vec<u8> {
    let mut sign = grower.sign();
    let is_whole = grower.random.percent(80);
    if is_whole {
        let family = *grower.random.pick(&[1, 1, 2, 16, 113, 240]);
        sign[grower.random.below(2)].0 = FAMILY_LIMIT + family;
    }
    let fields = grower.fields(2, 20);
    let mut item = root(sign, fields.each_ref().map(Vec::as_slice));
    if !is_whole {
        item.truncate(2 + grower.random.below(item.len() - 2));
    }
    item
}

/// A root with the given list, mostly as its nucleus.
pub fn root_holding(grower: &mut Grower, given: Vec<u8>) -> Vec<u8> {
    let mut fields = grower.fields(1, 0);
    fields[grower.mostly_first()] = given;
    root(grower.sign(), fields.each_ref().map(Vec::as_slice))
}

impl Grower<'_> {
    pub(super) fn root(&mut self, depth: usize, most: usize) -> Vec<u8> {
        let fields = self.fields(depth, most);
        root(self.sign(), fields.each_ref().map(Vec::as_slice))
    }

    /// A small and a large symbol; each may be absent, or no symbol at all.
    pub(super) fn sign(&mut self) -> [(u8, u8); 2] {
        std::array::from_fn(|_| self.sign_symbol().unwrap_or((0, 0)))
    }

    fn sign_symbol(&mut self) -> Option<(u8, u8)> {
        let (family, code) = (
            self.random.below(FAMILY_LIMIT as usize + 1) as u8,
            self.random.byte(),
        );
        match self.random.below(20) {
            0..4 => None,
            4..13 => self.symbols.linked(self.random),
            13..17 => self.symbols.known(self.random),
            17 => Some((0, code)),
            18 => Some((family, 0)),
            _ => Some((family, code)),
        }
    }
}
