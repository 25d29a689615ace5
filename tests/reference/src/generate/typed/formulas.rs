//! Formulas to be written as text: ones that some text gives, and ones with an
//! item that none gives.

use crate::compose::{
    atom, choice, fence, fraction, kern, list, long_list, overline, root, style, symbol, underline,
    NameParts, EMPTY,
};
use crate::generate::Random;
use crate::{DEPTH_LIMIT, FORMULA_LIMIT, SHORT_LIST_LIMIT};

/// One that some text gives.
pub fn made_formula(names: &[NameParts], random: &mut Random) -> Vec<u8> {
    Maker::new(names, random, false).formula()
}

/// One with an item that mostly no text gives.
pub fn unmade_formula(names: &[NameParts], random: &mut Random) -> Vec<u8> {
    Maker::new(names, random, true).formula()
}

/// In so many lists more that it may be too deep, or with so many items more
/// that it may be too long.
pub fn deeper(mut formula: Vec<u8>, random: &mut Random) -> Vec<u8> {
    if formula.len() > FORMULA_LIMIT / 2 {
        let blank = atom(0, 0, [&list(&[]), EMPTY, EMPTY]);
        let more = FORMULA_LIMIT.saturating_sub(formula.len()) / blank.len();
        formula.extend(blank.repeat(more + random.below(2)));
        return formula;
    }
    for _ in 0..*random.pick(&[1, 1, 1, 2, 3, DEPTH_LIMIT]) {
        formula = match random.below(3) {
            0 => fraction(0, &list(&[]), &list(&formula)),
            1 => atom(1, 1, [&list(&[]), EMPTY, &list(&formula)]),
            _ => atom(0, 0, [&list(&formula), EMPTY, EMPTY]),
        };
    }
    formula
}

/// A list of kind 3 that is just long enough for it, or just not.
pub fn long_kind(random: &mut Random) -> Vec<u8> {
    let empty = list(&[]);
    let length = SHORT_LIST_LIMIT + random.below(2);
    // Of 11 bytes and of 9.
    let scripted = atom(0, 0, [&empty, EMPTY, &empty]).repeat(length * 5 % 9);
    let plain = atom(0, 0, [&empty, EMPTY, EMPTY]).repeat((length - scripted.len()) / 9);
    let long = long_list(length as u32, &[scripted, plain].concat());
    match random.percent(50) {
        true => fraction(0, &empty, &long),
        false => atom(0, 0, [&long, EMPTY, EMPTY]),
    }
}

struct Maker<'a> {
    names: &'a [NameParts],
    random: &'a mut Random,
    /// So many items, and then no more than are needed.
    wanted: usize,
    /// Whether an item that no text gives is still to come.
    is_spoilt: bool,
}

impl<'a> Maker<'a> {
    fn new(names: &'a [NameParts], random: &'a mut Random, is_spoilt: bool) -> Maker<'a> {
        let wanted = *random.pick(&[0, 1, 2, 4, 8, 20]);
        Maker {
            names,
            random,
            wanted,
            is_spoilt,
        }
    }

    fn formula(&mut self) -> Vec<u8> {
        let mut items = self.items(1);
        if self.is_spoilt {
            items.extend(self.spoilt(1));
            items.extend(self.items(1));
        }
        items
    }

    fn items(&mut self, depth: usize) -> Vec<u8> {
        let mut items = Vec::new();
        while self.wanted > 0 && self.random.percent(if depth == 1 { 95 } else { 60 }) {
            self.wanted -= 1;
            items.extend(self.item(depth));
        }
        items
    }

    fn item(&mut self, depth: usize) -> Vec<u8> {
        if self.is_spoilt && self.random.percent(20) {
            self.is_spoilt = false;
            return self.spoilt(depth);
        }
        match self.random.below(8) {
            0..4 => {
                let (class, nucleus) = self.nucleus(depth);
                let scripts = [self.script(depth), self.script(depth)];
                atom(class, 0, [&nucleus, &scripts[0], &scripts[1]])
            }
            4 | 5 => fraction(0, &self.operand(depth), &self.operand(depth)),
            _ => self.limited(depth, 1),
        }
    }

    fn limited(&mut self, depth: usize, limits: u8) -> Vec<u8> {
        let (nucleus, script) = (self.operand(depth), self.operand(depth));
        let fields: [&[u8]; 3] = match self.random.below(3) {
            0 => [&nucleus, &script, EMPTY],
            1 => [&nucleus, EMPTY, &script],
            _ => [&nucleus, &script, &self.operand(depth)],
        };
        atom(1, limits, fields)
    }

    /// A word with its class, or a group.
    fn nucleus(&mut self, depth: usize) -> (u8, Vec<u8>) {
        match self.names {
            [] => (0, self.list(depth)),
            _ if self.random.percent(25) => (0, self.list(depth)),
            names => {
                let name = self.random.pick(names);
                (name.class, symbol(name.family, name.code))
            }
        }
    }

    fn script(&mut self, depth: usize) -> Vec<u8> {
        match self.random.percent(60) {
            true => EMPTY.to_vec(),
            false => self.operand(depth),
        }
    }

    fn operand(&mut self, depth: usize) -> Vec<u8> {
        self.nucleus(depth).1
    }

    fn list(&mut self, depth: usize) -> Vec<u8> {
        let is_deep = depth + 1 >= DEPTH_LIMIT;
        let items = if is_deep {
            Vec::new()
        } else {
            self.items(depth + 1)
        };
        list(&items)
    }

    /// An item with one thing that mostly no text gives.
    fn spoilt(&mut self, depth: usize) -> Vec<u8> {
        let field = self.operand(depth);
        let script = self.script(depth);
        match self.random.below(14) {
            0..2 => self.of_another_kind(depth),
            2 => fraction(1 + self.random.below(2) as u8, &field, &self.operand(depth)),
            3 => self.limited(depth, 2),
            4 => atom(1, 1, [&field, EMPTY, EMPTY]),
            5 => atom(1, 1, [EMPTY, &field, &script]),
            6 => atom(self.random.below(9) as u8, 0, [EMPTY, &script, &field]),
            7 => {
                let class = self.random.between(1, 8) as u8;
                atom(class, 0, [&self.list(depth), &script, EMPTY])
            }
            8 => match self.random.percent(50) {
                true => fraction(0, EMPTY, &field),
                false => fraction(0, &field, EMPTY),
            },
            9 => {
                let class = *self.random.pick(&[0, 2, 3, 7]);
                atom(class, 1, [&field, &self.operand(depth), &script])
            }
            10 => self.class_of_none(&script),
            11 | 12 => {
                let strange = self.strange_symbol();
                self.with(strange, depth)
            }
            _ => {
                let unreadable = self.unreadable_field(depth);
                self.with(unreadable, depth)
            }
        }
    }

    fn of_another_kind(&mut self, depth: usize) -> Vec<u8> {
        let field = self.operand(depth);
        let list = self.list(depth);
        let sign = [(2, 112), (3, 112)];
        match self.random.below(7) {
            0 => overline([&field, EMPTY, EMPTY]),
            1 => underline([&field, EMPTY, EMPTY]),
            2 => kern(0),
            3 => style(0),
            4 => choice([&list; 4]),
            5 => root(sign, [&field, EMPTY, EMPTY]),
            _ => fence([sign; 2], [&list, EMPTY, EMPTY]),
        }
    }

    /// A symbol that has a name, but perhaps none of this class.
    fn class_of_none(&mut self, script: &[u8]) -> Vec<u8> {
        let class = self.random.below(8) as u8;
        let field = match self.names {
            [] => symbol(0, 0),
            names => {
                let name = self.random.pick(names);
                symbol(name.family, name.code)
            }
        };
        atom(class, 0, [&field, script, EMPTY])
    }

    /// A symbol that perhaps has no name.
    fn strange_symbol(&mut self) -> Vec<u8> {
        symbol(self.random.below(16) as u8, self.random.byte())
    }

    fn unreadable_field(&mut self, depth: usize) -> Vec<u8> {
        let items = self.items(depth + 1);
        match self.random.below(5) {
            0 => symbol(16, 0),
            1 => vec![4 + self.random.byte() % 252],
            2 => long_list(items.len() as u32, &items),
            3 => {
                let mut field = list(&items);
                field[1] = field[1].wrapping_add(1 + self.random.below(40) as u8);
                field
            }
            _ => {
                let mut field = list(&items);
                field.truncate(self.random.below(field.len()));
                field
            }
        }
    }

    /// An item with this field somewhere.
    fn with(&mut self, field: Vec<u8>, depth: usize) -> Vec<u8> {
        let (class, nucleus) = self.nucleus(depth);
        let other = self.operand(depth);
        match self.random.below(8) {
            0 => atom(class, 0, [&field, &other, EMPTY]),
            1 => atom(class, 0, [&nucleus, &field, EMPTY]),
            2 => atom(class, 0, [&nucleus, &other, &field]),
            3 => fraction(0, &field, &other),
            4 => fraction(0, &other, &field),
            5 => atom(1, 1, [&field, &other, EMPTY]),
            6 => atom(1, 1, [&nucleus, &field, &other]),
            _ => atom(1, 1, [&nucleus, EMPTY, &field]),
        }
    }
}
