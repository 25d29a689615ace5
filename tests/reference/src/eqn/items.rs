//! What a text means: items, with the bytes and the levels of lists that they
//! come to, and the formula of them.

use super::names::Symbol;
use crate::reading::{DEPTH_LIMIT, FORMULA_LIMIT, SHORT_LIST_LIMIT};

#[derive(Clone, Copy, Debug)]
pub enum Field {
    Empty,
    Symbol(Symbol),
    List(List),
}

#[derive(Clone, Copy, Debug)]
pub enum Item {
    /// Nucleus, superscript, subscript.
    Atom {
        class: u8,
        limits: u8,
        fields: [Field; 3],
    },
    /// With a bar: numerator, denominator.
    Fraction([Field; 2]),
}

/// A list by its first item and its last.
#[derive(Clone, Copy, Debug)]
pub struct List {
    ends: Option<(usize, usize)>,
    bytes: usize,
    /// Of lists, with this one.
    levels: usize,
}

impl List {
    pub const EMPTY: List = List {
        ends: None,
        bytes: 0,
        levels: 1,
    };
}

/// All items of a text, each with the one behind it in its list. They do not
/// hold one another, so that lists may be of any depth.
#[derive(Default)]
pub struct Items(Vec<(Item, Option<usize>)>);

impl Items {
    /// A list of one item.
    pub fn alone(&mut self, item: Item) -> List {
        let mut list = List::EMPTY;
        self.append(&mut list, item);
        list
    }

    pub fn append(&mut self, list: &mut List, item: Item) {
        let at = self.0.len();
        self.0.push((item, None));
        list.ends = match list.ends {
            None => Some((at, at)),
            Some((first, last)) => {
                self.0[last].1 = Some(at);
                Some((first, at))
            }
        };
        list.bytes += item.bytes();
        list.levels = list.levels.max(1 + item.levels());
    }

    /// The bytes of a row; none if they are too many, or too deep.
    pub fn formula(&self, row: &List) -> Option<Vec<u8>> {
        if row.bytes > FORMULA_LIMIT || row.levels > DEPTH_LIMIT {
            return None;
        }
        let mut formula = Vec::with_capacity(row.bytes);
        self.put_list(&mut formula, row);
        Some(formula)
    }

    fn put_list(&self, formula: &mut Vec<u8>, list: &List) {
        let mut next = list.ends.map(|(first, _)| first);
        while let Some(at) = next {
            let (item, behind) = &self.0[at];
            item.put_head(formula);
            for field in item.fields() {
                self.put_field(formula, field);
            }
            next = *behind;
        }
    }

    fn put_field(&self, formula: &mut Vec<u8>, field: &Field) {
        match field {
            Field::Empty => formula.push(0),
            Field::Symbol(Symbol { family, code }) => formula.extend([1, *family, *code]),
            Field::List(list) => {
                match u16::try_from(list.bytes) {
                    Ok(bytes) => {
                        formula.push(2);
                        formula.extend(bytes.to_le_bytes());
                    }
                    Err(_) => {
                        formula.push(3);
                        formula.extend((list.bytes as u32).to_le_bytes());
                    }
                }
                self.put_list(formula, list);
            }
        }
    }
}

impl Item {
    /// What stands before its fields.
    fn put_head(&self, formula: &mut Vec<u8>) {
        match self {
            Item::Atom { class, limits, .. } => formula.extend([b'A', b'T', *class, *limits]),
            Item::Fraction(_) => formula.extend(b"FR\0"),
        }
    }

    fn bytes(&self) -> usize {
        let head = match self {
            Item::Atom { .. } => 4,
            Item::Fraction(_) => 3,
        };
        head + self.fields().iter().map(Field::bytes).sum::<usize>()
    }

    /// Of lists in it.
    fn levels(&self) -> usize {
        self.fields().iter().map(Field::levels).max().unwrap_or(0)
    }

    fn fields(&self) -> &[Field] {
        match self {
            Item::Atom { fields, .. } => fields,
            Item::Fraction(fields) => fields,
        }
    }
}

impl Field {
    fn bytes(&self) -> usize {
        match self {
            Field::Empty => 1,
            Field::Symbol(_) => 3,
            Field::List(list) if list.bytes > SHORT_LIST_LIMIT => 5 + list.bytes,
            Field::List(list) => 3 + list.bytes,
        }
    }

    fn levels(&self) -> usize {
        match self {
            Field::Empty | Field::Symbol(_) => 0,
            Field::List(list) => list.levels,
        }
    }
}
