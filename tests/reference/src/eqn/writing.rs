//! A formula as typed text.

use super::names::{Spelling, Symbol};
use crate::reading::{DEPTH_LIMIT, FORMULA_LIMIT, SHORT_LIST_LIMIT};

/// None if no text gives the formula.
pub fn text(spelling: &Spelling, formula: &[u8]) -> Option<Vec<u8>> {
    if formula.len() > FORMULA_LIMIT {
        return None;
    }
    let mut writer = Writer {
        spelling,
        text: Vec::new(),
    };
    writer.row(formula, 1)?;
    Some(writer.text)
}

struct Writer<'a> {
    spelling: &'a Spelling<'a>,
    text: Vec<u8>,
}

/// A field of bytes that are still to be read.
#[derive(Clone, Copy)]
enum Field<'a> {
    Empty,
    Symbol(Symbol),
    List(&'a [u8]),
}

impl Writer<'_> {
    fn row(&mut self, mut rest: &[u8], depth: usize) -> Option<()> {
        if depth > DEPTH_LIMIT {
            return None;
        }
        while !rest.is_empty() {
            match &take::<2>(&mut rest)? {
                b"AT" => self.atom(&mut rest, depth)?,
                b"FR" => self.fraction(&mut rest, depth)?,
                _ => return None,
            }
        }
        Some(())
    }

    fn atom(&mut self, rest: &mut &[u8], depth: usize) -> Option<()> {
        let [class, limits] = take(rest)?;
        let nucleus = field(rest)?;
        let superscript = field(rest)?;
        let subscript = field(rest)?;
        match (class, limits) {
            (1, 1) if matches!((superscript, subscript), (Field::Empty, Field::Empty)) => None,
            (1, 1) => {
                self.operand(nucleus, depth)?;
                self.script("from", subscript, depth)?;
                self.script("to", superscript, depth)
            }
            (_, 0) => {
                match nucleus {
                    Field::Symbol(symbol) => {
                        self.token(self.spelling.word_of_class(symbol, class)?);
                    }
                    Field::List(_) if class == 0 => self.operand(nucleus, depth)?,
                    _ => return None,
                }
                self.script("sub", subscript, depth)?;
                self.script("sup", superscript, depth)
            }
            _ => None,
        }
    }

    fn fraction(&mut self, rest: &mut &[u8], depth: usize) -> Option<()> {
        let [bar] = take(rest)?;
        let numerator = field(rest)?;
        let denominator = field(rest)?;
        if bar != 0 {
            return None;
        }
        self.operand(numerator, depth)?;
        self.token(b"over");
        self.operand(denominator, depth)
    }

    /// Nothing for an empty field, else the keyword and the field.
    fn script(&mut self, keyword: &str, field: Field, depth: usize) -> Option<()> {
        if matches!(field, Field::Empty) {
            return Some(());
        }
        self.token(keyword.as_bytes());
        self.operand(field, depth)
    }

    /// A field of an item at this depth.
    fn operand(&mut self, field: Field, depth: usize) -> Option<()> {
        match field {
            Field::Empty => return None,
            Field::Symbol(symbol) => self.token(self.spelling.word(symbol)?),
            Field::List(items) => {
                self.token(b"{");
                self.row(items, depth + 1)?;
                self.token(b"}");
            }
        }
        Some(())
    }

    fn token(&mut self, token: &[u8]) {
        if !self.text.is_empty() {
            self.text.push(b' ');
        }
        self.text.extend_from_slice(token);
    }
}

fn field<'a>(rest: &mut &'a [u8]) -> Option<Field<'a>> {
    let [kind] = take(rest)?;
    let length = match kind {
        0 => return Some(Field::Empty),
        1 => {
            let [family, code] = take(rest)?;
            return Some(Field::Symbol(Symbol { family, code }));
        }
        2 => usize::from(u16::from_le_bytes(take(rest)?)),
        3 => Some(u32::from_le_bytes(take(rest)?) as usize).filter(|it| *it > SHORT_LIST_LIMIT)?,
        _ => return None,
    };
    let (items, behind) = rest.split_at_checked(length)?;
    *rest = behind;
    Some(Field::List(items))
}

fn take<const N: usize>(rest: &mut &[u8]) -> Option<[u8; N]> {
    let (taken, behind) = rest.split_first_chunk()?;
    *rest = behind;
    Some(*taken)
}
