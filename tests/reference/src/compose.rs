//! Bytes of font tables, formulas and name tables, put together from their
//! parts.

use crate::parameters::{PARAMETERS, PARAMETER_MARK, ROWS};
use crate::records::CHARACTER_MARK;

/// A font table before it is written; nothing makes it a good one.
#[derive(Clone, Debug)]
pub struct TableParts {
    pub rows: [[u32; PARAMETERS]; ROWS],
    pub characters: Vec<CharacterParts>,
}

#[derive(Clone, Copy, Debug)]
pub struct CharacterParts {
    pub size: u8,
    pub family: u8,
    pub code: u8,
    pub successor: Option<u8>,
    /// Width, height, depth, italic correction.
    pub measures: [u32; 4],
}

impl TableParts {
    pub fn bytes(&self) -> Vec<u8> {
        let mut bytes = Vec::new();
        for row in &self.rows {
            bytes.extend(PARAMETER_MARK);
            bytes.extend(row.iter().flat_map(|word| word.to_le_bytes()));
        }
        bytes.extend(records(&self.characters));
        bytes
    }
}

/// Character records; they are all that a client's table has.
pub fn records(characters: &[CharacterParts]) -> Vec<u8> {
    characters.iter().flat_map(CharacterParts::bytes).collect()
}

impl CharacterParts {
    /// By this the records of a good table rise.
    pub fn key(&self) -> (u8, u8, u8) {
        (self.size, self.family, self.code)
    }

    /// Whether both have one size and family.
    pub fn is_akin_to(&self, other: &CharacterParts) -> bool {
        (self.size, self.family) == (other.size, other.family)
    }

    fn bytes(&self) -> Vec<u8> {
        let flag = u8::from(self.successor.is_some());
        let successor = self.successor.unwrap_or(0);
        let head = [self.size, self.family, self.code, flag, successor];
        let measures = self.measures.map(u32::to_le_bytes);
        [&CHARACTER_MARK[..], &head, measures.as_flattened()].concat()
    }
}

/// A record of a name table before it is written; nothing makes it a good one.
/// Of the word's length the lowest byte is written.
#[derive(Clone, Debug)]
pub struct NameParts {
    pub word: Vec<u8>,
    pub family: u8,
    pub code: u8,
    pub class: u8,
}

impl NameParts {
    pub fn bytes(&self) -> Vec<u8> {
        let length = self.word.len() as u8;
        let symbol = [self.family, self.code, self.class];
        [&[length], &self.word[..], &symbol].concat()
    }
}

pub fn name_table(names: &[NameParts]) -> Vec<u8> {
    names.iter().flat_map(NameParts::bytes).collect()
}

/// A field with nothing in it.
pub const EMPTY: &[u8] = &[0];

pub fn symbol(family: u8, code: u8) -> Vec<u8> {
    vec![1, family, code]
}

/// A list field; its kind is that of its length.
pub fn list(items: &[u8]) -> Vec<u8> {
    match u16::try_from(items.len()) {
        Ok(length) => [&[2], &length.to_le_bytes()[..], items].concat(),
        Err(_) => long_list(items.len() as u32, items),
    }
}

/// A list field of kind 3, of whatever length; nothing makes it a good one.
pub fn long_list(length: u32, items: &[u8]) -> Vec<u8> {
    [&[3], &length.to_le_bytes()[..], items].concat()
}

/// An atom of the given class and limits; the fields are nucleus, superscript
/// and subscript.
pub fn atom(class: u8, limits: u8, fields: [&[u8]; 3]) -> Vec<u8> {
    [b"AT", &[class, limits][..], &fields.concat()].concat()
}

pub fn overline(fields: [&[u8]; 3]) -> Vec<u8> {
    [b"OV", &fields.concat()[..]].concat()
}

pub fn underline(fields: [&[u8]; 3]) -> Vec<u8> {
    [b"UN", &fields.concat()[..]].concat()
}

pub fn fraction(bar: u8, numerator: &[u8], denominator: &[u8]) -> Vec<u8> {
    [b"FR", &[bar][..], numerator, denominator].concat()
}

/// The small symbol and the large one to look for the sign among, by family
/// and code; two zeros are none.
pub fn root(sign: [(u8, u8); 2], fields: [&[u8]; 3]) -> Vec<u8> {
    [b"RD", &delimiter(sign)[..], &fields.concat()].concat()
}

/// Each side is given as a root's sign; the fields are the list, which should
/// be one, and the scripts.
pub fn fence(sides: [[(u8, u8); 2]; 2], fields: [&[u8]; 3]) -> Vec<u8> {
    let sides = sides.map(delimiter).concat();
    [b"FE", &sides[..], &fields.concat()].concat()
}

fn delimiter([small, large]: [(u8, u8); 2]) -> [u8; 4] {
    [small.0, small.1, large.0, large.1]
}

pub fn kern(length: i32) -> Vec<u8> {
    [b"KN", &length.to_le_bytes()[..]].concat()
}

pub fn style(number: u8) -> Vec<u8> {
    [b"ST", &[number][..]].concat()
}

/// A choice by style; the fields, which should be lists, are for D, T, S, SS.
pub fn choice(fields: [&[u8]; 4]) -> Vec<u8> {
    [b"C4", &fields.concat()[..]].concat()
}
