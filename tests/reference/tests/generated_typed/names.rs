//! What a name table holds, or what is wrong with it.

use crate::descent::is_of_word;
use std::collections::HashMap;

pub const KEYWORDS: [&[u8]; 5] = [b"sub", b"sup", b"over", b"from", b"to"];

/// Family, code and class of each name.
#[derive(Default)]
pub struct Names<'a> {
    pub all: HashMap<&'a [u8], (u8, u8, u8)>,
    /// In the table's order.
    pub order: Vec<&'a [u8]>,
}

/// The place of a bad record, and all that is wrong with it.
pub type Fault = (usize, Vec<&'static str>);

pub const FAULTS: [&str; 14] = [
    "no length",
    "cut in the word",
    "cut before the family",
    "cut before the code",
    "cut before the class",
    "too long",
    "low byte",
    "high byte",
    "open brace",
    "closed brace",
    "family",
    "class",
    "keyword",
    "repeated",
];

pub fn names(table: &[u8]) -> Result<Names<'_>, Fault> {
    let mut names = Names::default();
    let mut place = 0;
    while place < table.len() {
        let length = usize::from(table[place]);
        let bytes = &table[place + 1..];
        let faults = faults(length, bytes, &names);
        if !faults.is_empty() {
            return Err((place, faults));
        }
        let symbol = (bytes[length], bytes[length + 1], bytes[length + 2]);
        names.all.insert(&bytes[..length], symbol);
        names.order.push(&bytes[..length]);
        place += 1 + length + 3;
    }
    Ok(names)
}

fn faults(length: usize, bytes: &[u8], names: &Names) -> Vec<&'static str> {
    let word = &bytes[..length.min(bytes.len())];
    let missing = (length + 3).saturating_sub(bytes.len());
    let is_past = |at: usize, most: u8| bytes.get(at).is_some_and(|byte| *byte > most);
    let has = |test: fn(&u8) -> bool| word.iter().any(test);
    let found = [
        (length == 0, "no length"),
        (missing > 3, "cut in the word"),
        (missing == 3, "cut before the family"),
        (missing == 2, "cut before the code"),
        (missing == 1, "cut before the class"),
        (length > 32, "too long"),
        (has(|byte| *byte <= 32), "low byte"),
        (has(|byte| *byte >= 127), "high byte"),
        (word.contains(&b'{'), "open brace"),
        (word.contains(&b'}'), "closed brace"),
        (is_past(length, 15), "family"),
        (is_past(length + 2, 7), "class"),
        (KEYWORDS.contains(&word), "keyword"),
        (names.all.contains_key(word), "repeated"),
    ];
    debug_assert!(found.iter().any(|(is, _)| *is) || word.iter().all(|it| is_of_word(*it)));
    let faults = found.into_iter().filter(|(is, _)| *is);
    faults.map(|(_, fault)| fault).collect()
}

impl Names<'_> {
    /// Whether the symbol has a name, and if the class is given one of it.
    pub fn has(&self, (family, code): (u8, u8), class: Option<u8>) -> bool {
        self.all.values().any(|name| {
            (name.0, name.1) == (family, code) && class.is_none_or(|class| class == name.2)
        })
    }
}
