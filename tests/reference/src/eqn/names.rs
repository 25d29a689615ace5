//! The name table: which word stands for which symbol, and which words for a
//! symbol.

use super::{Refusal, KEYWORDS, NAME_LIMIT};
use crate::reading::FAMILY_LIMIT;
use std::collections::HashMap;

const CLASS_LIMIT: u8 = 7;

#[derive(Clone, Copy, Debug, PartialEq, Eq, Hash)]
pub struct Symbol {
    pub family: u8,
    pub code: u8,
}

/// What a word stands for.
#[derive(Clone, Copy, Debug)]
pub struct Name {
    pub symbol: Symbol,
    pub class: u8,
}

/// Names in the table's order.
pub struct Names<'a> {
    records: Vec<(&'a [u8], Name)>,
    by_word: HashMap<&'a [u8], Name>,
}

impl<'a> Names<'a> {
    pub fn read(table: &'a [u8]) -> Result<Names<'a>, Refusal> {
        let mut names = Names {
            records: Vec::new(),
            by_word: HashMap::new(),
        };
        let mut rest = table;
        while !rest.is_empty() {
            let place = table.len() - rest.len();
            names.add(&mut rest).ok_or(Refusal::Names(place))?;
        }
        Ok(names)
    }

    /// Takes the first record of the rest; none if it is bad.
    fn add(&mut self, rest: &mut &'a [u8]) -> Option<()> {
        let (&length, behind) = rest.split_first()?;
        let (word, behind) = behind.split_at_checked(usize::from(length))?;
        let (&[family, code, class], behind) = behind.split_first_chunk()?;
        let is_good = is_name(word) && family <= FAMILY_LIMIT && class <= CLASS_LIMIT;
        let name = Name {
            symbol: Symbol { family, code },
            class,
        };
        if !is_good || self.by_word.insert(word, name).is_some() {
            return None;
        }
        self.records.push((word, name));
        *rest = behind;
        Some(())
    }

    pub fn find(&self, word: &[u8]) -> Option<Name> {
        self.by_word.get(word).copied()
    }
}

/// Whether a byte is one of a word.
pub fn is_of_word(byte: u8) -> bool {
    (33..=126).contains(&byte) && byte != b'{' && byte != b'}'
}

fn is_name(word: &[u8]) -> bool {
    (1..=NAME_LIMIT).contains(&word.len())
        && word.iter().copied().all(is_of_word)
        && KEYWORDS.iter().all(|keyword| keyword.as_bytes() != word)
}

/// The first word for each symbol, and for each symbol of a class.
pub struct Spelling<'a> {
    words: HashMap<Symbol, &'a [u8]>,
    by_class: HashMap<(Symbol, u8), &'a [u8]>,
}

impl<'a> Spelling<'a> {
    pub fn of(names: &Names<'a>) -> Spelling<'a> {
        let mut spelling = Spelling {
            words: HashMap::new(),
            by_class: HashMap::new(),
        };
        for (word, Name { symbol, class }) in &names.records {
            spelling.words.entry(*symbol).or_insert(word);
            spelling.by_class.entry((*symbol, *class)).or_insert(word);
        }
        spelling
    }

    pub fn word(&self, symbol: Symbol) -> Option<&'a [u8]> {
        self.words.get(&symbol).copied()
    }

    pub fn word_of_class(&self, symbol: Symbol, class: u8) -> Option<&'a [u8]> {
        self.by_class.get(&(symbol, class)).copied()
    }
}
