//! Name tables, good ones and ones with a fault.

use crate::compose::{name_table, NameParts};
use crate::eqn::{KEYWORDS, NAME_LIMIT};
use crate::generate::{damaged_bytes, Random};
use std::collections::HashSet;

/// Few names or many; often some for one symbol.
pub fn good_names(random: &mut Random) -> Vec<NameParts> {
    let count = match random.below(100) {
        0 => 0,
        1..5 => 1,
        5..90 => 2 + random.below(12),
        90..99 => 20 + random.below(200),
        _ => 2000,
    };
    let symbols: Vec<(u8, u8, u8)> = (0..1 + count / 2).map(|_| symbol(random)).collect();
    let mut taken = HashSet::new();
    let mut names = Vec::new();
    while names.len() < count {
        let word = word(random);
        if !taken.insert(word.clone()) || KEYWORDS.iter().any(|it| it.as_bytes() == word) {
            continue;
        }
        let (family, code, class) = *random.pick(&symbols);
        let class = match random.percent(60) {
            true => class,
            false => random.below(8) as u8,
        };
        names.push(NameParts {
            word,
            family,
            code,
            class,
        });
    }
    names
}

/// Family, code and the class that most of its names have.
fn symbol(random: &mut Random) -> (u8, u8, u8) {
    let (family, code) = match random.below(4) {
        0 => *random.pick(&[(0, 0), (15, 255), (0, 255), (15, 0)]),
        _ => (random.below(16) as u8, random.byte()),
    };
    (family, code, random.below(8) as u8)
}

/// Short ones, ones near a keyword, ones of all lengths and bytes.
pub fn word(random: &mut Random) -> Vec<u8> {
    match random.below(8) {
        0..4 => letters(1 + random.below(3), random),
        4 => near_keyword(random),
        5 => letters(NAME_LIMIT - random.below(2), random),
        _ => {
            let length = 1 + random.below(NAME_LIMIT);
            (0..length).map(|_| word_byte(random)).collect()
        }
    }
}

fn letters(count: usize, random: &mut Random) -> Vec<u8> {
    (0..count).map(|_| *random.pick(b"abixyz+=(.0")).collect()
}

fn near_keyword(random: &mut Random) -> Vec<u8> {
    let mut word = random.pick(&KEYWORDS).as_bytes().to_vec();
    match random.below(4) {
        0 => word.push(word_byte(random)),
        1 => word.insert(0, word_byte(random)),
        2 => drop(word.pop()),
        _ => word[0] = word[0].to_ascii_uppercase(),
    }
    word
}

/// Any that a word has; those at the edges are frequent.
fn word_byte(random: &mut Random) -> u8 {
    match random.below(4) {
        0 => *random.pick(b"!z|~"),
        _ => random.between(33, 122) as u8,
    }
}

/// Bytes that neither a word has nor stand for anything else.
pub const STRAY_BYTES: [u8; 8] = [0, 8, 11, 13, 31, 127, 128, 255];

/// Others that no word has.
const TEXT_BYTES: [u8; 5] = [9, 10, 32, b'{', b'}'];

/// One fault or two in one record or two; a few come out good.
pub fn bad_names(mut names: Vec<NameParts>, random: &mut Random) -> Vec<u8> {
    if names.is_empty() {
        names.push(NameParts {
            word: word(random),
            family: 0,
            code: 0,
            class: 0,
        });
    }
    match random.below(20) {
        0..3 => return cut(&names, random),
        3 => return wrong_length(&names, random),
        4 => return damaged_bytes(name_table(&names), random),
        _ => (),
    }
    for _ in 0..*random.pick(&[1, 1, 1, 1, 2]) {
        let at = random.below(names.len());
        spoil(&mut names, at, random);
    }
    match random.percent(5) {
        true => cut(&names, random),
        false => name_table(&names),
    }
}

fn spoil(names: &mut Vec<NameParts>, at: usize, random: &mut Random) {
    let earlier = random.below(at + 1);
    let record = &mut names[at];
    match random.below(8) {
        0 => record.word.clear(),
        1 => {
            let length = *random.pick(&[33, 33, 34, 255]);
            record.word = (0..length).map(|_| word_byte(random)).collect();
        }
        2 | 3 => {
            let place = random.below(record.word.len() + 1);
            let byte = match random.percent(50) {
                true => *random.pick(&STRAY_BYTES),
                false => *random.pick(&TEXT_BYTES),
            };
            record.word.insert(place, byte);
            record.word.truncate(NAME_LIMIT);
        }
        4 => record.family = *random.pick(&[16, 17, 255]),
        5 => record.class = *random.pick(&[8, 9, 255]),
        6 => record.word = random.pick(&KEYWORDS).as_bytes().to_vec(),
        _ => {
            let mut again = names[earlier].clone();
            again.class = random.below(8) as u8;
            names.insert(at + 1, again);
        }
    }
}

/// Before its last bytes, within its last record, or anywhere.
fn cut(names: &[NameParts], random: &mut Random) -> Vec<u8> {
    let mut bytes = name_table(names);
    let last = names.last().map_or(0, |name| name.bytes().len());
    let most = *random.pick(&[3, 3, last, last, bytes.len()]);
    bytes.truncate(bytes.len() - 1 - random.below(most));
    bytes
}

/// The length of some record is changed, and nothing else.
fn wrong_length(names: &[NameParts], random: &mut Random) -> Vec<u8> {
    let mut bytes = name_table(names);
    let before = &names[..random.below(names.len())];
    let place = name_table(before).len();
    bytes[place] = match random.below(4) {
        0 => bytes[place].wrapping_add(1),
        1 => bytes[place].wrapping_sub(1),
        2 => *random.pick(&[0, 32, 33, 255]),
        _ => random.byte(),
    };
    bytes
}
