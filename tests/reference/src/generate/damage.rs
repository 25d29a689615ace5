//! Faults put into bytes that were good, and bytes that never were.

use super::Random;
use crate::compose::{CharacterParts, TableParts};
use crate::records::RECORD_BYTES;
use crate::{CHARACTER_LIMIT, WORD_LIMIT};

/// Flips, cuts, inserts, doubles or swaps a few bytes.
pub fn damaged_bytes(mut bytes: Vec<u8>, random: &mut Random) -> Vec<u8> {
    for _ in 0..*random.pick(&[1, 1, 1, 2, 4]) {
        damage(&mut bytes, random);
    }
    bytes
}

fn damage(bytes: &mut Vec<u8>, random: &mut Random) {
    let at = random.below(bytes.len() + 1);
    if at == bytes.len() {
        bytes.push(telling_byte(random));
        return;
    }
    match random.below(7) {
        0 => bytes[at] ^= 1 << random.below(8),
        1 => bytes[at] = telling_byte(random),
        2 => bytes.truncate(at),
        3 => {
            let end = (at + 1 + random.below(4)).min(bytes.len());
            bytes.drain(at..end);
        }
        4 => bytes.insert(at, telling_byte(random)),
        5 => bytes.insert(at, bytes[at]),
        _ => {
            let other = random.below(bytes.len());
            bytes.swap(at, other);
        }
    }
}

/// A byte at random, or one that stands at the edge of some rule.
fn telling_byte(random: &mut Random) -> u8 {
    if random.percent(40) {
        random.byte()
    } else {
        *random.pick(b"\x00\x01\x02\x03\x07\x08\x0f\x10\x7f\x80\xffACDEFKORSU4")
    }
}

const MARKS: [[u8; 2]; 9] = [
    *b"AT", *b"OV", *b"UN", *b"FR", *b"KN", *b"ST", *b"C4", *b"RD", *b"FE",
];

/// Short byte strings; most open like an item.
pub fn noise(random: &mut Random) -> Vec<u8> {
    let mut bytes = Vec::new();
    if random.percent(70) {
        bytes.extend(random.pick(&MARKS));
    }
    for _ in 0..random.below(30) {
        bytes.push(telling_byte(random));
    }
    bytes
}

/// A table with one fault of some kind; a few come out good.
pub fn damaged_table(mut parts: TableParts, random: &mut Random) -> Vec<u8> {
    match random.below(9) {
        0 => damaged_bytes(parts.bytes(), random),
        1 => {
            let row = random.below(parts.rows.len());
            let column = random.below(parts.rows[row].len());
            parts.rows[row][column] = large_word(random);
            parts.bytes()
        }
        2 => {
            overfill(&mut parts, random);
            parts.bytes()
        }
        _ if parts.characters.is_empty() => {
            let mut bytes = parts.bytes();
            bytes.pop();
            bytes
        }
        3 | 4 => {
            disorder(&mut parts.characters, random);
            parts.bytes()
        }
        5 => {
            close_ring(&mut parts.characters, random);
            parts.bytes()
        }
        _ => {
            let mut bytes = parts.bytes();
            spoil_record(&mut bytes, parts.characters.len(), random);
            bytes
        }
    }
}

fn large_word(random: &mut Random) -> u32 {
    *random.pick(&[WORD_LIMIT + 1, WORD_LIMIT + 2, 1 << 31, u32::MAX])
}

/// As many characters as a table may have, or one more.
fn overfill(parts: &mut TableParts, random: &mut Random) {
    parts.characters = some_characters(CHARACTER_LIMIT + random.below(2));
}

/// So many characters without successors.
pub fn some_characters(count: usize) -> Vec<CharacterParts> {
    let character = |index: usize| CharacterParts {
        size: 0,
        family: (index >> 8) as u8,
        code: index as u8,
        successor: None,
        measures: [0; 4],
    };
    (0..count).map(character).collect()
}

pub fn disorder(characters: &mut Vec<CharacterParts>, random: &mut Random) {
    let at = random.below(characters.len());
    if random.percent(50) {
        characters.insert(at, characters[at]);
    } else {
        let other = random.below(characters.len());
        characters.swap(at, other);
    }
}

/// Lets a character and one of its family, which may be itself, succeed each
/// other.
pub fn close_ring(characters: &mut [CharacterParts], random: &mut Random) {
    let first = random.below(characters.len());
    let is_akin = |at: &usize| characters[*at].is_akin_to(&characters[first]);
    let akin: Vec<usize> = (0..characters.len()).filter(is_akin).collect();
    let second = *random.pick(&akin);
    characters[first].successor = Some(characters[second].code);
    characters[second].successor = Some(characters[first].code);
}

/// One byte of one of so many records, the last bytes, is set past its rule.
pub fn spoil_record(bytes: &mut [u8], records: usize, random: &mut Random) {
    let (offset, value) = *random.pick(&[
        (0, b'P'),
        (1, b'A'),
        (2, 3),
        (3, 16),
        (5, 2),
        (6, 1),
        (9, 0x80),
        (10, 1),
        (14, 0xff),
        (18, 1),
        (21, 0x80),
        (22, 0x80),
    ]);
    // Only the last record rises with such a size or family.
    let is_last = (2..4).contains(&offset) && random.percent(70);
    let from_end = if is_last {
        1
    } else {
        1 + random.below(records)
    };
    let start = bytes.len() - RECORD_BYTES * from_end;
    bytes[start + offset] = value;
}
