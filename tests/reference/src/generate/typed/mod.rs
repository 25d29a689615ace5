//! Typed formulas: a name table with a text to be read, or with a formula to be
//! written as text.

mod formulas;
mod names;
mod texts;

use super::damage::{damaged_bytes, noise};
use super::Random;
use crate::compose::{name_table, NameParts};
use crate::eqn::{read, write, MOST_BYTES};
use formulas::{deeper, long_kind, made_formula, unmade_formula};
use names::{bad_names, good_names};
use texts::Typist;

/// What a case is after.
#[derive(Clone, Copy, Debug, PartialEq, Eq, PartialOrd, Ord)]
pub enum TypedKind {
    /// A text of the grammar.
    Text,
    /// The same with a few tokens or bytes changed.
    DamagedText,
    /// Tokens of all kinds in any order.
    Noise,
    /// A text of depth around the limit, or far past it.
    DeepText,
    /// A text whose formula, or a list in it, is about as long as it may be.
    LongText,
    /// A formula that some text gives.
    Formula,
    /// One with an item that no text gives.
    Unmade,
    /// The formula of a text, with a few bytes changed, or bytes at random.
    DamagedFormula,
    /// The formula of a deep or long text, or one that is deeper or longer.
    GreatFormula,
    /// A name table that mostly breaks a rule, at times with further faults.
    BadNames,
}

/// All kinds, each with how many of a hundred cases it gets.
const KINDS: [(TypedKind, u64); 10] = [
    (TypedKind::Text, 19),
    (TypedKind::DamagedText, 18),
    (TypedKind::Noise, 8),
    (TypedKind::DeepText, 6),
    (TypedKind::LongText, 1),
    (TypedKind::Formula, 14),
    (TypedKind::Unmade, 16),
    (TypedKind::DamagedFormula, 6),
    (TypedKind::GreatFormula, 4),
    (TypedKind::BadNames, 8),
];

/// What a bad name table comes with.
const OVER_BAD_NAMES: [TypedKind; 4] = [
    TypedKind::Text,
    TypedKind::DamagedText,
    TypedKind::Formula,
    TypedKind::Unmade,
];

/// What is to be done, and the bytes that it is to be done with.
#[derive(Clone, Debug)]
pub struct TypedCase {
    pub kind: TypedKind,
    pub is_written: bool,
    pub names: Vec<u8>,
    pub bytes: Vec<u8>,
    /// The length of the buffer to lend.
    pub room: usize,
}

pub fn typed_case(random: &mut Random) -> TypedCase {
    let kind = *random.weighted(&KINDS);
    let names = good_names(random);
    let (is_written, bytes) = match kind {
        TypedKind::BadNames => {
            let any = *random.pick(&OVER_BAD_NAMES);
            input(any, &names, random)
        }
        _ => input(kind, &names, random),
    };
    let names = match kind {
        TypedKind::BadNames => bad_names(names, random),
        _ => name_table(&names),
    };
    let room = room(is_written, &names, &bytes, random);
    TypedCase {
        kind,
        is_written,
        names,
        bytes,
        room,
    }
}

/// Whether they are to be written as text, and the bytes.
fn input(kind: TypedKind, names: &[NameParts], random: &mut Random) -> (bool, Vec<u8>) {
    let mut typist = Typist::new(names, random);
    let bytes = match kind {
        TypedKind::Text | TypedKind::BadNames => typist.text(),
        TypedKind::DamagedText => typist.damaged(),
        TypedKind::Noise => typist.noise(),
        TypedKind::DeepText => typist.deep(),
        TypedKind::LongText => typist.long(),
        TypedKind::Formula => made_formula(names, random),
        TypedKind::Unmade => unmade_formula(names, random),
        TypedKind::DamagedFormula if random.percent(20) => noise(random),
        TypedKind::DamagedFormula => damaged_bytes(made_formula(names, random), random),
        TypedKind::GreatFormula => great_formula(names, random),
    };
    let is_written = matches!(
        kind,
        TypedKind::Formula
            | TypedKind::Unmade
            | TypedKind::DamagedFormula
            | TypedKind::GreatFormula
    );
    (is_written, bytes)
}

/// Most are made by a deep text or a long one; some have more items or lists.
fn great_formula(names: &[NameParts], random: &mut Random) -> Vec<u8> {
    if random.percent(8) {
        return long_kind(random);
    }
    let mut typist = Typist::new(names, random);
    let text = match typist.random.percent(86) {
        true => typist.deep(),
        false => typist.long(),
    };
    let mut formula = formula_of(&name_table(names), &text);
    if random.percent(50) {
        formula = deeper(formula, random);
    }
    if random.percent(10) {
        formula = damaged_bytes(formula, random);
    }
    formula
}

/// What the text gives, or nothing.
fn formula_of(names: &[u8], text: &[u8]) -> Vec<u8> {
    let mut formula = vec![0; longest(text)];
    let answer = read(names, text, &mut formula);
    formula.truncate(answer.bytes as usize);
    formula
}

/// No result is longer.
fn longest(bytes: &[u8]) -> usize {
    MOST_BYTES * bytes.len()
}

/// Just enough, or not, or any.
fn room(is_written: bool, names: &[u8], bytes: &[u8], random: &mut Random) -> usize {
    let mut longest = vec![0; longest(bytes)];
    let answer = match is_written {
        true => write(names, bytes, &mut longest),
        false => read(names, bytes, &mut longest),
    };
    let needed = answer.bytes as usize;
    let any = random.below(needed + 40);
    *random.pick(&[
        0,
        needed.saturating_sub(1),
        needed,
        needed,
        needed,
        needed + 1,
        needed + MOST_BYTES,
        any,
    ])
}
