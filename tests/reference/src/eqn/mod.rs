//! Typed formulas in the eqn manner: text to formula bytes, and back (request
//! 10).

mod grammar;
mod items;
mod names;
mod tokens;
mod writing;

pub(crate) use names::is_of_word;

use crate::answer::Converted;
use names::{Names, Spelling};

/// The words that are no names.
pub const KEYWORDS: [&str; 5] = ["sub", "sup", "over", "from", "to"];

/// The most bytes of a name.
pub const NAME_LIMIT: usize = 32;

/// The most bytes of a result for a byte that is read or written.
pub const MOST_BYTES: usize = 9;

/// Reads typed text, and writes the formula to the front of `formula`.
pub fn read(names: &[u8], text: &[u8], formula: &mut [u8]) -> Converted {
    converted(formula_of(names, text), formula)
}

/// Writes a formula as typed text to the front of `text`.
pub fn write(names: &[u8], formula: &[u8], text: &mut [u8]) -> Converted {
    converted(text_of(names, formula), text)
}

fn formula_of(names: &[u8], text: &[u8]) -> Result<Vec<u8>, Refusal> {
    let names = Names::read(names)?;
    let tokens = tokens::read(text, &names)?;
    let (items, row) = grammar::read(&tokens, text.len())?;
    items.formula(&row).ok_or(Refusal::TooGreat)
}

fn text_of(names: &[u8], formula: &[u8]) -> Result<Vec<u8>, Refusal> {
    let names = Names::read(names)?;
    writing::text(&Spelling::of(&names), formula).ok_or(Refusal::NotMade)
}

/// Why text or a formula is refused, room apart; places are of the first byte
/// of a name's record, of a word and of a token.
#[derive(Clone, Copy, Debug)]
enum Refusal {
    Names(usize),
    Word(usize),
    Grammar(usize),
    /// Too long or too deep for a formula.
    TooGreat,
    /// A formula that no text gives.
    NotMade,
}

const NO_ROOM: u8 = 13;

fn converted(result: Result<Vec<u8>, Refusal>, room: &mut [u8]) -> Converted {
    let (number, place) = match result {
        Ok(result) => return Converted::put(&result, room, NO_ROOM),
        Err(Refusal::Names(place)) => (20, place),
        Err(Refusal::Word(place)) => (10, place),
        Err(Refusal::Grammar(place)) => (11, place),
        Err(Refusal::TooGreat) => (12, 0),
        Err(Refusal::NotMade) => (21, 0),
    };
    Converted::refused(number, place)
}
