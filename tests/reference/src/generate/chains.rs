//! Tables whose chains of successors are about as long as they may be.

use super::{good_table, Random};
use crate::compose::{CharacterParts, TableParts};
use crate::parameters::ROWS;
use crate::{CHAIN_LIMIT, CHARACTER_LIMIT, WORD_LIMIT};

/// Symbols in a chain that goes as far as it may.
pub const LONGEST: usize = CHAIN_LIMIT as usize + 1;

/// Families that `good_table` leaves free.
const FAMILIES: [u8; 10] = [1, 2, 4, 5, 7, 8, 10, 11, 13, 14];

/// A table with a long chain in one or two of its families; a third of them
/// have one that is too long or a ring.
pub fn chain_table(random: &mut Random) -> TableParts {
    let mut table = good_table(random);
    if random.percent(4) {
        table.characters = full_chains(random.percent(50));
        if random.percent(50) {
            join_two(&mut table.characters, random);
        }
        return table;
    }
    let families = random.below(2) + 1;
    let mut fault = random.percent(33).then(|| random.below(ROWS * families));
    let mut chains = Vec::new();
    for _ in 0..families {
        let codes = shuffled_codes(random);
        let family = *random.pick(&FAMILIES);
        for size in 0..ROWS as u8 {
            let form = Form::drawn(fault == Some(0), random);
            fault = fault.and_then(|before| before.checked_sub(1));
            if random.percent(90) {
                chains.extend(chain(form, (size, family), &codes, random));
            }
        }
    }
    table.characters.truncate(CHARACTER_LIMIT - chains.len());
    table.characters.extend(chains);
    in_order(&mut table.characters);
    table
}

/// Puts characters in order; of those for one symbol the first stays.
pub fn in_order(characters: &mut Vec<CharacterParts>) {
    characters.sort_by_key(CharacterParts::key);
    characters.dedup_by_key(|c| c.key());
}

/// How a chain ends.
#[derive(Clone, Copy, PartialEq, Eq)]
enum Form {
    /// After so many symbols.
    Ends(usize),
    /// After so many, but one of them is left out.
    Broken(usize),
    /// It goes back to one of so many.
    Ring(usize),
}

impl Form {
    fn drawn(is_fault: bool, random: &mut Random) -> Form {
        match (is_fault, random.below(10)) {
            (true, 0..4) => Form::Ring(random.below(LONGEST + 3) + 1),
            (true, 4) => Form::Ends(LONGEST + random.below(200)),
            (true, _) => Form::Ends(LONGEST + 1),
            (false, 0..3) => Form::Ends(random.below(LONGEST) + 1),
            (false, 3..5) => Form::Broken(LONGEST + 1 + random.below(LONGEST)),
            (false, _) => Form::Ends(LONGEST),
        }
    }
}

/// The characters of one chain, at one size and in one family; they take their
/// codes in order.
fn chain(
    form: Form,
    (size, family): (u8, u8),
    codes: &[u8],
    random: &mut Random,
) -> Vec<CharacterParts> {
    let (Form::Ends(count) | Form::Broken(count) | Form::Ring(count)) = form;
    let growth = *random.pick(&[0, 1, 2, 50, 300, 60_000, 400_000]);
    let spread = *random.pick(&[0, 1, 100, 1000]);
    let mut characters: Vec<CharacterParts> = (0..count)
        .map(|at| CharacterParts {
            size,
            family,
            code: codes[at],
            successor: (at + 1 < count).then(|| codes[at + 1]),
            measures: measures(at as i64 * growth, spread, random),
        })
        .collect();
    match form {
        Form::Ring(_) => characters[count - 1].successor = Some(codes[random.below(count)]),
        Form::Ends(_) => {
            let is_flagged = random.percent(20);
            characters[count - 1].successor = is_flagged.then(|| codes[codes.len() - 1]);
        }
        Form::Broken(_) => {
            let least = (count - LONGEST - 1) as i64;
            let at = random.between(least.max(1), LONGEST as i64);
            characters.remove(at as usize);
        }
    }
    characters
}

/// Those of a sign that is so deep, or more by at most `spread`.
fn measures(depth: i64, spread: i64, random: &mut Random) -> [u32; 4] {
    let mut word = |least: i64| {
        let word = least + random.between(0, spread);
        word.min(WORD_LIMIT.into()) as u32
    };
    [word(0), word(0), word(depth), word(0)]
}

fn shuffled_codes(random: &mut Random) -> Vec<u8> {
    let mut codes: Vec<u8> = (0..=u8::MAX).collect();
    random.shuffle(&mut codes);
    codes
}

/// As many characters as a table may have, in chains that are as long as they
/// may be; the last chain is shorter. The codes of each chain rise or fall.
pub fn full_chains(rises: bool) -> Vec<CharacterParts> {
    const IN_A_FAMILY: usize = LONGEST * (256 / LONGEST);
    let character = |at: usize| {
        let code = at % IN_A_FAMILY;
        let is_first = code.is_multiple_of(LONGEST);
        let is_last = (code + 1).is_multiple_of(LONGEST) || at + 1 == CHARACTER_LIMIT;
        let next = match rises {
            true => (!is_last).then_some(code + 1),
            false => (!is_first).then(|| code - 1),
        };
        CharacterParts {
            size: 0,
            family: (at / IN_A_FAMILY) as u8,
            code: code as u8,
            successor: next.map(|code| code as u8),
            measures: [0, 0, code as u32, 0],
        }
    };
    (0..CHARACTER_LIMIT).map(character).collect()
}

/// Lets a chain go one step further, to where another ends.
fn join_two(characters: &mut [CharacterParts], random: &mut Random) {
    let is_end = |at: &usize| characters[*at].successor.is_none();
    let ends: Vec<usize> = (0..characters.len()).filter(is_end).collect();
    let end = &mut characters[*random.pick(&ends)];
    let step = LONGEST as u8;
    let before = end.code.checked_sub(step);
    end.successor = before.or_else(|| end.code.checked_add(step));
}
