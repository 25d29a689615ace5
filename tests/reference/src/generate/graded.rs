//! Fences whose symbols are just tall enough, or just not.

use super::Random;
use crate::compose::{atom, fence, list, symbol, CharacterParts, TableParts, EMPTY};
use crate::parameters::{PARAMETERS, ROWS};
use crate::WORD_LIMIT;

const AXIS_HEIGHT: usize = 21;
const LETTER: (u8, u8) = (1, 97);
/// The first of some symbols, each the successor of the one before.
const SIDE: (u8, u8) = (4, 1);

/// A table and a formula: a fence around a letter that goes some way from the
/// axis, and symbols of about the height that is asked for.
pub fn graded_case(random: &mut Random) -> (TableParts, Vec<u8>) {
    let greatest = *random.pick(&[3000, 100_000, 1_700_000, 7_000_000]);
    let reach = match random.below(4) {
        0 => random.between(1_650_000, 1_660_000),
        _ => random.between(0, greatest),
    };
    let axis_height = random.between(0, reach.min(1_000_000));
    let mut row = [0; PARAMETERS];
    row[AXIS_HEIGHT] = axis_height as u32;

    let asked = (reach / 500 * 901).max(2 * reach - 327_680).max(0);
    let letter = letter(reach, axis_height, random);
    let measures: Vec<[i64; 2]> = (0..4).map(|_| graded(asked, random)).collect();
    let mut characters = Vec::new();
    for size in 0..ROWS as u8 {
        characters.push(character(size, LETTER, None, letter));
        for (code, totals) in (SIDE.1..).zip(&measures) {
            let successor = (usize::from(code - SIDE.1) + 1 < measures.len()).then_some(code + 1);
            characters.push(character(size, (SIDE.0, code), successor, *totals));
        }
    }
    let rows = [row; ROWS];
    (TableParts { rows, characters }, graded_fence(random))
}

fn character(
    size: u8,
    (family, code): (u8, u8),
    successor: Option<u8>,
    [height, depth]: [i64; 2],
) -> CharacterParts {
    CharacterParts {
        size,
        family,
        code,
        successor,
        measures: [u32::from(code), height as u32, depth as u32, 0],
    }
}

/// The letter's height and depth; one of them decides.
fn letter(reach: i64, axis_height: i64, random: &mut Random) -> [i64; 2] {
    if random.percent(50) {
        [reach + axis_height, random.between(0, reach - axis_height)]
    } else {
        [random.between(0, reach + axis_height), reach - axis_height]
    }
}

/// Height and depth that come to what is asked for, or almost.
fn graded(asked: i64, random: &mut Random) -> [i64; 2] {
    let total = (asked + *random.pick(&[-1000, -2, -1, -1, -1, 0, 1])).max(0);
    let most = i64::from(WORD_LIMIT);
    let height = random.between((total - most).max(0), total.min(most));
    [height, total - height]
}

fn graded_fence(random: &mut Random) -> Vec<u8> {
    let letter = symbol(LETTER.0, LETTER.1);
    let inner = list(&atom(0, 0, [&letter, EMPTY, EMPTY]));
    let mut side = || (SIDE.0, SIDE.1 + random.below(4) as u8);
    let sides = [[side(), (0, 0)], [side(), side()]];
    fence(sides, [&inner, EMPTY, EMPTY])
}
