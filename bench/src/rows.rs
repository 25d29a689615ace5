//! What the tables of times and of instructions set, row by row.

use crate::formulas::{
    chosen, double_searches, empty_choices, flat, nested, searches, typical, Alphabet, PHRASE_BYTES,
};
use crate::tables::{Font, BENCH, CHAINED, CHAINED_HIDDEN, CM_HIDDEN, FONTS, UNCHAINED};
use crate::work::{Call, Work};

/// Of the rows that are held against those of earlier versions.
pub const LONG: usize = 4096;
pub const DEEP: usize = 16;
/// What a formula may have.
pub const LONGEST: usize = 131_072;
pub const DEEPEST: usize = 32;

type Formulas = fn(&Alphabet) -> Vec<Vec<u8>>;

const PHRASE: Formulas = |letters| vec![flat(letters, PHRASE_BYTES)];
const FLAT: Formulas = |letters| vec![flat(letters, LONG)];
const NESTED: Formulas = |letters| vec![nested(letters, LONG, DEEP)];
const LONGEST_FLAT: Formulas = |letters| vec![flat(letters, LONGEST)];
/// A phrase less, for each list takes two bytes more by its long head.
const LONGEST_NESTED: Formulas = |letters| vec![nested(letters, LONGEST - PHRASE_BYTES, DEEPEST)];
const EMPTY_CHOICES: Formulas = |_| vec![empty_choices(LONG)];
const CHOSEN: Formulas = |letters| vec![chosen(letters, LONG, DEEP)];
const NOTHING: Formulas = |_| vec![Vec::new()];
const SEARCHES: Formulas = |_| vec![searches(LONG)];
const DOUBLE_SEARCHES: Formulas = |_| vec![double_searches(LONG)];

type Row = (&'static str, Call, Formulas);
type OneFont = fn() -> &'static Font;

/// Over each of the fonts.
const OVER_A_FONT: [Row; 6] = [
    ("typical", Call::Measure, typical),
    ("typical", Call::Set, typical),
    ("64 bytes, one phrase", Call::Measure, PHRASE),
    ("64 bytes, one phrase", Call::Set, PHRASE),
    ("4,096 bytes, flat", Call::Set, FLAT),
    ("4,096 bytes, nested 16 deep", Call::Set, NESTED),
];

/// Over one table each.
const OVER_ONE: [(OneFont, Row); 15] = [
    (|| &BENCH, ("131,072 bytes, flat", Call::Set, LONGEST_FLAT)),
    (
        || &BENCH,
        ("131,070 bytes, nested 32 deep", Call::Set, LONGEST_NESTED),
    ),
    (
        || &BENCH,
        ("4,088 bytes, empty choices", Call::Set, EMPTY_CHOICES),
    ),
    (
        || &BENCH,
        ("4,050 bytes, flat, in choices 16 deep", Call::Set, CHOSEN),
    ),
    (|| &BENCH, ("64 bytes, one phrase", Call::Why, PHRASE)),
    (|| &BENCH, ("4,096 bytes, flat", Call::Why, FLAT)),
    (|| &UNCHAINED, ("no bytes", Call::Set, NOTHING)),
    (|| &CHAINED, ("no bytes", Call::Set, NOTHING)),
    (|| &CHAINED, ("4,095 bytes, roots", Call::Set, SEARCHES)),
    (
        || &CHAINED,
        ("4,095 bytes, fences", Call::Set, DOUBLE_SEARCHES),
    ),
    (|| &CM_HIDDEN, ("typical", Call::Measure, typical)),
    (|| &CM_HIDDEN, ("typical", Call::Set, typical)),
    (|| &CM_HIDDEN, ("4,096 bytes, flat", Call::Set, FLAT)),
    (|| &CHAINED_HIDDEN, ("no bytes", Call::Set, NOTHING)),
    (
        || &CHAINED_HIDDEN,
        ("4,095 bytes, roots", Call::Set, SEARCHES),
    ),
];

const FONT_ROWS: usize = FONTS.len() * OVER_A_FONT.len();
pub const ROWS: usize = FONT_ROWS + OVER_ONE.len();

/// The work of the row, counted from 0; it is named by the row's first cells.
pub fn row(number: usize) -> Work {
    let (font, (what, call, formulas)) = match number.checked_sub(FONT_ROWS) {
        None => (
            FONTS[number / OVER_A_FONT.len()],
            OVER_A_FONT[number % OVER_A_FONT.len()],
        ),
        Some(further) => {
            let (font, row) = OVER_ONE[further];
            (font(), row)
        }
    };
    let name = format!("{what} | {} | {call:?}", font.name);
    Work::new(name, call, font, formulas(&font.alphabet))
}
