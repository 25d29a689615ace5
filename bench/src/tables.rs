//! Tables that are timed: the two of the repository, two full ones made here,
//! and clients' over them.

use crate::formulas::Alphabet;
use reference::compose::TableParts;
use reference::generate::full_chains;
use reference::CLIENT_LIMIT;
use std::sync::LazyLock;

pub struct Font {
    pub name: &'static str,
    pub table: &'static [u8],
    /// Mostly none.
    pub client: &'static [u8],
    pub alphabet: Alphabet,
}

pub const BENCH: Font = Font {
    name: "bench.tab",
    table: include_bytes!("../../data/bench.tab"),
    client: &[],
    alphabet: Alphabet {
        plus: (2, b'+'),
        equals: (2, b'='),
    },
};
pub const CM: Font = Font {
    name: "cm.tab",
    table: include_bytes!("../../data/cm.tab"),
    client: &[],
    alphabet: Alphabet {
        plus: (0, b'+'),
        equals: (0, b'='),
    },
};
pub const FONTS: [&Font; 2] = [&BENCH, &CM];

/// 2,048 characters in chains that are as long as they may be.
pub static CHAINED: LazyLock<Font> = LazyLock::new(|| full("2,048 records, chained", true));
/// The same characters without successors.
pub static UNCHAINED: LazyLock<Font> = LazyLock::new(|| full("2,048 records", false));

/// With a client's table that hides all characters of text size by the same.
pub static CM_HIDDEN: LazyLock<Font> =
    LazyLock::new(|| under_client("cm.tab under 512 records", &CM));
/// With one that has a part of the chains.
pub static CHAINED_HIDDEN: LazyLock<Font> =
    LazyLock::new(|| under_client("2,048 records, chained, under 512", &CHAINED));

/// The client's table has the first records of the font table, as many as it
/// may have, so that nothing is looked up otherwise.
fn under_client(name: &'static str, font: &Font) -> Font {
    const TABLE_HEAD: usize = 426;
    const RECORD_BYTES: usize = 23;
    Font {
        name,
        client: &font.table[TABLE_HEAD..][..RECORD_BYTES * CLIENT_LIMIT],
        ..*font
    }
}

/// Rules are so thick, and the axis is so high, that no sign is tall enough for
/// a root or a fence.
fn full(name: &'static str, is_chained: bool) -> Font {
    const AXIS_HEIGHT: usize = 21;
    const RULE_THICKNESS: usize = 29;
    let mut row = [0; 35];
    row[AXIS_HEIGHT] = 1000;
    row[RULE_THICKNESS] = 1000;
    let mut characters = full_chains(true);
    if !is_chained {
        for character in &mut characters {
            character.successor = None;
        }
    }
    let rows = [row; 3];
    let table = TableParts { rows, characters }.bytes().leak();
    Font {
        name,
        table,
        client: &[],
        alphabet: BENCH.alphabet,
    }
}
