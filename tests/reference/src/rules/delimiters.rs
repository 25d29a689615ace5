//! Variable delimiters: of some symbols, one that is tall enough.

use crate::boxes::MathBox;
use crate::layout::Layout;
use crate::nodes::{Ink, Pen};
use crate::reading::Delimiter;
use crate::records::Character;
use crate::style::Style;
use crate::tables::Tables;
use std::iter::successors;

/// The width of a delimiter of which no symbol was found.
pub const NULL_DELIMITER: i64 = 78_643;

/// A symbol of the tables at the size it was looked at.
#[derive(Clone, Copy)]
pub struct Found {
    size: u8,
    family: u8,
    code: u8,
    character: Character,
}

impl Found {
    fn look(tables: &Tables, size: u8, family: u8, code: u8) -> Option<Found> {
        Some(Found {
            size,
            family,
            code,
            character: tables.character(size, family, code)?,
        })
    }

    fn successor(&self, tables: &Tables) -> Option<Found> {
        Found::look(tables, self.size, self.family, self.character.successor?)
    }

    fn total(&self) -> i64 {
        self.character.height + self.character.depth
    }

    pub fn ink(&self) -> Ink {
        Ink::Glyph {
            size: self.size,
            family: self.family,
            code: self.code,
        }
    }
}

impl<P: Pen> Layout<'_, P> {
    /// The first symbol whose height and depth together are `least`; if there
    /// is none the tallest, the first of equals.
    pub fn search(&self, delimiter: &Delimiter, style: Style, least: i64) -> Option<Found> {
        let mut tallest: Option<Found> = None;
        for found in candidates(self.tables, delimiter, style) {
            if found.total() >= least {
                return Some(found);
            }
            if tallest.is_none_or(|tallest| tallest.total() < found.total()) {
                tallest = Some(found);
            }
        }
        tallest
    }

    /// Whether a search, however much it asks for, ends with a symbol.
    pub fn has_symbol(&self, delimiter: &Delimiter, style: Style) -> bool {
        candidates(self.tables, delimiter, style).next().is_some()
    }
}

/// The small symbol in each size from the current one up, then the large one;
/// each with its successors, as far as the tables have them.
fn candidates<'a>(
    tables: &'a Tables,
    delimiter: &Delimiter,
    style: Style,
) -> impl Iterator<Item = Found> + 'a {
    let symbols = delimiter.0.into_iter().filter(|symbol| *symbol != (0, 0));
    symbols.flat_map(move |(family, code)| {
        let sizes = (0..=style.size()).rev();
        sizes.flat_map(move |size| {
            let first = Found::look(tables, size, family, code);
            successors(first, |found| found.successor(tables))
        })
    })
}

/// The size of what a search ended with; its nodes are not in it.
pub fn delimiter_box(found: &Option<Found>) -> MathBox {
    match found {
        Some(Found { character, .. }) => MathBox {
            width: character.width + character.italic,
            height: character.height,
            depth: character.depth,
            ..MathBox::default()
        },
        None => MathBox {
            width: NULL_DELIMITER,
            ..MathBox::default()
        },
    }
}
