//! Sets formulas by the rules of TeX's Appendix G.
//!
//! A style, a font and a formula go in as bytes; sizes and nodes come out.
//! Lengths are whole scaled points, 65,536 to the point.
//!
//! ```
//! use torfianka::{measure, nodes, set, Font, Node, NODE_BYTES};
//!
//! let mut font = Font::new(include_bytes!("../../../data/bench.tab"));
//! let formula = b"UN\x01\x01a\x00\x00"; // an underlined a
//! let text_style = 2;
//!
//! let measured = measure(text_style, &mut font, formula)?;
//! assert_eq!((measured.width, measured.height, measured.depth), (500, 430, 200));
//!
//! let mut buffer = vec![0; NODE_BYTES * measured.count];
//! set(text_style, &mut font, formula, &mut buffer)?;
//! let set: Vec<Node> = nodes(&buffer).collect();
//! assert_eq!(set[0], Node::Glyph { x: 0, y: 0, size: 0, family: 1, code: b'a' });
//! assert_eq!(set[1], Node::Rule { x: 0, y: -160, width: 500, thickness: 40 });
//! # Ok::<(), torfianka::Refusal>(())
//! ```

pub mod dvi;
pub mod eqn;
mod node;
mod reason;
pub mod sys;

pub use node::{nodes, Node, NODE_BYTES};
pub use reason::{Decided, Quantity, Reasons};

use std::error::Error;
use std::fmt;

/// The tables that symbols are looked up in, and an index of each.
///
/// Every call with good tables builds both indexes anew, in words that the font
/// owns.
#[derive(Clone, Debug)]
pub struct Font<'a> {
    table: &'a [u8],
    client: &'a [u8],
    index: Index,
    client_index: Index,
}

type Index = [u64; sys::INDEX_WORDS];

impl<'a> Font<'a> {
    /// A font table alone.
    pub fn new(table: &'a [u8]) -> Font<'a> {
        Font::with_client(table, &[])
    }

    /// A font table and a client's, whose symbols go before the others. It has
    /// character records alone; an empty one is none.
    pub fn with_client(table: &'a [u8], client: &'a [u8]) -> Font<'a> {
        Font {
            table,
            client,
            index: [0; sys::INDEX_WORDS],
            client_index: [0; sys::INDEX_WORDS],
        }
    }
}

/// The sizes of an accepted formula and the number of its nodes.
#[derive(Clone, Copy, Debug, PartialEq, Eq)]
pub struct Measured {
    /// May be negative.
    pub width: i64,
    pub height: i64,
    pub depth: i64,
    pub count: usize,
}

/// Why a formula was not accepted, in the order tested, or nodes, a body of a
/// page, typed text or a formula to be typed. Number 19, too few words for an
/// index, never comes here: a [`Font`] has enough.
///
/// | number | given when | place |
/// |---|---|---|
/// | 1 | the style is above 7 | 0 |
/// | 2 | the font table breaks a rule of its format | 0 |
/// | 8 | the client's table breaks a rule, has over 512 records, or makes a chain over both tables of more than sixteen steps | 0 |
/// | 3 | the formula has over 131,072 bytes (place 0), or an item can't be read | the innermost such item's first byte |
/// | 4 | a list at depth 33 | its kind byte |
/// | 5 | a symbol, or a successor the rules take, isn't in either table; of a root's sign, of a fence's delimiters and of lists that a C4 doesn't take nothing is missed | the field's kind byte |
/// | 6 | a list's size, or a node's x or y seen from a list around it, passes 1,073,741,823 | 0 |
/// | 7 | setting only: the buffer is shorter than [`NODE_BYTES`] for each node | 0 |
/// | 9 | [`why`] only: no fraction, and no item whose scripts are set beside it, that is set starts at the place asked for | 0 |
/// | 16 | [`dvi::write`]: not nodes, or a length past 1,073,741,823 | 0 |
/// | 17 | [`dvi::read`]: no nodes have this body | 0 |
/// | 18 | either: the buffer is too short | 0 |
/// | 20 | [`eqn::read`], [`eqn::write`]: the name table is malformed, repeats a name or names a keyword | the first byte of the first record at fault, of two with one name the later |
/// | 10 | [`eqn::read`]: a word that is no keyword and not in the table | its first byte |
/// | 11 | [`eqn::read`]: a text outside the grammar | the first byte of the first token that can continue no text, or the end |
/// | 12 | [`eqn::read`]: the formula is too long or too deep | 0 |
/// | 21 | [`eqn::write`]: no text with that table gives the formula | 0 |
/// | 13 | either of these: the buffer is too short | 0 |
#[derive(Clone, Copy, Debug, PartialEq, Eq)]
pub struct Refusal {
    pub number: u8,
    /// A byte of the formula, of the typed text or of the name table, counted
    /// from 0.
    pub place: usize,
}

impl fmt::Display for Refusal {
    fn fmt(&self, out: &mut fmt::Formatter) -> fmt::Result {
        write!(out, "refused {} at {}", self.number, self.place)
    }
}

impl Error for Refusal {}

/// Finds the sizes of a formula and the number of its nodes.
///
/// `style` is 0 to 7 for D, D', T, T', S, S', SS, SS'.
pub fn measure(style: u8, font: &mut Font, formula: &[u8]) -> Result<Measured, Refusal> {
    let Font {
        table,
        client,
        index,
        client_index,
    } = font;
    let mut answer = Words::default();
    // SAFETY: every pointer is a slice's, with that slice's length; the ones
    // written through are borrowed alone.
    let number = unsafe {
        sys::torfianka_measure(
            style,
            table.as_ptr(),
            table.len(),
            client.as_ptr(),
            client.len(),
            formula.as_ptr(),
            formula.len(),
            index.as_mut_ptr(),
            index.len(),
            client_index.as_mut_ptr(),
            client_index.len(),
            answer.as_mut_ptr(),
            answer.len(),
        )
    };
    outcome(number, answer)
}

/// Measures, and writes the nodes to the front of `nodes`.
///
/// The bytes past the nodes, and on a refusal all of them, stay as they are.
pub fn set(
    style: u8,
    font: &mut Font,
    formula: &[u8],
    nodes: &mut [u8],
) -> Result<Measured, Refusal> {
    let Font {
        table,
        client,
        index,
        client_index,
    } = font;
    let mut answer = Words::default();
    // SAFETY: as in `measure`.
    let number = unsafe {
        sys::torfianka_set(
            style,
            table.as_ptr(),
            table.len(),
            client.as_ptr(),
            client.len(),
            formula.as_ptr(),
            formula.len(),
            nodes.as_mut_ptr(),
            nodes.len(),
            index.as_mut_ptr(),
            index.len(),
            client_index.as_mut_ptr(),
            client_index.len(),
            answer.as_mut_ptr(),
            answer.len(),
        )
    };
    outcome(number, answer)
}

/// Tells which quantity decided each shift of the item that starts at a place.
///
/// ```
/// use torfianka::{why, Decided, Font, Quantity};
///
/// let mut font = Font::new(include_bytes!("../../../data/bench.tab"));
/// let formula = b"AT\0\0\x01\x01f\x01\x01a\x01\x01a"; // f with two scripts
/// let reasons = why(3, &mut font, formula, 0)?;
/// assert_eq!(reasons.down, Some(Decided { by: Quantity::Psi, shift: 246 }));
/// # Ok::<(), torfianka::Refusal>(())
/// ```
pub fn why(style: u8, font: &mut Font, formula: &[u8], place: usize) -> Result<Reasons, Refusal> {
    let Font {
        table,
        client,
        index,
        client_index,
    } = font;
    let mut answer = Words::default();
    // SAFETY: as in `measure`.
    let number = unsafe {
        sys::torfianka_why(
            style,
            table.as_ptr(),
            table.len(),
            client.as_ptr(),
            client.len(),
            formula.as_ptr(),
            formula.len(),
            place,
            index.as_mut_ptr(),
            index.len(),
            client_index.as_mut_ptr(),
            client_index.len(),
            answer.as_mut_ptr(),
            answer.len(),
        )
    };
    let [place, up_by, up, down_by, down] = answer;
    match number {
        0 => Ok(Reasons {
            up: Decided::read(up_by, up),
            down: Decided::read(down_by, down),
        }),
        _ => Err(Refusal {
            number,
            place: place as usize,
        }),
    }
}

type Words = [i64; sys::ANSWER_WORDS];

/// Place and count are never negative.
fn outcome(number: u8, [place, width, height, depth, count]: Words) -> Result<Measured, Refusal> {
    match number {
        0 => Ok(Measured {
            width,
            height,
            depth,
            count: count as usize,
        }),
        _ => Err(Refusal {
            number,
            place: place as usize,
        }),
    }
}

/// What a call gives that converts bytes; neither word is ever negative.
fn converted(number: u8, [place, bytes]: [i64; 2]) -> Result<usize, Refusal> {
    match number {
        0 => Ok(bytes as usize),
        _ => Err(Refusal {
            number,
            place: place as usize,
        }),
    }
}
