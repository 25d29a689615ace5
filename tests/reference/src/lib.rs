//! A formula setter written from the papers, apart from the proved one.
//!
//! [`measure_lent`] and [`set_lent`] take a style, a font table, a client's
//! symbols over it and a formula, all as bytes, and words for an index of each
//! table; [`measure`] and [`set`] have such words of their own. Nothing else is
//! kept between calls, so every call checks both tables anew.

mod answer;
mod boxes;
mod chains;
pub mod clearances;
pub mod compose;
pub mod dvi;
pub mod eqn;
pub mod generate;
pub mod index;
mod layout;
mod nodes;
mod parameters;
mod printed;
mod reading;
mod reasons;
mod records;
mod rules;
mod spacing;
mod style;
mod tables;

pub use answer::{Answer, Converted, Explanation};
pub use chains::CHAIN_LIMIT;
pub use index::INDEX_WORDS;
pub use nodes::NODE_BYTES;
pub use printed::{printed, printed_reasons};
pub use reading::{DEPTH_LIMIT, FORMULA_LIMIT, SHORT_LIST_LIMIT};
pub use reasons::{Decided, Quantity};
pub use records::WORD_LIMIT;
pub use tables::{Lent, CHARACTER_LIMIT, CLIENT_LIMIT};

/// The greatest size of a list's dimensions and of a node's coordinates.
pub const SIZE_LIMIT: i64 = 1_073_741_823;

use answer::Refusal;
use boxes::MathBox;
use layout::Layout;
use nodes::{Count, Node, Pen};
use reading::Formula;
use reasons::Reasons;
use style::Style;
use tables::Tables;

/// As [`measure_lent`], with words that no one sees.
pub fn measure(style: u8, table: &[u8], client: &[u8], formula: &[u8]) -> Answer {
    let [mut index, mut client_index] = [[0; INDEX_WORDS]; 2];
    let lent = Lent {
        index: &mut index,
        client_index: &mut client_index,
    };
    measure_lent(style, table, client, formula, lent)
}

/// As [`set_lent`], with words that no one sees.
pub fn set(style: u8, table: &[u8], client: &[u8], formula: &[u8], nodes: &mut [u8]) -> Answer {
    let [mut index, mut client_index] = [[0; INDEX_WORDS]; 2];
    let lent = Lent {
        index: &mut index,
        client_index: &mut client_index,
    };
    set_lent(style, table, client, formula, nodes, lent)
}

/// Finds the formula's sizes and the number of its nodes. An empty client's
/// table is none. The lent words get the indexes of both tables unless the
/// style, a table or the words themselves are refused.
pub fn measure_lent(style: u8, table: &[u8], client: &[u8], formula: &[u8], lent: Lent) -> Answer {
    match lay_out(style, table, client, formula, Count::default(), None, lent) {
        Ok((formula_box, found)) => Answer::accepted(&formula_box, found.pen.count()),
        Err(refusal) => refusal.into(),
    }
}

/// Measures, and writes the nodes to the front of `nodes`.
pub fn set_lent(
    style: u8,
    table: &[u8],
    client: &[u8],
    formula: &[u8],
    nodes: &mut [u8],
    lent: Lent,
) -> Answer {
    match try_set(style, table, client, formula, nodes, lent) {
        Ok(answer) => answer,
        Err(refusal) => refusal.into(),
    }
}

fn try_set(
    style: u8,
    table: &[u8],
    client: &[u8],
    formula: &[u8],
    nodes: &mut [u8],
    lent: Lent,
) -> Result<Answer, Refusal> {
    let pen: Vec<Node> = Vec::with_capacity(most_nodes(formula));
    let (formula_box, Found { pen, .. }) = lay_out(style, table, client, formula, pen, None, lent)?;
    let room = nodes
        .get_mut(..NODE_BYTES * pen.len())
        .ok_or(Refusal::Room)?;
    nodes::write(&pen, room);
    Ok(Answer::accepted(&formula_box, pen.len()))
}

/// As [`why_lent`], with words that no one sees.
pub fn why(style: u8, table: &[u8], client: &[u8], formula: &[u8], place: usize) -> Explanation {
    let [mut index, mut client_index] = [[0; INDEX_WORDS]; 2];
    let lent = Lent {
        index: &mut index,
        client_index: &mut client_index,
    };
    why_lent(style, table, client, formula, place, lent)
}

/// Measures, and tells which quantity decided each shift of the item that
/// starts at a place.
pub fn why_lent(
    style: u8,
    table: &[u8],
    client: &[u8],
    formula: &[u8],
    place: usize,
    lent: Lent,
) -> Explanation {
    try_why(style, table, client, formula, place, lent).into()
}

fn try_why(
    style: u8,
    table: &[u8],
    client: &[u8],
    formula: &[u8],
    place: usize,
    lent: Lent,
) -> Result<Reasons, Refusal> {
    let asked = Some(place);
    let (_, found) = lay_out(style, table, client, formula, Count::default(), asked, lent)?;
    found.explained.ok_or(Refusal::Unexplained)
}

/// The places of all items of a formula, those that are not set too; none if it
/// can't be read.
pub fn item_places(formula: &[u8]) -> Vec<usize> {
    Formula::read(formula).map_or(Vec::new(), |formula| formula.places().collect())
}

/// No item has more nodes for its bytes than a fraction of two symbols, or a
/// root with three.
fn most_nodes(formula: &[u8]) -> usize {
    formula.len().min(FORMULA_LIMIT) / 3
}

/// What a layout leaves behind beside the formula's box.
struct Found<P> {
    pen: P,
    explained: Option<Reasons>,
}

/// Everything but the buffer, with the refusals in the order they are tested.
/// Where a place is asked for, the item there is explained.
fn lay_out<P: Pen>(
    style: u8,
    table: &[u8],
    client: &[u8],
    formula: &[u8],
    pen: P,
    asked: Option<usize>,
    lent: Lent,
) -> Result<(MathBox, Found<P>), Refusal> {
    let style = Style::new(style).ok_or(Refusal::Style)?;
    let tables = Tables::read(table, client, lent)?;
    let formula = Formula::read(formula)?;
    let mut layout = Layout::new(&tables, &formula, pen, asked);
    let formula_box = layout.list(formula.top, style)?;
    if layout.oversize {
        return Err(Refusal::Size);
    }
    let Layout { pen, explained, .. } = layout;
    Ok((formula_box, Found { pen, explained }))
}
