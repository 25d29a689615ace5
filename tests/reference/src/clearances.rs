//! What a finished page keeps clear (request 12), judged of any nodes.
//!
//! The tree tells which nodes are an item's parts, and which clearance it asks
//! for; where the nodes stand is read off the page's own bytes.

use crate::index::INDEX_WORDS;
use crate::layout::Layout;
use crate::nodes::{Ink, Node, Pen, Run, NODE_BYTES};
use crate::reading::Formula;
use crate::style::Style;
use crate::tables::{Lent, Tables};

/// Nodes that have to stay clear of each other, by their numbers on the page.
#[derive(Clone, Copy)]
pub enum Clearance {
    /// A superscript and a subscript of one item, set by 18a to 18f.
    Scripts { over: Run, under: Run, gap: i64 },
    /// A fraction's parts; the height of its axis is that on the page.
    Fraction {
        over: Run,
        bar: Option<usize>,
        under: Run,
        gap: i64,
        axis: i64,
    },
}

impl Clearance {
    fn nodes(&self) -> Run {
        match self {
            Clearance::Scripts { over, under, .. } | Clearance::Fraction { over, under, .. } => {
                Run {
                    start: over.start,
                    end: under.end,
                }
            }
        }
    }

    fn raise(&mut self, dy: i64) {
        if let Clearance::Fraction { axis, .. } = self {
            *axis += dy;
        }
    }
}

/// Gathers the clearances beside the nodes.
#[derive(Default)]
struct Gathered {
    nodes: Vec<Node>,
    clearances: Vec<Clearance>,
}

impl Pen for Gathered {
    fn count(&self) -> usize {
        self.nodes.len()
    }

    fn push(&mut self, node: Node) {
        Pen::push(&mut self.nodes, node);
    }

    fn replace(&mut self, index: usize, node: Node) {
        self.nodes.replace(index, node);
    }

    /// With its nodes a fraction's axis moves.
    fn shift(&mut self, run: Run, dx: i64, dy: i64) {
        self.nodes.shift(run, dx, dy);
        for clearance in &mut self.clearances {
            if run.holds(clearance.nodes()) {
                clearance.raise(dy);
            }
        }
    }

    fn note(&mut self, clearance: Clearance) {
        self.clearances.push(clearance);
    }
}

/// How far a node's ink reaches on the page, up and down; across, how far its
/// box does.
#[derive(Clone, Copy)]
struct Reach {
    bottom: i64,
    top: i64,
    left: i64,
    right: i64,
}

/// A part of the page that has to be free of ink; x, y is its lower left corner.
#[derive(Clone, Copy, Debug, PartialEq, Eq)]
pub struct Band {
    pub x: i64,
    pub y: i64,
    pub width: i64,
    pub height: i64,
}

/// A page of an accepted formula, as a call gave it.
pub struct Page<'a> {
    pub style: u8,
    pub table: &'a [u8],
    pub client: &'a [u8],
    pub formula: &'a [u8],
    pub nodes: &'a [u8],
    pub height: i64,
    pub depth: i64,
}

/// The first thing on the page that stands too near to another, if any. `None`
/// too if the formula is none that is accepted.
pub fn fault(page: &Page) -> Option<&'static str> {
    let seen = Seen::of(page)?;
    let Some(reaches) = seen.reaches else {
        return Some("a glyph on the page is no symbol of the tables");
    };
    let is_outside = |reach: &Reach| reach.bottom < -page.depth || reach.top > page.height;
    if reaches.iter().any(is_outside) {
        return Some("ink outside of the reported height and depth");
    }
    seen.clearances
        .iter()
        .find_map(|clearance| broken(clearance, &reaches))
}

/// What has to be free between the parts of its items, for a picture; none of a
/// formula that is not accepted.
pub fn bands(page: &Page) -> Vec<Band> {
    let Some(Seen {
        clearances,
        reaches: Some(reaches),
    }) = Seen::of(page)
    else {
        return Vec::new();
    };
    let bands = clearances
        .iter()
        .flat_map(|clearance| free(clearance, &reaches));
    bands.collect()
}

/// What the tree asks for, and how far the ink of each node reaches, if every
/// glyph has a symbol.
struct Seen {
    clearances: Vec<Clearance>,
    reaches: Option<Vec<Reach>>,
}

impl Seen {
    fn of(page: &Page) -> Option<Seen> {
        let [mut index, mut client_index] = [[0; INDEX_WORDS]; 2];
        let lent = Lent {
            index: &mut index,
            client_index: &mut client_index,
        };
        let style = Style::new(page.style)?;
        let tables = Tables::read(page.table, page.client, lent).ok()?;
        let formula = Formula::read(page.formula).ok()?;
        let mut layout = Layout::new(&tables, &formula, Gathered::default(), None);
        layout.list(formula.top, style).ok()?;
        Some(Seen {
            clearances: layout.pen.clearances,
            reaches: reaches(page.nodes, &tables),
        })
    }
}

/// The bands of one clearance, above the ink of the lower part of each two.
fn free(clearance: &Clearance, reaches: &[Reach]) -> Vec<Band> {
    let (over, bar, under, gap) = match *clearance {
        Clearance::Scripts { over, under, gap } => (over, None, under, gap),
        Clearance::Fraction {
            over,
            bar,
            under,
            gap,
            ..
        } => (over, bar, under, gap),
    };
    let [over, under] = [over, under].map(|run| part(reaches, run));
    let bands = match bar.map(|bar| reaches[bar]) {
        Some(bar) => vec![
            band(&[bar], bar.top, gap),
            band(&[bar], bar.bottom - gap, gap),
        ],
        None => {
            let top = under.iter().map(|reach| reach.top).max();
            vec![top.and_then(|top| band(&[over, under].concat(), top, gap))]
        }
    };
    bands.into_iter().flatten().collect()
}

/// As wide as some ink, and so high.
fn band(across: &[Reach], y: i64, height: i64) -> Option<Band> {
    let x = across.iter().map(|reach| reach.left).min()?;
    let right = across.iter().map(|reach| reach.right).max()?;
    Some(Band {
        x,
        y,
        width: right - x,
        height,
    })
}

fn broken(clearance: &Clearance, reaches: &[Reach]) -> Option<&'static str> {
    match *clearance {
        Clearance::Scripts { over, under, gap } => {
            (!is_clear(part(reaches, over), part(reaches, under), gap))
                .then_some("less than four rules between two scripts")
        }
        Clearance::Fraction {
            over,
            bar: None,
            under,
            gap,
            ..
        } => (!is_clear(part(reaches, over), part(reaches, under), gap))
            .then_some("a fraction's parts too near to each other"),
        Clearance::Fraction {
            over,
            bar: Some(bar),
            under,
            gap,
            axis,
        } => {
            let bar = &reaches[bar..bar + 1];
            let off = bar[0].bottom + bar[0].top - 2 * axis;
            if !is_clear(part(reaches, over), bar, gap) {
                Some("a bar too near to its numerator")
            } else if !is_clear(bar, part(reaches, under), gap) {
                Some("a bar too near to its denominator")
            } else {
                (off != 0 && off != 1).then_some("a bar off its axis")
            }
        }
    }
}

fn part(reaches: &[Reach], run: Run) -> &[Reach] {
    &reaches[run.start..run.end]
}

/// Of a part without nodes nothing is claimed.
fn is_clear(over: &[Reach], under: &[Reach], gap: i64) -> bool {
    let bottom = over.iter().map(|reach| reach.bottom).min();
    let top = under.iter().map(|reach| reach.top).max();
    match (bottom, top) {
        (Some(bottom), Some(top)) => bottom - top >= gap,
        _ => true,
    }
}

fn reaches(nodes: &[u8], tables: &Tables) -> Option<Vec<Reach>> {
    let nodes = nodes.as_chunks::<NODE_BYTES>().0;
    nodes.iter().map(|node| reach(node, tables)).collect()
}

fn reach(bytes: &[u8; NODE_BYTES], tables: &Tables) -> Option<Reach> {
    let Node { x, y, ink } = Node::read(bytes);
    let (depth, height, width) = match ink {
        Ink::Glyph { size, family, code } => {
            let character = tables.character(size, family, code)?;
            (character.depth, character.height, character.width)
        }
        Ink::Rule { width, thickness } => (0, thickness, width),
    };
    Some(Reach {
        bottom: y - depth,
        top: y + height,
        left: x,
        right: x + width,
    })
}
