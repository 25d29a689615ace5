//! Fences, which grow with what they hold (rule 19).

use super::delimiters::{delimiter_box, Found};
use super::Nucleus;
use crate::answer::Refusal;
use crate::boxes::{half, Extent, MathBox};
use crate::layout::Layout;
use crate::nodes::{Node, Pen};
use crate::reading::{List, Sides};
use crate::style::Style;

/// How tall a fence is at least, of 1000 parts of what would cover its list.
const FACTOR: i64 = 901;
/// How much less than that it may be, in sp.
const SHORTFALL: i64 = 327_680;

impl<P: Pen> Layout<'_, P> {
    pub fn fence(&mut self, sides: &Sides, list: List, style: Style) -> Result<Nucleus, Refusal> {
        // The left side's node stands before the list's, its place is known
        // after it.
        let start = self.pen.count();
        if self.has_symbol(&sides.left, style) {
            self.pen.push(Node::UNPLACED);
        }
        let inner = self.fenced_list(list, style)?;
        let axis_height = self.tables.parameters(style.size()).axis_height();
        let least = least_total(&inner, axis_height);
        let left = Side::centred(self.search(&sides.left, style, least), axis_height);
        let right = Side::centred(self.search(&sides.right, style, least), axis_height);

        let end = left.width + inner.width;
        let mut extent = self.place(&inner, left.width, 0);
        if let Some(node) = left.node(0) {
            extent = extent.joined(Extent::point(node.x, node.y));
            self.pen.replace(start, node);
        }
        if let Some(node) = right.node(end) {
            extent = extent.joined(Extent::point(node.x, node.y));
            self.pen.push(node);
        }
        Ok(Nucleus::boxed(MathBox {
            width: end + right.width,
            height: inner.height.max(left.height).max(right.height),
            depth: inner.depth.max(left.depth).max(right.depth),
            nodes: self.run_from(start),
            extent,
        }))
    }
}

/// The height and depth together that are asked of both sides.
fn least_total(inner: &MathBox, axis_height: i64) -> i64 {
    let reach = (inner.height - axis_height).max(inner.depth + axis_height);
    (reach / 500 * FACTOR).max(2 * reach - SHORTFALL)
}

/// A delimiter, or its blank, with the axis through its middle.
struct Side {
    found: Option<Found>,
    rise: i64,
    width: i64,
    height: i64,
    depth: i64,
}

impl Side {
    fn centred(found: Option<Found>, axis_height: i64) -> Side {
        let MathBox {
            width,
            height,
            depth,
            ..
        } = delimiter_box(&found);
        let rise = axis_height - half(height - depth);
        Side {
            found,
            rise,
            width,
            height: height + rise,
            depth: depth - rise,
        }
    }

    fn node(&self, x: i64) -> Option<Node> {
        let ink = self.found?.ink();
        Some(Node {
            x,
            y: self.rise,
            ink,
        })
    }
}
