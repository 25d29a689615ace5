//! Roots (rule 11).

use super::delimiters::{delimiter_box, Found};
use super::Nucleus;
use crate::answer::Refusal;
use crate::boxes::{half, Extent, MathBox};
use crate::layout::Layout;
use crate::nodes::{Ink, Node, Pen};
use crate::reading::{Delimiter, Field};
use crate::style::Style;

impl<P: Pen> Layout<'_, P> {
    pub fn root(
        &mut self,
        sign: &Delimiter,
        nucleus: &Field,
        style: Style,
    ) -> Result<Nucleus, Refusal> {
        // The nodes of sign and rule stand before the nucleus's, their places
        // are known after it.
        let start = self.pen.count();
        if self.has_symbol(sign, style) {
            self.pen.push(Node::UNPLACED);
        }
        let rule_index = self.pen.count();
        self.pen.push(Node::UNPLACED);
        let inner = self.field(nucleus, style.cramped())?;

        let (found, y) = self.fitting_sign(sign, &inner, style);
        let sign = delimiter_box(&found);
        let x = sign.width;
        let mut extent = self.place(&inner, x, 0).joined(Extent::point(x, y));
        if let Some(found) = found {
            extent = extent.joined(Extent::point(0, y));
            let ink = found.ink();
            self.pen.replace(start, Node { x: 0, y, ink });
        }
        let (width, thickness) = (inner.width, sign.height);
        let ink = Ink::Rule { width, thickness };
        self.pen.replace(rule_index, Node { x, y, ink });
        Ok(Nucleus::boxed(MathBox {
            width: x + width,
            height: y + 2 * thickness,
            depth: inner.depth.max(sign.depth - y),
            nodes: self.run_from(start),
            extent,
        }))
    }

    /// The sign for a nucleus, and the height of its rule's lower edge.
    fn fitting_sign(
        &self,
        sign: &Delimiter,
        inner: &MathBox,
        style: Style,
    ) -> (Option<Found>, i64) {
        let font = self.tables.parameters(style.size());
        let thickness = font.rule_thickness();
        let phi = if style.is_display() {
            font.x_height()
        } else {
            thickness
        };
        let clearance = thickness + phi / 4;
        let least_depth = inner.height + inner.depth + clearance;
        let found = self.search(sign, style, least_depth + thickness);
        let excess = delimiter_box(&found).depth - least_depth;
        (found, inner.height + clearance + half(excess.max(0)))
    }
}
