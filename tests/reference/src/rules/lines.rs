//! Lines over and under a nucleus (rules 9 and 10).

use super::Nucleus;
use crate::answer::Refusal;
use crate::boxes::Extent;
use crate::layout::Layout;
use crate::nodes::{Ink, Node, Pen};
use crate::reading::{Field, Line};
use crate::style::Style;

impl<P: Pen> Layout<'_, P> {
    pub fn lined(&mut self, line: Line, nucleus: &Field, style: Style) -> Result<Nucleus, Refusal> {
        let thickness = self.tables.parameters(style.size()).rule_thickness();
        let start = self.pen.count();
        let (mut frame, bottom) = match line {
            // Rule 9.
            Line::Over => {
                let mut frame = self.field(nucleus, style.cramped())?;
                let bottom = frame.height + 3 * thickness;
                frame.height += 5 * thickness;
                (frame, bottom)
            }
            // Rule 10.
            Line::Under => {
                let mut frame = self.field(nucleus, style)?;
                let bottom = -(frame.depth + 4 * thickness);
                frame.depth += 5 * thickness;
                (frame, bottom)
            }
        };
        let ink = Ink::Rule {
            width: frame.width,
            thickness,
        };
        self.pen.push(Node {
            x: 0,
            y: bottom,
            ink,
        });
        frame.nodes = self.run_from(start);
        frame.extent = frame.extent.joined(Extent::point(0, bottom));
        Ok(Nucleus::boxed(frame))
    }
}
