//! Limits above and below an operator (rule 13a).

use super::Nucleus;
use crate::answer::Refusal;
use crate::boxes::{half, MathBox};
use crate::layout::Layout;
use crate::nodes::Pen;
use crate::reading::Scripts;
use crate::style::Style;

impl<P: Pen> Layout<'_, P> {
    pub fn stack_limits(
        &mut self,
        nucleus: Nucleus,
        scripts: &Scripts,
        style: Style,
    ) -> Result<MathBox, Refusal> {
        let font = self.tables.parameters(style.size());
        let nucleus_box = nucleus.frame;
        let upper = self.field(&scripts.superscript, style.superscript())?;
        let lower = self.field(&scripts.subscript, style.subscript())?;

        let width = nucleus_box.width.max(upper.width).max(lower.width);
        let mut stack = MathBox {
            width,
            height: nucleus_box.height,
            depth: nucleus_box.depth,
            nodes: self.run_from(nucleus_box.nodes.start),
            extent: self.place(&nucleus_box, half(width - nucleus_box.width), 0),
        };
        if !scripts.superscript.is_empty() {
            let kern = font
                .big_op_spacing(1)
                .max(font.big_op_spacing(3) - upper.depth);
            let x = half(width - upper.width) + half(nucleus.italic);
            let y = nucleus_box.height + kern + upper.depth;
            stack.extent = stack.extent.joined(self.place(&upper, x, y));
            stack.height = y + upper.height + font.big_op_spacing(5);
        }
        if !scripts.subscript.is_empty() {
            let kern = font
                .big_op_spacing(2)
                .max(font.big_op_spacing(4) - lower.height);
            let x = half(width - lower.width) - half(nucleus.italic);
            let drop = nucleus_box.depth + kern + lower.height;
            stack.extent = stack.extent.joined(self.place(&lower, x, -drop));
            stack.depth = drop + lower.depth + font.big_op_spacing(5);
        }
        self.reasons = None;
        Ok(stack)
    }
}
