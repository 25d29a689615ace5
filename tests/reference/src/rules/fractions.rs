//! Fractions (rules 15 to 15e).

use super::delimiters::NULL_DELIMITER;
use crate::answer::Refusal;
use crate::boxes::{half, Extent, MathBox};
use crate::clearances::Clearance;
use crate::layout::Layout;
use crate::nodes::{Ink, Node, Pen};
use crate::parameters::Parameters;
use crate::reading::Field;
use crate::reasons::{Decided, Quantity, Reasons};
use crate::style::Style;

/// How far the numerator goes up and the denominator goes down, and why.
struct Shifts {
    up: Decided,
    down: Decided,
}

impl<P: Pen> Layout<'_, P> {
    pub fn fraction(
        &mut self,
        barred: bool,
        numerator: &Field,
        denominator: &Field,
        style: Style,
    ) -> Result<MathBox, Refusal> {
        let font = self.tables.parameters(style.size());
        let thickness = if barred { font.rule_thickness() } else { 0 };
        let start = self.pen.count();

        // 15a. The bar's node stands before the denominator's.
        let numerator = self.field(numerator, style.numerator())?;
        let bar_index = self.pen.count();
        if thickness > 0 {
            self.pen.push(Node::UNPLACED);
        }
        let denominator = self.field(denominator, style.denominator())?;
        let width = numerator.width.max(denominator.width);

        let Shifts { up, down } = shifts(thickness, &numerator, &denominator, style, font);
        let middle = |part: &MathBox| NULL_DELIMITER + half(width - part.width);
        let over = self.place(&numerator, middle(&numerator), up.shift);
        let under = self.place(&denominator, middle(&denominator), -down.shift);
        let mut extent = over.joined(under);
        if thickness > 0 {
            let bar = bar(width, thickness, font);
            extent = extent.joined(Extent::point(bar.x, bar.y));
            self.pen.replace(bar_index, bar);
        }
        self.pen.note(Clearance::Fraction {
            over: numerator.nodes,
            bar: (thickness > 0).then_some(bar_index),
            under: denominator.nodes,
            gap: clearance(thickness, style, font),
            axis: font.axis_height(),
        });
        self.reasons = Some(Reasons {
            up: Some(up),
            down: Some(down),
        });
        // 15e: an absent delimiter stands on each side.
        Ok(MathBox {
            width: width + 2 * NULL_DELIMITER,
            height: numerator.height + up.shift,
            depth: denominator.depth + down.shift,
            nodes: self.run_from(start),
            extent,
        })
    }
}

fn bar(width: i64, thickness: i64, font: &Parameters) -> Node {
    Node {
        x: NULL_DELIMITER,
        y: font.axis_height() + half(thickness) - thickness,
        ink: Ink::Rule { width, thickness },
    }
}

/// φ of 15d, or of 15c where there is no bar.
fn clearance(thickness: i64, style: Style, font: &Parameters) -> i64 {
    match (thickness > 0, style.is_display()) {
        (true, true) => 3 * thickness,
        (true, false) => thickness,
        (false, true) => 7 * font.rule_thickness(),
        (false, false) => 3 * font.rule_thickness(),
    }
}

fn shifts(
    thickness: i64,
    numerator: &MathBox,
    denominator: &MathBox,
    style: Style,
    font: &Parameters,
) -> Shifts {
    if thickness > 0 {
        barred_shifts(thickness, numerator, denominator, style, font)
    } else {
        barless_shifts(numerator, denominator, style, font)
    }
}

/// 15b and 15d.
fn barred_shifts(
    thickness: i64,
    numerator: &MathBox,
    denominator: &MathBox,
    style: Style,
    font: &Parameters,
) -> Shifts {
    let (up, down) = if style.is_display() {
        (font.num1(), font.denom1())
    } else {
        (font.num2(), font.denom2())
    };
    let clearance = clearance(thickness, style, font);
    let axis_height = font.axis_height();
    let bar_top = axis_height + half(thickness);
    let bar_bottom = axis_height - half(thickness);
    let cleared_up = up.max(bar_top + clearance + numerator.depth);
    let cleared_down = down.max(clearance + denominator.height - bar_bottom);
    Shifts {
        up: Decided::new(Quantity::Sigma, up).corrected(Quantity::Clearance, cleared_up),
        down: Decided::new(Quantity::Sigma, down).corrected(Quantity::Clearance, cleared_down),
    }
}

/// 15b and 15c.
fn barless_shifts(
    numerator: &MathBox,
    denominator: &MathBox,
    style: Style,
    font: &Parameters,
) -> Shifts {
    let (up, down) = if style.is_display() {
        (font.num1(), font.denom1())
    } else {
        (font.num3(), font.denom2())
    };
    let clearance = clearance(0, style, font);
    let gap = (up - numerator.depth) - (denominator.height - down);
    let more = half((clearance - gap).max(0));
    Shifts {
        up: Decided::new(Quantity::Sigma, up).corrected(Quantity::Clearance, up + more),
        down: Decided::new(Quantity::Sigma, down).corrected(Quantity::Clearance, down + more),
    }
}
