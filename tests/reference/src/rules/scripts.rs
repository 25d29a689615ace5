//! Superscripts and subscripts (rules 18a to 18f).

use super::Nucleus;
use crate::answer::Refusal;
use crate::boxes::MathBox;
use crate::clearances::Clearance;
use crate::layout::Layout;
use crate::nodes::Pen;
use crate::parameters::Parameters;
use crate::reading::{Field, Scripts};
use crate::reasons::{Decided, Quantity, Reasons};
use crate::style::Style;

/// The blank after each script, half a point.
const SCRIPT_SPACE: i64 = 32_768;

/// How far a superscript goes up and a subscript goes down, and why.
#[derive(Clone, Copy)]
struct Shifts {
    up: Decided,
    down: Decided,
}

impl<P: Pen> Layout<'_, P> {
    pub fn attach_scripts(
        &mut self,
        nucleus: Nucleus,
        scripts: &Scripts,
        style: Style,
    ) -> Result<MathBox, Refusal> {
        let font = self.tables.parameters(style.size());
        let least = self.least_shifts(&nucleus, style);
        let end = nucleus.frame.width;
        let superscript = self.script(&scripts.superscript, style.superscript())?;
        let subscript = self.script(&scripts.subscript, style.subscript())?;

        let mut whole = nucleus.frame;
        whole.nodes = self.run_from(nucleus.frame.nodes.start);
        self.reasons = match (superscript, subscript) {
            (None, None) => None,
            (None, Some(sub)) => {
                let down = lone_subscript_shift(least.down, &sub, font);
                self.join_script(&mut whole, &sub, end, -down.shift);
                Some(Reasons {
                    up: None,
                    down: Some(down),
                })
            }
            (Some(sup), None) => {
                let up = superscript_shift(least.up, &sup, style, font);
                self.join_script(&mut whole, &sup, end, up.shift);
                Some(Reasons {
                    up: Some(up),
                    down: None,
                })
            }
            (Some(sup), Some(sub)) => {
                let up = superscript_shift(least.up, &sup, style, font);
                let down = least.down.or(Quantity::Sigma, font.sub2());
                let Shifts { up, down } = parted(Shifts { up, down }, &sup, &sub, font);
                // 18f.
                self.join_script(&mut whole, &sup, end + nucleus.italic, up.shift);
                self.join_script(&mut whole, &sub, end, -down.shift);
                whole.width = end + sub.width.max(sup.width + nucleus.italic);
                self.pen.note(Clearance::Scripts {
                    over: sup.nodes,
                    under: sub.nodes,
                    gap: 4 * font.rule_thickness(),
                });
                Some(Reasons {
                    up: Some(up),
                    down: Some(down),
                })
            }
        };
        whole.height = whole.height.max(0);
        whole.depth = whole.depth.max(0);
        Ok(whole)
    }

    /// 18a: the drops are those of the script's size.
    fn least_shifts(&self, nucleus: &Nucleus, style: Style) -> Shifts {
        let (up, down) = if nucleus.is_plain {
            (0, 0)
        } else {
            let font = self.tables.parameters(style.superscript().size());
            let MathBox { height, depth, .. } = nucleus.frame;
            (height - font.sup_drop(), depth + font.sub_drop())
        };
        Shifts {
            up: Decided::new(Quantity::Drop, up),
            down: Decided::new(Quantity::Drop, down),
        }
    }

    fn script(&mut self, field: &Field, style: Style) -> Result<Option<MathBox>, Refusal> {
        if field.is_empty() {
            return Ok(None);
        }
        let mut script = self.field(field, style)?;
        script.width += SCRIPT_SPACE;
        Ok(Some(script))
    }

    fn join_script(&mut self, whole: &mut MathBox, script: &MathBox, x: i64, y: i64) {
        whole.extent = whole.extent.joined(self.place(script, x, y));
        whole.width = x + script.width;
        whole.height = whole.height.max(script.height + y);
        whole.depth = whole.depth.max(script.depth - y);
    }
}

/// 18b.
fn lone_subscript_shift(least: Decided, subscript: &MathBox, font: &Parameters) -> Decided {
    let lowered_top = subscript.height - four_fifths_x_height(font);
    least
        .or(Quantity::Sigma, font.sub1())
        .or(Quantity::XHeight, lowered_top)
}

/// 18c.
fn superscript_shift(
    least: Decided,
    superscript: &MathBox,
    style: Style,
    font: &Parameters,
) -> Decided {
    let usual = if style.is_cramped() {
        font.sup3()
    } else if style.is_display() {
        font.sup1()
    } else {
        font.sup2()
    };
    let raised_bottom = superscript.depth + font.x_height() / 4;
    least
        .or(Quantity::Sigma, usual)
        .or(Quantity::XHeight, raised_bottom)
}

/// 18e: a gap of four rule thicknesses between the two scripts.
fn parted(shifts: Shifts, sup: &MathBox, sub: &MathBox, font: &Parameters) -> Shifts {
    let Shifts { up, down } = shifts;
    let least_gap = 4 * font.rule_thickness();
    let bottom = up.shift - sup.depth;
    let gap = bottom - (sub.height - down.shift);
    if gap >= least_gap {
        return shifts;
    }
    let down = down.corrected(Quantity::Gap, down.shift + (least_gap - gap));
    let rise = (four_fifths_x_height(font) - bottom).max(0);
    Shifts {
        up: up.corrected(Quantity::Psi, up.shift + rise),
        down: down.corrected(Quantity::Psi, down.shift - rise),
    }
}

fn four_fifths_x_height(font: &Parameters) -> i64 {
    4 * font.x_height() / 5
}
