//! The placing rules of Appendix G, one file for each kind of construction.

mod delimiters;
mod fences;
mod fractions;
mod limits;
mod lines;
mod nucleus;
mod roots;
mod scripts;

use crate::boxes::MathBox;

/// A nucleus that waits for its scripts.
pub struct Nucleus {
    pub frame: MathBox,
    /// How much further right a superscript stands than a subscript.
    pub italic: i64,
    /// A symbol by itself, of a class other than Op.
    pub is_plain: bool,
}

impl Nucleus {
    /// A nucleus that is not a symbol.
    pub fn boxed(frame: MathBox) -> Nucleus {
        Nucleus {
            frame,
            italic: 0,
            is_plain: false,
        }
    }
}
