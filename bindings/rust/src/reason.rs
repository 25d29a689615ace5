//! What decided a shift.

/// The quantities that a shift can come from.
#[derive(Clone, Copy, Debug, PartialEq, Eq)]
pub enum Quantity {
    /// The nucleus and its drop, 0 for a plain symbol.
    Drop,
    /// The font's parameter.
    Sigma,
    /// The script's edge and the x-height.
    XHeight,
    /// Four rules between two scripts.
    Gap,
    /// Both scripts raised to four fifths of the x-height.
    Psi,
    /// A fraction's clearance.
    Clearance,
}

/// A shift and the quantity that it equals.
#[derive(Clone, Copy, Debug, PartialEq, Eq)]
pub struct Decided {
    pub by: Quantity,
    pub shift: i64,
}

impl Decided {
    /// From two words of an answer; none for a shift that is not there.
    pub(crate) fn read(by: i64, shift: i64) -> Option<Decided> {
        let by = match by {
            1 => Quantity::Drop,
            2 => Quantity::Sigma,
            3 => Quantity::XHeight,
            4 => Quantity::Gap,
            5 => Quantity::Psi,
            6 => Quantity::Clearance,
            _ => return None,
        };
        Some(Decided { by, shift })
    }
}

/// The shifts of an item: a superscript's or a numerator's up, a subscript's or
/// a denominator's down.
#[derive(Clone, Copy, Debug, PartialEq, Eq)]
pub struct Reasons {
    pub up: Option<Decided>,
    pub down: Option<Decided>,
}
