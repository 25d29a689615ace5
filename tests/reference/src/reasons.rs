//! Which quantity decided a shift.

/// What a shift can come from, in the order of the papers. Its number is that
/// of the C interface, where 0 is a shift that is not there.
#[derive(Clone, Copy, Debug, PartialEq, Eq)]
pub enum Quantity {
    Drop = 1,
    Sigma,
    XHeight,
    Gap,
    Psi,
    Clearance,
}

impl Quantity {
    pub fn name(self) -> &'static str {
        match self {
            Quantity::Drop => "drop",
            Quantity::Sigma => "sigma",
            Quantity::XHeight => "xheight",
            Quantity::Gap => "gap",
            Quantity::Psi => "psi",
            Quantity::Clearance => "clearance",
        }
    }
}

/// A shift and the quantity that it equals.
#[derive(Clone, Copy, Debug, PartialEq, Eq)]
pub struct Decided {
    pub by: Quantity,
    pub shift: i64,
}

impl Decided {
    pub fn new(by: Quantity, shift: i64) -> Decided {
        Decided { by, shift }
    }

    /// The greater of two, the first of equals.
    pub fn or(self, by: Quantity, shift: i64) -> Decided {
        if shift > self.shift {
            Decided { by, shift }
        } else {
            self
        }
    }

    /// A correction, which is named if it changes the shift.
    pub fn corrected(self, by: Quantity, shift: i64) -> Decided {
        if shift == self.shift {
            self
        } else {
            Decided { by, shift }
        }
    }
}

/// The shifts of an item: a superscript's or a numerator's up, a subscript's
/// or a denominator's down.
#[derive(Clone, Copy, Debug, Default, PartialEq, Eq)]
pub struct Reasons {
    pub up: Option<Decided>,
    pub down: Option<Decided>,
}
