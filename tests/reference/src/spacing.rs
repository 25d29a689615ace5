//! Class changes and the space between atoms (rules 5, 6 and 20).

use crate::parameters::Parameters;
use crate::reading::Class;
use crate::style::Style;

/// Rules 5 and 6: the class an atom ends with. `left` is the atom before it,
/// already changed; `right` finds the atom after it.
pub fn settled(class: Class, left: Option<Class>, right: impl FnOnce() -> Option<Class>) -> Class {
    if class == Class::Bin && (!may_precede_bin(left) || !may_follow_bin(right())) {
        Class::Ord
    } else {
        class
    }
}

fn may_precede_bin(left: Option<Class>) -> bool {
    matches!(left, Some(Class::Ord | Class::Close | Class::Inner))
}

fn may_follow_bin(right: Option<Class>) -> bool {
    !matches!(right, None | Some(Class::Rel | Class::Close | Class::Punct))
}

#[derive(Clone, Copy)]
enum Space {
    None,
    Thin,
    /// Only outside scripts, as are the two below.
    TextThin,
    TextMedium,
    TextThick,
}

/// Rule 20: the space between neighbours, in sp. Pairs that class changes
/// rule out have none.
pub fn space(left: Class, right: Class, style: Style, font: &Parameters) -> i64 {
    let units = match CHART[left as usize][right as usize] {
        Space::Thin => 3,
        Space::TextThin if !style.is_script() => 3,
        Space::TextMedium if !style.is_script() => 4,
        Space::TextThick if !style.is_script() => 5,
        _ => 0,
    };
    units * font.math_unit()
}

const CHART: [[Space; 8]; 8] = {
    use Space::{None as O, TextMedium as M, TextThick as R, TextThin as T, Thin as A};
    [
        // Ord Op Bin Rel Open Close Punct Inner
        [O, A, M, R, O, O, O, T], // Ord
        [A, A, O, R, O, O, O, T], // Op
        [M, M, O, O, M, O, O, M], // Bin
        [R, R, O, O, R, O, O, R], // Rel
        [O, O, O, O, O, O, O, O], // Open
        [O, A, M, R, O, O, O, T], // Close
        [T, T, O, T, T, T, T, T], // Punct
        [T, A, M, R, T, O, T, T], // Inner
    ]
};
