//! The strokes of characters that grow. A shape is drawn for a box that is 1 wide
//! and 1 high, from its upper left corner, and stretched to a symbol's box.

/// A part of a stroke.
enum Step {
    /// A stroke starts here.
    From(f64, f64),
    To(f64, f64),
    /// A curve towards the first point that ends at the second.
    Bend([f64; 2], [f64; 2]),
    /// An ellipse around the middle, so far from it across and down.
    Around(f64, f64),
}

use Step::{Around, Bend, From, To};

/// Some strokes, or what a mirror shows of them.
pub struct Shape {
    parts: &'static [&'static [Step]],
    mirror: Mirror,
}

#[derive(Clone, Copy)]
enum Mirror {
    None,
    /// Left and right are exchanged.
    Across,
    /// Top and bottom are exchanged.
    Down,
}

pub const ANGLE: Shape = plain(&[&[From(0.9, 0.0), To(0.1, 1.0), To(0.9, 1.0)]]);
/// Across a zero.
pub const STROKE: Shape = plain(&[&[From(0.25, 0.85), To(0.75, 0.15)]]);

const ROUND: &[Step] = &[From(0.8, 0.0), Bend([-0.2, 0.5], [0.8, 1.0])];
const SQUARE: &[Step] = &[From(0.8, 0.0), To(0.3, 0.0), To(0.3, 1.0), To(0.8, 1.0)];
const FLOOR: &[Step] = &[From(0.3, 0.0), To(0.3, 1.0), To(0.8, 1.0)];
const CEILING: &[Step] = &[From(0.8, 0.0), To(0.3, 0.0), To(0.3, 1.0)];
const CURLY: &[Step] = &[
    From(0.8, 0.0),
    Bend([0.5, 0.0], [0.5, 0.12]),
    To(0.5, 0.4),
    Bend([0.5, 0.5], [0.2, 0.5]),
    Bend([0.5, 0.5], [0.5, 0.6]),
    To(0.5, 0.88),
    Bend([0.5, 1.0], [0.8, 1.0]),
];
const POINTED: &[Step] = &[From(0.75, 0.0), To(0.25, 0.5), To(0.75, 1.0)];
const BAR: &[Step] = &[From(0.5, 0.0), To(0.5, 1.0)];
const BARS: &[Step] = &[From(0.3, 0.0), To(0.3, 1.0), From(0.7, 0.0), To(0.7, 1.0)];
const SLASH: &[Step] = &[From(0.9, 0.0), To(0.1, 1.0)];
const PRIME: &[Step] = &[From(0.75, 0.0), To(0.3, 1.0)];
/// The second stroke goes up to the rule.
const ROOT: &[Step] = &[From(0.2, 0.6), To(0.5, 1.0), To(1.0, 0.0)];
const SUM: &[Step] = &[
    From(0.9, 0.2),
    To(0.85, 0.0),
    To(0.1, 0.0),
    To(0.5, 0.48),
    To(0.1, 1.0),
    To(0.85, 1.0),
    To(0.9, 0.8),
];
const PRODUCT: &[Step] = &[
    From(0.05, 0.0),
    To(0.95, 0.0),
    From(0.2, 0.0),
    To(0.2, 1.0),
    From(0.8, 0.0),
    To(0.8, 1.0),
];
const INTEGRAL: &[Step] = &[
    From(0.95, 0.06),
    Bend([0.65, -0.08], [0.57, 0.25]),
    To(0.43, 0.75),
    Bend([0.35, 1.08], [0.05, 0.94]),
];
const CIRCLE: &[Step] = &[Around(0.45, 0.48)];
const CROSS: &[Step] = &[
    From(0.05, 0.5),
    To(0.95, 0.5),
    From(0.5, 0.05),
    To(0.5, 0.95),
];
const SALTIRE: &[Step] = &[
    From(0.2, 0.15),
    To(0.8, 0.85),
    From(0.8, 0.15),
    To(0.2, 0.85),
];
const PLUS: &[Step] = &[
    From(0.3, 0.45),
    To(0.7, 0.45),
    From(0.5, 0.25),
    To(0.5, 0.65),
];
const CUP: &[Step] = &[
    From(0.1, 0.0),
    To(0.1, 0.65),
    Bend([0.1, 1.0], [0.5, 1.0]),
    Bend([0.9, 1.0], [0.9, 0.65]),
    To(0.9, 0.0),
];
const SQUARE_CUP: &[Step] = &[From(0.1, 0.0), To(0.1, 1.0), To(0.9, 1.0), To(0.9, 0.0)];
const VEE: &[Step] = &[From(0.05, 0.0), To(0.5, 1.0), To(0.95, 0.0)];

const fn plain(parts: &'static [&'static [Step]]) -> Shape {
    mirrored(parts, Mirror::None)
}

const fn mirrored(parts: &'static [&'static [Step]], mirror: Mirror) -> Shape {
    Shape { parts, mirror }
}

impl Shape {
    /// None for a character that does not grow, or is a part of one that does.
    pub fn of(letter: char) -> Option<Shape> {
        Some(match letter {
            '(' => plain(&[ROUND]),
            ')' => mirrored(&[ROUND], Mirror::Across),
            '[' => plain(&[SQUARE]),
            ']' => mirrored(&[SQUARE], Mirror::Across),
            '⌊' => plain(&[FLOOR]),
            '⌋' => mirrored(&[FLOOR], Mirror::Across),
            '⌈' => plain(&[CEILING]),
            '⌉' => mirrored(&[CEILING], Mirror::Across),
            '{' => plain(&[CURLY]),
            '}' => mirrored(&[CURLY], Mirror::Across),
            '⟨' => plain(&[POINTED]),
            '⟩' => mirrored(&[POINTED], Mirror::Across),
            '|' => plain(&[BAR]),
            '‖' => plain(&[BARS]),
            '/' => plain(&[SLASH]),
            '\\' => mirrored(&[SLASH], Mirror::Across),
            '′' => plain(&[PRIME]),
            '√' => plain(&[ROOT]),
            '∑' => plain(&[SUM]),
            '∏' => plain(&[PRODUCT]),
            '∐' => mirrored(&[PRODUCT], Mirror::Down),
            '∫' => plain(&[INTEGRAL]),
            '∮' => plain(&[INTEGRAL, &[Around(0.35, 0.1)]]),
            '⨀' => plain(&[CIRCLE, &[Around(0.03, 0.03)]]),
            '⨁' => plain(&[CIRCLE, CROSS]),
            '⨂' => plain(&[CIRCLE, SALTIRE]),
            '⋃' => plain(&[CUP]),
            '⋂' => mirrored(&[CUP], Mirror::Down),
            '⨄' => plain(&[CUP, PLUS]),
            '⨆' => plain(&[SQUARE_CUP]),
            '⋁' => plain(&[VEE]),
            '⋀' => mirrored(&[VEE], Mirror::Down),
            _ => return None,
        })
    }

    /// The path of the strokes in the box whose upper left corner is given.
    pub fn path(&self, x: f64, top: f64, width: f64, reach: f64) -> String {
        let point = |[across, down]: [f64; 2]| {
            let [across, down] = self.mirror.image([across, down]);
            format!("{:.3} {:.3}", x + across * width, top + down * reach)
        };
        let steps = self.parts.iter().flat_map(|part| part.iter());
        let step = |step: &Step| match *step {
            From(across, down) => format!("M{}", point([across, down])),
            To(across, down) => format!("L{}", point([across, down])),
            Bend(towards, end) => format!("Q{} {}", point(towards), point(end)),
            Around(across, down) => {
                let (start, end) = (point([0.5 - across, 0.5]), point([0.5 + across, 0.5]));
                let radii = format!("{:.3} {:.3}", across * width, down * reach);
                format!("M{start}A{radii} 0 1 0 {end}A{radii} 0 1 0 {start}")
            }
        };
        steps.map(step).collect()
    }
}

impl Mirror {
    fn image(self, [across, down]: [f64; 2]) -> [f64; 2] {
        match self {
            Mirror::None => [across, down],
            Mirror::Across => [1.0 - across, down],
            Mirror::Down => [across, 1.0 - down],
        }
    }
}
