//! Boxes, and how far their nodes reach.

use crate::nodes::Run;

/// n/2, rounded up.
pub fn half(n: i64) -> i64 {
    (n + 1) >> 1
}

/// A part that was set: its sizes, its nodes, and where those nodes are.
/// Both are as seen from the box's own reference point.
#[derive(Clone, Copy, Default)]
pub struct MathBox {
    pub width: i64,
    pub height: i64,
    pub depth: i64,
    pub nodes: Run,
    pub extent: Extent,
}

/// The least rectangle around the reference points of some nodes.
#[derive(Clone, Copy, Default)]
pub struct Extent(Option<Rectangle>);

#[derive(Clone, Copy)]
struct Rectangle {
    left: i64,
    right: i64,
    bottom: i64,
    top: i64,
}

impl Extent {
    pub fn point(x: i64, y: i64) -> Extent {
        Extent(Some(Rectangle {
            left: x,
            right: x,
            bottom: y,
            top: y,
        }))
    }

    pub fn moved(self, dx: i64, dy: i64) -> Extent {
        Extent(self.0.map(|r| Rectangle {
            left: r.left + dx,
            right: r.right + dx,
            bottom: r.bottom + dy,
            top: r.top + dy,
        }))
    }

    pub fn joined(self, other: Extent) -> Extent {
        match (self.0, other.0) {
            (Some(a), Some(b)) => Extent(Some(Rectangle {
                left: a.left.min(b.left),
                right: a.right.max(b.right),
                bottom: a.bottom.min(b.bottom),
                top: a.top.max(b.top),
            })),
            (None, _) => other,
            (_, None) => self,
        }
    }

    pub fn is_within(self, limit: i64) -> bool {
        self.0.is_none_or(|r| {
            r.left >= -limit && r.right <= limit && r.bottom >= -limit && r.top <= limit
        })
    }
}

#[cfg(test)]
mod tests {
    use super::half;

    #[test]
    fn half_rounds_up() {
        assert_eq!([3, 2, 1, 0, -1, -2, -3].map(half), [2, 1, 1, 0, 0, -1, -1]);
    }
}
