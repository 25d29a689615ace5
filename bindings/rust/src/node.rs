//! Nodes, read from their bytes.

use std::fmt;

/// Bytes of one node.
pub const NODE_BYTES: usize = 18;

/// A glyph or a rule at its place: x from the formula's left edge, y upward
/// from its baseline.
#[derive(Clone, Copy, Debug, PartialEq, Eq)]
pub enum Node {
    Glyph {
        x: i32,
        y: i32,
        /// 0 text, 1 script, 2 scriptscript.
        size: u8,
        family: u8,
        code: u8,
    },
    /// x, y is its lower left corner.
    Rule {
        x: i32,
        y: i32,
        width: u32,
        thickness: u32,
    },
}

impl Node {
    /// None if the bytes open with neither node's mark.
    pub fn read(bytes: &[u8; NODE_BYTES]) -> Option<Node> {
        let word = |at: usize| [bytes[at], bytes[at + 1], bytes[at + 2], bytes[at + 3]];
        let (x, y) = (i32::from_le_bytes(word(2)), i32::from_le_bytes(word(6)));
        match &bytes[..2] {
            b"GL" => Some(Node::Glyph {
                x,
                y,
                size: bytes[10],
                family: bytes[11],
                code: bytes[12],
            }),
            b"RU" => Some(Node::Rule {
                x,
                y,
                width: u32::from_le_bytes(word(10)),
                thickness: u32::from_le_bytes(word(14)),
            }),
            _ => None,
        }
    }
}

/// The nodes at the front of a buffer, up to the first bytes that are none.
pub fn nodes(buffer: &[u8]) -> impl Iterator<Item = Node> + '_ {
    buffer.as_chunks().0.iter().map_while(Node::read)
}

/// `glyph x y size family code` or `rule x y width thickness`.
impl fmt::Display for Node {
    fn fmt(&self, out: &mut fmt::Formatter) -> fmt::Result {
        match self {
            Node::Glyph {
                x,
                y,
                size,
                family,
                code,
            } => write!(out, "glyph {x} {y} {size} {family} {code}"),
            Node::Rule {
                x,
                y,
                width,
                thickness,
            } => write!(out, "rule {x} {y} {width} {thickness}"),
        }
    }
}
