//! Nodes: gathering them, moving them, writing them.

use crate::clearances::Clearance;
use crate::SIZE_LIMIT;

// A coordinate within the limit fits its four bytes.
const _: () = assert!(SIZE_LIMIT <= i32::MAX as i64);

/// Bytes of one node.
pub const NODE_BYTES: usize = 18;

#[derive(Clone, Copy, Debug)]
pub struct Node {
    pub x: i64,
    pub y: i64,
    pub ink: Ink,
}

#[derive(Clone, Copy, Debug)]
pub enum Ink {
    Glyph { size: u8, family: u8, code: u8 },
    Rule { width: i64, thickness: i64 },
}

/// Nodes that follow each other, from `start` up to `end`.
#[derive(Clone, Copy, Default)]
pub struct Run {
    pub start: usize,
    pub end: usize,
}

impl Run {
    pub fn holds(self, other: Run) -> bool {
        self.start <= other.start && other.end <= self.end
    }
}

/// Takes the nodes as they are found; measuring only counts them.
pub trait Pen {
    fn count(&self) -> usize;
    fn push(&mut self, node: Node);
    fn replace(&mut self, index: usize, node: Node);
    fn shift(&mut self, run: Run, dx: i64, dy: i64);
    /// What two parts of an item have to keep clear, once both are placed in it.
    fn note(&mut self, _: Clearance) {}
}

#[derive(Default)]
pub struct Count(usize);

impl Pen for Count {
    fn count(&self) -> usize {
        self.0
    }

    fn push(&mut self, _: Node) {
        self.0 += 1;
    }

    fn replace(&mut self, _: usize, _: Node) {}

    fn shift(&mut self, _: Run, _: i64, _: i64) {}
}

impl Pen for Vec<Node> {
    fn count(&self) -> usize {
        self.len()
    }

    fn push(&mut self, node: Node) {
        Vec::push(self, node);
    }

    fn replace(&mut self, index: usize, node: Node) {
        self[index] = node;
    }

    fn shift(&mut self, run: Run, dx: i64, dy: i64) {
        for node in &mut self[run.start..run.end] {
            node.x += dx;
            node.y += dy;
        }
    }
}

/// `room` has the length of all nodes together.
pub fn write(nodes: &[Node], room: &mut [u8]) {
    for (node, bytes) in nodes.iter().zip(room.as_chunks_mut().0) {
        *bytes = node.bytes();
    }
}

impl Node {
    /// Keeps room for a node that is not known yet.
    pub const UNPLACED: Node = Node {
        x: 0,
        y: 0,
        ink: Ink::Rule {
            width: 0,
            thickness: 0,
        },
    };

    pub fn read(bytes: &[u8; NODE_BYTES]) -> Node {
        let word = |at: usize| i64::from(i32::from_le_bytes(bytes[at..at + 4].try_into().unwrap()));
        let ink = match &bytes[..2] {
            b"GL" => Ink::Glyph {
                size: bytes[10],
                family: bytes[11],
                code: bytes[12],
            },
            _ => Ink::Rule {
                width: word(10),
                thickness: word(14),
            },
        };
        Node {
            x: word(2),
            y: word(6),
            ink,
        }
    }

    /// Of a node that keeps the size limit.
    pub fn bytes(&self) -> [u8; NODE_BYTES] {
        let mut bytes = [0; NODE_BYTES];
        bytes[2..6].copy_from_slice(&(self.x as i32).to_le_bytes());
        bytes[6..10].copy_from_slice(&(self.y as i32).to_le_bytes());
        match self.ink {
            Ink::Glyph { size, family, code } => {
                bytes[..2].copy_from_slice(b"GL");
                bytes[10..13].copy_from_slice(&[size, family, code]);
            }
            Ink::Rule { width, thickness } => {
                bytes[..2].copy_from_slice(b"RU");
                bytes[10..14].copy_from_slice(&(width.max(0) as u32).to_le_bytes());
                bytes[14..].copy_from_slice(&(thickness as u32).to_le_bytes());
            }
        }
        bytes
    }
}
