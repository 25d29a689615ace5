//! Nodes as the body of a page of DVI, and back (request 14).

use crate::answer::Converted;
use crate::nodes::{Ink, Node, NODE_BYTES};
use crate::SIZE_LIMIT;

const SET1: u8 = 128;
const SET_RULE: u8 = 132;
const PUSH: u8 = 141;
const POP: u8 = 142;
const RIGHT4: u8 = 146;
const DOWN4: u8 = 160;
/// For each size, and in it each family.
const FNT_NUM: std::ops::RangeInclusive<u8> = 171..=218;

/// The most bytes that a node has in a body: a rule's.
pub const MOST_BYTES: usize = 21;

const NO_ROOM: u8 = 18;

/// Writes nodes as a body to the front of `body`.
pub fn write(nodes: &[u8], body: &mut [u8]) -> Converted {
    put(stored_nodes(nodes).map(|nodes| body_of(&nodes)), 16, body)
}

/// Reads the nodes back to the front of `nodes`.
pub fn read(body: &[u8], nodes: &mut [u8]) -> Converted {
    let stored = |nodes: Vec<Node>| nodes.iter().flat_map(Node::bytes).collect();
    put(body_nodes(body).map(stored), 17, nodes)
}

fn put(result: Option<Vec<u8>>, otherwise: u8, room: &mut [u8]) -> Converted {
    match result {
        None => Converted::refused(otherwise, 0),
        Some(result) => Converted::put(&result, room, NO_ROOM),
    }
}

fn body_of(nodes: &[Node]) -> Vec<u8> {
    let mut bytes = Vec::with_capacity(MOST_BYTES * nodes.len());
    for node in nodes {
        commands(&mut bytes, node);
    }
    bytes
}

fn commands(bytes: &mut Vec<u8>, node: &Node) {
    if let Ink::Glyph { size, family, .. } = node.ink {
        bytes.push(FNT_NUM.start() + 16 * size + family);
    }
    bytes.push(PUSH);
    command(bytes, RIGHT4, &[node.x]);
    command(bytes, DOWN4, &[-node.y]);
    match node.ink {
        Ink::Glyph { code, .. } => bytes.extend([SET1, code]),
        Ink::Rule { width, thickness } => command(bytes, SET_RULE, &[thickness, width]),
    }
    bytes.push(POP);
}

fn command(bytes: &mut Vec<u8>, opcode: u8, numbers: &[i64]) {
    bytes.push(opcode);
    for number in numbers {
        bytes.extend((*number as i32).to_be_bytes());
    }
}

/// None if a node is not of its form, or a length passes the bound.
fn stored_nodes(bytes: &[u8]) -> Option<Vec<Node>> {
    let (nodes, rest) = bytes.as_chunks::<NODE_BYTES>();
    if !rest.is_empty() {
        return None;
    }
    nodes.iter().map(stored_node).collect()
}

fn stored_node(bytes: &[u8; NODE_BYTES]) -> Option<Node> {
    let number = |at: usize| {
        i64::from(i32::from_le_bytes([
            bytes[at],
            bytes[at + 1],
            bytes[at + 2],
            bytes[at + 3],
        ]))
    };
    let ink = match &bytes[..2] {
        b"GL" if bytes[13..] == [0; 5] => Ink::Glyph {
            size: bytes[10],
            family: bytes[11],
            code: bytes[12],
        },
        b"RU" => Ink::Rule {
            width: number(10),
            thickness: number(14),
        },
        _ => return None,
    };
    writable(Node {
        x: number(2),
        y: number(6),
        ink,
    })
}

fn writable(node: Node) -> Option<Node> {
    let bound = -SIZE_LIMIT..=SIZE_LIMIT;
    let well_formed = match node.ink {
        Ink::Glyph { size, family, .. } => size <= 2 && family <= 15,
        Ink::Rule { width, thickness } => [width, thickness]
            .iter()
            .all(|size| (0..=SIZE_LIMIT).contains(size)),
    };
    (well_formed && bound.contains(&node.x) && bound.contains(&node.y)).then_some(node)
}

/// None if the bytes are outside the profile.
fn body_nodes(body: &[u8]) -> Option<Vec<Node>> {
    let mut rest = Rest(body);
    let mut nodes = Vec::new();
    while !rest.0.is_empty() {
        nodes.push(rest.node()?);
    }
    Some(nodes)
}

/// What is still to be read of a body.
struct Rest<'a>(&'a [u8]);

impl Rest<'_> {
    fn node(&mut self) -> Option<Node> {
        let first = self.byte()?;
        let font = FNT_NUM.contains(&first).then(|| first - FNT_NUM.start());
        if font.is_some() {
            self.opcode(PUSH)?;
        } else if first != PUSH {
            return None;
        }
        self.opcode(RIGHT4)?;
        let x = self.number()?;
        self.opcode(DOWN4)?;
        let y = -self.number()?;
        let ink = match font {
            Some(font) => {
                self.opcode(SET1)?;
                Ink::Glyph {
                    size: font / 16,
                    family: font % 16,
                    code: self.byte()?,
                }
            }
            None => {
                self.opcode(SET_RULE)?;
                let thickness = self.number()?;
                Ink::Rule {
                    width: self.number()?,
                    thickness,
                }
            }
        };
        self.opcode(POP)?;
        writable(Node { x, y, ink })
    }

    fn byte(&mut self) -> Option<u8> {
        let (&byte, rest) = self.0.split_first()?;
        self.0 = rest;
        Some(byte)
    }

    fn opcode(&mut self, opcode: u8) -> Option<()> {
        (self.byte()? == opcode).then_some(())
    }

    fn number(&mut self) -> Option<i64> {
        let (&bytes, rest) = self.0.split_first_chunk()?;
        self.0 = rest;
        Some(i64::from(i32::from_be_bytes(bytes)))
    }
}
