//! Nodes and bodies of pages: good ones, ones with a single fault, and others.

use super::damage::damaged_bytes;
use super::Random;
use crate::dvi::{read, write, MOST_BYTES};
use crate::nodes::{Ink, Node};
use crate::SIZE_LIMIT;

const MOST_NODES: usize = 12;

/// What is to be done, and the bytes that it is to be done with.
#[derive(Clone, Debug)]
pub struct PageCase {
    pub is_written: bool,
    pub bytes: Vec<u8>,
    /// The length of the buffer to lend.
    pub room: usize,
}

pub fn page_case(random: &mut Random) -> PageCase {
    let form = *random.pick(&[Form::Stored, Form::Body]);
    let mut nodes: Vec<Node> = (0..random.below(MOST_NODES))
        .map(|_| node(random))
        .collect();
    let bytes = match random.below(10) {
        0..4 => joined(form, &nodes),
        4..8 => {
            let spoilt = spoilt(form, &node(random), random);
            let behind = nodes.split_off(random.below(nodes.len() + 1));
            [joined(form, &nodes), spoilt, joined(form, &behind)].concat()
        }
        8 => damaged_bytes(joined(form, &nodes), random),
        _ => joined(form.other(), &nodes),
    };
    let is_written = matches!(form, Form::Stored);
    PageCase {
        is_written,
        room: room(is_written, &bytes, random),
        bytes,
    }
}

/// Just enough, or not, or any.
fn room(is_written: bool, bytes: &[u8], random: &mut Random) -> usize {
    let mut longest = vec![0; bytes.len() * 2];
    let answer = match is_written {
        true => write(bytes, &mut longest),
        false => read(bytes, &mut longest),
    };
    let needed = answer.bytes as usize;
    let any = random.below(longest.len() + 1);
    *random.pick(&[
        0,
        needed.saturating_sub(1),
        needed,
        needed,
        needed + 1,
        needed + MOST_BYTES,
        any,
    ])
}

/// One that can be written.
fn node(random: &mut Random) -> Node {
    let ink = if random.percent(50) {
        Ink::Glyph {
            size: random.below(3) as u8,
            family: random.below(16) as u8,
            code: random.byte(),
        }
    } else {
        Ink::Rule {
            width: length(random).abs(),
            thickness: length(random).abs(),
        }
    };
    Node {
        x: length(random),
        y: length(random),
        ink,
    }
}

fn length(random: &mut Random) -> i64 {
    match random.below(4) {
        0 => *random.pick(&[0, 1, -1, SIZE_LIMIT, -SIZE_LIMIT]),
        1 => random.between(-SIZE_LIMIT, SIZE_LIMIT),
        _ => random.between(-10_000, 10_000),
    }
}

/// Nodes as they are stored, or in a body.
#[derive(Clone, Copy)]
enum Form {
    Stored,
    Body,
}

impl Form {
    fn other(self) -> Form {
        match self {
            Form::Stored => Form::Body,
            Form::Body => Form::Stored,
        }
    }

    fn bytes(self, node: &Node) -> Vec<u8> {
        let stored = node.bytes();
        match self {
            Form::Stored => stored.to_vec(),
            Form::Body => {
                let mut body = vec![0; MOST_BYTES];
                let answer = write(&stored, &mut body);
                body.truncate(answer.bytes as usize);
                body
            }
        }
    }

    /// The places of bytes that have to be right, each with a byte that is just
    /// not; and those of numbers.
    fn places(self, ink: &Ink) -> (&'static [(usize, u8)], &'static [usize]) {
        match (self, ink) {
            (Form::Stored, Ink::Glyph { .. }) => (&STORED_GLYPH, &[2, 6]),
            (Form::Stored, Ink::Rule { .. }) => (&[(0, b'G'), (1, b'L')], &[2, 6, 10, 14]),
            (Form::Body, Ink::Glyph { .. }) => (&BODY_GLYPH, &[3, 8]),
            (Form::Body, Ink::Rule { .. }) => (&BODY_RULE, &[2, 7, 12, 16]),
        }
    }

    fn number(self, number: i32) -> [u8; 4] {
        match self {
            Form::Stored => number.to_le_bytes(),
            Form::Body => number.to_be_bytes(),
        }
    }
}

fn joined(form: Form, nodes: &[Node]) -> Vec<u8> {
    nodes.iter().flat_map(|node| form.bytes(node)).collect()
}

const STORED_GLYPH: [(usize, u8); 9] = [
    (0, b'R'),
    (1, b'U'),
    (10, 3),
    (11, 16),
    (13, 1),
    (14, 1),
    (15, 1),
    (16, 1),
    (17, 1),
];

/// The font above the last, pop, right3, down3, put1, push.
const BODY_GLYPH: [(usize, u8); 6] = [(0, 219), (1, 142), (2, 145), (7, 159), (12, 133), (14, 141)];

/// The last font, eop, w0, y0, put_rule, push.
const BODY_RULE: [(usize, u8); 6] = [(0, 218), (0, 140), (1, 147), (6, 161), (11, 137), (20, 141)];

/// Numbers at the edge of what can be written; which one is past it depends on
/// where it stands.
const EDGES: [i32; 7] = [
    -1,
    SIZE_LIMIT as i32,
    SIZE_LIMIT as i32 + 1,
    -SIZE_LIMIT as i32,
    -SIZE_LIMIT as i32 - 1,
    i32::MIN,
    i32::MAX,
];

/// Among them commands near those of a body, and fonts that no node has.
const TELLING_BYTES: [u8; 16] = [
    0, b'G', b'R', 97, 128, 133, 137, 138, 140, 141, 142, 145, 170, 171, 219, 235,
];

/// A node's bytes with one fault; a few come out good.
fn spoilt(form: Form, node: &Node, random: &mut Random) -> Vec<u8> {
    let mut bytes = form.bytes(node);
    let (tested, numbers) = form.places(&node.ink);
    if random.percent(35) {
        let at = *random.pick(numbers);
        bytes[at..at + 4].copy_from_slice(&form.number(*random.pick(&EDGES)));
        return bytes;
    }
    let (at, just_not) = *random.pick(tested);
    match random.below(6) {
        0 => {
            bytes.remove(at);
        }
        1 => bytes.insert(at, bytes[at]),
        2 => bytes.insert(at, *random.pick(&TELLING_BYTES)),
        3 => bytes[at] = *random.pick(&TELLING_BYTES),
        _ => bytes[at] = just_not,
    }
    bytes
}
