//! Nodes that are written as the body of a page, and bodies that are read back.

use crate::figures::grouped;
use crate::timing::Timed;
use crate::work::Setter;
use reference::{dvi, Converted};
use std::hint::black_box;

/// A glyph and a rule under it.
pub const NODES: &[u8] =
    b"GL\0\0\0\0\0\0\0\0\0\x01a\0\0\0\0\0RU\0\0\0\0\x60\xff\xff\xff\xf4\x01\0\0\x28\0\0\0";
pub const BODY: &[u8] = b"\xac\x8d\x92\0\0\0\0\xa0\0\0\0\0\x80a\x8e\
                      \x8d\x92\0\0\0\0\xa0\0\0\0\xa0\x84\0\0\0\x28\0\0\x01\xf4\x8e";
const NODES_IN_BOTH: usize = 2;

const COUNTS: [usize; 3] = [16, 256, 4096];

#[derive(Clone, Copy, Debug)]
enum Call {
    Write,
    Read,
}

const CALLS: [Call; 2] = [Call::Write, Call::Read];

/// How many there are to be timed.
pub const PAGES: usize = CALLS.len() * COUNTS.len();

pub struct Page {
    pub name: String,
    pub nodes: usize,
    call: Call,
    bytes: Vec<u8>,
    result: Vec<u8>,
}

/// The page counted from 0; it is named by the first cells of its row.
pub fn page(number: usize) -> Page {
    let (call, nodes) = (CALLS[number / COUNTS.len()], COUNTS[number % COUNTS.len()]);
    let (bytes, result) = match call {
        Call::Write => (NODES, BODY),
        Call::Read => (BODY, NODES),
    };
    let times = nodes / NODES_IN_BOTH;
    Page {
        name: format!("{} | {call:?}", grouped(nodes as f64)),
        nodes,
        call,
        bytes: bytes.repeat(times),
        result: vec![0; result.len() * times],
    }
}

impl Timed for Page {
    fn run(&mut self, setter: Setter, turns: usize) {
        let result = &mut self.result;
        for _ in 0..turns {
            let bytes = black_box(&self.bytes);
            let written = match (setter, self.call) {
                (Setter::Library, Call::Write) => torfianka::dvi::write(bytes, result).ok(),
                (Setter::Library, Call::Read) => torfianka::dvi::read(bytes, result).ok(),
                (Setter::Reference, Call::Write) => accepted(dvi::write(bytes, result)),
                (Setter::Reference, Call::Read) => accepted(dvi::read(bytes, result)),
            };
            assert_eq!(written, Some(result.len()), "all of it is converted");
        }
    }

    fn done_in(&self, turns: usize) -> f64 {
        (turns * self.nodes) as f64
    }
}

fn accepted(answer: Converted) -> Option<usize> {
    (answer.number == 0).then_some(answer.bytes as usize)
}
