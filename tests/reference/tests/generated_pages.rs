//! Why generated nodes and bodies of pages are refused.

use reference::dvi::{read, write};
use reference::generate::{page_case, PageCase, Random};
use reference::Converted;
use std::collections::BTreeMap;
use std::ops::RangeInclusive;

const CASES: usize = 40_000;
const LIMIT: i64 = 1_073_741_823;
const NODE_BYTES: usize = 18;

const BYTE: RangeInclusive<u8> = 0..=255;
const fn only(byte: u8) -> RangeInclusive<u8> {
    byte..=byte
}

/// A kind of node in one form: which bytes have to stand where, and where its
/// numbers stand, with the least that each may be.
struct Kind {
    name: &'static str,
    length: usize,
    bytes: &'static [(usize, RangeInclusive<u8>)],
    numbers: &'static [(usize, i64)],
}

static STORED: [Kind; 2] = [
    Kind {
        name: "stored glyph",
        length: NODE_BYTES,
        bytes: &[
            (0, only(b'G')),
            (1, only(b'L')),
            (10, 0..=2),
            (11, 0..=15),
            (12, BYTE),
            (13, only(0)),
            (14, only(0)),
            (15, only(0)),
            (16, only(0)),
            (17, only(0)),
        ],
        numbers: &[(2, -LIMIT), (6, -LIMIT)],
    },
    Kind {
        name: "stored rule",
        length: NODE_BYTES,
        bytes: &[(0, only(b'R')), (1, only(b'U'))],
        numbers: &[(2, -LIMIT), (6, -LIMIT), (10, 0), (14, 0)],
    },
];

static BODY: [Kind; 2] = [
    Kind {
        name: "glyph in a body",
        length: 15,
        bytes: &[
            (0, 171..=218),
            (1, only(141)),
            (2, only(146)),
            (7, only(160)),
            (12, only(128)),
            (13, BYTE),
            (14, only(142)),
        ],
        numbers: &[(3, -LIMIT), (8, -LIMIT)],
    },
    Kind {
        name: "rule in a body",
        length: 21,
        bytes: &[
            (0, only(141)),
            (1, only(146)),
            (6, only(160)),
            (11, only(132)),
            (20, only(142)),
        ],
        numbers: &[(2, -LIMIT), (7, -LIMIT), (12, 0), (16, 0)],
    },
];

/// What is wrong at the front of some bytes.
#[derive(Clone, Copy, Debug, PartialEq, Eq, PartialOrd, Ord)]
enum Fault {
    Cut,
    Place(usize),
    /// Of a number, and whether it is too small.
    Past(usize, bool),
}

impl Kind {
    /// The places that are not as they have to be.
    fn faults(&self, bytes: &[u8], word: Word) -> Vec<Fault> {
        let Some(bytes) = bytes.get(..self.length) else {
            return vec![Fault::Cut];
        };
        let wrong = self
            .bytes
            .iter()
            .filter(|(at, range)| !range.contains(&bytes[*at]));
        let past = self.numbers.iter().filter_map(|(at, least)| {
            let number = word([0, 1, 2, 3].map(|more| bytes[at + more])).into();
            let is_past = !(*least..=LIMIT).contains(&number);
            is_past.then_some(Fault::Past(*at, number < *least))
        });
        wrong.map(|(at, _)| Fault::Place(*at)).chain(past).collect()
    }
}

/// Of the first bytes that are no node, the kind and the fault if there is but
/// one; none if all are nodes.
fn stop(mut bytes: &[u8], kinds: &[Kind; 2], word: Word) -> Option<Option<(&'static str, Fault)>> {
    while !bytes.is_empty() {
        let found = kinds.each_ref().map(|kind| kind.faults(bytes, word));
        let Some(at) = found.iter().position(Vec::is_empty) else {
            let mut singles = kinds.iter().zip(&found);
            return Some(singles.find_map(|(kind, faults)| match faults[..] {
                [fault] => Some((kind.name, fault)),
                _ => None,
            }));
        };
        bytes = &bytes[kinds[at].length..];
    }
    None
}

#[test]
fn pages_are_refused_for_each_fault() {
    let mut alone = BTreeMap::new();
    let mut counts = BTreeMap::new();
    let mut random = Random::new(21);
    for _ in 0..CASES {
        let PageCase {
            is_written,
            bytes,
            room,
        } = page_case(&mut random);
        let (call, kinds, word, number): (Call, _, Word, _) = match is_written {
            true => (write, &STORED, i32::from_le_bytes, 16),
            false => (read, &BODY, i32::from_be_bytes, 17),
        };
        let answer = call(&bytes, &mut vec![0; room]);
        let stopped = stop(&bytes, kinds, word);
        assert_eq!(answer.number == number, stopped.is_some(), "{bytes:?}");
        *counts.entry(answer.number).or_insert(0) += 1;
        if let Some(Some(fault)) = stopped {
            *alone.entry(fault).or_insert(0) += 1;
        }
    }
    for number in [0, 16, 17, 18] {
        assert!(counts[&number] > CASES / 20, "{counts:?}");
    }
    for fault in all_faults() {
        let count = alone.get(&fault).copied().unwrap_or(0);
        assert!(count > CASES / 2000, "{fault:?} {alone:?}");
    }
}

type Call = fn(&[u8], &mut [u8]) -> Converted;
type Word = fn([u8; 4]) -> i32;

/// What is cut off counts as the first kind's.
fn all_faults() -> impl Iterator<Item = (&'static str, Fault)> {
    let cut = [&STORED, &BODY].map(|kinds| (kinds[0].name, Fault::Cut));
    let of_a_kind = |kind: &'static Kind| {
        let tested = kind.bytes.iter().filter(|(_, range)| *range != BYTE);
        let wrong = tested.map(|(at, _)| Fault::Place(*at));
        let past = kind.numbers.iter().flat_map(|(at, _)| {
            let ways = [false, true];
            ways.map(|is_small| Fault::Past(*at, is_small))
        });
        wrong.chain(past).map(|fault| (kind.name, fault))
    };
    let kinds = STORED.iter().chain(&BODY);
    cut.into_iter().chain(kinds.flat_map(of_a_kind))
}
