//! The bench table of the papers, and formulas set with it.

// No file of tests uses all of it.
#![allow(dead_code)]

use reference::compose::*;
use reference::{measure, set, Answer, NODE_BYTES};

pub const DISPLAY: u8 = 0;
pub const TEXT: u8 = 2;
pub const CRAMPED_TEXT: u8 = 3;
pub const SCRIPT: u8 = 4;

pub const A: [u8; 3] = [1, 1, 97];
pub const F: [u8; 3] = [1, 1, 102];
pub const PLUS: [u8; 3] = [1, 2, 43];
pub const EQUALS: [u8; 3] = [1, 2, 61];
pub const SUM: [u8; 3] = [1, 3, 80];

const SIGMAS: [(usize, u32); 15] = [
    (5, 430),
    (6, 1000),
    (8, 700),
    (9, 400),
    (10, 450),
    (11, 690),
    (12, 350),
    (13, 420),
    (14, 370),
    (15, 290),
    (16, 150),
    (17, 250),
    (18, 380),
    (19, 50),
    (22, 250),
];
const XIS: [(usize, u32); 6] = [
    (8, 40),
    (9, 110),
    (10, 170),
    (11, 200),
    (12, 600),
    (13, 100),
];

pub fn bench_table() -> Vec<u8> {
    bench_parts().bytes()
}

pub fn bench_parts() -> TableParts {
    let mut row = [0; 35];
    for (number, word) in SIGMAS {
        row[number - 1] = word;
    }
    for (number, word) in XIS {
        row[22 + number - 1] = word;
    }
    let characters = (0..3)
        .flat_map(|size| {
            [
                character(size, 1, 97, None, [500, 430, 0, 0]),
                character(size, 1, 102, None, [490, 700, 200, 110]),
                character(size, 2, 43, None, [780, 580, 80, 0]),
                character(size, 2, 61, None, [780, 370, 0, 0]),
                character(size, 3, 80, Some(88), [1000, 0, 1000, 0]),
                character(size, 3, 88, None, [1400, 0, 1400, 0]),
            ]
        })
        .collect();
    let rows = [row; 3];
    TableParts { rows, characters }
}

pub fn character(
    size: u8,
    family: u8,
    code: u8,
    successor: Option<u8>,
    measures: [u32; 4],
) -> CharacterParts {
    CharacterParts {
        size,
        family,
        code,
        successor,
        measures,
    }
}

/// The bench table with further characters.
pub fn table_with(further: &[CharacterParts]) -> Vec<u8> {
    let mut parts = bench_parts();
    parts.characters.extend(further);
    parts.characters.sort_by_key(CharacterParts::key);
    parts.bytes()
}

/// Sizes and nodes of a formula that is accepted.
pub struct Outcome {
    pub sizes: [i64; 3],
    pub nodes: Vec<[u8; NODE_BYTES]>,
}

impl Outcome {
    pub fn places(&self) -> Vec<(i32, i32)> {
        let number = |bytes: &[u8]| i32::from_le_bytes(bytes.try_into().unwrap());
        self.nodes
            .iter()
            .map(|node| (number(&node[2..6]), number(&node[6..10])))
            .collect()
    }
}

pub fn outcome(style: u8, formula: &[u8]) -> Outcome {
    outcome_over(&bench_table(), style, formula)
}

pub fn outcome_over(table: &[u8], style: u8, formula: &[u8]) -> Outcome {
    outcome_with(table, &[], style, formula)
}

pub fn outcome_with(table: &[u8], client: &[u8], style: u8, formula: &[u8]) -> Outcome {
    let measured = measure(style, table, client, formula);
    let mut bytes = vec![0; NODE_BYTES * measured.count as usize];
    let answer = set(style, table, client, formula, &mut bytes);
    assert_eq!(answer, measured);
    assert_eq!(answer.number, 0);
    Outcome {
        sizes: [answer.width, answer.height, answer.depth],
        nodes: bytes.as_chunks().0.to_vec(),
    }
}

pub fn refusal(style: u8, formula: &[u8]) -> (u8, u64) {
    let answer = measure(style, &bench_table(), &[], formula);
    let Answer { number, place, .. } = answer;
    assert_eq!(
        answer,
        Answer {
            number,
            place,
            ..Answer::default()
        }
    );
    (number, place)
}

pub fn plain(class: u8, nucleus: &[u8]) -> Vec<u8> {
    atom(class, 0, [nucleus, EMPTY, EMPTY])
}

pub fn ord(nucleus: &[u8]) -> Vec<u8> {
    plain(0, nucleus)
}

pub fn plus() -> Vec<u8> {
    plain(2, &PLUS)
}

pub fn equals() -> Vec<u8> {
    plain(3, &EQUALS)
}

pub fn a_plus_a() -> Vec<u8> {
    [ord(&A), plus(), ord(&A)].concat()
}
