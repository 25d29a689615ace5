//! Typed text that is read, and the formula of it that is written as text.

use crate::figures::grouped;
use crate::timing::Timed;
use crate::work::Setter;
use reference::compose::{name_table, NameParts};
use reference::eqn::{self, MOST_BYTES};
use reference::Converted;
use std::hint::black_box;

/// Names in the table, words in the text.
const SIZES: [(usize, usize); 3] = [(20, 4000), (2000, 40), (2000, 4000)];

/// So many words are in a phrase, with every keyword.
const PHRASE_WORDS: usize = 8;
/// The next word is so many names further on, so that all of them come.
const STRIDE: usize = 7;

#[derive(Clone, Copy, Debug)]
enum Call {
    Read,
    Write,
}

const CALLS: [Call; 2] = [Call::Read, Call::Write];

/// How many there are to be timed.
pub const TYPED: usize = CALLS.len() * SIZES.len();

pub struct Typed {
    pub name: String,
    call: Call,
    names: Vec<u8>,
    bytes: Vec<u8>,
    result: Vec<u8>,
}

/// The text counted from 0; it is named by the first cells of its row.
pub fn typed(number: usize) -> Typed {
    let (call, (names, words)) = (CALLS[number / SIZES.len()], SIZES[number % SIZES.len()]);
    let name = format!(
        "{} | {} | {call:?}",
        grouped(names as f64),
        grouped(words as f64)
    );
    let names: Vec<NameParts> = (0..names).map(one_name).collect();
    let text = text(&names, words);
    let names = name_table(&names);
    let formula = formula(&names, &text);
    let (bytes, result) = match call {
        Call::Read => (text, formula),
        Call::Write => (formula, text),
    };
    Typed {
        name,
        call,
        names,
        bytes,
        result,
    }
}

/// Of three to twelve letters and digits; no two have one symbol.
fn one_name(number: usize) -> NameParts {
    let stem = ["x", "sum", "alpha", "varepsilon"][number % 4];
    NameParts {
        word: format!("{stem}{number:02}").into_bytes(),
        family: (number / 256) as u8,
        code: (number % 256) as u8,
        class: (number % 8) as u8,
    }
}

/// As the writer writes it.
fn text(names: &[NameParts], words: usize) -> Vec<u8> {
    let word = |at: usize| String::from_utf8_lossy(&names[at * STRIDE % names.len()].word);
    let phrase = |number: usize| {
        let [a, b, c, d, e, f, g, h] = std::array::from_fn(|at| word(PHRASE_WORDS * number + at));
        format!("{{ {a} sub {b} sup {c} }} over {{ {d} {e} }} {f} from {g} to {h}")
    };
    let phrases: Vec<String> = (0..words / PHRASE_WORDS).map(phrase).collect();
    phrases.join(" ").into_bytes()
}

/// A table with the name x alone.
pub fn name_of_x() -> Vec<u8> {
    let word = b"x".to_vec();
    let [family, code, class] = [1, b'x', 0];
    name_table(&[NameParts {
        word,
        family,
        code,
        class,
    }])
}

pub fn formula(names: &[u8], text: &[u8]) -> Vec<u8> {
    let mut formula = vec![0; MOST_BYTES * text.len()];
    let answer = eqn::read(names, text, &mut formula);
    assert_eq!(answer.number, 0, "the text is read");
    formula.truncate(answer.bytes as usize);
    formula
}

impl Timed for Typed {
    fn run(&mut self, setter: Setter, turns: usize) {
        let (names, result) = (&self.names, &mut self.result);
        for _ in 0..turns {
            let bytes = black_box(&self.bytes);
            let written = match (setter, self.call) {
                (Setter::Library, Call::Read) => torfianka::eqn::read(names, bytes, result).ok(),
                (Setter::Library, Call::Write) => torfianka::eqn::write(names, bytes, result).ok(),
                (Setter::Reference, Call::Read) => accepted(eqn::read(names, bytes, result)),
                (Setter::Reference, Call::Write) => accepted(eqn::write(names, bytes, result)),
            };
            assert_eq!(written, Some(result.len()), "all of it is converted");
        }
    }

    /// Calls.
    fn done_in(&self, turns: usize) -> f64 {
        turns as f64
    }
}

fn accepted(answer: Converted) -> Option<usize> {
    (answer.number == 0).then_some(answer.bytes as usize)
}
