//! The names for the symbols of Computer Modern, and the examples typed with
//! them.

use reference::eqn::{read, MOST_BYTES};
use reference::{measure, printed, set, NODE_BYTES};

const NAMES: &[u8] = include_bytes!("../../../data/cm.names");
const TABLE: &[u8] = include_bytes!("../../../data/cm.tab");
const DISPLAY: u8 = 0;
const TEXT: u8 = 2;
/// Display, text, script and scriptscript.
const STYLES: [u8; 4] = [DISPLAY, TEXT, 4, 6];

fn typed(text: &str) -> Vec<u8> {
    let mut formula = vec![0; MOST_BYTES * text.len()];
    let answer = read(NAMES, text.as_bytes(), &mut formula);
    assert_eq!((answer.number, answer.place), (0, 0), "{text}");
    formula.truncate(answer.bytes as usize);
    formula
}

fn words() -> Vec<&'static str> {
    let mut words = Vec::new();
    let mut rest = NAMES;
    while let Some((&length, behind)) = rest.split_first() {
        let (word, symbol) = behind.split_at(usize::from(length));
        words.push(std::str::from_utf8(word).unwrap());
        rest = &symbol[3..];
    }
    words
}

#[test]
fn every_name_stands_for_a_symbol_of_each_size() {
    assert_eq!(words().len(), 347);
    for word in words() {
        let formula = typed(word);
        for style in STYLES {
            assert_eq!(measure(style, TABLE, &[], &formula).number, 0, "{word}");
        }
    }
}

#[test]
fn what_a_job_sheet_needs_has_names() {
    let letters = ('a'..='z').chain('A'..='Z').chain('0'..='9');
    for letter in letters {
        typed(&letter.to_string());
    }
    typed("+ - = < > ( ) [ ] , . / times cdot +- pm sum int prod inf infinity infty");
    typed("alpha beta gamma delta epsilon zeta eta theta iota kappa lambda mu nu xi");
    typed("omicron pi rho sigma tau upsilon phi chi psi omega GAMMA Delta Omega");
}

/// An example's text, and what its callers print.
macro_rules! example {
    ($name:literal, $style:literal) => {
        [
            include_str!(concat!("../../../examples/", $name, ".", $style, ".eqn")),
            include_str!(concat!("../../../examples/out/", $name, ".txt")),
        ]
    };
}

#[test]
fn typed_examples_are_set_as_printed() {
    let examples = [
        (DISPLAY, example!("residual-mass", "display")),
        (TEXT, example!("sampling-rate", "text")),
        (DISPLAY, example!("sum", "display")),
        (TEXT, example!("unbalance", "text")),
    ];
    for (style, [text, out]) in examples {
        let formula = typed(text);
        let count = measure(style, TABLE, &[], &formula).count as usize;
        let mut nodes = vec![0; NODE_BYTES * count];
        let answer = set(style, TABLE, &[], &formula, &mut nodes);
        assert_eq!(printed(&answer, &nodes), out, "{text}");
    }
}
