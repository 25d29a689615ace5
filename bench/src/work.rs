//! Formulas to set in a font, by either setter.

use crate::formulas::FRACTION_AND_KERN_BYTES;
use crate::tables::Font;
use reference::{Lent, INDEX_WORDS, NODE_BYTES};
use std::hint::black_box;

pub const DISPLAY: u8 = 0;

#[derive(Clone, Copy, Debug)]
pub enum Call {
    Measure,
    Set,
    /// Of the fraction that stands before the kern at a formula's end.
    Why,
}

#[derive(Clone, Copy)]
pub enum Setter {
    Library,
    Reference,
}

impl Setter {
    pub const BOTH: [Setter; 2] = [Setter::Library, Setter::Reference];

    pub fn name(self) -> &'static str {
        match self {
            Setter::Library => "library",
            Setter::Reference => "reference",
        }
    }

    pub fn named(name: &str) -> Option<Setter> {
        Setter::BOTH
            .into_iter()
            .find(|setter| setter.name() == name)
    }
}

/// A font as each setter keeps it, with indexes of its own.
struct Kept {
    library: torfianka::Font<'static>,
    reference: (&'static Font, [[u64; INDEX_WORDS]; 2]),
}

impl Kept {
    fn new(font: &'static Font) -> Kept {
        Kept {
            library: torfianka::Font::with_client(font.table, font.client),
            reference: (font, [[0; INDEX_WORDS]; 2]),
        }
    }

    /// The number of the formula's nodes, or 0 of one that is asked about; none if
    /// it is refused.
    fn call(
        &mut self,
        setter: Setter,
        call: Call,
        formula: &[u8],
        nodes: &mut [u8],
    ) -> Option<usize> {
        match setter {
            Setter::Library => self.by_library(call, formula, nodes),
            Setter::Reference => self.by_reference(call, formula, nodes),
        }
    }

    fn by_library(&mut self, call: Call, formula: &[u8], nodes: &mut [u8]) -> Option<usize> {
        let font = &mut self.library;
        let answer = match call {
            Call::Measure => torfianka::measure(DISPLAY, font, formula),
            Call::Set => torfianka::set(DISPLAY, font, formula, nodes),
            Call::Why => {
                let place = formula.len() - FRACTION_AND_KERN_BYTES;
                return torfianka::why(DISPLAY, font, formula, place)
                    .ok()
                    .map(|_| 0);
            }
        };
        answer.ok().map(|measured| measured.count)
    }

    fn by_reference(&mut self, call: Call, formula: &[u8], nodes: &mut [u8]) -> Option<usize> {
        let (Font { table, client, .. }, [index, client_index]) = &mut self.reference;
        let lent = Lent {
            index,
            client_index,
        };
        let answer = match call {
            Call::Measure => reference::measure_lent(DISPLAY, table, client, formula, lent),
            Call::Set => reference::set_lent(DISPLAY, table, client, formula, nodes, lent),
            Call::Why => {
                let place = formula.len() - FRACTION_AND_KERN_BYTES;
                let reasons = reference::why_lent(DISPLAY, table, client, formula, place, lent);
                return (reasons.number == 0).then_some(0);
            }
        };
        (answer.number == 0).then_some(answer.count as usize)
    }
}

pub struct Work {
    pub name: String,
    call: Call,
    font: Kept,
    formulas: Vec<Vec<u8>>,
    nodes: Vec<u8>,
}

impl Work {
    pub fn new(
        name: impl Into<String>,
        call: Call,
        font: &'static Font,
        formulas: Vec<Vec<u8>>,
    ) -> Work {
        Work {
            name: name.into(),
            call,
            font: Kept::new(font),
            nodes: vec![0; room(font, &formulas)],
            formulas,
        }
    }

    /// How many formulas there are in so many turns.
    pub fn formulas_in(&self, turns: usize) -> f64 {
        (turns * self.formulas.len()) as f64
    }

    /// Every turn calls the setter once for each formula.
    pub fn run(&mut self, setter: Setter, turns: usize) {
        let (font, nodes) = (black_box(&mut self.font), &mut self.nodes);
        for _ in 0..turns {
            for formula in &self.formulas {
                black_box(font.call(setter, self.call, black_box(formula), nodes));
            }
        }
    }
}

/// The bytes of each formula's nodes at most, after a look that both setters
/// accept it.
pub fn room(font: &'static Font, formulas: &[Vec<u8>]) -> usize {
    let mut font = Kept::new(font);
    let counts = formulas.iter().map(|formula| {
        let [library, reference] =
            Setter::BOTH.map(|setter| font.call(setter, Call::Measure, formula, &mut []));
        assert_eq!(library, reference, "both setters count the same nodes");
        library.expect("the formulas are accepted")
    });
    NODE_BYTES * counts.max().unwrap_or(0)
}
