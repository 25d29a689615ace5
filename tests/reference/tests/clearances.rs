//! What a page keeps clear, and that a page which does not is told.

mod bench;

use bench::*;
use reference::clearances::{bands, fault, Band, Page};
use reference::compose::*;
use reference::NODE_BYTES;

/// 10 high and 3000 deep: a sign for any root here.
const SIGN: (u8, u8) = (4, 7);
const NONE: (u8, u8) = (0, 0);

fn table() -> Vec<u8> {
    table_with(&[character(0, 4, 7, None, [300, 10, 3000, 0])])
}

/// A page of the bench table with one sign.
struct Set {
    style: u8,
    formula: Vec<u8>,
    outcome: Outcome,
}

impl Set {
    fn of(style: u8, formula: &[u8]) -> Set {
        Set {
            style,
            formula: formula.to_vec(),
            outcome: outcome_over(&table(), style, formula),
        }
    }

    /// What a judge says of the page as it is now.
    fn judged<T>(&self, judge: fn(&Page) -> T) -> T {
        let [_, height, depth] = self.outcome.sizes;
        judge(&Page {
            style: self.style,
            table: &table(),
            client: &[],
            formula: &self.formula,
            nodes: self.outcome.nodes.as_flattened(),
            height,
            depth,
        })
    }

    fn fault(&self) -> Option<&'static str> {
        self.judged(fault)
    }

    /// The fault once a node is raised.
    fn raised(mut self, node: usize, by: i32) -> Option<&'static str> {
        let bytes: &mut [u8; NODE_BYTES] = &mut self.outcome.nodes[node];
        let y = i32::from_le_bytes(bytes[6..10].try_into().unwrap()) + by;
        bytes[6..10].copy_from_slice(&y.to_le_bytes());
        self.fault()
    }
}

fn pair() -> Vec<u8> {
    atom(0, 0, [&F, &A, &A])
}

fn over(bar: u8) -> Vec<u8> {
    fraction(bar, &A, &A)
}

fn within_a_list(items: &[u8]) -> Vec<u8> {
    atom(0, 0, [&list(items), EMPTY, EMPTY])
}

#[test]
fn worked_pages_are_clear() {
    let root = root([SIGN, NONE], [&list(&over(0)), &A, &A]);
    let fenced = fence([[SIGN, NONE]; 2], [&list(&root), &A, &A]);
    let formulas = [
        pair(),
        over(0),
        over(1),
        within_a_list(&pair()),
        atom(0, 0, [&A, &list(&over(0)), EMPTY]),
        atom(0, 0, [&A, &list(&[]), &A]),
        overline([&F, &A, &A]),
        underline([&F, &A, &A]),
        atom(1, 1, [&SUM, &A, &F]),
        fenced,
    ];
    for formula in formulas {
        for style in 0..8 {
            assert_eq!(Set::of(style, &formula).fault(), None);
        }
    }
}

#[test]
fn a_gap_of_four_rules_and_no_less() {
    // In T' the gap is four rules to the point.
    let set = || Set::of(CRAMPED_TEXT, &within_a_list(&pair()));
    assert_eq!(set().fault(), None);
    let told = Some("less than four rules between two scripts");
    assert_eq!(set().raised(1, -1), told);
    assert_eq!(set().raised(2, 1), told);
}

#[test]
fn a_bar_between_its_parts() {
    // The numerator stands as its own rules have it, 110 above the bar.
    let set = || Set::of(TEXT, &over(0));
    assert_eq!(set().raised(0, -90), None);
    assert_eq!(
        set().raised(0, -91),
        Some("a bar too near to its numerator")
    );
    assert_eq!(set().raised(2, 110), None);
    assert_eq!(
        set().raised(2, 111),
        Some("a bar too near to its denominator")
    );
    assert_eq!(set().raised(1, 1), Some("a bar off its axis"));
    assert_eq!(set().raised(1, -1), Some("a bar off its axis"));
}

#[test]
fn the_axis_moves_with_its_fraction() {
    let raised = atom(0, 0, [&A, &list(&over(0)), EMPTY]);
    assert_eq!(Set::of(TEXT, &raised).fault(), None);
    assert_eq!(
        Set::of(TEXT, &raised).raised(2, 1),
        Some("a bar off its axis")
    );
}

#[test]
fn parts_without_a_bar() {
    let set = || Set::of(TEXT, &over(1));
    assert_eq!(set().raised(0, -250), None);
    assert_eq!(
        set().raised(0, -251),
        Some("a fraction's parts too near to each other")
    );
}

#[test]
fn ink_stays_within_the_sizes() {
    let told = Some("ink outside of the reported height and depth");
    assert_eq!(Set::of(TEXT, &ord(&F)).raised(0, 1), told);
    assert_eq!(Set::of(TEXT, &ord(&F)).raised(0, -1), told);
}

#[test]
fn a_glyph_has_a_symbol() {
    let mut set = Set::of(TEXT, &ord(&F));
    set.outcome.nodes[0][12] = 1;
    assert_eq!(
        set.fault(),
        Some("a glyph on the page is no symbol of the tables")
    );
}

#[test]
fn bands_of_a_pair_and_of_a_fraction() {
    let band = |x, y, width, height| Band {
        x,
        y,
        width,
        height,
    };
    // P9: the subscript's top is 184 above the baseline, the superscript's bottom 344.
    let pair = Set::of(CRAMPED_TEXT, &pair()).judged(bands);
    assert_eq!(pair, [band(490, 184, 610, 160)]);
    let fraction = Set::of(TEXT, &over(0)).judged(bands);
    let above = band(78_643, 270, 500, 40);
    assert_eq!(fraction, [above, band(78_643, 190, 500, 40)]);
}
