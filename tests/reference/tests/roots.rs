//! Roots and chains of successors, worked by hand.

mod bench;

use bench::*;
use reference::compose::*;
use reference::measure;

const CRAMPED_DISPLAY: u8 = 1;
const SCRIPTSCRIPT: u8 = 6;

const NONE: (u8, u8) = (0, 0);
/// The blank where nothing is found.
const BLANK: i32 = 78_643;

/// Signs that are 100, 600 and 1400 tall, each the successor of the one before.
const SMALL: (u8, u8) = (4, 1);
/// Signs that are 1000 and 3000 tall.
const LARGE: (u8, u8) = (5, 1);

/// The bench table with signs of text size.
fn table() -> Vec<u8> {
    table_with(&[
        character(0, 4, 1, Some(2), [100, 40, 60, 7]),
        character(0, 4, 2, Some(3), [200, 50, 550, 0]),
        character(0, 4, 3, None, [300, 60, 1340, 0]),
        character(0, 5, 1, Some(2), [400, 45, 955, 0]),
        character(0, 5, 2, None, [500, 45, 2955, 0]),
    ])
}

fn bare_root(sign: [(u8, u8); 2], nucleus: &[u8]) -> Vec<u8> {
    root(sign, [nucleus, EMPTY, EMPTY])
}

fn small_root(nucleus: &[u8]) -> Vec<u8> {
    bare_root([SMALL, NONE], nucleus)
}

/// The size, family and code of a glyph.
fn glyph(outcome: &Outcome, node: usize) -> [u8; 3] {
    let bytes = &outcome.nodes[node];
    assert_eq!(&bytes[..2], b"GL");
    [bytes[10], bytes[11], bytes[12]]
}

/// The width and thickness of a rule.
fn rule(outcome: &Outcome, node: usize) -> [u32; 2] {
    let bytes = &outcome.nodes[node];
    assert_eq!(&bytes[..2], b"RU");
    [10, 14].map(|at| u32::from_le_bytes(bytes[at..at + 4].try_into().unwrap()))
}

#[test]
fn bytes_of_a_root() {
    let item = root([(4, 1), (5, 2)], [&A, EMPTY, EMPTY]);
    assert_eq!(item, *b"RD\x04\x01\x05\x02\x01\x01a\x00\x00");
}

#[test]
fn a_root_in_text() {
    let set = outcome_over(&table(), TEXT, &small_root(&A));
    assert_eq!(set.sizes, [700, 615, 35]);
    assert_eq!(set.places(), [(0, 515), (200, 515), (200, 0)]);
    assert_eq!(glyph(&set, 0), [0, 4, 2]);
    assert_eq!(rule(&set, 1), [500, 50]);
    assert_eq!(glyph(&set, 2), [0, 1, 97]);
}

#[test]
fn a_root_in_display() {
    for style in [DISPLAY, CRAMPED_DISPLAY] {
        let set = outcome_over(&table(), style, &small_root(&A));
        assert_eq!(set.sizes, [800, 1079, 381]);
        assert_eq!(set.places(), [(0, 959), (300, 959), (300, 0)]);
        assert_eq!(glyph(&set, 0), [0, 4, 3]);
        assert_eq!(rule(&set, 1), [500, 60]);
    }
}

#[test]
fn italic_corrections_are_in_the_widths() {
    let of_f = outcome_over(&table(), TEXT, &small_root(&F));
    assert_eq!(of_f.sizes, [900, 1065, 395]);
    assert_eq!(rule(&of_f, 1), [600, 60]);
    let of_nothing = outcome_over(&table(), TEXT, &small_root(EMPTY));
    assert_eq!(of_nothing.sizes, [107, 135, 5]);
    assert_eq!(of_nothing.places(), [(0, 55), (107, 55)]);
}

#[test]
fn scripts_of_a_root() {
    let set = outcome_over(&table(), TEXT, &root([SMALL, NONE], [&F, &A, &A]));
    assert_eq!(set.sizes, [34_168, 1115, 445]);
    assert_eq!(set.places()[2..], [(300, 0), (900, 685), (900, -445)]);
}

#[test]
fn the_nucleus_is_cramped_the_scripts_are_not() {
    let raised = atom(0, 0, [&A, &A, EMPTY]);
    let formula = root([LARGE, NONE], [&list(&raised), &list(&raised), EMPTY]);
    let set = outcome_over(&table(), TEXT, &formula);
    let places = set.places();
    assert_eq!(places[3].1, 290);
    assert_eq!(places[5].1 - places[4].1, 370);
}

#[test]
fn a_root_is_an_ord() {
    let formula = [ord(&A), plus(), small_root(&A), equals()].concat();
    let set = outcome_over(&table(), TEXT, &formula);
    assert_eq!(set.sizes[0], 500 + 220 + 780 + 220 + 700 + 275 + 780);
}

#[test]
fn a_nucleus_of_negative_width() {
    let set = outcome_over(&table(), TEXT, &small_root(&list(&kern(-1000))));
    assert_eq!(set.sizes, [-893, 135, 5]);
    assert_eq!(set.places(), [(0, 55), (107, 55)]);
    assert_eq!(rule(&set, 1), [0, 40]);
}

#[test]
fn the_large_symbol_comes_after_all_small_ones() {
    let code = |sign, nucleus: &[u8]| {
        let set = outcome_over(&table(), TEXT, &bare_root(sign, nucleus));
        glyph(&set, 0)
    };
    assert_eq!(code([SMALL, LARGE], &F), [0, 4, 3]);
    assert_eq!(code([LARGE, SMALL], &F), [0, 5, 1]);
    let stack = list(&underline([
        &list(&underline([&F, EMPTY, EMPTY])),
        EMPTY,
        EMPTY,
    ]));
    assert_eq!(code([SMALL, LARGE], &stack), [0, 4, 3]);
    let taller = list(&underline([&stack, EMPTY, EMPTY]));
    assert_eq!(code([SMALL, LARGE], &taller), [0, 5, 2]);
}

#[test]
fn just_enough_suffices() {
    let table = table_with(&[
        character(0, 6, 1, Some(9), [10, 20, 500, 0]),
        character(0, 6, 2, Some(9), [10, 20, 499, 0]),
        character(0, 6, 9, None, [10, 0, 5000, 0]),
    ]);
    let code = |code| {
        let formula = bare_root([(6, code), NONE], &A);
        glyph(&outcome_over(&table, TEXT, &formula), 0)[2]
    };
    assert_eq!([code(1), code(2)], [1, 9]);
}

#[test]
fn the_first_of_the_tallest() {
    let table = table_with(&[
        character(0, 6, 1, Some(7), [11, 0, 300, 0]),
        character(0, 6, 5, None, [15, 0, 400, 0]),
        character(0, 6, 6, Some(5), [16, 100, 300, 0]),
        character(0, 6, 7, Some(6), [17, 0, 400, 0]),
    ]);
    for sign in [[(6, 1), NONE], [NONE, (6, 1)], [(6, 1), (6, 5)]] {
        let set = outcome_over(&table, TEXT, &bare_root(sign, &A));
        assert_eq!(glyph(&set, 0), [0, 6, 7]);
        assert_eq!(set.places(), [(0, 480), (17, 480), (17, 0)]);
        assert_eq!(rule(&set, 1), [500, 0]);
        assert_eq!(set.sizes, [517, 480, 0]);
    }
    let other_first = bare_root([(6, 5), (6, 1)], &A);
    assert_eq!(
        glyph(&outcome_over(&table, TEXT, &other_first), 0),
        [0, 6, 5]
    );
}

#[test]
fn sizes_from_the_current_one_up() {
    let table = table_with(&[
        character(0, 6, 1, Some(3), [10, 0, 700, 0]),
        character(1, 6, 1, Some(2), [20, 0, 100, 0]),
        character(2, 6, 1, None, [30, 0, 200, 0]),
        character(0, 6, 4, None, [40, 0, 900, 0]),
        character(1, 6, 4, None, [50, 0, 800, 0]),
        character(2, 6, 5, None, [60, 0, 600, 0]),
    ]);
    let found = |style, sign| {
        let set = outcome_over(&table, style, &bare_root(sign, &A));
        glyph(&set, 0)
    };
    for style in [TEXT, SCRIPT, SCRIPTSCRIPT] {
        assert_eq!(found(style, [(6, 1), (6, 4)]), [0, 6, 1]);
    }
    assert_eq!(found(TEXT, [(6, 4), NONE]), [0, 6, 4]);
    assert_eq!(found(SCRIPT, [(6, 4), NONE]), [1, 6, 4]);
    assert_eq!(found(SCRIPTSCRIPT, [(6, 4), NONE]), [1, 6, 4]);
    assert_eq!(found(SCRIPTSCRIPT, [NONE, (6, 5)]), [2, 6, 5]);
    assert_eq!(found(SCRIPT, [(6, 5), (6, 4)]), [1, 6, 4]);
}

#[test]
fn nothing_found_is_a_blank() {
    for sign in [[NONE, NONE], [(9, 9), (0, 1)], [NONE, (15, 255)]] {
        let set = outcome_over(&table(), TEXT, &bare_root(sign, &A));
        assert_eq!(set.sizes, [i64::from(BLANK) + 500, 480, 0]);
        assert_eq!(set.places(), [(BLANK, 480), (BLANK, 0)]);
        assert_eq!(rule(&set, 0), [500, 0]);
    }
}

#[test]
fn two_zeros_are_no_symbol() {
    let table = table_with(&[
        character(0, 0, 0, None, [1, 0, 5000, 0]),
        character(0, 0, 1, None, [2, 0, 5000, 0]),
        character(0, 1, 0, None, [3, 0, 5000, 0]),
    ]);
    let width = |sign| outcome_over(&table, TEXT, &bare_root(sign, EMPTY)).sizes[0];
    assert_eq!(width([NONE, NONE]), BLANK.into());
    assert_eq!(width([NONE, (0, 1)]), 2);
    assert_eq!(width([(1, 0), NONE]), 3);
}

#[test]
fn a_sign_without_height_or_depth_is_found() {
    let table = table_with(&[character(0, 6, 1, None, [9, 0, 0, 0])]);
    let set = outcome_over(&table, TEXT, &bare_root([(6, 1), NONE], &A));
    assert_eq!(set.sizes, [509, 480, 0]);
    assert_eq!(set.places().len(), 3);
}

#[test]
fn faults_of_a_root() {
    for sign in [[(16, 1), NONE], [SMALL, (16, 0)], [NONE, (255, 255)]] {
        let formula = [ord(&A), bare_root(sign, &list(b"zz"))].concat();
        assert_eq!(refusal(TEXT, &formula), (3, 9));
    }
    let whole = root([SMALL, LARGE], [&A, &A, &A]);
    for length in 1..whole.len() {
        assert_eq!(refusal(TEXT, &whole[..length]), (3, 0));
    }
    assert_eq!(refusal(TEXT, &small_root(&list(b"zz"))), (3, 9));
}

#[test]
fn only_signs_may_be_absent() {
    let absent = symbol(1, 98);
    let with = |fields| refusal(TEXT, &root([(9, 9), (9, 8)], fields));
    assert_eq!(with([&absent, &absent, &absent]), (5, 6));
    assert_eq!(with([EMPTY, &absent, &absent]), (5, 7));
    assert_eq!(with([EMPTY, EMPTY, &absent]), (5, 8));
}

#[test]
fn a_root_past_the_size_limit() {
    let far = [kern(8_388_607).repeat(128), kern(127)].concat();
    let back = kern(-100_000);
    let blank_root = bare_root([NONE, NONE], EMPTY);
    let rule_past = [&far[..], &blank_root, &back].concat();
    assert_eq!(refusal(TEXT, &rule_past), (6, 0));
    let within = [&far[..], &back, &blank_root].concat();
    assert_eq!(outcome(TEXT, &within).sizes[0], 1_073_720_466);
}

#[test]
fn a_list_in_a_root_is_one_deeper() {
    let nested = |levels| {
        (0..levels).fold(Vec::new(), |items: Vec<u8>, _| {
            bare_root([NONE, NONE], &list(&items))
        })
    };
    assert_eq!(outcome(TEXT, &nested(31)).nodes.len(), 31);
    assert_eq!(refusal(TEXT, &nested(32)), (4, 9 * 31 + 6));
}

/// Characters of one size and family whose codes go up by one to the end.
fn chain(size: u8, codes: std::ops::RangeInclusive<u8>, last: Option<u8>) -> Vec<CharacterParts> {
    let next = |code| {
        if code == *codes.end() {
            last
        } else {
            Some(code + 1)
        }
    };
    let of = |code| character(size, 7, code, next(code), [1, 0, 100 * u32::from(code), 0]);
    codes.clone().map(of).collect()
}

fn number(characters: &[CharacterParts]) -> u8 {
    measure(TEXT, &table_with(characters), &[], &[]).number
}

#[test]
fn sixteen_steps_at_most() {
    for size in 0..3 {
        assert_eq!(number(&chain(size, 1..=17, None)), 0);
        assert_eq!(number(&chain(size, 1..=18, None)), 2);
        assert_eq!(number(&chain(size, 1..=255, None)), 2);
    }
}

#[test]
fn only_steps_to_symbols_present_count() {
    assert_eq!(number(&chain(0, 1..=17, Some(200))), 0);
    let mut broken = chain(0, 1..=30, None);
    broken.remove(15);
    assert_eq!(number(&broken), 0);
    let two = [chain(0, 1..=17, Some(20)), chain(1, 20..=36, Some(1))].concat();
    assert_eq!(number(&two), 0);
}

#[test]
fn a_ring_is_too_long() {
    assert_eq!(number(&chain(0, 1..=1, Some(1))), 2);
    assert_eq!(number(&chain(2, 1..=2, Some(1))), 2);
    assert_eq!(number(&chain(1, 1..=17, Some(9))), 2);
}

#[test]
fn all_sixteen_steps_are_searched() {
    let table = table_with(&chain(0, 1..=17, None));
    let tall = [kern(0), underline([&F, EMPTY, EMPTY]).repeat(2)].concat();
    let found = |sign, nucleus: &[u8]| {
        let set = outcome_over(&table, TEXT, &bare_root([sign, NONE], nucleus));
        glyph(&set, 0)[2]
    };
    assert_eq!(found((7, 1), &A), 6);
    assert_eq!(found((7, 1), &list(&tall)), 12);
    let taller = (0..3).fold(tall, |inner, _| underline([&list(&inner), EMPTY, EMPTY]));
    assert_eq!(found((7, 1), &list(&taller)), 17);
    assert_eq!(found((7, 9), &A), 9);
}
