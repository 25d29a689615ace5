//! Long formulas, long lists, and lists with a length of four bytes (request 8).

mod bench;

use bench::*;
use reference::compose::*;

/// The longest list with a length of two bytes.
const SHORT: usize = 65_535;
const LONGEST: usize = 131_072;
/// Where the nucleus of an atom stands, and its items behind a short opening.
const NUCLEUS: u64 = 4;
const ITEMS: u64 = 7;

/// Exactly so many bytes of items that set nothing.
fn filling(bytes: usize) -> Vec<u8> {
    let atoms = atom(0, 0, [EMPTY; 3]).repeat(bytes % 3);
    let styles = style(TEXT).repeat((bytes - atoms.len()) / 3);
    [atoms, styles].concat()
}

/// The items in so many lists, each the nucleus of an atom.
fn nested(levels: usize, items: &[u8]) -> Vec<u8> {
    (0..levels).fold(items.to_vec(), |items, _| ord(&list(&items)))
}

#[test]
fn the_longest_formula() {
    let longest = [filling(LONGEST - 9), ord(&A)].concat();
    assert_eq!(longest.len(), LONGEST);
    assert_eq!(outcome(TEXT, &longest).sizes, [500, 430, 0]);
    let longer = [filling(LONGEST - 8), ord(&A)].concat();
    assert_eq!(refusal(TEXT, &longer), (3, 0));
}

#[test]
fn two_bytes_hold_lengths_to_65_535() {
    let held = ord(&list(&filling(SHORT)));
    assert_eq!(held[4..7], [2, 255, 255]);
    assert_eq!(outcome(TEXT, &held).sizes, [0, 0, 0]);
    let in_four = ord(&long_list(SHORT as u32, &filling(SHORT)));
    assert_eq!(refusal(TEXT, &in_four), (3, 0));
}

#[test]
fn four_bytes_hold_longer_ones() {
    let held = ord(&list(&filling(SHORT + 1)));
    assert_eq!(held[4..9], [3, 0, 0, 1, 0]);
    assert_eq!(outcome(TEXT, &held).sizes, [0, 0, 0]);
    let all = ord(&list(&filling(LONGEST - 11)));
    assert_eq!(all.len(), LONGEST);
    assert_eq!(outcome(TEXT, &all).sizes, [0, 0, 0]);
}

#[test]
fn kinds_of_any_place() {
    let long = list(&[filling(SHORT), ord(&A)].concat());
    let (none, blank) = (list(&[]), 157_286);
    let width = |item: &[u8]| outcome(DISPLAY, item).sizes[0];
    assert_eq!(width(&ord(&long)), 500);
    assert_eq!(width(&fraction(0, EMPTY, &long)), 500 + blank);
    assert_eq!(width(&choice([&long, &none, &none, &none])), 500);
    let sides = [[(0, 0); 2]; 2];
    assert_eq!(width(&fence(sides, [&long, EMPTY, EMPTY])), 500 + blank);
}

#[test]
fn the_depth_comes_before_the_length() {
    for field in [
        &[3][..],
        &[3, 0, 0],
        &long_list(0, &[]),
        &long_list(1 << 20, &[]),
    ] {
        let deep = nested(31, &ord(field));
        assert_eq!(refusal(TEXT, &deep), (4, 31 * ITEMS + NUCLEUS));
        let less_deep = nested(30, &ord(field));
        assert_eq!(refusal(TEXT, &less_deep), (3, 30 * ITEMS));
    }
}

#[test]
fn the_length_comes_before_the_contents() {
    let short = [ord(&A), ord(&long_list(2, b"zz"))].concat();
    assert_eq!(refusal(TEXT, &short), (3, 9));
    let items = [b"zz", &filling(SHORT)[..]].concat();
    let past_the_end = long_list(items.len() as u32 + 3, &items);
    assert_eq!(refusal(TEXT, &ord(&past_the_end)), (3, 0));
    assert_eq!(refusal(TEXT, &ord(&list(&items))), (3, 9));
}

#[test]
fn places_count_the_longer_opening() {
    let absent = [filling(SHORT), ord(&symbol(1, 98))].concat();
    let inner = SHORT as u64 + NUCLEUS;
    assert_eq!(refusal(TEXT, &ord(&list(&absent))), (5, 9 + inner));
    let none = list(&[]);
    let taken = choice([&none, &list(&absent), &none, &none]);
    assert_eq!(refusal(TEXT, &taken), (5, 2 + 3 + 5 + inner));
}

#[test]
fn other_kinds_are_none() {
    for kind in 4..=255 {
        assert_eq!(refusal(TEXT, &ord(&[kind, 0, 0, 1, 0])), (3, 0));
    }
}
