//! The examples of the papers.

mod bench;

use bench::*;
use reference::compose::*;
use reference::{dvi, measure, set, NODE_BYTES};

#[test]
fn p1_empty_formula() {
    let outcome = outcome(TEXT, &[]);
    assert_eq!(outcome.sizes, [0, 0, 0]);
    assert!(outcome.nodes.is_empty());
}

#[test]
fn p2_one_symbol() {
    assert_eq!(outcome(TEXT, &ord(&F)).sizes, [600, 700, 200]);
}

#[test]
fn p3_binary_in_text() {
    let outcome = outcome(TEXT, &a_plus_a());
    assert_eq!(outcome.sizes[0], 2220);
    assert_eq!(outcome.places(), [(0, 0), (720, 0), (1720, 0)]);
}

#[test]
fn p4_binary_in_script() {
    assert_eq!(outcome(SCRIPT, &a_plus_a()).sizes[0], 1780);
}

#[test]
fn p5_binary_at_the_front() {
    let formula = [plus(), ord(&A)].concat();
    assert_eq!(outcome(TEXT, &formula).sizes[0], 1280);
}

#[test]
fn p6_binary_before_relation() {
    let formula = [ord(&A), plus(), equals(), ord(&A)].concat();
    assert_eq!(outcome(TEXT, &formula).sizes[0], 3110);
}

#[test]
fn p7_superscript() {
    let formula = atom(0, 0, [&A, &A, EMPTY]);
    assert_eq!(outcome(TEXT, &formula).places()[1].1, 370);
    assert_eq!(outcome(CRAMPED_TEXT, &formula).places()[1].1, 290);
}

#[test]
fn p8_both_scripts() {
    let outcome = outcome(TEXT, &atom(0, 0, [&F, &A, &A]));
    assert_eq!(outcome.places()[1..], [(600, 370), (490, -250)]);
    assert_eq!(outcome.sizes, [33_868, 800, 250]);
}

#[test]
fn p9_both_scripts_cramped() {
    let places = outcome(CRAMPED_TEXT, &atom(0, 0, [&F, &A, &A])).places();
    assert_eq!((places[1].1, places[2].1), (344, -246));
}

#[test]
fn p10_fraction() {
    let outcome = outcome(TEXT, &fraction(0, &A, &A));
    assert_eq!(
        outcome.places(),
        [(78_643, 400), (78_643, 230), (78_643, -350)]
    );
    assert_eq!(outcome.nodes[1][10..14], 500u32.to_le_bytes());
    assert_eq!(outcome.sizes, [157_786, 830, 350]);
}

#[test]
fn p11_fraction_without_bar() {
    let outcome = outcome(TEXT, &fraction(1, &A, &A));
    assert_eq!(outcome.places(), [(78_643, 450), (78_643, -350)]);
    assert_eq!(outcome.sizes[0], 157_786);
}

#[test]
fn p12_limits() {
    let outcome = outcome(DISPLAY, &atom(1, 0, [&SUM, EMPTY, &A]));
    assert_eq!(outcome.nodes[0][12], 88);
    assert_eq!(outcome.places(), [(0, 950), (450, -1050)]);
    assert_eq!(outcome.sizes, [1400, 950, 1150]);
}

#[test]
fn underline_with_its_bytes() {
    let formula = underline([&A, EMPTY, EMPTY]);
    assert_eq!(formula, [0x55, 0x4E, 1, 1, 0x61, 0, 0]);
    let outcome = outcome(TEXT, &formula);
    assert_eq!(outcome.sizes, [500, 430, 200]);
    assert_eq!(
        outcome.nodes.concat(),
        [
            0x47, 0x4C, 0, 0, 0, 0, 0, 0, 0, 0, 0, 1, 0x61, 0, 0, 0, 0, 0, //
            0x52, 0x55, 0, 0, 0, 0, 0x60, 0xFF, 0xFF, 0xFF, 0xF4, 1, 0, 0, 0x28, 0, 0, 0,
        ]
    );
}

#[test]
fn underline_in_print() {
    let formula = underline([&A, EMPTY, EMPTY]);
    let mut nodes = [0; 2 * NODE_BYTES];
    let answer = set(TEXT, &bench_table(), &[], &formula, &mut nodes);
    assert_eq!(
        reference::printed(&answer, &nodes),
        "w 500 h 430 d 200 n 2\nglyph 0 0 0 1 97\nrule 0 -160 500 40\n"
    );
}

#[test]
fn refusal_in_print() {
    let formula = ord(&symbol(1, 98));
    let answer = measure(TEXT, &bench_table(), &[], &formula);
    assert_eq!(reference::printed(&answer, &[]), "refused 5 at 4\n");
}

#[test]
fn refusals_in_order() {
    let table = bench_table();
    let formula = ord(&A);
    let mut short = [7; NODE_BYTES - 1];
    assert_eq!(measure(8, &[], &[0], &[0]).number, 1);
    assert_eq!(measure(TEXT, &[], &[0], &[0]).number, 2);
    assert_eq!(measure(TEXT, &table, &[0], &[0]).number, 8);
    assert_eq!(refusal(TEXT, &[0]), (3, 0));
    assert_eq!(refusal(TEXT, &[0; 131_073]), (3, 0));
    assert_eq!(set(TEXT, &table, &[], &formula, &mut short).number, 7);
    assert_eq!(short, [7; NODE_BYTES - 1]);
}

#[test]
fn an_earlier_fault_inside_comes_first() {
    let inner_fault = [b"AT", &[0, 0, 2, 2, 0][..], b"zz"].concat();
    assert_eq!(refusal(TEXT, &inner_fault), (3, 7));
}

#[test]
fn depth_limit() {
    let nested = |levels| (0..levels).fold(Vec::new(), |items: Vec<u8>, _| ord(&list(&items)));
    assert_eq!(outcome(TEXT, &nested(31)).sizes, [0, 0, 0]);
    assert_eq!(refusal(TEXT, &nested(32)), (4, 221));
}

#[test]
fn size_limit() {
    let long = kern(8_388_607).repeat(128);
    let edge = [long.clone(), kern(127)].concat();
    let past = [long.clone(), kern(128)].concat();
    let back = [past.clone(), kern(-128)].concat();
    assert_eq!(outcome(TEXT, &edge).sizes[0], 1_073_741_823);
    assert_eq!(refusal(TEXT, &past), (6, 0));
    assert_eq!(outcome(TEXT, &back).sizes[0], 1_073_741_696);
    let node_past = [past, ord(&A), kern(-1000)].concat();
    assert_eq!(refusal(TEXT, &node_past), (6, 0));
}

#[test]
fn second_binary_stays_after_a_changed_one() {
    let formula = [plus(), plus(), ord(&A)].concat();
    assert_eq!(
        outcome(TEXT, &formula).sizes[0],
        780 + 220 + 780 + 220 + 500
    );
}

#[test]
fn list_of_length_0_is_a_script() {
    let formula = atom(0, 0, [&F, EMPTY, &list(&[])]);
    assert_eq!(outcome(TEXT, &formula).sizes[0], 490 + 32_768);
}

#[test]
fn wide_gap_leaves_the_superscript() {
    let formula = atom(0, 0, [&A, &A, &list(&[])]);
    assert_eq!(outcome(CRAMPED_TEXT, &formula).places()[1].1, 290);
}

#[test]
fn empty_limits_count_as_width_0() {
    let formula = atom(1, 1, [&list(&kern(-100)), EMPTY, EMPTY]);
    assert_eq!(outcome(TEXT, &formula).sizes[0], 0);
}

#[test]
fn an_underlined_letter_as_the_body_of_a_page() {
    let mut nodes = [0; 2 * NODE_BYTES];
    set(
        TEXT,
        &bench_table(),
        &[],
        &underline([&A, EMPTY, EMPTY]),
        &mut nodes,
    );
    let mut body = [0; 36];
    assert_eq!(dvi::write(&nodes, &mut body).bytes, 36);
    assert_eq!(
        body,
        *b"\xac\x8d\x92\0\0\0\0\xa0\0\0\0\0\x80a\x8e\
           \x8d\x92\0\0\0\0\xa0\0\0\0\xa0\x84\0\0\0\x28\0\0\x01\xf4\x8e"
    );
    let mut back = [0; 2 * NODE_BYTES];
    assert_eq!(dvi::read(&body, &mut back).bytes, 36);
    assert_eq!(back, nodes);
}
