//! Styles within a list and choices by style, worked by hand.

mod bench;

use bench::*;
use reference::compose::*;
use reference::measure;

const SCRIPTSCRIPT: u8 = 6;

/// A choice with the same items for every style.
fn always(items: &[u8]) -> Vec<u8> {
    choice([&list(items); 4])
}

/// A choice with items for one of D, T, S, SS and none for the others.
fn only(taken: usize, items: &[u8]) -> Vec<u8> {
    let (given, none) = (list(items), list(&[]));
    let mut fields = [&none[..]; 4];
    fields[taken] = &given;
    choice(fields)
}

/// Kerns of 1 for D, 2 for T, 3 for S, 4 for SS.
fn told_by_width() -> Vec<u8> {
    let lists = [1, 2, 3, 4].map(|length| list(&kern(length)));
    choice(lists.each_ref().map(Vec::as_slice))
}

/// An a with an a as superscript, which stands at 420 in D, 370 in T and 290
/// in primed styles.
fn raised() -> Vec<u8> {
    atom(0, 0, [&A, &A, EMPTY])
}

fn width(style: u8, items: &[Vec<u8>]) -> i64 {
    outcome(style, &items.concat()).sizes[0]
}

/// The y of every node that is not on the baseline, in T.
fn heights(items: &[Vec<u8>]) -> Vec<i32> {
    let places = outcome(TEXT, &items.concat()).places();
    places
        .iter()
        .map(|place| place.1)
        .filter(|y| *y != 0)
        .collect()
}

#[test]
fn bytes_of_the_items() {
    assert_eq!(style(5), *b"ST\x05");
    assert_eq!(
        only(1, &style(5)),
        *b"C4\x02\x00\x00\x02\x03\x00ST\x05\x02\x00\x00\x02\x00\x00"
    );
}

#[test]
fn neither_sets_anything() {
    for items in [style(DISPLAY), always(&[]), always(&always(&style(TEXT)))] {
        let outcome = outcome(TEXT, &items);
        assert_eq!(outcome.sizes, [0, 0, 0]);
        assert!(outcome.nodes.is_empty());
    }
}

#[test]
fn the_list_of_the_current_style_is_taken() {
    let widths = [0, 1, 2, 3, 4, 5, 6, 7].map(|style| width(style, &[told_by_width()]));
    assert_eq!(widths, [1, 1, 2, 2, 3, 3, 4, 4]);
}

#[test]
fn a_style_before_a_choice_decides_it() {
    let changed = [style(SCRIPT), told_by_width()];
    assert_eq!(width(TEXT, &changed), 3);
    let within = [style(SCRIPTSCRIPT), told_by_width(), style(DISPLAY)].concat();
    assert_eq!(width(TEXT, &[always(&within), told_by_width()]), 4 + 1);
}

#[test]
fn a_style_holds_to_the_end_of_its_list() {
    let inner = ord(&list(
        &[raised(), style(DISPLAY), raised(), raised()].concat(),
    ));
    assert_eq!(heights(&[inner, raised()]), [370, 420, 420, 370]);
    let changed = [style(CRAMPED_TEXT), raised(), style(DISPLAY), raised()];
    assert_eq!(heights(&changed), [290, 420]);
}

#[test]
fn a_style_in_a_choice_holds_behind_it() {
    let display = always(&style(DISPLAY));
    assert_eq!(heights(&[display.clone(), raised()]), [420]);
    let twice = always(&[raised(), display, raised()].concat());
    let inner = ord(&list(&[twice, raised()].concat()));
    assert_eq!(heights(&[inner, raised()]), [370, 420, 420, 370]);
}

#[test]
fn a_style_in_a_list_not_taken_does_nothing() {
    assert_eq!(heights(&[only(0, &style(DISPLAY)), raised()]), [370]);
}

#[test]
fn items_are_set_in_the_style_at_them() {
    let outcome = outcome(TEXT, &[ord(&F), style(SCRIPT), raised()].concat());
    let sizes: Vec<u8> = outcome.nodes.iter().map(|node| node[10]).collect();
    assert_eq!(sizes, [0, 1, 2]);
    assert_eq!(outcome.places(), [(0, 0), (600, 0), (1100, 370)]);
}

#[test]
fn an_operator_grows_behind_display() {
    let sum = plain(1, &SUM);
    let codes = |items: [Vec<u8>; 2]| outcome(TEXT, &items.concat()).nodes[0][12];
    assert_eq!(codes([sum.clone(), style(DISPLAY)]), 80);
    assert_eq!(codes([style(DISPLAY), sum.clone()]), 88);
    assert_eq!(codes([always(&style(DISPLAY)), always(&sum)]), 88);
}

#[test]
fn a_fraction_behind_display() {
    let outcome = outcome(TEXT, &[style(DISPLAY), fraction(0, &A, &A)].concat());
    assert_eq!(
        outcome.places(),
        [(78_643, 700), (78_643, 230), (78_643, -690)]
    );
    assert_eq!(outcome.sizes, [157_786, 1130, 690]);
}

#[test]
fn a_binary_across_edges() {
    let placed = outcome(TEXT, &a_plus_a()).places();
    for items in [
        [ord(&A), always(&plus()), ord(&A)],
        [always(&ord(&A)), plus(), always(&ord(&A))],
        [always(&[ord(&A), plus()].concat()), always(&[]), ord(&A)],
        [ord(&A), always(&[]), always(&[plus(), ord(&A)].concat())],
        [ord(&A), always(&always(&plus())), always(&always(&ord(&A)))],
        [
            always(&[ord(&A), always(&plus())].concat()),
            ord(&A),
            style(TEXT),
        ],
        [
            always(&[ord(&A), plus()].concat()),
            always(&kern(0)),
            ord(&A),
        ],
        [always(&a_plus_a()), style(TEXT), style(DISPLAY)],
    ] {
        assert_eq!(outcome(TEXT, &items.concat()).places(), placed);
    }
}

#[test]
fn a_binary_at_the_ends() {
    let first = [always(&[]), always(&plus()), style(TEXT), ord(&A)];
    assert_eq!(width(TEXT, &first), 1280);
    let last = [ord(&A), always(&plus()), style(TEXT), always(&[])];
    assert_eq!(width(TEXT, &last), 1280);
    let alone = [ord(&list(&always(&plus()))), ord(&A)];
    assert_eq!(width(TEXT, &alone), 1280);
}

#[test]
fn a_binary_before_relation_across_edges() {
    for items in [
        [ord(&A), always(&plus()), equals(), ord(&A)],
        [ord(&A), plus(), always(&equals()), ord(&A)],
        [
            always(&[ord(&A), plus()].concat()),
            style(TEXT),
            equals(),
            ord(&A),
        ],
    ] {
        assert_eq!(width(TEXT, &items), 3110);
    }
}

#[test]
fn what_follows_a_binary_is_what_is_taken() {
    let relation_in_display = [ord(&A), plus(), only(0, &equals()), ord(&A)];
    assert_eq!(width(TEXT, &relation_in_display), 2220);
    assert_eq!(width(DISPLAY, &relation_in_display), 3110);
    let behind_display = [ord(&A), plus(), style(DISPLAY), only(0, &equals()), ord(&A)];
    assert_eq!(width(TEXT, &behind_display), 3110);
    let display_within = always(&[plus(), style(DISPLAY)].concat());
    let behind_choice = [ord(&A), display_within, only(0, &equals()), ord(&A)];
    assert_eq!(width(TEXT, &behind_choice), 3110);
}

#[test]
fn space_is_of_the_style_at_the_right_atom() {
    let in_script = [ord(&A), plus(), style(SCRIPT), ord(&A)].concat();
    assert_eq!(
        outcome(TEXT, &in_script).places(),
        [(0, 0), (720, 0), (1500, 0)]
    );
    let in_text = [
        style(SCRIPT),
        ord(&A),
        plus(),
        always(&style(TEXT)),
        ord(&A),
    ]
    .concat();
    assert_eq!(
        outcome(TEXT, &in_text).places(),
        [(0, 0), (500, 0), (1500, 0)]
    );
}

#[test]
fn a_math_unit_is_of_the_style_at_the_right_atom() {
    const QUAD_IN_SCRIPT: usize = 142 + 2 + 4 * 5;
    let mut table = bench_table();
    table[QUAD_IN_SCRIPT..][..4].copy_from_slice(&1800u32.to_le_bytes());
    let width = |items: [Vec<u8>; 4]| measure(TEXT, &table, &[], &items.concat()).width;
    let (text, script) = (style(TEXT), style(SCRIPT));
    let sum = plain(1, &SUM);
    let into_script = [text.clone(), ord(&A), script.clone(), sum.clone()];
    assert_eq!(width(into_script), 500 + 3 * 100 + 1000);
    let into_text = [script, ord(&A), text, sum];
    assert_eq!(width(into_text), 500 + 3 * 55 + 1000);
}

#[test]
fn numbers_above_7_are_unreadable() {
    assert_eq!(outcome(TEXT, &style(7)).sizes, [0, 0, 0]);
    assert_eq!(refusal(TEXT, &style(8)), (3, 0));
    assert_eq!(refusal(TEXT, &[ord(&A), style(255)].concat()), (3, 9));
    assert_eq!(refusal(TEXT, &always(&style(8))), (3, 5));
    assert_eq!(refusal(TEXT, b"ST"), (3, 0));
}

#[test]
fn each_field_of_a_choice_is_a_list() {
    let none = list(&[]);
    for place in 0..4 {
        for wrong in [EMPTY, &A, &[3, 0, 0]] {
            let mut fields = [&none[..]; 4];
            fields[place] = wrong;
            let formula = [ord(&A), choice(fields)].concat();
            assert_eq!(refusal(TEXT, &formula), (3, 9));
        }
    }
}

#[test]
fn a_choice_cut_short() {
    let whole = always(&ord(&A));
    for length in 1..whole.len() {
        assert_eq!(refusal(TEXT, &whole[..length]), (3, 0));
    }
    let cut = ord(&list(&always(&[])[..13]));
    assert_eq!(refusal(TEXT, &cut), (3, 7));
}

#[test]
fn all_four_lists_are_read() {
    assert_eq!(refusal(TEXT, &only(0, b"zz")), (3, 5));
    assert_eq!(refusal(TEXT, &only(3, b"zz")), (3, 14));
    let inner_fault_first = choice([&list(b"zz"), EMPTY, EMPTY, EMPTY]);
    assert_eq!(refusal(TEXT, &inner_fault_first), (3, 5));
}

/// So many choices, each in the D list of the one around; the items are in
/// the innermost.
fn nested(levels: usize, items: &[u8]) -> Vec<u8> {
    (0..levels).fold(items.to_vec(), |items, _| only(0, &items))
}

#[test]
fn a_choice_is_one_deeper() {
    assert_eq!(outcome(DISPLAY, &nested(31, &ord(&A))).sizes, [500, 430, 0]);
    assert_eq!(refusal(DISPLAY, &nested(32, &[])), (4, 5 * 31 + 2));
    let field_at_32 = nested(30, &ord(&list(&ord(&A))));
    assert_eq!(outcome(DISPLAY, &field_at_32).sizes, [500, 430, 0]);
    let field_at_33 = nested(31, &ord(&list(&[])));
    assert_eq!(refusal(DISPLAY, &field_at_33), (4, 5 * 31 + 4));
}

#[test]
fn the_kind_is_judged_before_the_depth() {
    let none = list(&[]);
    let first_wrong = choice([EMPTY, &none, &none, &none]);
    assert_eq!(refusal(TEXT, &nested(31, &first_wrong)), (3, 5 * 31));
    let second_wrong = choice([&none, &A, &none, &none]);
    assert_eq!(refusal(TEXT, &nested(31, &second_wrong)), (4, 5 * 31 + 2));
}

#[test]
fn symbols_are_missed_only_where_taken() {
    let absent = ord(&symbol(1, 98));
    assert_eq!(refusal(DISPLAY, &only(0, &absent)), (5, 9));
    assert_eq!(outcome(TEXT, &only(0, &absent)).sizes, [0, 0, 0]);
    let behind_display = [style(DISPLAY), only(0, &absent)].concat();
    assert_eq!(refusal(TEXT, &behind_display), (5, 12));
}

#[test]
fn sizes_are_judged_only_where_taken() {
    let past = [kern(8_388_607).repeat(128), kern(128)].concat();
    let too_wide = only(0, &ord(&list(&past)));
    assert_eq!(refusal(DISPLAY, &too_wide), (6, 0));
    assert_eq!(outcome(TEXT, &too_wide).sizes, [0, 0, 0]);
}

#[test]
fn a_taken_list_has_no_size_of_its_own() {
    let past = [kern(8_388_607).repeat(128), kern(128)].concat();
    assert_eq!(refusal(TEXT, &only(1, &past)), (6, 0));
    assert_eq!(width(TEXT, &[only(1, &past), kern(-128)]), 1_073_741_696);
    let node_past = only(1, &[past, ord(&A), kern(-1000)].concat());
    assert_eq!(refusal(TEXT, &node_past), (6, 0));
}

#[test]
fn a_taken_list_has_no_reference_point_of_its_own() {
    let far_left = kern(-8_388_607).repeat(128);
    let back = kern(8_388_607).repeat(128);
    let node_past_in_choice = [&back[..], &kern(1000), &ord(&A)].concat();
    let formula = [far_left, only(1, &node_past_in_choice)].concat();
    assert_eq!(outcome(TEXT, &formula).places(), [(1000, 0)]);
    let boxed = [
        kern(-8_388_607).repeat(128),
        ord(&list(&node_past_in_choice)),
    ]
    .concat();
    assert_eq!(refusal(TEXT, &boxed), (6, 0));
}

#[test]
fn a_formula_full_of_choices() {
    let full = always(&[]).repeat(292);
    assert_eq!(outcome(TEXT, &full).sizes, [0, 0, 0]);
    let between = [
        ord(&A),
        always(&[]).repeat(140),
        plus(),
        always(&[]).repeat(140),
        ord(&A),
    ];
    assert_eq!(width(TEXT, &between), 2220);
}
