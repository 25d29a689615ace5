//! Fences, worked by hand.

mod bench;

use bench::*;
use reference::compose::*;
use reference::measure;

const SCRIPTSCRIPT: u8 = 6;

type Side = [(u8, u8); 2];

const NONE: Side = [(0, 0), (0, 0)];
const BLANK: i64 = 78_643;
/// The blank as a coordinate.
const BLANK_X: i32 = 78_643;

/// 600 high and 100 deep, 105 wide with its italic correction.
const LEFT: Side = [(4, 1), (0, 0)];
/// 1 high and 4 deep, 200 wide.
const RIGHT: Side = [(0, 0), (4, 2)];
/// 2000 high, 300 wide.
const TALL: Side = [(4, 3), (0, 0)];
/// Symbols that are 900, 901 and 5000 tall, each the successor of the one before.
const GROWING: Side = [(5, 1), (0, 0)];

fn table() -> Vec<u8> {
    table_with(&[
        character(0, 4, 1, None, [100, 600, 100, 5]),
        character(0, 4, 2, None, [200, 1, 4, 0]),
        character(0, 4, 3, None, [300, 2000, 0, 0]),
        character(0, 5, 1, Some(2), [10, 450, 450, 0]),
        character(0, 5, 2, Some(3), [20, 901, 0, 0]),
        character(0, 5, 3, None, [30, 5000, 0, 0]),
    ])
}

fn bare_fence(sides: [Side; 2], items: &[u8]) -> Vec<u8> {
    fence(sides, [&list(items), EMPTY, EMPTY])
}

fn set_in(style: u8, formula: &[u8]) -> Outcome {
    outcome_over(&table(), style, formula)
}

/// The width of what stands between two blanks.
fn inner_width(style: u8, items: &[Vec<u8>]) -> i64 {
    let formula = bare_fence([NONE, NONE], &items.concat());
    outcome(style, &formula).sizes[0] - 2 * BLANK
}

/// A comma: an a of class Punct.
fn comma() -> Vec<u8> {
    plain(6, &A)
}

#[test]
fn bytes_of_a_fence() {
    let item = fence(
        [[(4, 1), (5, 2)], [(6, 3), (7, 4)]],
        [&list(&[]), &A, EMPTY],
    );
    assert_eq!(
        item,
        *b"FE\x04\x01\x05\x02\x06\x03\x07\x04\x02\x00\x00\x01\x01a\x00"
    );
}

#[test]
fn sides_are_centred_on_the_axis() {
    let set = set_in(TEXT, &bare_fence([LEFT, RIGHT], &ord(&A)));
    assert_eq!(set.sizes, [805, 600, 100]);
    assert_eq!(set.places(), [(0, 0), (105, 0), (605, 251)]);
    let codes: Vec<&[u8]> = set.nodes.iter().map(|node| &node[10..13]).collect();
    assert_eq!(codes, [[0, 4, 1], [0, 1, 97], [0, 4, 2]]);
}

#[test]
fn a_tall_side_gives_height_and_depth() {
    for sides in [[TALL, NONE], [NONE, TALL]] {
        let set = set_in(TEXT, &bare_fence(sides, &ord(&A)));
        assert_eq!(set.sizes, [300 + 500 + BLANK, 1250, 750]);
    }
}

#[test]
fn blanks_have_width_and_stand_on_the_axis() {
    let empty = outcome(TEXT, &bare_fence([NONE, NONE], &[]));
    assert_eq!(empty.sizes, [2 * BLANK, 250, 0]);
    assert!(empty.nodes.is_empty());
    let absent = [(9, 9), (9, 8)];
    let with_a = outcome(TEXT, &bare_fence([absent, absent], &ord(&A)));
    assert_eq!(with_a.sizes, [2 * BLANK + 500, 430, 0]);
    assert_eq!(with_a.places(), [(BLANK_X, 0)]);
}

/// An f with so many lines under it, each of which makes it 200 deeper.
fn underlined(lines: usize) -> Vec<u8> {
    (0..lines).fold(ord(&F), |inner, _| underline([&list(&inner), EMPTY, EMPTY]))
}

#[test]
fn the_factor_is_of_whole_five_hundreds() {
    let code = |lines| {
        let set = set_in(TEXT, &bare_fence([GROWING, NONE], &underlined(lines)));
        set.nodes[0][12]
    };
    // From the axis down it is 450, 650, 850 and 1050.
    assert_eq!([0, 1, 2, 3].map(code), [1, 2, 2, 3]);
}

/// The code of the side of a fence around a letter that is so high above the
/// axis. Symbol 2 is as tall as is said, 1 is shorter by 1 sp and 3 is taller.
fn code_found(above_axis: u32, total: u32) -> u8 {
    let side = |code: u8, successor, total: u32| {
        let measures = [0, total / 2, total - total / 2, 0];
        character(0, 7, code, successor, measures)
    };
    let table = table_with(&[
        character(0, 6, 1, None, [0, above_axis + 250, 0, 0]),
        side(1, Some(2), total - 1),
        side(2, Some(3), total),
        side(3, None, total + 1000),
    ]);
    let formula = bare_fence([[(7, 1), (0, 0)], NONE], &ord(&symbol(6, 1)));
    outcome_over(&table, TEXT, &formula).nodes[0][12]
}

#[test]
fn factor_or_shortfall() {
    // 2000 times 901 is more than 2,000,000 less 327,680.
    assert_eq!(code_found(1_000_000, 1_802_000), 2);
    assert_eq!(code_found(1_000_499, 1_802_000), 2);
    assert_eq!(code_found(1_000_500, 1_802_901), 2);
    // 10,000,000 less 327,680 is more than 10,000 times 901.
    assert_eq!(code_found(5_000_000, 9_672_320), 2);
    assert_eq!(code_found(5_000_001, 9_672_322), 2);
}

#[test]
fn between_an_open_and_a_close() {
    assert_eq!(inner_width(TEXT, &[plus(), ord(&A)]), 1280);
    assert_eq!(inner_width(TEXT, &[ord(&A), plus()]), 1280);
    assert_eq!(inner_width(TEXT, &[a_plus_a()]), 2220);
    assert_eq!(inner_width(TEXT, &[equals()]), 780);
    assert_eq!(inner_width(TEXT, &[]), 0);
}

#[test]
fn space_before_the_close() {
    assert_eq!(inner_width(TEXT, &[ord(&A), comma()]), 1165);
    assert_eq!(inner_width(SCRIPT, &[ord(&A), comma()]), 1000);
    assert_eq!(inner_width(TEXT, &[comma(), kern(7)]), 672);
}

#[test]
fn the_close_is_in_the_starting_style() {
    assert_eq!(inner_width(TEXT, &[style(SCRIPT), comma()]), 665);
    assert_eq!(inner_width(TEXT, &[comma(), style(SCRIPT)]), 665);
    assert_eq!(inner_width(SCRIPT, &[style(TEXT), comma()]), 500);
    let choice_of_styles = choice([&list(&style(SCRIPTSCRIPT)); 4]);
    assert_eq!(inner_width(TEXT, &[choice_of_styles, comma()]), 665);
}

#[test]
fn the_closes_math_unit_is_of_the_starting_style() {
    const QUAD_IN_SCRIPT: usize = 142 + 2 + 4 * 5;
    let mut table = bench_table();
    table[QUAD_IN_SCRIPT..][..4].copy_from_slice(&1800u32.to_le_bytes());
    let items = [style(SCRIPT), comma()].concat();
    let answer = measure(TEXT, &table, &[], &bare_fence([NONE, NONE], &items));
    assert_eq!(answer.width, 2 * BLANK + 500 + 3 * 55);
}

#[test]
fn a_style_ends_with_the_fence() {
    let sum = plain(1, &SUM);
    let fence = bare_fence([NONE, NONE], &style(DISPLAY));
    let set = outcome(TEXT, &[fence, sum].concat());
    assert_eq!(set.nodes[0][12], 80);
}

#[test]
fn the_list_keeps_the_style() {
    let raised = atom(0, 0, [&A, &A, EMPTY]);
    let height = |style| outcome(style, &bare_fence([NONE, NONE], &raised)).places()[1].1;
    assert_eq!([TEXT, CRAMPED_TEXT].map(height), [370, 290]);
}

#[test]
fn a_fence_is_an_inner() {
    let fence = bare_fence([NONE, NONE], &[]);
    let width = |items: [Vec<u8>; 3]| outcome(TEXT, &items.concat()).sizes[0] - 2 * BLANK;
    assert_eq!(
        width([ord(&A), fence.clone(), ord(&A)]),
        500 + 165 + 165 + 500
    );
    let binary = [fence, plus(), ord(&A)];
    assert_eq!(width(binary), 220 + 780 + 220 + 500);
}

#[test]
fn scripts_of_the_whole() {
    let set = set_in(TEXT, &fence([TALL, NONE], [&list(&ord(&A)), &A, &A]));
    let end = 800 + BLANK_X;
    assert_eq!(set.places(), [(0, -750), (300, 0), (end, 870), (end, -800)]);
    assert_eq!(set.sizes, [i64::from(end) + 500 + 32_768, 1300, 800]);
}

#[test]
fn nodes_in_order() {
    let set = set_in(TEXT, &fence([LEFT, LEFT], [&list(&ord(&F)), &A, &A]));
    let codes: Vec<u8> = set.nodes.iter().map(|node| node[12]).collect();
    assert_eq!(codes, [1, 102, 1, 97, 97]);
    assert_eq!(set.places()[..3], [(0, 0), (105, 0), (705, 0)]);
}

#[test]
fn sides_of_other_sizes() {
    let table = table_with(&[
        character(0, 6, 1, None, [1, 4, 0, 0]),
        character(1, 6, 1, None, [2, 2, 0, 0]),
    ]);
    let node = |style, side| {
        let set = outcome_over(&table, style, &bare_fence([side, NONE], &[]));
        set.nodes[0][10]
    };
    let side = [(6, 1), (0, 0)];
    assert_eq!(
        [TEXT, SCRIPT, SCRIPTSCRIPT].map(|s| node(s, side)),
        [0, 1, 1]
    );
}

#[test]
fn a_fence_in_a_root_in_a_fence() {
    let inner = bare_fence([LEFT, RIGHT], &ord(&A));
    let rooted = root(NONE, [&list(&inner), EMPTY, EMPTY]);
    let set = set_in(TEXT, &bare_fence([RIGHT, LEFT], &rooted));
    let x = 200 + BLANK_X;
    assert_eq!(
        set.places(),
        [
            (0, 251),
            (x, 650),
            (x, 0),
            (x + 105, 0),
            (x + 605, 251),
            (x + 805, 0),
        ]
    );
    assert_eq!(set.sizes, [200 + BLANK + 805 + 105, 650, 100]);
}

#[test]
fn faults_of_a_fence() {
    let bad: [[Side; 2]; 4] = [
        [[(16, 0), (0, 0)], NONE],
        [[(0, 0), (16, 0)], NONE],
        [NONE, [(255, 1), (0, 0)]],
        [NONE, [(4, 1), (16, 1)]],
    ];
    for sides in bad {
        let formula = [ord(&A), bare_fence(sides, b"zz")].concat();
        assert_eq!(refusal(TEXT, &formula), (3, 9));
    }
    for wrong in [EMPTY, &A, &[3, 0, 0]] {
        let formula = [ord(&A), fence([NONE, NONE], [wrong, EMPTY, EMPTY])].concat();
        assert_eq!(refusal(TEXT, &formula), (3, 9));
    }
    assert_eq!(refusal(TEXT, &bare_fence([NONE, NONE], b"zz")), (3, 13));
    let whole = fence([LEFT, RIGHT], [&list(&[]), &A, &A]);
    for length in 1..whole.len() {
        assert_eq!(refusal(TEXT, &whole[..length]), (3, 0));
    }
}

#[test]
fn only_sides_may_be_absent() {
    let absent = symbol(1, 98);
    let sides = [[(9, 9), (0, 0)]; 2];
    let in_list = fence(sides, [&list(&ord(&absent)), &absent, EMPTY]);
    assert_eq!(refusal(TEXT, &in_list), (5, 17));
    let in_script = fence(sides, [&list(&[]), EMPTY, &absent]);
    assert_eq!(refusal(TEXT, &in_script), (5, 14));
}

#[test]
fn the_kind_is_judged_before_the_depth() {
    let nested = |levels, items: &[u8]| {
        (0..levels).fold(items.to_vec(), |items, _| bare_fence([NONE, NONE], &items))
    };
    assert_eq!(outcome(TEXT, &nested(31, &[])).sizes[0], 62 * BLANK);
    assert_eq!(refusal(TEXT, &nested(32, &[])), (4, 13 * 31 + 10));
    let wrong = fence([NONE, NONE], [EMPTY, EMPTY, EMPTY]);
    assert_eq!(refusal(TEXT, &nested(31, &wrong)), (3, 13 * 31));
}

#[test]
fn past_the_size_limit() {
    let far = [kern(8_388_607).repeat(128), kern(127)].concat();
    let back = kern(-200_000);
    let number = |items: [&[u8]; 3]| measure(TEXT, &table(), &[], &items.concat()).number;
    let right_past = bare_fence([NONE, LEFT], &[]);
    assert_eq!(number([&far, &right_past, &back]), 6);
    assert_eq!(number([&far, &back, &right_past]), 0);
    let with_last = |class| {
        let items = [far.clone(), plain(class, EMPTY)].concat();
        bare_fence([NONE, NONE], &items)
    };
    assert_eq!(number([&with_last(6), &back, &[]]), 6);
    assert_eq!(number([&with_last(0), &back, &[]]), 0);
}
