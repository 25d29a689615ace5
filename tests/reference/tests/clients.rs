//! A client's symbols over ours, worked by hand.

mod bench;

use bench::*;
use reference::compose::*;
use reference::{measure, Answer, CLIENT_LIMIT};

/// The a of the bench table, wider.
fn wide_a() -> CharacterParts {
    character(0, 1, 97, None, [700, 430, 0, 0])
}

/// Set in T over the bench table.
fn set_with(client: &[CharacterParts], formula: &[u8]) -> Outcome {
    outcome_with(&bench_table(), &records(client), TEXT, formula)
}

/// Size, family and code of the glyphs among the nodes.
fn glyphs(outcome: &Outcome) -> Vec<[u8; 3]> {
    let glyphs = outcome.nodes.iter().filter(|node| node.starts_with(b"GL"));
    glyphs.map(|node| [node[10], node[11], node[12]]).collect()
}

#[test]
fn bytes_of_a_client() {
    assert_eq!(
        records(&[character(2, 3, 80, Some(88), [1, 2, 3, 4])]),
        *b"CH\x02\x03\x50\x01\x58\x01\0\0\0\x02\0\0\0\x03\0\0\0\x04\0\0\0"
    );
}

#[test]
fn a_client_hides_ours() {
    assert_eq!(set_with(&[], &ord(&A)).sizes, [500, 430, 0]);
    let set = set_with(&[wide_a()], &[ord(&A), ord(&F)].concat());
    assert_eq!(set.sizes, [1300, 700, 200]);
    assert_eq!(glyphs(&set), [[0, 1, 97], [0, 1, 102]]);
}

#[test]
fn each_size_is_hidden_by_itself() {
    let raised = atom(0, 0, [&A, &A, EMPTY]);
    let set = set_with(&[wide_a()], &raised);
    assert_eq!(set.sizes[0], 700 + 500 + 32_768);
    let in_script = character(1, 1, 97, None, [900, 430, 0, 0]);
    let set = set_with(&[in_script], &raised);
    assert_eq!(set.sizes[0], 500 + 900 + 32_768);
}

#[test]
fn a_client_adds_symbols() {
    let sign = ord(&symbol(9, 1));
    assert_eq!(refusal(TEXT, &sign), (5, 4));
    let client = [character(0, 9, 1, None, [10, 20, 30, 5])];
    assert_eq!(set_with(&client, &sign).sizes, [15, 20, 30]);
    let bytes = records(&client);
    let in_script = measure(SCRIPT, &bench_table(), &bytes, &sign);
    assert_eq!((in_script.number, in_script.place), (5, 4));
}

#[test]
fn a_symbol_of_neither_is_absent() {
    let formula = [ord(&A), ord(&symbol(1, 98))].concat();
    let answer = measure(TEXT, &bench_table(), &records(&[wide_a()]), &formula);
    assert_eq!((answer.number, answer.place), (5, 13));
}

/// The operator's glyph and the formula's width in D.
fn operator(client: &[CharacterParts]) -> (u8, i64) {
    let formula = plain(1, &SUM);
    let set = outcome_with(&bench_table(), &records(client), DISPLAY, &formula);
    (set.nodes[0][12], set.sizes[0])
}

#[test]
fn a_successor_is_looked_up_afresh() {
    let sum = |successor| character(0, 3, 80, successor, [1, 0, 0, 0]);
    let large = |code| character(0, 3, code, None, [2, 0, 0, 0]);
    assert_eq!(operator(&[]), (88, 1400));
    // Ours leads to the client's, which hides ours.
    assert_eq!(operator(&[large(88)]), (88, 2));
    // The client's leads to ours.
    assert_eq!(operator(&[sum(Some(88))]), (88, 1400));
    // The client's leads to the client's, hidden or new.
    assert_eq!(operator(&[sum(Some(88)), large(88)]), (88, 2));
    assert_eq!(operator(&[sum(Some(90)), large(90)]), (90, 2));
    // The client's does not lead on; what ours leads to does not matter.
    assert_eq!(operator(&[sum(None), large(88)]), (80, 1));
}

#[test]
fn a_successor_of_neither_is_absent() {
    let client = records(&[character(0, 3, 80, Some(91), [1, 0, 0, 0])]);
    let formula = [ord(&A), plain(1, &SUM)].concat();
    let answer = measure(DISPLAY, &bench_table(), &client, &formula);
    assert_eq!((answer.number, answer.place), (5, 13));
}

/// Signs of family 4 that are 100, 600 and 1400 tall, each the successor of
/// the one before.
fn signs() -> Vec<u8> {
    table_with(&[
        character(0, 4, 1, Some(2), [100, 40, 60, 0]),
        character(0, 4, 2, Some(3), [200, 50, 550, 0]),
        character(0, 4, 3, None, [300, 60, 1340, 0]),
    ])
}

/// The code of the sign of a root of f, which has to be at least 990 tall.
fn sign_found(client: &[CharacterParts], sign: [(u8, u8); 2]) -> u8 {
    let formula = root(sign, [&F, EMPTY, EMPTY]);
    let set = outcome_with(&signs(), &records(client), TEXT, &formula);
    set.nodes[0][12]
}

#[test]
fn a_search_goes_over_both_tables_and_back() {
    let small = [(4, 1), (0, 0)];
    let sign = |code, successor, depth| character(0, 4, code, successor, [1, 0, depth, 0]);
    assert_eq!(sign_found(&[], small), 3);
    // Ours, the client's 2, its 7, ours again.
    let detour = [sign(2, Some(7), 100), sign(7, Some(3), 100)];
    assert_eq!(sign_found(&detour, small), 3);
    // The client's 2 is tall enough, or the first of the tallest.
    assert_eq!(sign_found(&[sign(2, Some(3), 990)], small), 2);
    assert_eq!(sign_found(&[sign(2, None, 989)], small), 2);
    // The client's 2 ends the chain, though ours goes on.
    assert_eq!(sign_found(&[sign(2, None, 50)], small), 1);
    // The client's 1 leads past ours, or to none.
    assert_eq!(sign_found(&[sign(1, Some(3), 10)], small), 3);
    assert_eq!(sign_found(&[sign(1, Some(9), 10)], small), 1);
    // A new one behind the last of ours is not reached, over it it is.
    assert_eq!(sign_found(&[sign(9, None, 5000)], small), 3);
    assert_eq!(
        sign_found(&[sign(3, Some(9), 10), sign(9, None, 5000)], small),
        9
    );
}

#[test]
fn two_zeros_are_no_symbol_of_a_client() {
    let client = [character(0, 0, 0, None, [9, 0, 5000, 0])];
    assert_eq!(sign_found(&client, [(0, 0), (4, 1)]), 3);
}

#[test]
fn sizes_are_searched_in_both() {
    let client = [
        character(0, 6, 1, None, [1, 0, 100, 0]),
        character(1, 4, 1, None, [2, 0, 200, 0]),
    ];
    let formula = root([(4, 1), (6, 1)], [EMPTY; 3]);
    let set = outcome_with(&signs(), &records(&client), SCRIPT, &formula);
    assert_eq!(glyphs(&set), [[1, 4, 1]]);
    let set = outcome_with(&signs(), &records(&client[..1]), SCRIPT, &formula);
    assert_eq!(glyphs(&set), [[0, 4, 1]]);
    let only_new = root([(6, 1), (0, 0)], [EMPTY; 3]);
    let set = outcome_with(&signs(), &records(&client), SCRIPT, &only_new);
    assert_eq!(glyphs(&set), [[0, 6, 1]]);
}

#[test]
fn sides_of_a_fence() {
    let client = [
        character(0, 4, 3, None, [7, 5000, 0, 0]),
        character(0, 8, 1, None, [9, 4000, 4, 0]),
    ];
    let sides = [[(4, 3), (0, 0)], [(0, 0), (8, 1)]];
    let formula = fence(sides, [&list(&ord(&F)), EMPTY, EMPTY]);
    let set = outcome_with(&signs(), &records(&client), TEXT, &formula);
    assert_eq!(glyphs(&set), [[0, 4, 3], [0, 1, 102], [0, 8, 1]]);
    assert_eq!(set.places(), [(0, -2250), (7, 0), (607, -1748)]);
    assert_eq!(set.sizes, [616, 2750, 2250]);
}

#[test]
fn parameters_are_ours() {
    let answer = |client: &[u8]| measure(TEXT, &bench_table(), client, &ord(&A)).number;
    assert_eq!(answer(&bench_table()), 8);
    assert_eq!(answer(&bench_table()[..426]), 8);
    assert_eq!(answer(&bench_table()[426..]), 0);
}

fn number(client: &[u8]) -> u8 {
    measure(TEXT, &bench_table(), client, &[]).number
}

#[test]
fn every_rule_of_a_record() {
    let good = records(&[character(2, 15, 97, None, [8_388_607; 4])]);
    assert_eq!(number(&good), 0);
    let faults = [
        (0, b'D'),
        (1, b'A'),
        (2, 3),
        (3, 16),
        (5, 2),
        (5, 255),
        (6, 1),
        (9, 128),
        (10, 1),
        (13, 128),
        (14, 1),
        (17, 128),
        (18, 1),
        (21, 128),
        (22, 1),
    ];
    for (at, byte) in faults {
        let mut bad = good.clone();
        bad[at] = byte;
        assert_eq!(number(&bad), 8, "byte {at}");
    }
}

#[test]
fn records_rise_strictly() {
    let of = |keys: [(u8, u8, u8); 2]| {
        let characters =
            keys.map(|(size, family, code)| character(size, family, code, None, [0; 4]));
        number(&records(&characters))
    };
    assert_eq!(of([(0, 1, 97), (0, 1, 98)]), 0);
    assert_eq!(of([(0, 1, 97), (0, 2, 0)]), 0);
    assert_eq!(of([(0, 1, 97), (1, 0, 0)]), 0);
    assert_eq!(of([(0, 1, 97), (0, 1, 97)]), 8);
    assert_eq!(of([(0, 1, 98), (0, 1, 97)]), 8);
    assert_eq!(of([(0, 2, 0), (0, 1, 255)]), 8);
    assert_eq!(of([(1, 0, 0), (0, 15, 255)]), 8);
}

#[test]
fn whole_records_and_at_most_512() {
    let characters: Vec<CharacterParts> = (0..=CLIENT_LIMIT)
        .map(|at| character(0, (at / 256) as u8, at as u8, None, [0; 4]))
        .collect();
    let bytes = records(&characters);
    assert_eq!(CLIENT_LIMIT, 512);
    assert_eq!(number(&[]), 0);
    assert_eq!(number(&bytes[..23 * 512]), 0);
    assert_eq!(number(&bytes), 8);
    for length in [1, 22, 24, 23 * 511 + 1, 23 * 512 - 1, 23 * 512 + 1] {
        assert_eq!(number(&bytes[..length]), 8, "{length} bytes");
    }
}

#[test]
fn refused_after_the_table_and_before_the_formula() {
    let (table, formula) = (bench_table(), ord(&A));
    let bad_client = Answer {
        number: 8,
        ..Answer::default()
    };
    assert_eq!(measure(8, &table, b"C", &formula).number, 1);
    assert_eq!(measure(TEXT, &table[1..], b"C", &formula).number, 2);
    assert_eq!(measure(TEXT, &table, b"C", &formula), bad_client);
    assert_eq!(measure(TEXT, &table, b"C", &[0; 5000]), bad_client);
    assert_eq!(measure(TEXT, &table, b"C", b"zz"), bad_client);
    assert_eq!(measure(TEXT, &table, &[], b"zz").number, 3);
}

/// Characters of size 1 and family 7 whose successors are one up, but for the
/// last, which has the one given.
fn chain(codes: &[u8], last: Option<u8>) -> Vec<CharacterParts> {
    let of = |code: u8| {
        let is_last = codes.last() == Some(&code);
        let next = if is_last { last } else { Some(code + 1) };
        character(1, 7, code, next, [1, 0, u32::from(code), 0])
    };
    codes.iter().map(|code| of(*code)).collect()
}

fn range(first: u8, last: u8) -> Vec<u8> {
    (first..=last).collect()
}

/// The answer over the bench table with these characters more.
fn number_over(ours: &[CharacterParts], client: &[CharacterParts]) -> u8 {
    measure(TEXT, &table_with(ours), &records(client), &[]).number
}

#[test]
fn sixteen_steps_over_both() {
    let split = |last: u8, is_client: fn(u8) -> bool| {
        let whole = chain(&range(1, last), None);
        let (client, ours): (Vec<_>, Vec<_>) = whole.into_iter().partition(|c| is_client(c.code));
        number_over(&ours, &client)
    };
    let splits: [fn(u8) -> bool; 6] = [
        |_| true,
        |code| code % 2 == 0,
        |code| code % 2 == 1,
        |code| code > 9,
        |code| code < 9,
        |code| code == 9,
    ];
    for is_client in splits {
        assert_eq!(split(17, is_client), 0);
        assert_eq!(split(18, is_client), 8);
    }
    assert_eq!(split(18, |code| code == 1), 8);
    assert_eq!(split(18, |code| code == 18), 8);
    assert_eq!(split(255, |code| code % 16 == 1), 8);
}

#[test]
fn ours_alone_is_still_tested() {
    let ours = chain(&range(1, 18), None);
    // Over both it would be short, for the client's 9 hides ours.
    let cut = chain(&[9], None);
    assert_eq!(number_over(&ours, &cut), 2);
    assert_eq!(number_over(&ours, &[]), 2);
}

#[test]
fn rings_over_both() {
    let one = chain(&[5], Some(5));
    assert_eq!(number_over(&[], &one), 8);
    assert_eq!(number_over(&chain(&[5], None), &one), 8);
    let (ours, client) = (chain(&[5], Some(6)), chain(&[6], Some(5)));
    assert_eq!(number_over(&ours, &client), 8);
    // The other 5 takes the ring apart.
    let both = [chain(&[5], None), client].concat();
    assert_eq!(number_over(&ours, &both), 0);
}

#[test]
fn a_hidden_end_takes_no_part() {
    // 1 to 17 over both; ours under 17 leads to 30 and on.
    let ours = [
        chain(&range(9, 16), Some(17)),
        chain(&[17], Some(30)),
        chain(&range(30, 37), None),
    ]
    .concat();
    let before = chain(&range(1, 8), Some(9));
    let with = |last| number_over(&ours, &[before.clone(), last].concat());
    assert_eq!(with(chain(&[17], None)), 0);
    assert_eq!(with(chain(&[17], Some(30))), 8);
    assert_eq!(with(Vec::new()), 8);
}

#[test]
fn a_hidden_start_takes_no_part() {
    // Ours under 60 leads to 1, from where there are sixteen steps.
    let ours = [chain(&range(1, 9), Some(10)), chain(&[60], Some(1))].concat();
    let behind = chain(&range(10, 17), None);
    let with = |start| number_over(&ours, &[behind.clone(), start].concat());
    assert_eq!(with(chain(&[60], None)), 0);
    assert_eq!(with(chain(&[60], Some(1))), 8);
    assert_eq!(with(Vec::new()), 8);
}

#[test]
fn only_steps_to_symbols_present_count() {
    let client = chain(&range(1, 17), Some(90));
    assert_eq!(number_over(&[], &client), 0);
    assert_eq!(number_over(&chain(&[90], None), &client), 8);
    // Another size or family is not a step.
    let other = |size, family| [character(size, family, 90, None, [0; 4])];
    assert_eq!(number_over(&other(0, 7), &client), 0);
    assert_eq!(number_over(&other(1, 8), &client), 0);
}

#[test]
fn all_steps_over_both_are_searched() {
    let whole: Vec<CharacterParts> = (1..=17)
        .map(|code| {
            let next = (code < 17).then_some(code + 1);
            character(0, 7, code, next, [1, 0, 10 * u32::from(code), 0])
        })
        .collect();
    let (client, ours): (Vec<_>, Vec<_>) = whole.into_iter().partition(|c| c.code % 2 == 1);
    let formula = root([(7, 1), (0, 0)], [&F, EMPTY, EMPTY]);
    let set = outcome_with(&table_with(&ours), &records(&client), TEXT, &formula);
    assert_eq!(set.nodes[0][12], 17);
}
