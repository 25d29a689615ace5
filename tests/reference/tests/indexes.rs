//! Indexes and lookups by them, worked by hand.

mod bench;

use bench::*;
use reference::compose::*;
use reference::generate::{client_over, good_table, Random};
use reference::index::{build, position, Index};
use reference::{measure, measure_lent, set_lent, Answer, Lent, INDEX_WORDS, NODE_BYTES};

/// In every word that is not to change, and behind the indexes.
const FILLING: u64 = 0xA5A5_5A5A_A5A5_5A5A;
const TABLE_HEAD: usize = 426;

fn index_of(characters: &[u8]) -> Index {
    let mut index = [FILLING; INDEX_WORDS];
    build(characters.as_chunks().0, &mut index);
    index
}

/// Without successors and measures.
fn of_symbols(symbols: &[(u8, u8, u8)]) -> Index {
    let character = |&(size, family, code)| character(size, family, code, None, [0; 4]);
    index_of(&records(&symbols.iter().map(character).collect::<Vec<_>>()))
}

/// The five words of a size and family.
fn family(index: &Index, size: usize, family: usize) -> &[u64; 5] {
    &index.as_chunks().0[16 * size + family]
}

#[test]
fn words_of_the_bench_table() {
    let index = index_of(&bench_table()[TABLE_HEAD..]);
    assert_eq!(index.len(), 240);
    assert_eq!(index[..5], [0; 5]);
    // Codes 97 and 102 are bits 33 and 38 of the second word.
    assert_eq!(index[5..10], [0, 0x42_0000_0000, 0, 0, 0]);
    // Codes 43 and 61 are in the first word; a and f stand before them.
    assert_eq!(index[10..15], [0x2000_0800_0000_0000, 0, 0, 0, 2]);
    // Codes 80 and 88 are bits 16 and 24 of the second word.
    assert_eq!(index[15..20], [0, 0x101_0000, 0, 0, 4]);
    assert_eq!(index[20..25], [0, 0, 0, 0, 6]);
    assert_eq!(index[80..90], [0, 0, 0, 0, 6, 0, 0x42_0000_0000, 0, 0, 6]);
    assert_eq!(index[235..], [0, 0, 0, 0, 18]);
}

#[test]
fn starts_count_all_records_before() {
    let index = index_of(&bench_table()[TABLE_HEAD..]);
    let starts: Vec<u64> = index.iter().skip(4).step_by(5).copied().collect();
    let of_size = |before: u64| {
        [
            vec![before; 2],
            vec![before + 2, before + 4],
            vec![before + 6; 12],
        ]
    };
    let expected = [0, 6, 12].map(|before| of_size(before).concat());
    assert_eq!(starts, expected.concat());
}

#[test]
fn codes_at_the_edges_of_words() {
    let symbols = [
        (0, 0, 0),
        (0, 0, 63),
        (0, 0, 64),
        (0, 0, 255),
        (1, 15, 128),
        (2, 15, 255),
    ];
    let index = of_symbols(&symbols);
    let last = 0x8000_0000_0000_0000;
    assert_eq!(*family(&index, 0, 0), [last | 1, 1, 0, last, 0]);
    assert_eq!(*family(&index, 0, 1), [0, 0, 0, 0, 4]);
    assert_eq!(*family(&index, 1, 14), [0, 0, 0, 0, 4]);
    assert_eq!(*family(&index, 1, 15), [0, 0, 1, 0, 4]);
    assert_eq!(*family(&index, 2, 0), [0, 0, 0, 0, 5]);
    assert_eq!(*family(&index, 2, 15), [0, 0, 0, last, 5]);
    for (at, (size, family, code)) in symbols.into_iter().enumerate() {
        assert_eq!(position(&index, size, family, code), Some(at));
    }
    for code in [1, 62, 65, 127, 128, 191, 192, 254] {
        assert_eq!(position(&index, 0, 0, code), None, "code {code}");
    }
    assert_eq!(position(&index, 1, 0, 0), None);
    assert_eq!(position(&index, 0, 1, 255), None);
    assert_eq!(position(&index, 1, 15, 127), None);
}

#[test]
fn a_family_with_all_codes() {
    let symbols: Vec<(u8, u8, u8)> = (0..=255).map(|code| (1, 2, code)).collect();
    let index = of_symbols(&[&[(0, 7, 7)], &symbols[..], &[(1, 3, 0)]].concat());
    assert_eq!(*family(&index, 1, 2), [!0, !0, !0, !0, 1]);
    assert_eq!(*family(&index, 1, 3), [1, 0, 0, 0, 257]);
    for code in 0..=255 {
        assert_eq!(position(&index, 1, 2, code), Some(1 + usize::from(code)));
    }
    assert_eq!(position(&index, 1, 3, 0), Some(257));
}

#[test]
fn no_records_are_zeros() {
    assert_eq!(of_symbols(&[]), [0; INDEX_WORDS]);
}

/// For every size, family and code.
fn finds_as_a_search_does(characters: &[u8]) {
    let index = index_of(characters);
    let records: &[[u8; 23]] = characters.as_chunks().0;
    for size in 0..3 {
        for family in 0..16 {
            for code in 0..=255 {
                let wanted = [size, family, code];
                let search = records.binary_search_by(|record| record[2..5].cmp(&wanted));
                assert_eq!(position(&index, size, family, code), search.ok());
            }
        }
    }
}

#[test]
fn the_index_finds_what_a_search_finds() {
    let mut random = Random::new(19);
    for _ in 0..100 {
        let table = good_table(&mut random);
        finds_as_a_search_does(&records(&table.characters));
        finds_as_a_search_does(&records(&client_over(&table.characters, &mut random)));
    }
}

/// Words lent to a call, and what it answered.
struct Call {
    answer: Answer,
    index: Vec<u64>,
    client_index: Vec<u64>,
}

/// Measures with so many words of the filling lent for each index.
fn with_words(lengths: [usize; 2], style: u8, table: &[u8], client: &[u8], formula: &[u8]) -> Call {
    let [mut index, mut client_index] = lengths.map(|length| vec![FILLING; length]);
    let lent = Lent {
        index: &mut index,
        client_index: &mut client_index,
    };
    let answer = measure_lent(style, table, client, formula, lent);
    Call {
        answer,
        index,
        client_index,
    }
}

fn numbers_and_words_kept(call: &Call) -> (u8, u64, bool) {
    let mut words = call.index.iter().chain(&call.client_index);
    let is_kept = words.all(|word| *word == FILLING);
    (call.answer.number, call.answer.place, is_kept)
}

fn wide_a() -> Vec<u8> {
    records(&[character(0, 1, 97, None, [700, 430, 0, 0])])
}

#[test]
fn an_answer_leaves_both_indexes_right() {
    let client = wide_a();
    let call = with_words([240, 245], TEXT, &bench_table(), &client, &ord(&A));
    assert_eq!((call.answer.number, call.answer.width), (0, 700));
    assert_eq!(call.index, index_of(&bench_table()[TABLE_HEAD..]));
    // The a is bit 33 of the second word of family 1.
    let mut expected = [0; INDEX_WORDS];
    expected[6] = 0x2_0000_0000;
    for start in (14..INDEX_WORDS).step_by(5) {
        expected[start] = 1;
    }
    assert_eq!(call.client_index[..240], expected);
    assert_eq!(call.client_index[240..], [FILLING; 5]);
}

#[test]
fn no_client_has_an_index_of_zeros() {
    let call = with_words([300, 241], TEXT, &bench_table(), &[], &ord(&A));
    assert_eq!(call.index[..240], index_of(&bench_table()[TABLE_HEAD..]));
    assert_eq!(call.index[240..], [FILLING; 60]);
    assert_eq!(call.client_index[..240], [0; 240]);
    assert_eq!(call.client_index[240..], [FILLING]);
}

#[test]
fn refusals_up_to_19_change_no_word() {
    let (table, formula) = (bench_table(), ord(&A));
    let refused = |lengths, style, table: &[u8], client: &[u8]| {
        numbers_and_words_kept(&with_words(lengths, style, table, client, &formula))
    };
    let enough = [240, 240];
    assert_eq!(refused(enough, 8, &table, &[]), (1, 0, true));
    assert_eq!(refused(enough, TEXT, &table[1..], &[]), (2, 0, true));
    assert_eq!(refused(enough, TEXT, &table, b"C"), (8, 0, true));
    for few in [
        [0, 0],
        [239, 240],
        [240, 239],
        [0, 300],
        [300, 0],
        [239, 239],
    ] {
        assert_eq!(refused(few, TEXT, &table, &wide_a()), (19, 0, true));
        assert_eq!(refused(few, TEXT, &table, &[]), (19, 0, true));
    }
}

#[test]
fn tested_after_the_tables_and_before_the_formula() {
    let table = bench_table();
    let number = |style, table: &[u8], client: &[u8], formula: &[u8]| {
        let call = with_words([239, 0], style, table, client, formula);
        let bare = Answer {
            number: call.answer.number,
            ..Answer::default()
        };
        assert_eq!(call.answer, bare);
        call.answer.number
    };
    assert_eq!(number(8, &table[1..], b"C", b"zz"), 1);
    assert_eq!(number(TEXT, &table[1..], b"C", b"zz"), 2);
    assert_eq!(number(TEXT, &table, b"C", b"zz"), 8);
    assert_eq!(number(TEXT, &table, &[], b"zz"), 19);
    assert_eq!(number(TEXT, &table, &[], &[0; 5000]), 19);
    assert_eq!(number(TEXT, &table, &[], &ord(&[1, 1, 98])), 19);
    assert_eq!(number(TEXT, &table, &[], &[]), 19);
}

#[test]
fn later_refusals_leave_both_right() {
    let (table, client) = (bench_table(), wide_a());
    let deep = (0..33).fold(Vec::new(), |items: Vec<u8>, _| ord(&list(&items)));
    let wide = kern(8_388_607).repeat(129);
    let formulas = [
        (3, b"zz".to_vec()),
        (4, deep),
        (5, ord(&[1, 1, 98])),
        (6, wide),
    ];
    for (number, formula) in formulas {
        let call = with_words([241, 240], TEXT, &table, &client, &formula);
        assert_eq!(call.answer.number, number);
        assert_eq!(call.index[..240], index_of(&table[TABLE_HEAD..]));
        assert_eq!(call.index[240], FILLING);
        assert_eq!(call.client_index, index_of(&client));
    }
    let [mut index, mut client_index] = [[FILLING; INDEX_WORDS]; 2];
    let mut short = [7; NODE_BYTES - 1];
    let lent = Lent {
        index: &mut index,
        client_index: &mut client_index,
    };
    let answer = set_lent(TEXT, &table, &client, &ord(&A), &mut short, lent);
    assert_eq!((answer.number, short), (7, [7; NODE_BYTES - 1]));
    assert_eq!(index, index_of(&table[TABLE_HEAD..]));
    assert_eq!(client_index, index_of(&client));
}

#[test]
fn an_index_that_is_not_its_tables_is_not_trusted() {
    let (table, client) = (bench_table(), wide_a());
    let (right, clients) = (index_of(&table[TABLE_HEAD..]), index_of(&client));
    let shifted = right.map(|word| word << 1);
    let lies = [[!0; INDEX_WORDS], [0; INDEX_WORDS], clients, right, shifted];
    let formulas = [ord(&A), ord(&F), ord(&[1, 1, 98]), plain(1, &SUM)];
    for (ours, theirs) in lies
        .iter()
        .flat_map(|lie| lies.iter().map(move |other| (lie, other)))
    {
        for formula in &formulas {
            let (mut index, mut client_index) = (*ours, *theirs);
            let lent = Lent {
                index: &mut index,
                client_index: &mut client_index,
            };
            let answer = measure_lent(DISPLAY, &table, &client, formula, lent);
            assert_eq!(answer, measure(DISPLAY, &table, &client, formula));
            assert_eq!((index, client_index), (right, clients));
        }
    }
}
