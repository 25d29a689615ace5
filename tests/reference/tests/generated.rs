//! What holds of every call, looked at on generated cases.

use reference::generate::{case, Case, Random};
use reference::{
    measure, measure_lent, set_lent, Answer, Lent, CHAIN_LIMIT, FORMULA_LIMIT, NODE_BYTES,
};
use std::collections::BTreeMap;

const CASES: usize = 20_000;
const FILLING: u8 = 0xA5;

#[test]
fn calls_keep_their_contract() {
    let mut random = Random::new(7);
    for _ in 0..CASES {
        let case = case(&mut random);
        let mut nodes = vec![FILLING; case.room];
        let answer = answer_to(case.clone(), &mut nodes);
        check_answer(&case, &answer);
        check_buffer(&answer, &nodes);
    }
}

fn answer_to(mut case: Case, nodes: &mut [u8]) -> Answer {
    let lent = Lent {
        index: &mut case.index,
        client_index: &mut case.client_index,
    };
    set_lent(
        case.style,
        &case.table,
        &case.client,
        &case.formula,
        nodes,
        lent,
    )
}

fn check_answer(case: &Case, answer: &Answer) {
    let lent = Lent {
        index: &mut case.index.clone(),
        client_index: &mut case.client_index.clone(),
    };
    let measured = measure_lent(case.style, &case.table, &case.client, &case.formula, lent);
    if answer.number == 7 {
        assert_eq!(measured.number, 0);
        assert!(case.room < NODE_BYTES * measured.count as usize);
    } else {
        assert_eq!(*answer, measured);
    }
    if answer.number != 0 {
        let Answer { number, place, .. } = *answer;
        let bare = Answer {
            number,
            place,
            ..Answer::default()
        };
        assert_eq!(*answer, bare);
        assert!(place <= case.formula.len() as u64);
    }
}

fn check_buffer(answer: &Answer, nodes: &[u8]) {
    let (written, rest) = nodes.split_at(NODE_BYTES * answer.count as usize);
    assert!(rest.iter().all(|byte| *byte == FILLING));
    for node in written.as_chunks::<NODE_BYTES>().0 {
        assert!(matches!(&node[..2], b"GL" | b"RU"));
    }
}

#[test]
fn every_answer_comes_often() {
    const NUMBERS: [u8; 10] = [0, 1, 2, 8, 19, 3, 4, 5, 6, 7];
    let mut counts: BTreeMap<u8, usize> = BTreeMap::new();
    let mut random = Random::new(8);
    for _ in 0..CASES {
        let case = case(&mut random);
        let mut nodes = vec![0; case.room];
        let answer = answer_to(case, &mut nodes);
        *counts.entry(answer.number).or_default() += 1;
    }
    assert!(counts.keys().all(|number| NUMBERS.contains(number)));
    assert_eq!(counts.len(), NUMBERS.len());
    assert!(
        counts.values().all(|count| *count > CASES / 50),
        "{counts:?}"
    );
}

#[test]
fn every_item_is_refused_often() {
    const MARKS: [&[u8]; 9] = [
        b"AT", b"OV", b"UN", b"FR", b"KN", b"ST", b"C4", b"RD", b"FE",
    ];
    let mut counts = [0; MARKS.len()];
    let mut random = Random::new(9);
    for _ in 0..CASES {
        let case = case(&mut random);
        let answer = measure(case.style, &case.table, &case.client, &case.formula);
        if answer.number == 3 && case.formula.len() <= FORMULA_LIMIT {
            let item = &case.formula[answer.place as usize..];
            let mark = MARKS.iter().position(|mark| item.starts_with(mark));
            mark.into_iter().for_each(|mark| counts[mark] += 1);
        }
    }
    assert!(
        counts.iter().all(|count| *count > CASES / 500),
        "{counts:?}"
    );
}

#[test]
fn fences_are_refused_for_each_fault() {
    const FAMILIES: [usize; 4] = [2, 4, 6, 8];
    const KIND: usize = 10;
    let mut families = [0; FAMILIES.len()];
    let mut kinds = [0; 3];
    let mut random = Random::new(14);
    for _ in 0..CASES {
        let case = case(&mut random);
        let answer = measure(case.style, &case.table, &case.client, &case.formula);
        let item = &case.formula[answer.place as usize..];
        if answer.number != 3 || !item.starts_with(b"FE") || item.len() <= KIND {
            continue;
        }
        let wrong = FAMILIES.map(|at| item[at] > 15);
        match wrong.iter().filter(|is_wrong| **is_wrong).count() {
            0 if !matches!(item[KIND], 2 | 3) => kinds[usize::from(item[KIND].min(2))] += 1,
            1 => families[wrong.iter().position(|is_wrong| *is_wrong).unwrap()] += 1,
            _ => {}
        }
    }
    let least = families.iter().chain(&kinds).min();
    assert!(least > Some(&(CASES / 2000)), "{families:?} {kinds:?}");
}

/// The marks of items that must have a list, and where its kind byte stands.
const LIST_HOLDERS: [(&[u8], usize); 2] = [(b"C4", 2), (b"FE", 10)];

#[test]
fn lists_are_refused_for_kind_before_depth() {
    let mut counts = [[0; 2]; LIST_HOLDERS.len()];
    let mut random = Random::new(12);
    for _ in 0..CASES {
        let case = case(&mut random);
        let answer = measure(case.style, &case.table, &case.client, &case.formula);
        for ((mark, kind), [deep, wrong]) in LIST_HOLDERS.into_iter().zip(&mut counts) {
            let place = answer.place as usize;
            let is_held = |item: usize| case.formula[item..].starts_with(mark);
            match answer.number {
                4 => *deep += usize::from(place >= kind && is_held(place - kind)),
                3 if is_held(place) => {
                    *wrong += usize::from(would_be_too_deep(&case, place + kind));
                }
                _ => {}
            }
        }
    }
    let least = counts.as_flattened().iter().min();
    assert!(least > Some(&(CASES / 2000)), "{counts:?}");
}

/// Whether the field would be refused for its depth if it were a list.
fn would_be_too_deep(case: &Case, field: usize) -> bool {
    let mut formula = case.formula.clone();
    let Some(kind) = formula.get_mut(field).filter(|kind| !matches!(kind, 2 | 3)) else {
        return false;
    };
    *kind = 2;
    measure(case.style, &case.table, &case.client, &formula).number == 4
}

#[test]
fn chains_are_refused_if_too_long() {
    let (mut longest, mut too_long) = (0, 0);
    let mut random = Random::new(10);
    for _ in 0..CASES {
        let Case { table, .. } = case(&mut random);
        if measure(0, &without_successors(&table), &[], &[]).number == 2 {
            continue;
        }
        let steps = most_steps(&table);
        let number = measure(0, &table, &[], &[]).number;
        assert_eq!(number, if steps > CHAIN_LIMIT { 2 } else { 0 });
        longest += usize::from(steps == CHAIN_LIMIT);
        too_long += usize::from(steps == CHAIN_LIMIT + 1);
    }
    assert!(longest.min(too_long) > CASES / 50, "{longest} {too_long}");
}

const TABLE_HEAD: usize = 426;
const RECORD_BYTES: usize = 23;

fn without_successors(table: &[u8]) -> Vec<u8> {
    let mut table = table.to_vec();
    let records = table.get_mut(TABLE_HEAD..).unwrap_or_default();
    for record in records.chunks_exact_mut(RECORD_BYTES) {
        if record[5] == 1 {
            record[5..7].fill(0);
        }
    }
    table
}

/// The steps of the longest chain, counted no further than one past the limit.
fn most_steps(table: &[u8]) -> u8 {
    let records = table[TABLE_HEAD..].chunks(RECORD_BYTES);
    let successors: BTreeMap<[u8; 3], Option<[u8; 3]>> = records
        .map(|r| {
            let next = [r[2], r[3], r[6]];
            ([r[2], r[3], r[4]], (r[5] == 1).then_some(next))
        })
        .collect();
    let next = |symbol: &[u8; 3]| successors[symbol].filter(|next| successors.contains_key(next));
    let steps = |symbol: &[u8; 3]| {
        let chain = std::iter::successors(next(symbol), next);
        chain.take(usize::from(CHAIN_LIMIT) + 1).count() as u8
    };
    successors.keys().map(steps).max().unwrap_or(0)
}

#[test]
fn the_same_seed_gives_the_same_cases() {
    let draw = |seed| case(&mut Random::new(seed)).formula;
    assert_eq!(draw(3), draw(3));
}
