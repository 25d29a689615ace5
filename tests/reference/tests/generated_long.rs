//! Which long formulas and long lists are generated, and how they are answered.

use reference::generate::{case, case_of, Case, Kind, Random};
use reference::{measure, FORMULA_LIMIT, SHORT_LIST_LIMIT};

const CASES: usize = 20_000;
/// Of the kind that is after them.
const LONG_CASES: usize = 3_000;

fn answer(case: &Case) -> (u8, usize) {
    let answer = measure(case.style, &case.table, &case.client, &case.formula);
    (answer.number, answer.place as usize)
}

#[test]
fn lengths_around_the_limits_come() {
    let mut formulas = [0; 2];
    let mut lists = [0; 3];
    let mut random = Random::new(21);
    for _ in 0..LONG_CASES {
        let case = case_of(Kind::Long, &mut random);
        let (number, place) = answer(&case);
        match case.formula.len() {
            FORMULA_LIMIT => formulas[0] += usize::from(number == 0),
            length if length == FORMULA_LIMIT + 1 => {
                assert_eq!((number, place), (3, 0));
                formulas[1] += 1;
            }
            _ => {}
        }
        if number == 0 {
            lists[0] += usize::from(holds(&case.formula, 2, SHORT_LIST_LIMIT));
            lists[1] += usize::from(holds(&case.formula, 3, SHORT_LIST_LIMIT + 1));
        } else {
            lists[2] += usize::from(holds(&case.formula, 3, SHORT_LIST_LIMIT));
        }
    }
    let least = formulas.iter().chain(&lists).min();
    assert!(least > Some(&3), "{formulas:?} {lists:?}");
}

/// Whether what looks like the opening of such a list is there.
fn holds(formula: &[u8], kind: u8, length: usize) -> bool {
    let bytes = (length as u32).to_le_bytes();
    let taken = if kind == 2 { 2 } else { 4 };
    let opening = [&[kind], &bytes[..taken]].concat();
    formula
        .windows(opening.len())
        .any(|window| window == opening)
}

/// What a list field of kind 3 is refused for.
#[derive(Clone, Copy)]
enum Fault {
    Depth,
    Cut,
    Short,
    End,
}

#[test]
fn long_lists_are_refused_for_each_fault() {
    let mut counts = [0; 4];
    let mut random = Random::new(22);
    for _ in 0..CASES {
        let case = case(&mut random);
        if let Some(fault) = long_list_fault(&case) {
            counts[fault as usize] += 1;
        }
    }
    assert!(
        counts.iter().all(|count| *count > CASES / 2000),
        "{counts:?}"
    );
}

/// The fault of a formula that is refused by a field of kind 3 that is the
/// first of an atom, which most such fields are not.
fn long_list_fault(case: &Case) -> Option<Fault> {
    let (number, place) = answer(case);
    let formula = &case.formula;
    let nucleus = match number {
        3 if formula.get(place..place + 2) == Some(b"AT") => place + 4,
        4 => place,
        _ => return None,
    };
    if formula.get(nucleus) != Some(&3) {
        return None;
    }
    if number == 4 {
        return Some(Fault::Depth);
    }
    let Some(length) = formula[nucleus + 1..].first_chunk() else {
        return Some(Fault::Cut);
    };
    Some(match u32::from_le_bytes(*length) as usize {
        length if length <= SHORT_LIST_LIMIT => Fault::Short,
        _ => Fault::End,
    })
}
