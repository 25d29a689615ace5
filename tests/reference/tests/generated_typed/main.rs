//! Generated typed formulas: every cause of each refusal is met, and both ways
//! round give the same bytes.

mod descent;
mod names;
mod unmade;

use names::{names, Names};
use reference::eqn::{read, write, MOST_BYTES};
use reference::generate::{typed_case, Random, TypedCase};
use reference::{measure, Converted};
use std::collections::BTreeMap;

const CASES: usize = 40_000;
const FONT: &[u8] = include_bytes!("../../../../data/bench.tab");
const FILLING: u8 = 0xA5;
/// Deeper braces are left to other tests.
const DEEPEST: usize = 500;

/// How many cases there were of each cause, by the refusal's number.
#[derive(Default)]
struct Causes(BTreeMap<(u8, String), usize>);

impl Causes {
    fn add(&mut self, number: u8, cause: impl Into<String>) {
        *self.0.entry((number, cause.into())).or_insert(0) += 1;
    }

    fn assert_met(&self, number: u8, causes: impl IntoIterator<Item = String>, least: usize) {
        for cause in causes {
            let key = (number, cause);
            let count = self.0.get(&key).copied().unwrap_or(0);
            assert!(count >= least, "{key:?}: {count} of {:?}", self.0);
        }
    }
}

#[test]
fn typed_formulas_are_refused_for_each_cause() {
    let mut random = Random::new(31);
    let mut causes = Causes::default();
    for _ in 0..CASES {
        let case = typed_case(&mut random);
        check(&case, &mut causes);
    }
    for number in [0, 10, 11, 12, 13, 20, 21] {
        let met = causes.0.iter().filter(|((it, _), _)| *it == number);
        let count: usize = met.map(|(_, count)| count).sum();
        assert!(count > CASES / 80, "{number}: {count}");
    }
    let strings = |causes: &[&str]| causes.iter().map(|it| it.to_string()).collect::<Vec<_>>();
    causes.assert_met(20, strings(&names::FAULTS), 20);
    causes.assert_met(10, strings(&UNKNOWN), 30);
    causes.assert_met(11, misplaced(), 5);
    causes.assert_met(12, strings(&GREAT), 10);
    causes.assert_met(13, strings(&["reading", "writing"]), 200);
    causes.assert_met(21, strings(&unmade::FAULTS), 10);
    causes.assert_met(0, strings(&ACCEPTED), 10);
}

/// Holds the answer to what the request says of the case, and counts its cause.
fn check(case: &TypedCase, causes: &mut Causes) {
    let (answer, result) = called(case, case.room);
    assert!(answer.bytes as usize <= MOST_BYTES * case.bytes.len());
    let names = match names(&case.names) {
        Ok(names) => names,
        Err((place, faults)) => {
            assert_eq!(refusal(&answer), (20, place), "{case:?}");
            if let [fault] = faults[..] {
                causes.add(20, fault);
            }
            return;
        }
    };
    let expected = match case.is_written {
        true => writing(case, &names, causes),
        false => reading(case, &names, causes),
    };
    let Ok(expected) = expected.map_err(|expected| {
        assert_eq!(refusal(&answer), expected, "{case:?}");
    }) else {
        return;
    };
    let way = if case.is_written {
        "writing"
    } else {
        "reading"
    };
    if expected.len() > case.room {
        assert_eq!(refusal(&answer), (13, 0), "{case:?}");
        causes.add(13, way);
    } else {
        assert_eq!(refusal(&answer), (0, 0), "{case:?}");
        assert!(result == expected, "{case:?}");
        causes.add(0, way);
    }
    there_and_back(case, &expected);
}

fn refusal(answer: &Converted) -> (u8, usize) {
    (answer.number, answer.place as usize)
}

/// The call with so much room; bytes past the result stay.
fn called(case: &TypedCase, room: usize) -> (Converted, Vec<u8>) {
    let call = if case.is_written { write } else { read };
    let mut result = vec![FILLING; room];
    let answer = call(&case.names, &case.bytes, &mut result);
    let rest = result.split_off(answer.bytes as usize);
    assert!(rest.iter().all(|byte| *byte == FILLING), "{case:?}");
    (answer, result)
}

/// The result of the call the other way round.
fn back(case: &TypedCase, bytes: &[u8]) -> Vec<u8> {
    let other = TypedCase {
        is_written: !case.is_written,
        bytes: bytes.to_vec(),
        ..case.clone()
    };
    let (answer, result) = called(&other, MOST_BYTES * bytes.len());
    assert_eq!(answer.number, 0, "{other:?}");
    result
}

/// What was written reads to the same formula; what was read is written, and
/// reads to the same formula again.
fn there_and_back(case: &TypedCase, expected: &[u8]) {
    let came = back(case, expected);
    if case.is_written {
        assert!(came == case.bytes, "{case:?}");
    } else {
        let written = TypedCase {
            is_written: true,
            bytes: expected.to_vec(),
            ..case.clone()
        };
        assert!(back(&written, &came) == expected, "{case:?}");
    }
}

const UNKNOWN: [&str; 4] = [
    "in the grammar",
    "in the grammar, over 32 bytes",
    "outside the grammar",
    "outside the grammar, over 32 bytes",
];
const GREAT: [&str; 2] = ["too deep", "too long"];
const ACCEPTED: [&str; 6] = [
    "reading",
    "writing",
    "depth 32",
    "131,072 bytes",
    "list of 65,535 bytes",
    "list of 65,536 bytes",
];

/// The formula that the text gives, or the refusal.
fn reading(case: &TypedCase, names: &Names, causes: &mut Causes) -> Result<Vec<u8>, (u8, usize)> {
    let tokens = descent::tokens(&case.bytes);
    let unknown = tokens
        .iter()
        .position(|(_, token)| descent::is_name(token) && !names.all.contains_key(token));
    if let Some(at) = unknown {
        let is_outside = descent::formula(&tokens[..at], names).is_err_and(|fault| fault < at);
        let long = tokens[at].1.len() > 32;
        causes.add(10, UNKNOWN[2 * usize::from(is_outside) + usize::from(long)]);
        return Err((10, tokens[at].0));
    }
    if braces(&tokens) > DEEPEST {
        let answer = read(&case.names, &case.bytes, &mut []);
        assert!([11, 12].contains(&answer.number));
        return Err(refusal(&answer));
    }
    let formula = descent::formula(&tokens, names).map_err(|at| {
        causes.add(11, misplacement(&tokens, at));
        (11, tokens.get(at).map_or(case.bytes.len(), |token| token.0))
    })?;
    // 01's reader, with the limits of request 8, is the judge of length and depth.
    let judged = measure(0, FONT, &[], &formula);
    match judged.number {
        3 => {
            assert_eq!(judged.place, 0);
            assert!(formula.len() > 131_072);
            causes.add(12, "too long");
            Err((12, 0))
        }
        4 => {
            causes.add(12, "too deep");
            Err((12, 0))
        }
        _ => {
            note_edges(&formula, causes);
            Ok(formula)
        }
    }
}

/// The most braces that are open at once.
fn braces(tokens: &[(usize, &[u8])]) -> usize {
    let mut open = 0_usize;
    let counts = tokens.iter().map(|(_, token)| {
        match *token {
            b"{" => open += 1,
            b"}" => open = open.saturating_sub(1),
            _ => (),
        }
        open
    });
    counts.max().unwrap_or(0)
}

/// Counts formulas that are just not refused.
fn note_edges(formula: &[u8], causes: &mut Causes) {
    if formula.len() == 131_072 {
        causes.add(0, "131,072 bytes");
    }
    let in_a_list = reference::compose::list(formula);
    let deeper = reference::compose::atom(0, 0, [&in_a_list, &[0], &[0]]);
    if measure(0, FONT, &[], &deeper).number == 4 {
        causes.add(0, "depth 32");
    }
    if formula.windows(3).any(|bytes| bytes == [2, 255, 255]) {
        causes.add(0, "list of 65,535 bytes");
    }
    if formula.windows(5).any(|bytes| bytes == [3, 0, 0, 1, 0]) {
        causes.add(0, "list of 65,536 bytes");
    }
}

/// What stands before a token, or the end, that can't stand there, and itself.
fn misplacement(tokens: &[(usize, &[u8])], at: usize) -> String {
    let kind = |at: Option<usize>| match at {
        None => "start",
        Some(at) => tokens.get(at).map_or("end", |token| kind(token.1)),
    };
    format!("{} {}", kind(at.checked_sub(1)), kind(Some(at)))
}

fn kind(token: &[u8]) -> &'static str {
    match token {
        b"{" => "{",
        b"}" => "}",
        b"sub" => "sub",
        b"sup" => "sup",
        b"over" => "over",
        b"from" => "from",
        b"to" => "to",
        _ if descent::is_name(token) => "word",
        _ => "stray",
    }
}

/// Every pair of tokens of which the second can be misplaced.
fn misplaced() -> Vec<String> {
    let keywords = ["sub", "sup", "over", "from", "to"];
    let mut pairs = Vec::new();
    for before in ["start", "{"] {
        let misplaced = keywords.iter().chain(&["stray"]);
        pairs.extend(misplaced.map(|token| format!("{before} {token}")));
    }
    for before in keywords {
        let misplaced = keywords.iter().chain(&["stray", "}", "end"]);
        pairs.extend(misplaced.map(|token| format!("{before} {token}")));
    }
    // A second script or limit, or one out of order; a brace too many or too few.
    for before in ["word", "}"] {
        let misplaced = ["sub", "sup", "from", "to", "stray", "}", "end"];
        pairs.extend(misplaced.map(|token| format!("{before} {token}")));
    }
    pairs.extend(["start }".to_string(), "{ end".to_string()]);
    pairs
}

/// The text of the formula, or the refusal.
fn writing(case: &TypedCase, names: &Names, causes: &mut Causes) -> Result<Vec<u8>, (u8, usize)> {
    if let Some(fault) = unmade::fault(&case.bytes, names) {
        causes.add(21, fault);
        return Err((21, 0));
    }
    let (answer, text) = called(case, MOST_BYTES * case.bytes.len());
    assert_eq!(answer.number, 0, "{case:?}");
    let tokens: Vec<&[u8]> = descent::tokens(&text).iter().map(|it| it.1).collect();
    assert!(
        tokens.join(&b' ') == text,
        "one space between tokens: {case:?}"
    );
    for at in 0..tokens.len() {
        if descent::is_name(tokens[at]) {
            assert_eq!(tokens[at], first_name(&tokens, at, names), "{case:?}");
        }
    }
    note_edges(&case.bytes, causes);
    Ok(text)
}

/// The first name for the symbol of a word; where the word begins an item that
/// has neither `over` nor limits, of its class.
fn first_name<'a>(tokens: &[&[u8]], at: usize, names: &Names<'a>) -> &'a [u8] {
    let symbol = |word: &[u8]| names.all[word];
    let (family, code, class) = symbol(tokens[at]);
    let is_operand = at > 0 && names::KEYWORDS.contains(&tokens[at - 1]);
    let is_in_larger = matches!(tokens.get(at + 1), Some(&(b"over" | b"from" | b"to")));
    let fits = |word: &&&[u8]| {
        let other = symbol(word);
        (other.0, other.1) == (family, code) && (is_operand || is_in_larger || other.2 == class)
    };
    names.order.iter().find(fits).unwrap()
}
