//! The calls made for an input, and what is compared.

use crate::input::Input;
use differential::guarded::Guarded;
use reference::clearances::{self, Page};
use reference::generate::Random;
use reference::{item_places, Answer, Decided, Explanation, Lent, INDEX_WORDS, NODE_BYTES};
use std::ptr;
use torfianka::sys::{self, ANSWER_WORDS, SHORT_ANSWER};
use torfianka::{Font, Measured, Refusal};

/// The refusal of too few words for an index.
const SHORT_INDEX: u8 = 19;
/// How many items of a formula are asked why.
const MOST_PLACES: usize = 12;

#[derive(Clone, Copy, Debug)]
pub enum Call {
    Measure,
    Set,
    /// Of an item at a place, or of a place where there may be none.
    Why(usize),
}

/// A call's result and the memory lent to it.
#[derive(Clone)]
pub struct Outcome {
    pub number: u8,
    pub answer: Guarded<i64>,
    pub nodes: Guarded<u8>,
    pub index: Guarded<u64>,
    pub client_index: Guarded<u64>,
}

pub struct Disagreement {
    pub call: Call,
    pub fault: &'static str,
    pub library: Outcome,
    pub reference: Outcome,
}

/// The first call whose outcomes differ, if any.
pub fn disagreement(input: &Input) -> Option<Disagreement> {
    disagreement_noting(input, |_| ())
}

/// The same; `note` is told every answer number that the reference gives.
pub fn disagreement_noting(input: &Input, mut note: impl FnMut(u8)) -> Option<Disagreement> {
    let mut random = Random::new(input.filling);
    let long = ANSWER_WORDS + random.below(4);
    let short = random.below(ANSWER_WORDS);
    let asked = places(input, &mut random);
    let short_calls = [Call::Measure, Call::Set, Call::Why(asked[0])];
    [Call::Measure, Call::Set]
        .into_iter()
        .chain(asked.into_iter().map(Call::Why))
        .map(|call| (call, long))
        .chain(short_calls.map(|call| (call, short)))
        .find_map(|(call, words)| disagreement_in(call, words, input, &mut random, &mut note))
}

/// Where to ask why: at every item of a short formula, at some of a long one,
/// and at places that are mostly none.
fn places(input: &Input, random: &mut Random) -> Vec<usize> {
    let Input { formula, .. } = input;
    let mut places = item_places(formula);
    while places.len() > MOST_PLACES {
        places.swap_remove(random.below(places.len()));
    }
    places.insert(0, random.below(formula.len() + 2));
    places.push(random.word() as usize);
    places
}

fn disagreement_in(
    call: Call,
    words: usize,
    input: &Input,
    random: &mut Random,
    note: &mut impl FnMut(u8),
) -> Option<Disagreement> {
    let room = match call {
        Call::Measure | Call::Why(_) => 0,
        Call::Set => input.room,
    };
    let before = Outcome {
        number: 0,
        answer: Guarded::drawn(words, random, |random| random.word() as i64),
        nodes: Guarded::drawn(room, random, Random::byte),
        index: Guarded::holding(&input.index, random, Random::word),
        client_index: Guarded::holding(&input.client_index, random, Random::word),
    };
    let client = client_pointer(input, random);
    let library = by_library(call, input, client, before.clone());
    let reference = by_reference(call, input, before.clone());
    note(reference.number);
    let fault = fault(call, &before, &library, &reference)
        .or_else(|| unclear(call, input, &library))
        .or_else(|| {
            (!binding_agrees(call, input, &library)).then_some("the Rust binding differs")
        })?;
    Some(Disagreement {
        call,
        fault,
        library,
        reference,
    })
}

/// What is wrong with the library's outcome, if anything.
fn fault(
    call: Call,
    before: &Outcome,
    library: &Outcome,
    reference: &Outcome,
) -> Option<&'static str> {
    let is_short = before.answer.lent().len() < ANSWER_WORDS;
    let answered = if is_short { 0 } else { ANSWER_WORDS };
    let written = match (call, reference.number) {
        (Call::Set, 0) => NODE_BYTES * reference.answer.lent()[ANSWER_WORDS - 1] as usize,
        _ => 0,
    };
    let indexed = match reference.number {
        1 | 2 | 8 | SHORT_INDEX | SHORT_ANSWER => 0,
        _ => INDEX_WORDS,
    };
    let answer = |outcome: &Outcome| outcome.answer.lent()[..answered].to_vec();
    let faults = [
        (
            library.number != reference.number,
            "the answer numbers differ",
        ),
        (answer(library) != answer(reference), "the answers differ"),
        (
            !library.answer.kept_but(answered, &before.answer),
            "words outside the answer changed",
        ),
        (
            !library.nodes.kept_but(written, &before.nodes),
            "bytes outside the nodes changed",
        ),
        (
            library.nodes.lent() != reference.nodes.lent(),
            "the nodes differ",
        ),
        (
            !library.index.kept_but(indexed, &before.index),
            "words outside the index changed",
        ),
        (
            !library.client_index.kept_but(indexed, &before.client_index),
            "words outside the client's index changed",
        ),
        (
            library.index.lent() != reference.index.lent(),
            "the indexes differ",
        ),
        (
            library.client_index.lent() != reference.client_index.lent(),
            "the client's indexes differ",
        ),
    ];
    faults
        .into_iter()
        .find_map(|(is_so, fault)| is_so.then_some(fault))
}

/// What stands too near to another on the library's page, if anything.
fn unclear(call: Call, input: &Input, library: &Outcome) -> Option<&'static str> {
    let (Call::Set, 0) = (call, library.number) else {
        return None;
    };
    let &[_, _, height, depth, count] = library.answer.lent().first_chunk()?;
    clearances::fault(&Page {
        style: input.style,
        table: &input.table,
        client: &input.client,
        formula: &input.formula,
        nodes: &library.nodes.lent()[..NODE_BYTES * count as usize],
        height,
        depth,
    })
}

/// Where the client's table starts; an empty one may be null.
fn client_pointer(input: &Input, random: &mut Random) -> *const u8 {
    if input.client.is_empty() && random.percent(50) {
        ptr::null()
    } else {
        input.client.as_ptr()
    }
}

fn by_library(call: Call, input: &Input, client: *const u8, mut lent: Outcome) -> Outcome {
    let Input { table, formula, .. } = input;
    let (answer, nodes) = (lent.answer.lent_mut(), lent.nodes.lent_mut());
    let (index, client_index) = (lent.index.lent_mut(), lent.client_index.lent_mut());
    // SAFETY: every pointer is a slice's, with that slice's length, or null for
    // a client's table of length 0; the ones written through are borrowed alone.
    lent.number = unsafe {
        match call {
            Call::Measure => sys::torfianka_measure(
                input.style,
                table.as_ptr(),
                table.len(),
                client,
                input.client.len(),
                formula.as_ptr(),
                formula.len(),
                index.as_mut_ptr(),
                index.len(),
                client_index.as_mut_ptr(),
                client_index.len(),
                answer.as_mut_ptr(),
                answer.len(),
            ),
            Call::Set => sys::torfianka_set(
                input.style,
                table.as_ptr(),
                table.len(),
                client,
                input.client.len(),
                formula.as_ptr(),
                formula.len(),
                nodes.as_mut_ptr(),
                nodes.len(),
                index.as_mut_ptr(),
                index.len(),
                client_index.as_mut_ptr(),
                client_index.len(),
                answer.as_mut_ptr(),
                answer.len(),
            ),
            Call::Why(place) => sys::torfianka_why(
                input.style,
                table.as_ptr(),
                table.len(),
                client,
                input.client.len(),
                formula.as_ptr(),
                formula.len(),
                place,
                index.as_mut_ptr(),
                index.len(),
                client_index.as_mut_ptr(),
                client_index.len(),
                answer.as_mut_ptr(),
                answer.len(),
            ),
        }
    };
    lent
}

fn by_reference(call: Call, input: &Input, mut lent: Outcome) -> Outcome {
    let Some(words) = lent.answer.lent_mut().first_chunk_mut() else {
        lent.number = SHORT_ANSWER;
        return lent;
    };
    let Input {
        style,
        table,
        client,
        formula,
        ..
    } = input;
    let nodes = lent.nodes.lent_mut();
    let indexes = Lent {
        index: lent.index.lent_mut(),
        client_index: lent.client_index.lent_mut(),
    };
    (lent.number, *words) = match call {
        Call::Measure => words_of(reference::measure_lent(
            *style, table, client, formula, indexes,
        )),
        Call::Set => words_of(reference::set_lent(
            *style, table, client, formula, nodes, indexes,
        )),
        Call::Why(place) => reason_words(reference::why_lent(
            *style, table, client, formula, place, indexes,
        )),
    };
    lent
}

fn words_of(answer: Answer) -> (u8, [i64; ANSWER_WORDS]) {
    let words = [
        answer.place as i64,
        answer.width,
        answer.height,
        answer.depth,
        answer.count as i64,
    ];
    (answer.number, words)
}

fn reason_words(explanation: Explanation) -> (u8, [i64; ANSWER_WORDS]) {
    let pair = |decided: Option<Decided>| {
        decided.map_or([0, 0], |Decided { by, shift }| [by as i64, shift])
    };
    let ([up_by, up], [down_by, down]) = (pair(explanation.up), pair(explanation.down));
    let words = [explanation.place as i64, up_by, up, down_by, down];
    (explanation.number, words)
}

/// Whether the safe functions tell what the C interface told, with a new font
/// and with one that has made a call; a font has words enough for its indexes.
fn binding_agrees(call: Call, input: &Input, library: &Outcome) -> bool {
    let Some(&[place, width, height, depth, count]) = library.answer.lent().first_chunk() else {
        return true;
    };
    if let Call::Why(asked) = call {
        return why_agrees(asked, input, library);
    }
    let expected = match library.number {
        0 => Ok(Measured {
            width,
            height,
            depth,
            count: count as usize,
        }),
        SHORT_INDEX => return true,
        number => Err(Refusal {
            number,
            place: place as usize,
        }),
    };
    let mut font = if input.client.is_empty() {
        Font::new(&input.table)
    } else {
        Font::with_client(&input.table, &input.client)
    };
    (0..2).all(|_| match call {
        Call::Measure => torfianka::measure(input.style, &mut font, &input.formula) == expected,
        Call::Set => {
            let mut nodes = library.nodes.lent().to_vec();
            let result = torfianka::set(input.style, &mut font, &input.formula, &mut nodes);
            result == expected && nodes == library.nodes.lent()
        }
        Call::Why(_) => true,
    })
}

/// The same of the safe function that asks why.
fn why_agrees(asked: usize, input: &Input, library: &Outcome) -> bool {
    if library.number == SHORT_INDEX {
        return true;
    }
    let mut font = Font::with_client(&input.table, &input.client);
    let pair = |decided: Option<torfianka::Decided>| {
        decided.map_or([0, 0], |decided| [decided.by as i64 + 1, decided.shift])
    };
    let told = match torfianka::why(input.style, &mut font, &input.formula, asked) {
        Ok(reasons) => (
            0,
            [&[0][..], &pair(reasons.up), &pair(reasons.down)].concat(),
        ),
        Err(Refusal { number, place }) => (number, vec![place as i64, 0, 0, 0, 0]),
    };
    told == (
        library.number,
        library.answer.lent()[..ANSWER_WORDS].to_vec(),
    )
}
