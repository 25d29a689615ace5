//! The formulas that are set, over letters that both tables have.

use reference::compose::{atom, choice, fence, fraction, kern, list, root, symbol, EMPTY};

/// Family and code of the signs that stand in other places in other tables.
#[derive(Clone, Copy)]
pub struct Alphabet {
    pub plus: (u8, u8),
    pub equals: (u8, u8),
}

const A: [u8; 3] = [1, 1, b'a'];
const F: [u8; 3] = [1, 1, b'f'];
const SUM: [u8; 3] = [1, 3, 80];
/// A list with nothing in it.
const NO_ITEMS: [u8; 3] = [2, 0, 0];

fn ord(fields: [&[u8]; 3]) -> Vec<u8> {
    atom(0, 0, fields)
}

fn letter(symbol: &[u8]) -> Vec<u8> {
    ord([symbol, EMPTY, EMPTY])
}

impl Alphabet {
    fn plus(&self) -> Vec<u8> {
        atom(2, 0, [&symbol(self.plus.0, self.plus.1), EMPTY, EMPTY])
    }

    fn equals(&self) -> Vec<u8> {
        atom(3, 0, [&symbol(self.equals.0, self.equals.1), EMPTY, EMPTY])
    }
}

/// As on job sheets: a sampling rate, a force, a mean of squares, a sum.
pub fn typical(letters: &Alphabet) -> Vec<Vec<u8>> {
    let (plus, equals) = (letters.plus(), letters.equals());
    let indexed = ord([&F, EMPTY, &A]);
    let square = ord([&A, &A, &F]);
    let squares = [&square[..], &plus, &square, &plus, &square].concat();
    let below = list(&[&letter(&A)[..], &equals, &letter(&F)].concat());
    vec![
        [
            &indexed[..],
            &equals,
            &letter(&A),
            &indexed,
            &plus,
            &fraction(0, &F, &A),
        ]
        .concat(),
        [
            &letter(&F)[..],
            &equals,
            &letter(&A),
            &letter(&A),
            &ord([&A, &F, EMPTY]),
        ]
        .concat(),
        [&square[..], &equals, &fraction(0, &list(&squares), &F)].concat(),
        [
            &letter(&A)[..],
            &equals,
            &fraction(0, &A, &F),
            &atom(1, 0, [&SUM, &A, &below]),
            &square,
        ]
        .concat(),
    ]
}

/// The length of a phrase whose nucleus is a symbol.
pub const PHRASE_BYTES: usize = 64;

/// Of a phrase's fraction and the kern behind it.
pub const FRACTION_AND_KERN_BYTES: usize = 15;

/// Symbols, scripts, a fraction and a kern; it opens with the given nucleus.
fn phrase(letters: &Alphabet, nucleus: &[u8]) -> Vec<u8> {
    [
        &letter(nucleus)[..],
        &letters.plus(),
        &ord([&F, &A, EMPTY]),
        &letters.equals(),
        &ord([&A, EMPTY, &A]),
        &fraction(0, &A, &F),
        &kern(1000),
    ]
    .concat()
}

/// As many phrases, one after the other, as there are in so many bytes.
pub fn flat(letters: &Alphabet, bytes: usize) -> Vec<u8> {
    phrase(letters, &A).repeat(bytes / PHRASE_BYTES)
}

/// The same number of phrases, each of the first holding the rest as a list,
/// down to the given depth.
pub fn nested(letters: &Alphabet, bytes: usize, depth: usize) -> Vec<u8> {
    let levels = depth - 1;
    let innermost = flat(letters, bytes - levels * PHRASE_BYTES);
    (0..levels).fold(innermost, |inner, _| phrase(letters, &list(&inner)))
}

/// Makes an item that holds a list.
pub type Holder = fn(&[u8]) -> Vec<u8>;

/// An item with a list in each field that can hold one, and a choice that takes it.
pub const HOLDERS: [Holder; 8] = [
    |list| ord([list, EMPTY, EMPTY]),
    |list| root(SOUGHT, [list, EMPTY, EMPTY]),
    |list| fence([SOUGHT; 2], [list, EMPTY, EMPTY]),
    |list| choice([list, &NO_ITEMS, &NO_ITEMS, &NO_ITEMS]),
    |list| ord([&A, list, EMPTY]),
    |list| ord([&A, EMPTY, list]),
    |list| fraction(0, list, &A),
    |list| fraction(0, &A, list),
];
/// So many of the first of them have no letter.
pub const WITHOUT_LETTERS: usize = 4;

/// A phrase, and the place of its fraction.
pub fn with_letters(letters: &Alphabet) -> (Vec<u8>, usize) {
    let place = PHRASE_BYTES - FRACTION_AND_KERN_BYTES;
    (phrase(letters, &A), place)
}

/// A root and a fraction of nothing, and the fraction's place; the root's sign is
/// looked for.
pub fn without_letters() -> (Vec<u8>, usize) {
    let root = root(SOUGHT, [EMPTY; 3]);
    let fraction = fraction(0, EMPTY, EMPTY);
    ([&root[..], &fraction].concat(), root.len())
}

/// Some items in as many lists, one in the other, as make the depth; and the place
/// of an item among them, as it is then.
pub fn held(holder: Holder, items: &[u8], place: usize, depth: usize) -> (Vec<u8>, usize) {
    (1..depth).fold((items.to_vec(), place), |(inner, place), _| {
        let item = holder(&list(&inner));
        let before = item.windows(inner.len()).position(|part| part == inner);
        let before = before.expect("the item holds the list");
        (item, before + place)
    })
}

/// As many choices between empty lists as there is room for.
pub fn empty_choices(most: usize) -> Vec<u8> {
    let item = choice([&NO_ITEMS; 4]);
    item.repeat(most / item.len())
}

/// As many phrases as there is room for, in the list for display of a choice,
/// which stands in that of another, down to the given depth.
pub fn chosen(letters: &Alphabet, most: usize, depth: usize) -> Vec<u8> {
    let levels = depth - 1;
    let innermost = flat(letters, most - levels * choice([&NO_ITEMS; 4]).len());
    (0..levels).fold(innermost, |inner, _| {
        choice([&list(&inner), &NO_ITEMS, &NO_ITEMS, &NO_ITEMS])
    })
}

/// Over a full table of chains it is looked for in two of them.
const SOUGHT: [(u8, u8); 2] = [(1, 0), (2, 17)];

/// As many roots of nothing as there is room for.
pub fn searches(most: usize) -> Vec<u8> {
    let item = root(SOUGHT, [EMPTY; 3]);
    item.repeat(most / item.len())
}

/// As many fences around nothing as there is room for; both sides of each are
/// looked for.
pub fn double_searches(most: usize) -> Vec<u8> {
    let item = fence([SOUGHT; 2], [&NO_ITEMS, EMPTY, EMPTY]);
    item.repeat(most / item.len())
}
