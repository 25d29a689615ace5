//! The index beside a table: which codes each size and family has, and how many
//! records stand before theirs.
//!
//! For each size, then family, there are four words with a bit for each code,
//! from the lowest up, and then a start.

use crate::records::{code, family, Record};

const SIZES: usize = 3;
const FAMILIES: usize = 16;
const BITS: usize = u64::BITS as usize;
const CODE_WORDS: usize = 256 / BITS;
const FAMILY_WORDS: usize = CODE_WORDS + 1;

/// The words of an index.
pub const INDEX_WORDS: usize = SIZES * FAMILIES * FAMILY_WORDS;

pub type Index = [u64; INDEX_WORDS];

/// The room for an index in lent words; none if they are too few.
pub fn room(words: &mut [u64]) -> Option<&mut Index> {
    words.first_chunk_mut()
}

/// Whatever the index was, from here on it is that of the records, which keep
/// the rules and rise. Those of one size and family are taken together.
pub fn build(records: &[Record], index: &mut Index) {
    let mut rest = records;
    let families = index.as_chunks_mut::<FAMILY_WORDS>().0;
    for (place, [codes @ .., start]) in families.iter_mut().enumerate() {
        *start = (records.len() - rest.len()) as u64;
        *codes = [0; CODE_WORDS];
        let wanted = [place / FAMILIES, place % FAMILIES].map(|number| number as u8);
        while let Some((record, behind)) = rest.split_first() {
            if family(record) != wanted {
                break;
            }
            let (word, bit) = word_and_bit(code(record));
            codes[word] |= 1 << bit;
            rest = behind;
        }
    }
}

/// Which of the records is the symbol's, counted from 0; none if there is none.
pub fn position(index: &Index, size: u8, family: u8, code: u8) -> Option<usize> {
    let families = index.as_chunks::<FAMILY_WORDS>().0;
    let [codes @ .., start] = &families[place(size, family)];
    let (word, bit) = word_and_bit(code.into());
    let below = codes[word] & ((1 << bit) - 1);
    let is_there = codes[word] >> bit & 1 == 1;
    let position = || start + ones(&codes[..word]) + ones(&[below]);
    is_there.then(|| position() as usize)
}

/// Of a family among those of all sizes.
fn place(size: u8, family: u8) -> usize {
    FAMILIES * usize::from(size) + usize::from(family)
}

/// Of the four words the code's, and its bit there.
fn word_and_bit(code: usize) -> (usize, usize) {
    (code / BITS, code % BITS)
}

fn ones(words: &[u64]) -> u64 {
    words.iter().map(|word| u64::from(word.count_ones())).sum()
}
