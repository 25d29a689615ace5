//! Words lent for the indexes of two tables: right ones, stale ones, noise, and
//! at times too few.

use super::tables::good_table;
use super::Random;
use crate::compose::records;
use crate::index::{build, INDEX_WORDS};
use crate::parameters::{ROWS, ROW_BYTES};
use crate::records::{symbol, Record};

/// What the words hold before the call.
#[derive(Clone, Copy)]
enum Holding {
    Right,
    Noise,
    Zeros,
    Ones,
    /// The right one with a few words changed.
    Damaged,
    /// The same table's, with one record more or one less.
    Neighbour,
    /// Another font table's.
    Stale,
    /// The client's for ours, or ours for the client's.
    Exchanged,
}

const HOLDINGS: [(Holding, u64); 8] = [
    (Holding::Right, 25),
    (Holding::Noise, 12),
    (Holding::Zeros, 6),
    (Holding::Ones, 5),
    (Holding::Damaged, 18),
    (Holding::Neighbour, 16),
    (Holding::Stale, 8),
    (Holding::Exchanged, 10),
];

/// For our table and the client's, which may be bad ones.
pub fn lent_words(table: &[u8], client: &[u8], random: &mut Random) -> [Vec<u64>; 2] {
    let ours = indexable(table.get(ROWS * ROW_BYTES..).unwrap_or_default());
    let client = indexable(client);
    let lengths = lengths(random);
    let [ours, client] =
        [(&ours, &client), (&client, &ours)].map(|(own, other)| held(own, other, random));
    [
        lengthened(ours, lengths[0], random),
        lengthened(client, lengths[1], random),
    ]
}

/// Mostly an index's, or more; in a few of a hundred cases one is too few, or
/// both are.
fn lengths(random: &mut Random) -> [usize; 2] {
    const FEW_CASES: u64 = 4;
    let short = if random.percent(FEW_CASES) {
        *random.pick(&[[true, false], [false, true], [true, true]])
    } else {
        [false; 2]
    };
    short.map(|is_short| {
        let fewer = random.below(INDEX_WORDS);
        let more = INDEX_WORDS + 2 + random.below(60);
        let choices = if is_short {
            [0, INDEX_WORDS - 1, INDEX_WORDS - 1, fewer]
        } else {
            [INDEX_WORDS, INDEX_WORDS, INDEX_WORDS + 1, more]
        };
        *random.pick(&choices)
    })
}

fn held(own: &[Record], other: &[Record], random: &mut Random) -> Vec<u64> {
    match random.weighted(&HOLDINGS) {
        Holding::Right => index_of(own),
        Holding::Noise => noise(INDEX_WORDS, random),
        Holding::Zeros => vec![0; INDEX_WORDS],
        Holding::Ones => vec![u64::MAX; INDEX_WORDS],
        Holding::Damaged => damaged(index_of(own), random),
        Holding::Neighbour => index_of(&neighbour(own, random)),
        Holding::Stale => {
            let stale = records(&good_table(random).characters);
            index_of(stale.as_chunks().0)
        }
        Holding::Exchanged => index_of(other),
    }
}

/// The records that have a place in an index, though their table may be bad.
fn indexable(bytes: &[u8]) -> Vec<Record> {
    let records = bytes.as_chunks().0.iter().copied();
    let has_place = |record: &Record| record[2] < ROWS as u8 && record[3] < 16;
    records.filter(has_place).collect()
}

fn index_of(records: &[Record]) -> Vec<u64> {
    let mut index = [0; INDEX_WORDS];
    build(records, &mut index);
    index.to_vec()
}

fn noise(words: usize, random: &mut Random) -> Vec<u64> {
    (0..words).map(|_| random.word()).collect()
}

/// Bits and starts that are wrong, mostly of a family that has records.
fn damaged(mut index: Vec<u64>, random: &mut Random) -> Vec<u64> {
    for _ in 0..*random.pick(&[1, 1, 1, 2, 5]) {
        let used: Vec<usize> = (0..INDEX_WORDS).filter(|at| index[*at] != 0).collect();
        let at = if used.is_empty() || random.percent(20) {
            random.below(INDEX_WORDS)
        } else {
            *random.pick(&used)
        };
        let word = &mut index[at];
        match random.below(7) {
            0 => *word ^= 1 << random.below(64),
            1 => *word = word.wrapping_add(1),
            2 => *word = word.wrapping_sub(1),
            3 => *word = *random.pick(&[0, u64::MAX, 1 << 63, 2048, 2049]),
            4 => *word = random.word(),
            5 => *word = word.rotate_left(1),
            _ => {
                let other = random.below(INDEX_WORDS);
                index.swap(at, other);
            }
        }
    }
    index
}

/// One record less, or one more in its place in the order.
fn neighbour(records: &[Record], random: &mut Random) -> Vec<Record> {
    let mut records = records.to_vec();
    if !records.is_empty() && random.percent(50) {
        records.remove(random.below(records.len()));
        return records;
    }
    let mut further = match records.len() {
        0 => [0; size_of::<Record>()],
        count => records[random.below(count)],
    };
    further[4] = random.byte();
    if records.is_empty() || random.percent(20) {
        further[2] = random.below(ROWS) as u8;
        further[3] = random.below(16) as u8;
    }
    let at = records.partition_point(|record| symbol(record) < symbol(&further));
    records.insert(at, further);
    records
}

/// The first words, or noise behind all of them.
fn lengthened(mut words: Vec<u64>, length: usize, random: &mut Random) -> Vec<u64> {
    words.truncate(length);
    let more = length - words.len();
    words.extend(noise(more, random));
    words
}
