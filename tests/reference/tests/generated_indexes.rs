//! What the words lent for indexes hold in generated cases, before a call and
//! after it.

use reference::generate::{case, Case, Random};
use reference::index::{build, position, Index};
use reference::{set_lent, Lent, INDEX_WORDS};

const CASES: usize = 20_000;
const TABLE_HEAD: usize = 426;
type Record = [u8; 23];

/// The index of each table's records, whose bytes these are; they are good.
fn right_indexes(case: &Case) -> [Index; 2] {
    [&case.table[TABLE_HEAD..], &case.client[..]].map(|characters| {
        let mut index = [0; INDEX_WORDS];
        build(characters.as_chunks().0, &mut index);
        index
    })
}

/// The answer number and the words after the call.
fn after(case: &Case) -> (u8, [Vec<u64>; 2]) {
    let [mut index, mut client_index] = [case.index.clone(), case.client_index.clone()];
    let lent = Lent {
        index: &mut index,
        client_index: &mut client_index,
    };
    let Case {
        style,
        table,
        client,
        formula,
        ..
    } = case;
    let mut nodes = vec![0; case.room];
    let answer = set_lent(*style, table, client, formula, &mut nodes, lent);
    (answer.number, [index, client_index])
}

#[test]
fn words_are_kept_or_right() {
    let mut random = Random::new(20);
    for _ in 0..CASES {
        let case = case(&mut random);
        let before = [&case.index, &case.client_index];
        let (number, after) = after(&case);
        if matches!(number, 1 | 2 | 8 | 19) {
            assert_eq!(before, after.each_ref());
            continue;
        }
        for ((before, after), right) in before.into_iter().zip(after).zip(right_indexes(&case)) {
            assert_eq!(after[..INDEX_WORDS], right);
            assert_eq!(after[INDEX_WORDS..], before[INDEX_WORDS..]);
        }
    }
}

/// How often each came, of our table and of the client's.
#[derive(Debug, Default)]
struct Seen {
    /// An index that is right before the call, by whether words are behind it.
    right: [[usize; 2]; 2],
    /// One that is not, the same.
    wrong: [[usize; 2]; 2],
    /// One in which a single word is wrong.
    one_word: [usize; 2],
    /// One that leads from a symbol there to another's record.
    misleading: [usize; 2],
    /// One that leads past the last record.
    past_the_end: [usize; 2],
    /// One that hides a symbol that is there.
    hiding: [usize; 2],
    /// One that has a symbol that is not there.
    inventing: [usize; 2],
    /// The other table's, where the two differ.
    exchanged: [usize; 2],
    /// Refusal 19 for one alone with no word, with 239, with any fewer.
    short: [[usize; 3]; 2],
    /// Refusal 19 for both.
    both_short: usize,
}

#[test]
fn words_of_all_kinds_are_lent() {
    let mut seen = Seen::default();
    let mut random = Random::new(21);
    for _ in 0..CASES {
        let case = case(&mut random);
        match after(&case).0 {
            1 | 2 | 8 => {}
            19 => seen.look_at_lengths([&case.index, &case.client_index].map(Vec::len)),
            _ => seen.look_at(&case),
        }
    }
    let pairs = [seen.right, seen.wrong];
    let kinds = [
        seen.one_word,
        seen.misleading,
        seen.past_the_end,
        seen.hiding,
        seen.inventing,
        seen.exchanged,
    ];
    let often = pairs.as_flattened().as_flattened().iter();
    let often = often.chain(kinds.as_flattened());
    assert!(often.min() > Some(&(CASES / 100)), "{seen:?}");
    let short = seen.short.as_flattened().iter().chain([&seen.both_short]);
    assert!(short.min() > Some(&(CASES / 1000)), "{seen:?}");
}

impl Seen {
    fn look_at_lengths(&mut self, lengths: [usize; 2]) {
        let is_short = lengths.map(|length| length < INDEX_WORDS);
        match is_short {
            [true, true] => self.both_short += 1,
            [is_ours, _] => {
                let at = usize::from(!is_ours);
                let kind = match lengths[at] {
                    0 => 0,
                    239 => 1,
                    _ => 2,
                };
                self.short[at][kind] += 1;
            }
        }
    }

    fn look_at(&mut self, case: &Case) {
        let tables = [&case.table[TABLE_HEAD..], &case.client[..]];
        let words = [&case.index, &case.client_index];
        let right = right_indexes(case);
        for at in 0..2 {
            let lent: &Index = words[at].first_chunk().unwrap();
            let has_more = usize::from(words[at].len() > INDEX_WORDS);
            if *lent == right[at] {
                self.right[at][has_more] += 1;
                continue;
            }
            self.wrong[at][has_more] += 1;
            let differing = lent.iter().zip(&right[at]).filter(|(a, b)| a != b);
            self.one_word[at] += usize::from(differing.count() == 1);
            self.exchanged[at] += usize::from(*lent == right[1 - at]);
            self.look_at_lookups(at, lent, &right[at], tables[at].as_chunks().0);
        }
    }

    /// What lookups by a wrong index would find.
    fn look_at_lookups(&mut self, at: usize, lent: &Index, right: &Index, records: &[Record]) {
        let count = records.len();
        let found: Vec<Option<usize>> = records.iter().map(|r| trusted(lent, r)).collect();
        let is_past = found.iter().flatten().any(|position| *position >= count);
        let is_another = found.iter().enumerate().any(|(own, position)| {
            position.is_some_and(|position| position != own && position < count)
        });
        let codes = |at: &usize| at % 5 != 4;
        let has_more = (0..INDEX_WORDS)
            .filter(codes)
            .any(|at| lent[at] & !right[at] != 0);
        self.misleading[at] += usize::from(is_another);
        self.past_the_end[at] += usize::from(is_past);
        self.hiding[at] += usize::from(found.contains(&None));
        self.inventing[at] += usize::from(has_more);
    }
}

/// Where a lookup would go; a start too large for a sum is made smaller, and
/// still goes past the end.
fn trusted(lent: &Index, record: &Record) -> Option<usize> {
    let [size, family, code] = [record[2], record[3], record[4]];
    let mut index = *lent;
    let start = &mut index[5 * (16 * usize::from(size) + usize::from(family)) + 4];
    *start = (*start).min(u32::MAX.into());
    position(&index, size, family, code)
}
