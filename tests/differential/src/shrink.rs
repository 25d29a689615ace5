//! Makes an input on which the setters disagree smaller.

use crate::calls::disagreement;
use crate::input::Input;
use crate::watch;
use reference::INDEX_WORDS;
use std::ops::Range;

/// The parameter rows at a table's start, which stay.
const TABLE_HEAD: usize = 426;
const RECORD_BYTES: usize = 23;
/// The kind byte of a list field, and the bytes before the list's items.
const LIST: u8 = 2;
const LIST_HEAD: usize = 3;
/// Every run up to this length is tried; longer ones by halves.
const ALL_RUNS: usize = 32;

/// Drops bytes of the formula, then records of the tables, then what is not
/// needed of the lent words.
pub fn shrunk(mut input: Input) -> Input {
    let formula_bytes = Units {
        head: 0,
        length: 1,
        without: without_items,
    };
    let records_behind = |head| Units {
        head,
        length: RECORD_BYTES,
        without,
    };
    formula_bytes.drop_from(|input| &mut input.formula, &mut input);
    records_behind(0).drop_from(|input| &mut input.client, &mut input);
    records_behind(TABLE_HEAD).drop_from(|input| &mut input.table, &mut input);
    clear(|input| &mut input.index, &mut input);
    clear(|input| &mut input.client_index, &mut input);
    input
}

/// Makes words lent for an index 0, and drops those past it, while the setters
/// disagree.
fn clear(words: fn(&mut Input) -> &mut Vec<u64>, input: &mut Input) {
    let mut attempt = |change: &dyn Fn(&mut Vec<u64>)| {
        let mut candidate = input.clone();
        change(words(&mut candidate));
        if still_disagree(&candidate) {
            *input = candidate;
        }
    };
    attempt(&|words| words.truncate(INDEX_WORDS));
    let mut run = INDEX_WORDS;
    while run > 0 {
        for start in (0..INDEX_WORDS).step_by(run) {
            attempt(&|words| {
                words
                    .iter_mut()
                    .skip(start)
                    .take(run)
                    .for_each(|word| *word = 0)
            });
        }
        run /= 2;
    }
}

/// What can be dropped from some bytes: units past a head.
struct Units {
    head: usize,
    length: usize,
    without: fn(&[u8], Range<usize>) -> Vec<u8>,
}

impl Units {
    /// Drops from one part of an input while the setters disagree.
    fn drop_from(&self, part: fn(&mut Input) -> &mut Vec<u8>, input: &mut Input) {
        let bytes = part(input).clone();
        let bytes = self.dropped(bytes, |bytes| {
            let mut candidate = input.clone();
            *part(&mut candidate) = bytes.to_vec();
            still_disagree(&candidate)
        });
        *part(input) = bytes;
    }

    /// Drops runs of units, long ones first, while `holds` stays true.
    fn dropped(&self, mut bytes: Vec<u8>, holds: impl Fn(&[u8]) -> bool) -> Vec<u8> {
        let mut run = bytes.len().saturating_sub(self.head) / self.length;
        while run > 0 {
            let mut start = self.head;
            while start + run * self.length <= bytes.len() {
                let candidate = (self.without)(&bytes, start..start + run * self.length);
                if holds(&candidate) {
                    bytes = candidate;
                } else {
                    start += self.length;
                }
            }
            run = if run > ALL_RUNS { run / 2 } else { run - 1 };
        }
        bytes
    }
}

fn still_disagree(candidate: &Input) -> bool {
    watch::go_on();
    disagreement(candidate).is_some()
}

fn without(bytes: &[u8], dropped: Range<usize>) -> Vec<u8> {
    [&bytes[..dropped.start], &bytes[dropped.end..]].concat()
}

/// Lowers the lengths of what look like the lists around the dropped bytes.
fn without_items(formula: &[u8], dropped: Range<usize>) -> Vec<u8> {
    let mut shortened = formula.to_vec();
    let mut end = formula.len();
    let mut place = 0;
    while place + LIST_HEAD <= dropped.start {
        let length = u16::from_le_bytes([formula[place + 1], formula[place + 2]]);
        let list_end = place + LIST_HEAD + usize::from(length);
        if formula[place] == LIST && (dropped.end..=end).contains(&list_end) {
            let length = length - dropped.len() as u16;
            shortened[place + 1..place + LIST_HEAD].copy_from_slice(&length.to_le_bytes());
            end = list_end;
            place += LIST_HEAD;
        } else {
            place += 1;
        }
    }
    without(&shortened, dropped)
}
