//! Clients' tables over ours, good ones and ones with a fault.

use super::chains::{in_order, LONGEST};
use super::damage::{close_ring, damaged_bytes, disorder, some_characters, spoil_record};
use super::tables::Scale;
use super::Random;
use crate::compose::{records, CharacterParts, TableParts};
use crate::parameters::ROWS;
use crate::records::RECORD_BYTES;
use crate::CLIENT_LIMIT;
use std::collections::{BTreeMap, BTreeSet};
use std::iter::successors;

/// Our table and a client's characters.
pub type Pair = (TableParts, Vec<CharacterParts>);

/// Gives some characters of a table to a client, so that both are looked up
/// as the one was. If a chain was too long, it now is over both tables alone.
pub fn shared_out(mut table: TableParts, random: &mut Random) -> Pair {
    const KEPT_FREE: usize = 20;
    let share = Share::drawn(random);
    let links = links(&table.characters);
    let (mut client, mut ours) = (Vec::new(), Vec::new());
    for character in table.characters {
        let is_free = client.len() < CLIENT_LIMIT - KEPT_FREE;
        if is_free && share.takes(character.key(), &links, random) {
            client.push(character);
        } else {
            ours.push(character);
        }
    }
    client.extend(taken_from_chains(&mut ours, random));
    client.sort_by_key(CharacterParts::key);
    let mut hidden = hidden(&client, random);
    shorten(&mut hidden, &ours);
    ours.extend(hidden);
    in_order(&mut ours);
    table.characters = ours;
    (table, client)
}

/// Which characters a client gets.
#[derive(Clone, Copy)]
enum Share {
    /// So many of a hundred.
    Any(u64),
    /// Those from which there are at least so many steps.
    Early(usize),
    /// Those from which there are fewer.
    Late(usize),
}

impl Share {
    fn drawn(random: &mut Random) -> Share {
        let steps = random.below(LONGEST) + 1;
        match random.below(7) {
            0 => Share::Early(steps),
            1 => Share::Late(steps),
            2 => Share::Late(1),
            _ => Share::Any(*random.pick(&[5, 20, 50, 50, 80, 100, 100])),
        }
    }

    fn takes(self, key: Key, links: &Links, random: &mut Random) -> bool {
        let steps = || chain(links, key).len() - 1;
        match self {
            Share::Any(share) => random.percent(share),
            Share::Early(least) => steps() >= least,
            Share::Late(least) => steps() < least,
        }
    }
}

/// Takes characters away until no chain is too long.
fn taken_from_chains(
    characters: &mut Vec<CharacterParts>,
    random: &mut Random,
) -> Vec<CharacterParts> {
    let mut links = links(&*characters);
    mend(&mut links, |links, chain| {
        links.remove(random.pick(chain));
    });
    let is_taken = |character: &mut CharacterParts| !links.contains_key(&character.key());
    characters.extract_if(.., is_taken).collect()
}

/// Characters of ours, most of which lead on, under some of the client's.
fn hidden(client: &[CharacterParts], random: &mut Random) -> Vec<CharacterParts> {
    let share = *random.pick(&[0, 30, 100]);
    let scale = Scale::drawn(random);
    let mut hidden = Vec::new();
    for family in client.chunk_by(|a, b| a.is_akin_to(b)) {
        for character in family {
            if random.percent(share) {
                hidden.push(CharacterParts {
                    successor: random.percent(80).then(|| random.pick(family).code),
                    measures: std::array::from_fn(|_| scale.word(random)),
                    ..*character
                });
            }
        }
    }
    hidden
}

/// A client's characters that hide some of ours or are new. They lead on to
/// their own kind and to ours, and no chain is too long.
pub fn client_over(ours: &[CharacterParts], random: &mut Random) -> Vec<CharacterParts> {
    let scale = Scale::drawn(random);
    let share = *random.pick(&[0, 15, 50, 100]);
    let hides = |_: &&CharacterParts| random.percent(share);
    let mut client: Vec<CharacterParts> = ours.iter().filter(hides).copied().collect();
    client.extend(new_characters(ours, random));
    in_order(&mut client);
    client.truncate(CLIENT_LIMIT);
    link(&mut client, ours, random);
    for character in &mut client {
        character.measures = std::array::from_fn(|_| scale.word(random));
    }
    shorten(&mut client, ours);
    client
}

/// Some symbols, most of them of our families, in most of the sizes.
fn new_characters(ours: &[CharacterParts], random: &mut Random) -> Vec<CharacterParts> {
    let mut characters = Vec::new();
    for _ in 0..*random.pick(&[0, 1, 4, 12]) {
        let family = match random.below(10) {
            0..7 if !ours.is_empty() => random.pick(ours).family,
            _ => random.below(16) as u8,
        };
        let code = random.byte();
        for size in 0..ROWS as u8 {
            if random.percent(90) {
                characters.push(CharacterParts {
                    size,
                    family,
                    code,
                    successor: None,
                    measures: [0; 4],
                });
            }
        }
    }
    characters
}

/// Lets some lead on to any of their size and family, or to one that is not
/// there.
fn link(client: &mut [CharacterParts], ours: &[CharacterParts], random: &mut Random) {
    let share = *random.pick(&[0, 30, 80]);
    let mut codes: BTreeMap<(u8, u8), Vec<u8>> = BTreeMap::new();
    for character in ours.iter().chain(client.iter()) {
        let family = (character.size, character.family);
        codes.entry(family).or_default().push(character.code);
    }
    for character in client {
        character.successor = random.percent(share).then(|| {
            if random.percent(5) {
                return random.byte();
            }
            *random.pick(&codes[&(character.size, character.family)])
        });
    }
}

type Key = (u8, u8, u8);
/// The successors of characters.
type Links = BTreeMap<Key, Option<u8>>;

fn links<'a>(characters: impl IntoIterator<Item = &'a CharacterParts>) -> Links {
    let link = |c: &CharacterParts| (c.key(), c.successor);
    characters.into_iter().map(link).collect()
}

/// Lets the upper characters end chains until none over both is too long. The
/// lower ones are short by themselves.
fn shorten(upper: &mut Vec<CharacterParts>, lower: &[CharacterParts]) {
    let mut links = links(lower.iter().chain(upper.iter()));
    let upper_keys: BTreeSet<Key> = upper.iter().map(CharacterParts::key).collect();
    mend(&mut links, |links, chain| {
        let (last, before) = chain.split_last().expect("a chain has symbols");
        match before.iter().rfind(|key| upper_keys.contains(key)) {
            Some(key) => links.insert(*key, None),
            None => links.remove(last),
        };
    });
    upper.retain_mut(|character| match links.get(&character.key()) {
        Some(successor) => {
            character.successor = *successor;
            true
        }
        None => false,
    });
}

/// Hands over chains that are too long, one step past the limit, until there
/// is none; each has to be ended.
fn mend(links: &mut Links, mut end: impl FnMut(&mut Links, &[Key])) {
    let starts: Vec<Key> = links.keys().copied().collect();
    for start in starts {
        loop {
            let chain = chain(links, start);
            if chain.len() <= LONGEST {
                break;
            }
            end(links, &chain);
        }
    }
}

/// The symbols from one on, no further than one step past the limit.
fn chain(links: &Links, start: Key) -> Vec<Key> {
    let next = |key: &Key| {
        let code = (*links.get(key)?)?;
        let next = (key.0, key.1, code);
        links.contains_key(&next).then_some(next)
    };
    successors(Some(start), next).take(LONGEST + 1).collect()
}

/// A client's table with one fault of some kind; a few come out good.
pub fn damaged_client(
    mut client: Vec<CharacterParts>,
    table: &TableParts,
    random: &mut Random,
) -> Vec<u8> {
    match random.below(14) {
        0 => return damaged_bytes(records(&client), random),
        1 | 2 => return records(&some_characters(CLIENT_LIMIT + random.below(2))),
        3 => return table.bytes(),
        4 => return cut(records(&client), random),
        _ if client.is_empty() => return cut(records(&client), random),
        5 | 6 => disorder(&mut client, random),
        7 => close_ring(&mut client, random),
        _ => {
            let mut bytes = records(&client);
            spoil_record(&mut bytes, client.len(), random);
            return bytes;
        }
    }
    records(&client)
}

/// Some bytes more or fewer, so that the last record is not whole.
fn cut(mut bytes: Vec<u8>, random: &mut Random) -> Vec<u8> {
    let part = 1 + random.below(RECORD_BYTES - 1);
    let length = match bytes.len().checked_sub(part) {
        Some(fewer) if random.percent(50) => fewer,
        _ => bytes.len() + part,
    };
    bytes.resize(length, random.byte());
    bytes
}
