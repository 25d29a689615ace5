//! Random font tables that keep every rule, and the symbols to use with them.

use super::Random;
use crate::compose::{CharacterParts, TableParts};
use crate::parameters::{PARAMETERS, ROWS};
use crate::{CHAIN_LIMIT, CHARACTER_LIMIT, WORD_LIMIT};
use std::collections::{BTreeMap, BTreeSet};

pub fn good_table(random: &mut Random) -> TableParts {
    let scale = Scale::drawn(random);
    let rows = rows(scale, random);
    let mut characters = characters(scale, random);
    link(&mut characters, random);
    TableParts { rows, characters }
}

/// How large a table's words are.
#[derive(Clone, Copy)]
pub enum Scale {
    Zero,
    Tiny,
    Small,
    Usual,
    Large,
    Mixed,
}

impl Scale {
    pub fn drawn(random: &mut Random) -> Scale {
        *random.weighted(&[
            (Scale::Zero, 3),
            (Scale::Tiny, 10),
            (Scale::Small, 25),
            (Scale::Usual, 25),
            (Scale::Large, 12),
            (Scale::Mixed, 25),
        ])
    }

    pub fn word(self, random: &mut Random) -> u32 {
        let greatest = match self {
            Scale::Zero => 0,
            Scale::Tiny => 5,
            Scale::Small => 1000,
            Scale::Usual => 1 << 20,
            Scale::Large => WORD_LIMIT,
            Scale::Mixed => match random.below(8) {
                0 | 1 => 0,
                2..5 => 1000,
                5 | 6 => 1 << 20,
                _ => return WORD_LIMIT,
            },
        };
        random.between(0, greatest.into()) as u32
    }
}

fn rows(scale: Scale, random: &mut Random) -> [[u32; PARAMETERS]; ROWS] {
    let mut row = || std::array::from_fn(|_| scale.word(random));
    let rows = [row(), row(), row()];
    if random.percent(20) {
        [rows[0]; ROWS]
    } else {
        rows
    }
}

fn characters(scale: Scale, random: &mut Random) -> Vec<CharacterParts> {
    let symbols: Vec<(u8, u8)> = symbol_set(random).into_iter().collect();
    let presence = *random.pick(&[100, 100, 95, 80]);
    let mut characters = Vec::new();
    for size in 0..ROWS as u8 {
        for &(family, code) in &symbols {
            if characters.len() < CHARACTER_LIMIT && random.percent(presence) {
                characters.push(CharacterParts {
                    size,
                    family,
                    code,
                    successor: None,
                    measures: std::array::from_fn(|_| scale.word(random)),
                });
            }
        }
    }
    characters
}

/// A few families, some with many codes; one table in fifty is full.
fn symbol_set(random: &mut Random) -> BTreeSet<(u8, u8)> {
    let wanted = match random.below(50) {
        0 => 0,
        1 => CHARACTER_LIMIT.div_ceil(ROWS),
        2..6 => random.below(300),
        _ => random.below(24) + 1,
    };
    let families = random.below(4) + 3;
    let mut symbols = BTreeSet::new();
    while symbols.len() < wanted {
        let family = (random.below(families) * 3) as u8;
        symbols.insert((family, random.byte()));
    }
    if wanted > 0 && random.percent(20) {
        symbols.insert((0, 0));
    }
    symbols
}

/// Gives some characters successors; no chain gets too long.
fn link(characters: &mut [CharacterParts], random: &mut Random) {
    let flagged = *random.pick(&[0, 20, 70, 70, 100]);
    for family in characters.chunk_by_mut(|a, b| a.is_akin_to(b)) {
        link_family(family, flagged, random);
    }
}

fn link_family(family: &mut [CharacterParts], flagged: u64, random: &mut Random) {
    let mut order: Vec<usize> = (0..family.len()).collect();
    random.shuffle(&mut order);
    // Codes that a character may lead to, and the steps that follow.
    let mut ends: Vec<(u8, u8)> = Vec::new();
    for at in order {
        let mut steps = 0;
        if random.percent(3) {
            family[at].successor = absent_code(family, random);
        } else if random.percent(flagged) && !ends.is_empty() {
            let among = if random.percent(50) { 1 } else { ends.len() };
            let end = ends[ends.len() - 1 - random.below(among)];
            family[at].successor = Some(end.0);
            steps = end.1 + 1;
        }
        if steps < CHAIN_LIMIT {
            ends.push((family[at].code, steps));
        }
    }
}

/// A code that the family does not have.
fn absent_code(family: &[CharacterParts], random: &mut Random) -> Option<u8> {
    let code = random.byte();
    let is_absent = family.iter().all(|character| character.code != code);
    is_absent.then_some(code)
}

/// The families and codes of both tables, as a lookup finds them.
#[derive(Clone, Debug)]
pub struct Symbols {
    known: Vec<(u8, u8)>,
    /// Those that a formula can use in every style without a refusal.
    usable: Vec<(u8, u8)>,
    /// Those of them that are enlarged in display as an operator.
    enlarged: Vec<(u8, u8)>,
    /// Those that have a successor at one size at least.
    linked: Vec<(u8, u8)>,
    /// Those of them that are no successor.
    heads: Vec<(u8, u8)>,
}

impl Symbols {
    /// Those of the client hide ours.
    pub fn of(ours: &[CharacterParts], client: &[CharacterParts]) -> Symbols {
        let characters = ours.iter().chain(client);
        let successors: BTreeMap<(u8, u8, u8), Option<u8>> =
            characters.map(|c| (c.key(), c.successor)).collect();
        let is_usable = |&(family, code): &(u8, u8)| {
            let in_all = (0..ROWS as u8).all(|size| successors.contains_key(&(size, family, code)));
            let enlarged = successors.get(&(0, family, code)).copied().flatten();
            in_all && enlarged.is_none_or(|code| successors.contains_key(&(0, family, code)))
        };
        let is_enlarged = |(family, code): &(u8, u8)| successors[&(0, *family, *code)].is_some();
        let known: BTreeSet<(u8, u8)> = successors
            .keys()
            .map(|(_, family, code)| (*family, *code))
            .collect();
        let (linked, next): (BTreeSet<_>, BTreeSet<_>) = successors
            .iter()
            .filter_map(|((_, family, code), next)| Some(((*family, *code), (*family, (*next)?))))
            .unzip();
        let usable: Vec<(u8, u8)> = known.iter().copied().filter(is_usable).collect();
        Symbols {
            enlarged: usable.iter().copied().filter(is_enlarged).collect(),
            usable,
            known: known.into_iter().collect(),
            heads: linked.difference(&next).copied().collect(),
            linked: linked.into_iter().collect(),
        }
    }

    /// None if there is no usable symbol.
    pub fn usable(&self, random: &mut Random) -> Option<(u8, u8)> {
        drawn(&self.usable, random)
    }

    /// None if there is no usable symbol that is enlarged.
    pub fn enlarged(&self, random: &mut Random) -> Option<(u8, u8)> {
        drawn(&self.enlarged, random)
    }

    /// A symbol that is there at one size at least; none if there is none.
    pub fn known(&self, random: &mut Random) -> Option<(u8, u8)> {
        drawn(&self.known, random)
    }

    /// A symbol with a successor, mostly a chain's first; none if there is none.
    pub fn linked(&self, random: &mut Random) -> Option<(u8, u8)> {
        if random.percent(70) {
            drawn(&self.heads, random)
        } else {
            drawn(&self.linked, random)
        }
    }
}

fn drawn(symbols: &[(u8, u8)], random: &mut Random) -> Option<(u8, u8)> {
    (!symbols.is_empty()).then(|| *random.pick(symbols))
}
