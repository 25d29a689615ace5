//! Random cases for a differential test and for timing.
//!
//! [`case`] draws from all kinds; [`case_of`] keeps to one; [`page_case`] is for
//! bodies of pages, [`typed_case`] for typed formulas. The same seed gives the
//! same cases.

mod chains;
mod choices;
mod clients;
mod damage;
mod fences;
mod formulas;
mod graded;
mod indexes;
mod long;
mod pages;
mod random;
mod roots;
mod tables;
mod typed;

pub use chains::{chain_table, full_chains};
pub use choices::choice_formula;
pub use clients::{client_over, damaged_client, shared_out, Pair};
pub use damage::{damaged_bytes, damaged_table, noise};
pub use fences::{fence_formula, wide_fence};
pub use formulas::{deep_formula, operator_formula, tall_case, tall_roots, wide_formula, Grower};
pub use graded::graded_case;
pub use indexes::lent_words;
pub use long::{long_formula, long_list_fault};
pub use pages::{page_case, PageCase};
pub use random::Random;
pub use roots::root_formula;
pub use tables::{good_table, Symbols};
pub use typed::{typed_case, TypedCase, TypedKind};

use crate::compose::records;
use crate::{measure, NODE_BYTES};

/// What a case is after.
#[derive(Clone, Copy, Debug, PartialEq, Eq)]
pub enum Kind {
    /// A good table and a formula over its symbols.
    Plain,
    /// The same with symbols that may be absent.
    Absent,
    /// Styles and choices, close together; symbols may be absent.
    Choice,
    /// Roots over a table with chains about as long as they may be; symbols
    /// may be absent.
    Root,
    /// Fences over all kinds of tables; symbols may be absent.
    Fence,
    /// Any formula over a client's table and ours, with chains over both that
    /// are about as long as they may be; symbols may be absent.
    Client,
    /// A formula with a few bytes changed.
    Damaged,
    /// Bytes at random in place of a formula.
    Noise,
    /// A table that mostly breaks a rule.
    BadTable,
    /// A client's table that mostly breaks a rule, at times with further
    /// faults.
    BadClient,
    /// A style above 7, at times with further faults.
    BadStyle,
    /// Lists down to depths around the limit.
    Deep,
    /// Lengths around a limit of formulas or lists, or a fault of a long list.
    Long,
    /// Widths and x around the size limit.
    Wide,
    /// Heights, depths and y around the size limit.
    Tall,
}

/// All kinds, each with how many of a hundred cases it gets.
pub const KINDS: [(Kind, u64); 15] = [
    (Kind::Plain, 10),
    (Kind::Absent, 6),
    (Kind::Choice, 9),
    (Kind::Root, 8),
    (Kind::Fence, 9),
    (Kind::Client, 12),
    (Kind::Damaged, 7),
    (Kind::Noise, 3),
    (Kind::BadTable, 5),
    (Kind::BadClient, 6),
    (Kind::BadStyle, 3),
    (Kind::Deep, 7),
    (Kind::Long, 4),
    (Kind::Wide, 7),
    (Kind::Tall, 4),
];

/// The input of one call; `room` is the length of the buffer to lend, `index`
/// and `client_index` are what the words lent for indexes hold.
#[derive(Clone, Debug)]
pub struct Case {
    pub kind: Kind,
    pub style: u8,
    pub table: Vec<u8>,
    pub client: Vec<u8>,
    pub formula: Vec<u8>,
    pub room: usize,
    pub index: Vec<u64>,
    pub client_index: Vec<u64>,
}

pub fn case(random: &mut Random) -> Case {
    let kind = *random.weighted(&KINDS);
    case_of(kind, random)
}

pub fn case_of(kind: Kind, random: &mut Random) -> Case {
    let style = match kind {
        Kind::BadStyle => random.between(8, 255) as u8,
        _ => random.below(8) as u8,
    };
    let (pair, formula) = pair_and_formula(kind, random);
    let formula = if random.percent(damaged_share(kind)) {
        damaged_bytes(formula, random)
    } else {
        formula
    };
    let (table, client) = lent(kind, pair, random);
    let count = measure(style, &table, &client, &formula).count as usize;
    let room = room(count * NODE_BYTES, random);
    let [index, client_index] = lent_words(&table, &client, random);
    Case {
        kind,
        style,
        table,
        client,
        formula,
        room,
        index,
        client_index,
    }
}

fn pair_and_formula(kind: Kind, random: &mut Random) -> (Pair, Vec<u8>) {
    let fitted = match kind {
        Kind::Tall if random.percent(30) => Some(tall_roots(random)),
        Kind::Tall => Some(tall_case(random)),
        Kind::Fence if random.percent(15) => Some(graded_case(random)),
        _ => None,
    };
    if let Some((table, formula)) = fitted {
        let pair = if random.percent(30) {
            shared_out(table, random)
        } else {
            (table, Vec::new())
        };
        return (pair, formula);
    }
    let (table, client) = pair(kind, random);
    let formula = formula(kind, &Symbols::of(&table.characters, &client), random);
    ((table, client), formula)
}

/// Our table, and a client's that often is empty.
fn pair(kind: Kind, random: &mut Random) -> Pair {
    let table = match kind {
        Kind::Root => chain_table(random),
        Kind::Fence if random.percent(40) => chain_table(random),
        Kind::Client if random.percent(60) => return shared_out(chain_table(random), random),
        _ => good_table(random),
    };
    let is_after_clients = matches!(kind, Kind::Client | Kind::BadClient);
    let client = match random.below(10) {
        0 => return shared_out(table, random),
        1 | 2 if !is_chained(kind) => client_over(&table.characters, random),
        _ if is_after_clients => client_over(&table.characters, random),
        _ => Vec::new(),
    };
    (table, client)
}

/// Whether our table may have a chain that is too long.
fn is_chained(kind: Kind) -> bool {
    matches!(kind, Kind::Root | Kind::Fence)
}

/// Both tables as bytes, with the faults of the kind.
fn lent(kind: Kind, (table, client): Pair, random: &mut Random) -> (Vec<u8>, Vec<u8>) {
    let client = if random.percent(bad_client_share(kind)) {
        damaged_client(client, &table, random)
    } else {
        records(&client)
    };
    let table = if random.percent(bad_table_share(kind)) {
        damaged_table(table, random)
    } else {
        table.bytes()
    };
    (table, client)
}

fn formula(kind: Kind, symbols: &Symbols, random: &mut Random) -> Vec<u8> {
    let absent = absent_share(kind, random);
    let mut grower = Grower::new(random, symbols, absent);
    match kind {
        Kind::Choice => choice_formula(&mut grower),
        Kind::Root => root_formula(&mut grower),
        Kind::Fence if grower.random.percent(10) => wide_fence(&mut grower),
        Kind::Fence => fence_formula(&mut grower),
        Kind::Client => match grower.random.below(6) {
            0 => root_formula(&mut grower),
            1 => fence_formula(&mut grower),
            2 => choice_formula(&mut grower),
            3 | 4 => operator_formula(&mut grower),
            _ => grower.formula(),
        },
        Kind::Noise => noise(random),
        Kind::Deep => deep_formula(&mut grower),
        Kind::Long => long_formula(&mut grower),
        Kind::Wide => wide_formula(&mut grower),
        _ => grower.formula(),
    }
}

/// How many symbols of a hundred may be absent.
fn absent_share(kind: Kind, random: &mut Random) -> u64 {
    match kind {
        Kind::Absent => *random.pick(&[5, 15, 60]),
        Kind::Choice | Kind::Root | Kind::Fence | Kind::Client => *random.pick(&[0, 0, 0, 8, 30]),
        Kind::Deep | Kind::Long | Kind::Wide => *random.pick(&[0, 0, 0, 0, 0, 2]),
        _ => 0,
    }
}

/// How many formulas of a hundred are damaged.
fn damaged_share(kind: Kind) -> u64 {
    match kind {
        Kind::Damaged => 100,
        Kind::BadTable | Kind::BadClient | Kind::BadStyle => 30,
        Kind::Deep | Kind::Long => 10,
        _ => 0,
    }
}

/// How many of our tables of a hundred are damaged.
fn bad_table_share(kind: Kind) -> u64 {
    match kind {
        Kind::BadTable => 100,
        Kind::BadStyle => 30,
        Kind::BadClient => 10,
        _ => 0,
    }
}

/// How many of the clients' are.
fn bad_client_share(kind: Kind) -> u64 {
    match kind {
        Kind::BadClient => 100,
        Kind::BadTable | Kind::BadStyle => 20,
        _ => 0,
    }
}

/// The room needed, or somewhat more, or less.
fn room(needed: usize, random: &mut Random) -> usize {
    match random.below(10) {
        0 => needed.saturating_sub(1),
        1 => random.below(needed + 1),
        2..7 => needed,
        _ => needed + random.below(3 * NODE_BYTES),
    }
}
