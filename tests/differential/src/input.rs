//! What both setters are given.

use reference::generate::{case, Random};
use reference::{measure, NODE_BYTES};

#[derive(Clone)]
pub struct Input {
    pub style: u8,
    pub table: Vec<u8>,
    pub client: Vec<u8>,
    pub formula: Vec<u8>,
    /// The length of the buffer to set in.
    pub room: usize,
    /// What the words lent for indexes hold.
    pub index: Vec<u64>,
    pub client_index: Vec<u64>,
    /// The seed of what other lent memory holds before a call.
    pub filling: u64,
}

impl Input {
    pub fn drawn(random: &mut Random) -> Input {
        let case = case(random);
        let measured = measure(case.style, &case.table, &case.client, &case.formula);
        let needed = NODE_BYTES * measured.count as usize;
        let more = needed + NODE_BYTES + random.below(1000);
        let room = *random.pick(&[
            0,
            NODE_BYTES - 1,
            needed.saturating_sub(1),
            needed,
            needed,
            needed,
            needed + 1,
            more,
            case.room,
        ]);
        Input {
            style: case.style,
            table: case.table,
            client: case.client,
            formula: case.formula,
            room,
            index: case.index,
            client_index: case.client_index,
            filling: random.word(),
        }
    }
}
