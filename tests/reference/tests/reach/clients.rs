//! A client's symbols, where they are set.

use super::look::{size_of, Look};
use std::collections::BTreeMap;
use std::iter::successors;

const RECORD_BYTES: usize = 23;

/// How often each came, by whether it hides one of ours.
#[derive(Debug, Default)]
pub struct SeenClients {
    /// By its size, a symbol that is a field.
    pub fields: [[usize; 2]; 3],
    /// A symbol of a root's sign at the current size.
    pub signs: [usize; 2],
    /// A symbol of a fence's side, the same.
    pub sides: [usize; 2],
    /// An operator's symbol in display that leads to one of ours.
    pub leads_to_ours: [usize; 2],
    /// One to which one of ours leads there.
    pub after_ours: [usize; 2],
    /// One to which another of the client's leads there.
    pub after_clients: [usize; 2],
    /// An operator's symbol that leads nowhere, over one of ours that does.
    pub leads_nowhere: usize,
    /// Signs and sides whose chain goes to the other table so often.
    pub crossings: [usize; 4],
}

pub type Key = (u8, u8, u8);

/// The symbols of a table and their successors.
pub type Symbols = BTreeMap<Key, Option<u8>>;

pub fn symbols(records: &[u8]) -> Symbols {
    let records = records.chunks(RECORD_BYTES);
    records
        .map(|r| ((r[2], r[3], r[4]), (r[5] == 1).then_some(r[6])))
        .collect()
}

impl Look<'_> {
    /// A sign or side whose four bytes start there.
    pub fn sought(&mut self, at: usize, style: u8, count: fn(&mut SeenClients) -> &mut [usize; 2]) {
        let pairs = self.bytes[at..at + 4].chunks(2);
        for pair in pairs.filter(|pair| *pair != [0; 2]) {
            let key = (size_of(style), pair[0], pair[1]);
            if self.client.contains_key(&key) {
                let hides = self.hides(&key);
                count(&mut self.seen.clients)[hides] += 1;
            }
            let chain: Vec<Key> = successors(Some(key), |key| self.next(key))
                .filter(|key| self.has(key))
                .collect();
            let is_crossing = |pair: &&[Key]| {
                self.client.contains_key(&pair[0]) != self.client.contains_key(&pair[1])
            };
            let crossings = chain.windows(2).filter(is_crossing).count();
            self.seen.clients.crossings[crossings.min(3)] += 1;
        }
    }

    /// An operator in display, whose nucleus starts there.
    pub fn operator(&mut self, at: usize) {
        if self.bytes[at] != 1 {
            return;
        }
        let key = (0, self.bytes[at + 1], self.bytes[at + 2]);
        let is_client = self.client.contains_key(&key);
        let hides = self.hides(&key);
        let Some(next) = self.next(&key) else {
            let ours_leads = matches!(self.ours.get(&key), Some(Some(_)));
            self.seen.clients.leads_nowhere += usize::from(is_client && ours_leads);
            return;
        };
        let next_hides = self.hides(&next);
        let seen = &mut self.seen.clients;
        match (is_client, self.client.contains_key(&next)) {
            (true, true) => seen.after_clients[next_hides] += 1,
            (true, false) => seen.leads_to_ours[hides] += 1,
            (false, true) => seen.after_ours[next_hides] += 1,
            (false, false) => {}
        }
    }

    pub fn has(&self, key: &Key) -> bool {
        self.client.contains_key(key) || self.ours.contains_key(key)
    }

    /// 1 if ours has the symbol too.
    pub fn hides(&self, key: &Key) -> usize {
        usize::from(self.ours.contains_key(key))
    }

    /// The symbol that this one leads to, which may be absent.
    fn next(&self, key: &Key) -> Option<Key> {
        let record = self.client.get(key).or_else(|| self.ours.get(key));
        let code = (*record?)?;
        Some((key.0, key.1, code))
    }
}
