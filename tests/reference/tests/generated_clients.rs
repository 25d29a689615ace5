//! Why generated clients' tables are refused, and which chains they have.

use reference::generate::{case, chain_table, shared_out, Case, Random};
use reference::{measure, CHAIN_LIMIT, CHARACTER_LIMIT, CLIENT_LIMIT, WORD_LIMIT};
use std::collections::BTreeMap;
use std::iter::successors;

const CASES: usize = 20_000;
const TABLE_HEAD: usize = 426;
const RECORD_BYTES: usize = 23;

/// Size, family and code.
type Key = [u8; 3];
/// Successors, of what is looked up in some records.
type Links = BTreeMap<Key, Option<Key>>;

/// A rule that a client's table breaks.
#[derive(Clone, Copy, Debug, PartialEq, Eq, PartialOrd, Ord)]
enum Fault {
    Length,
    Count,
    Mark,
    Size,
    Family,
    Flag,
    Successor,
    Word(usize),
    Falls,
    Repeats,
    Chain,
    Ring,
}

const FAULTS: [Fault; 15] = [
    Fault::Length,
    Fault::Count,
    Fault::Mark,
    Fault::Size,
    Fault::Family,
    Fault::Flag,
    Fault::Successor,
    Fault::Word(0),
    Fault::Word(1),
    Fault::Word(2),
    Fault::Word(3),
    Fault::Falls,
    Fault::Repeats,
    Fault::Chain,
    Fault::Ring,
];

#[test]
fn clients_are_refused_for_each_fault() {
    let mut alone: BTreeMap<Fault, usize> = BTreeMap::new();
    let mut random = Random::new(16);
    for _ in 0..CASES {
        let Case {
            table,
            client,
            formula,
            ..
        } = case(&mut random);
        if measure(0, &table, &[], &[]).number == 2 {
            assert_eq!(measure(0, &table, &client, &formula).number, 2);
            continue;
        }
        let faults = faults(&table, &client);
        let answer = measure(0, &table, &client, &formula);
        let is_refused = (answer.number, answer.place) == (8, 0);
        assert_eq!(is_refused, !faults.is_empty(), "{faults:?}");
        if let [fault] = faults[..] {
            *alone.entry(fault).or_default() += 1;
        }
    }
    for fault in FAULTS {
        let count = alone.get(&fault).copied().unwrap_or(0);
        assert!(count > CASES / 2000, "{fault:?} {alone:?}");
    }
}

/// The rules that are broken, each once; chains are looked at only if the
/// records can be.
fn faults(table: &[u8], client: &[u8]) -> Vec<Fault> {
    let mut faults = Vec::new();
    let records = client.chunks_exact(RECORD_BYTES);
    faults.extend((!records.remainder().is_empty()).then_some(Fault::Length));
    faults.extend((records.len() > CLIENT_LIMIT).then_some(Fault::Count));
    faults.extend(records.clone().flat_map(record_faults));
    for (a, b) in records.clone().zip(records.skip(1)) {
        match a[2..5].cmp(&b[2..5]) {
            std::cmp::Ordering::Less => {}
            std::cmp::Ordering::Equal => faults.push(Fault::Repeats),
            std::cmp::Ordering::Greater => faults.push(Fault::Falls),
        }
    }
    if faults.is_empty() {
        let links = links(&[&table[TABLE_HEAD..], client].concat());
        faults.extend(chain_fault(&links));
    }
    faults.sort();
    faults.dedup();
    faults
}

fn record_faults(record: &[u8]) -> Vec<Fault> {
    let word = |at: usize| u32::from_le_bytes(record[at..at + 4].try_into().unwrap());
    let large = (0..4).map(|at| (word(7 + 4 * at) > WORD_LIMIT, Fault::Word(at)));
    [
        (record[..2] != *b"CH", Fault::Mark),
        (record[2] > 2, Fault::Size),
        (record[3] > 15, Fault::Family),
        (record[5] > 1, Fault::Flag),
        (record[5] == 0 && record[6] != 0, Fault::Successor),
    ]
    .into_iter()
    .chain(large)
    .filter_map(|(is_broken, fault)| is_broken.then_some(fault))
    .collect()
}

/// Of two records for one symbol the later is looked up.
fn links(records: &[u8]) -> Links {
    let records = records.chunks_exact(RECORD_BYTES);
    records
        .map(|r| {
            (
                [r[2], r[3], r[4]],
                (r[5] == 1).then_some([r[2], r[3], r[6]]),
            )
        })
        .collect()
}

fn chain_fault(links: &Links) -> Option<Fault> {
    let longest = links.keys().map(|key| steps(links, *key)).max()?;
    match longest {
        ..=LIMIT => None,
        AS_GOOD_AS_ENDLESS.. => Some(Fault::Ring),
        _ => Some(Fault::Chain),
    }
}

const LIMIT: usize = CHAIN_LIMIT as usize;
/// More steps than a family has codes.
const AS_GOOD_AS_ENDLESS: usize = 256;

/// How many steps go from a symbol to others that are there.
fn steps(links: &Links, start: Key) -> usize {
    chain(links, start).take(AS_GOOD_AS_ENDLESS + 1).count() - 1
}

fn chain(links: &Links, start: Key) -> impl Iterator<Item = Key> + '_ {
    let next = |key: &Key| links[key].filter(|next| links.contains_key(next));
    successors(Some(start), next)
}

/// How often chains of each kind came, a case counted once for each.
#[derive(Debug, Default)]
struct Seen {
    /// Sixteen steps, and so many from one table to the other.
    longest: [usize; 4],
    /// Seventeen steps, the same.
    too_long: [usize; 4],
    /// A ring with a symbol of each table.
    rings: usize,
    /// Good, though with a step from a hidden record to one that is looked up
    /// it would not be.
    hidden_starts: usize,
    /// Good, though with a step to a hidden record and on it would not be.
    hidden_within: usize,
    /// Good and with a hidden record that leads elsewhere, or nowhere.
    hidden: usize,
}

#[test]
fn chains_over_both_are_of_all_kinds() {
    let mut seen = Seen::default();
    let mut random = Random::new(17);
    for _ in 0..CASES {
        let Case { table, client, .. } = case(&mut random);
        let is_judged_by_chains = measure(0, &table, &[], &[]).number == 0
            && faults(&table, &client)
                .iter()
                .all(|fault| matches!(fault, Fault::Chain | Fault::Ring));
        if is_judged_by_chains && !client.is_empty() {
            seen.look_at(&table[TABLE_HEAD..], &client);
        }
    }
    let often = seen.longest.iter().chain(&seen.too_long).chain([
        &seen.rings,
        &seen.hidden_starts,
        &seen.hidden_within,
        &seen.hidden,
    ]);
    assert!(often.min() > Some(&(CASES / 1000)), "{seen:?}");
}

impl Seen {
    fn look_at(&mut self, ours: &[u8], client: &[u8]) {
        let both = links(&[ours, client].concat());
        let (ours, client) = (links(ours), links(client));
        let longest = both.keys().map(|key| (steps(&both, *key), *key)).max();
        let Some((steps_of_longest, start)) = longest else {
            return;
        };
        let crossings = || {
            let is_client = |key: &Key| client.contains_key(key);
            let symbols: Vec<Key> = chain(&both, start).take(LIMIT + 2).collect();
            let changes = symbols
                .windows(2)
                .filter(|w| is_client(&w[0]) != is_client(&w[1]));
            changes.count().min(3)
        };
        match steps_of_longest {
            LIMIT => self.longest[crossings()] += 1,
            steps if steps == LIMIT + 1 => self.too_long[crossings()] += 1,
            AS_GOOD_AS_ENDLESS.. => self.rings += usize::from(crossings() > 0),
            _ => {}
        }
        if steps_of_longest > LIMIT {
            return;
        }
        let hidden = |key: &&Key| client.contains_key(*key) && ours[*key] != client[*key];
        self.hidden += usize::from(ours.keys().any(|key| hidden(&key)));
        // A hidden record's step, then as looked up.
        let from_hidden = ours.keys().filter(hidden).filter_map(|key| ours[key]);
        let is_long = |next: Key| both.contains_key(&next) && steps(&both, next) >= LIMIT;
        self.hidden_starts += usize::from(from_hidden.clone().any(is_long));
        // Steps as looked up to a hidden record, then as in ours.
        let is_long_within = |key: &Key| {
            both.keys().any(|start| {
                let before = chain(&both, *start).position(|symbol| symbol == *key);
                before.is_some_and(|before| before + steps(&ours, *key) > LIMIT)
            })
        };
        let is_small = both.len() < 300;
        let within = is_small && ours.keys().filter(hidden).any(is_long_within);
        self.hidden_within += usize::from(within);
    }
}

#[test]
fn tables_shared_out_are_looked_up_as_one() {
    let mut random = Random::new(18);
    let (mut short, mut long) = (0, 0);
    for _ in 0..CASES / 10 {
        let whole = chain_table(&mut random);
        assert!(whole.characters.len() <= CHARACTER_LIMIT);
        let (table, client) = shared_out(whole.clone(), &mut random);
        let client = reference::compose::records(&client);
        let ours = measure(0, &table.bytes(), &[], &[]).number;
        let over_both = measure(0, &table.bytes(), &client, &[]).number;
        assert_eq!(ours, 0);
        match measure(0, &whole.bytes(), &[], &[]).number {
            0 => {
                assert_eq!(over_both, 0);
                short += 1;
            }
            _ => {
                assert_eq!(over_both, 8);
                long += 1;
            }
        }
    }
    assert!(short.min(long) > CASES / 100, "{short} {long}");
}
