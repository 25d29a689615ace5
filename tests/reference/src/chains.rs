//! Chains of successors, none of which may be too long.

use crate::records::{code, successor, Record, Records};

/// The most steps of a chain, each to a symbol that is there.
pub const CHAIN_LIMIT: u8 = 16;

const CODES: usize = 1 << 8;

/// A chain keeps to one size and family.
pub fn are_short(records: Records) -> bool {
    let mut families = records.families();
    families.all(|family| !family.iter().any(leads_on) || Chains::of(family).are_short())
}

/// The chains as they are looked up: a record that one over it hides is in
/// none of them. The lower ones are short by themselves.
pub fn are_short_over(upper: Records, lower: Records) -> bool {
    let mut families = upper.families();
    families.all(|family| {
        let hidden_or_not = lower.akin_to(&family[0]);
        Chains::of(hidden_or_not.iter().chain(family)).are_short()
    })
}

fn leads_on(record: &Record) -> bool {
    successor(record).is_some()
}

/// The chains of one size and family.
struct Chains<'a> {
    by_code: [Option<&'a Record>; CODES],
    /// How many symbols the chain from a code on has; 0 until that is known.
    symbols: [u8; CODES],
}

impl<'a> Chains<'a> {
    /// Of two with one code the later counts.
    fn of(family: impl IntoIterator<Item = &'a Record>) -> Chains<'a> {
        let mut by_code = [None; CODES];
        for record in family {
            by_code[code(record)] = Some(record);
        }
        Chains {
            by_code,
            symbols: [0; CODES],
        }
    }

    fn are_short(&mut self) -> bool {
        let records = self.by_code;
        let mut starts = records.iter().flatten().filter(|record| leads_on(record));
        starts.all(|record| self.symbols_within(CHAIN_LIMIT + 1, record).is_some())
    }

    /// The symbols from here on, if they are not more than `most`. In a ring
    /// they are.
    fn symbols_within(&mut self, most: u8, record: &Record) -> Option<u8> {
        let mut symbols = self.symbols[code(record)];
        if symbols == 0 {
            symbols = 1;
            if let Some(next) = successor(record).and_then(|code| self.by_code[usize::from(code)]) {
                symbols += self.symbols_within(most.checked_sub(1)?, next)?;
            }
            self.symbols[code(record)] = symbols;
        }
        (symbols <= most).then_some(symbols)
    }
}
