//! The tables that a formula is set with: ours, and a client's over it, each
//! with its index.

use crate::answer::Refusal;
use crate::chains;
use crate::index::{self, Index};
use crate::parameters::{self, Parameters, Rows};
use crate::records::{Character, Record, Records};

/// The most characters that our table may have.
pub const CHARACTER_LIMIT: usize = 2048;
/// The most characters that a client's may have.
pub const CLIENT_LIMIT: usize = 512;

/// Words lent for the index of each table. What they hold is not trusted.
pub struct Lent<'a> {
    pub index: &'a mut [u64],
    pub client_index: &'a mut [u64],
}

/// Both were found to be good.
pub struct Tables<'a> {
    rows: Rows,
    ours: Indexed<'a>,
    client: Indexed<'a>,
}

impl<'a> Tables<'a> {
    /// No word is changed before nothing is left to refuse.
    pub fn read(table: &'a [u8], client: &'a [u8], lent: Lent<'a>) -> Result<Tables<'a>, Refusal> {
        let (rows, ours) = read_table(table).ok_or(Refusal::Table)?;
        let client = read_client(client, ours).ok_or(Refusal::Client)?;
        let index = index::room(lent.index).ok_or(Refusal::Index)?;
        let client_index = index::room(lent.client_index).ok_or(Refusal::Index)?;
        Ok(Tables {
            rows,
            ours: Indexed::new(ours, index),
            client: Indexed::new(client, client_index),
        })
    }

    pub fn parameters(&self, size: u8) -> &Parameters {
        &self.rows[usize::from(size)]
    }

    /// The client's, or else ours.
    pub fn character(&self, size: u8, family: u8, code: u8) -> Option<Character> {
        let find = |records: &Indexed<'a>| records.find(size, family, code);
        let found = find(&self.client).or_else(|| find(&self.ours));
        found.map(Character::read)
    }
}

/// Records and their index.
struct Indexed<'a> {
    records: &'a [Record],
    index: &'a Index,
}

impl<'a> Indexed<'a> {
    fn new(records: Records<'a>, index: &'a mut Index) -> Indexed<'a> {
        let records = records.all();
        index::build(records, index);
        Indexed { records, index }
    }

    fn find(&self, size: u8, family: u8, code: u8) -> Option<&'a Record> {
        let position = index::position(self.index, size, family, code)?;
        Some(&self.records[position])
    }
}

fn read_table(bytes: &[u8]) -> Option<(Rows, Records<'_>)> {
    let (rows, rest) = parameters::read(bytes)?;
    let records = Records::read(rest, CHARACTER_LIMIT)?;
    chains::are_short(records).then_some((rows, records))
}

/// Has no parameters; its chains are those over both tables.
fn read_client<'a>(bytes: &'a [u8], ours: Records) -> Option<Records<'a>> {
    let records = Records::read(bytes, CLIENT_LIMIT)?;
    chains::are_short_over(records, ours).then_some(records)
}
