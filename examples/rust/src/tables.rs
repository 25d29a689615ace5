//! What a picture needs of the tables that a formula was set with.

use torfianka::Font;

const ROW_BYTES: usize = 142;
const ROWS: usize = 3;
const RECORD_BYTES: usize = 23;
/// Where σ5 stands in a row.
const X_HEIGHT: usize = 2 + 4 * 4;

/// A font table and a client's, which may be empty.
pub struct Tables {
    pub table: Vec<u8>,
    pub client: Vec<u8>,
}

/// Lengths in scaled points.
pub struct Metrics {
    pub width: i64,
    pub height: i64,
    pub depth: i64,
    /// Whether the client's table has the character.
    pub is_client: bool,
}

impl Tables {
    pub fn font(&self) -> Font<'_> {
        Font::with_client(&self.table, &self.client)
    }

    /// Only for tables that the library has accepted, as all below.
    pub fn x_height(&self, size: u8) -> i64 {
        word(&self.table, ROW_BYTES * usize::from(size) + X_HEIGHT)
    }

    /// None if both tables lack the character.
    pub fn metrics(&self, size: u8, family: u8, code: u8) -> Option<Metrics> {
        let find = |records: &[u8], is_client| {
            let mut records = records.chunks_exact(RECORD_BYTES);
            let record = records.find(|record| record[2..5] == [size, family, code])?;
            Some(Metrics {
                width: word(record, 7),
                height: word(record, 11),
                depth: word(record, 15),
                is_client,
            })
        };
        find(&self.client, true).or_else(|| find(&self.table[ROWS * ROW_BYTES..], false))
    }
}

fn word(bytes: &[u8], at: usize) -> i64 {
    let word = [bytes[at], bytes[at + 1], bytes[at + 2], bytes[at + 3]];
    u32::from_le_bytes(word).into()
}
