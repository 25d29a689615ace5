//! Character records: their check, what one holds.

pub(crate) const CHARACTER_MARK: [u8; 2] = *b"CH";
pub(crate) const RECORD_BYTES: usize = 23;

/// The greatest value of a word.
pub const WORD_LIMIT: u32 = (1 << 23) - 1;

pub type Record = [u8; RECORD_BYTES];
pub type Word = [u8; 4];

/// Records that keep the rules and rise.
#[derive(Clone, Copy)]
pub struct Records<'a>(&'a [Record]);

impl<'a> Records<'a> {
    /// None if a rule is broken, or if there are more than `most` records.
    pub fn read(bytes: &'a [u8], most: usize) -> Option<Records<'a>> {
        let (records, rest) = bytes.as_chunks();
        let good = rest.is_empty() && records.len() <= most && are_good(records);
        good.then_some(Records(records))
    }

    pub fn all(self) -> &'a [Record] {
        self.0
    }

    /// Those of one size and family stand together.
    pub fn families(self) -> impl Iterator<Item = &'a [Record]> {
        self.0.chunk_by(|a, b| family(a) == family(b))
    }

    /// Those of the size and family that a record has.
    pub fn akin_to(self, record: &Record) -> &'a [Record] {
        let start = self.0.partition_point(|r| family(r) < family(record));
        let rest = &self.0[start..];
        &rest[..rest.partition_point(|r| family(r) == family(record))]
    }
}

/// The measures of one character at one size.
#[derive(Clone, Copy)]
pub struct Character {
    pub successor: Option<u8>,
    pub width: i64,
    pub height: i64,
    pub depth: i64,
    pub italic: i64,
}

impl Character {
    pub fn read(record: &Record) -> Character {
        let measures = measures(record);
        Character {
            successor: successor(record),
            width: value(&measures[0]).into(),
            height: value(&measures[1]).into(),
            depth: value(&measures[2]).into(),
            italic: value(&measures[3]).into(),
        }
    }
}

/// Each record keeps the rules and stands above the one before it.
fn are_good(records: &[Record]) -> bool {
    let mut least = 0;
    records.iter().all(|record| {
        let key = key(record);
        let rises = key >= least;
        least = key + 1;
        rises && is_good(record)
    })
}

fn is_good(record: &Record) -> bool {
    let [mark0, mark1, size, family, _code, flag, successor, ..] = *record;
    [mark0, mark1] == CHARACTER_MARK
        && size <= 2
        && family <= 15
        && (flag == 1 || (flag == 0 && successor == 0))
        && are_in_range(measures(record))
}

/// The limit is a run of ones, so the words can be judged together.
pub fn are_in_range(words: &[Word]) -> bool {
    words.iter().fold(0, |all, word| all | value(word)) <= WORD_LIMIT
}

pub fn value(word: &Word) -> u32 {
    u32::from_le_bytes(*word)
}

pub fn successor(record: &Record) -> Option<u8> {
    (record[5] == 1).then_some(record[6])
}

/// The four words at a record's end.
fn measures(record: &Record) -> &[Word] {
    record[7..].as_chunks().0
}

pub fn code(record: &Record) -> usize {
    usize::from(record[4])
}

/// Size, family and code.
pub fn symbol(record: &Record) -> [u8; 3] {
    [record[2], record[3], record[4]]
}

/// Size and family.
pub fn family(record: &Record) -> [u8; 2] {
    [record[2], record[3]]
}

fn key(record: &Record) -> u32 {
    let [size, family, code] = symbol(record);
    u32::from_be_bytes([0, size, family, code])
}
