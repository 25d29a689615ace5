//! The C interface as it is; `include/torfianka.h` describes it.

/// The words of an answer: place, width, height, depth, count; of
/// [`torfianka_why`] place, and what decided the shift up, that shift, and the
/// same of the shift down.
pub const ANSWER_WORDS: usize = 5;

/// The words of an answer of the calls for DVI: place, bytes written.
pub const DVI_ANSWER_WORDS: usize = 2;

/// The words of an answer of the calls for typed text: place, bytes written.
pub const EQN_ANSWER_WORDS: usize = 2;

/// What a call with fewer words for its answer returns.
pub const SHORT_ANSWER: u8 = 255;

/// The words of an index.
pub const INDEX_WORDS: usize = 240;

extern "C" {
    pub fn torfianka_measure(
        style: u8,
        table: *const u8,
        table_len: usize,
        client: *const u8,
        client_len: usize,
        formula: *const u8,
        formula_len: usize,
        index: *mut u64,
        index_len: usize,
        client_index: *mut u64,
        client_index_len: usize,
        answer: *mut i64,
        answer_len: usize,
    ) -> u8;

    pub fn torfianka_set(
        style: u8,
        table: *const u8,
        table_len: usize,
        client: *const u8,
        client_len: usize,
        formula: *const u8,
        formula_len: usize,
        nodes: *mut u8,
        nodes_len: usize,
        index: *mut u64,
        index_len: usize,
        client_index: *mut u64,
        client_index_len: usize,
        answer: *mut i64,
        answer_len: usize,
    ) -> u8;

    pub fn torfianka_why(
        style: u8,
        table: *const u8,
        table_len: usize,
        client: *const u8,
        client_len: usize,
        formula: *const u8,
        formula_len: usize,
        place: usize,
        index: *mut u64,
        index_len: usize,
        client_index: *mut u64,
        client_index_len: usize,
        answer: *mut i64,
        answer_len: usize,
    ) -> u8;

    pub fn torfianka_dvi_write(
        nodes: *const u8,
        nodes_len: usize,
        body: *mut u8,
        body_len: usize,
        answer: *mut i64,
        answer_len: usize,
    ) -> u8;

    pub fn torfianka_dvi_read(
        body: *const u8,
        body_len: usize,
        nodes: *mut u8,
        nodes_len: usize,
        answer: *mut i64,
        answer_len: usize,
    ) -> u8;

    pub fn torfianka_eqn_read(
        names: *const u8,
        names_len: usize,
        text: *const u8,
        text_len: usize,
        formula: *mut u8,
        formula_len: usize,
        answer: *mut i64,
        answer_len: usize,
    ) -> u8;

    pub fn torfianka_eqn_write(
        names: *const u8,
        names_len: usize,
        formula: *const u8,
        formula_len: usize,
        text: *mut u8,
        text_len: usize,
        answer: *mut i64,
        answer_len: usize,
    ) -> u8;
}
