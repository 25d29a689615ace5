//! Typed text as a formula, and back, in the manner of eqn.
//!
//! A text has words, `sub`, `sup`, `over`, `from`, `to` and braces; bytes 9, 10
//! and 32 separate. `sub` and `sup` bind tightest, each to a word or a group in
//! braces, then `over`, which groups to the left, then `from` and `to`. A name
//! table says what each word stands for; it has for each a length from 1 to 32,
//! so many bytes, family, code and class.
//!
//! ```
//! use torfianka::eqn;
//!
//! let names = b"\x01x\x01x\x00\x01i\x01i\x00\x012\x002\x00";
//! let mut formula = [0; 13];
//! assert_eq!(eqn::read(names, b"x sub i sup 2", &mut formula), Ok(13));
//! assert_eq!(formula, *b"AT\x00\x00\x01\x01x\x01\x002\x01\x01i");
//!
//! let mut text = [0; 13];
//! assert_eq!(eqn::write(names, &formula, &mut text), Ok(13));
//! assert_eq!(text, *b"x sub i sup 2");
//! ```

use crate::{converted, sys, Refusal};

/// The most bytes of a result for each byte of a text that is read, or of a
/// formula that is written. No formula has more than 131,072.
pub const MOST_BYTES: usize = 9;

/// Reads a text, writes its formula to the front of `formula`, and gives how many
/// bytes it has.
///
/// Refused by 20 for the name table, 10 for a word that it has not, 11 for a text
/// outside the grammar, 12 for a formula that is too long or too deep; then by 13
/// if there is no room. The bytes past the result, and on a refusal all of them,
/// stay as they are.
pub fn read(names: &[u8], text: &[u8], formula: &mut [u8]) -> Result<usize, Refusal> {
    let mut answer = [0; sys::EQN_ANSWER_WORDS];
    // SAFETY: every pointer is a slice's, with that slice's length; the ones
    // written through are borrowed alone.
    let number = unsafe {
        sys::torfianka_eqn_read(
            names.as_ptr(),
            names.len(),
            text.as_ptr(),
            text.len(),
            formula.as_mut_ptr(),
            formula.len(),
            answer.as_mut_ptr(),
            answer.len(),
        )
    };
    converted(number, answer)
}

/// Writes a formula as text to the front of `text`, and gives how many bytes it
/// has there.
///
/// Refused by 20 for the name table, 21 for a formula that no text gives; then by
/// 13 if there is no room. Reading the text gives the same formula.
pub fn write(names: &[u8], formula: &[u8], text: &mut [u8]) -> Result<usize, Refusal> {
    let mut answer = [0; sys::EQN_ANSWER_WORDS];
    // SAFETY: as in `read`.
    let number = unsafe {
        sys::torfianka_eqn_write(
            names.as_ptr(),
            names.len(),
            formula.as_ptr(),
            formula.len(),
            text.as_mut_ptr(),
            text.len(),
            answer.as_mut_ptr(),
            answer.len(),
        )
    };
    converted(number, answer)
}
