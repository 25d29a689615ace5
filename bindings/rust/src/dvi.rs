//! Nodes as the body of a page of DVI, and back.
//!
//! For each node the body has: before a glyph one byte fnt_num, 171 + 16 x size
//! + family; push; right4 by x; down4 by -y; set1 with the code, or set_rule
//! with thickness and width; pop. Preamble, font definitions and the page around
//! it are left to the caller.
//!
//! ```
//! use torfianka::{dvi, set, Font, NODE_BYTES};
//!
//! let mut font = Font::new(include_bytes!("../../../data/bench.tab"));
//! let mut nodes = [0; 2 * NODE_BYTES];
//! set(2, &mut font, b"UN\x01\x01a\x00\x00", &mut nodes)?;
//!
//! let mut body = [0; 2 * dvi::MOST_BYTES];
//! let written = dvi::write(&nodes, &mut body)?;
//! assert_eq!(written, 36);
//!
//! let mut back = [0; 2 * NODE_BYTES];
//! assert_eq!(dvi::read(&body[..written], &mut back), Ok(back.len()));
//! assert_eq!(back, nodes);
//! # Ok::<(), torfianka::Refusal>(())
//! ```

use crate::{converted, sys, Refusal};

/// The most bytes that a node has in a body: a rule's.
pub const MOST_BYTES: usize = 21;

/// Writes nodes to the front of `body`, and gives how many bytes they are there.
///
/// Refused by 16 if the nodes are not of their form, or a length passes
/// 1,073,741,823; then by 18 if there is no room. The bytes past the result,
/// and on a refusal all of them, stay as they are.
pub fn write(nodes: &[u8], body: &mut [u8]) -> Result<usize, Refusal> {
    let mut answer = [0; sys::DVI_ANSWER_WORDS];
    // SAFETY: every pointer is a slice's, with that slice's length; the ones
    // written through are borrowed alone.
    let number = unsafe {
        sys::torfianka_dvi_write(
            nodes.as_ptr(),
            nodes.len(),
            body.as_mut_ptr(),
            body.len(),
            answer.as_mut_ptr(),
            answer.len(),
        )
    };
    converted(number, answer)
}

/// Reads nodes back to the front of `nodes`, and gives how many bytes they are.
///
/// Refused by 17 if no nodes have this body; then by 18 if there is no room.
pub fn read(body: &[u8], nodes: &mut [u8]) -> Result<usize, Refusal> {
    let mut answer = [0; sys::DVI_ANSWER_WORDS];
    // SAFETY: as in `write`.
    let number = unsafe {
        sys::torfianka_dvi_read(
            body.as_ptr(),
            body.len(),
            nodes.as_mut_ptr(),
            nodes.len(),
            answer.as_mut_ptr(),
            answer.len(),
        )
    };
    converted(number, answer)
}
