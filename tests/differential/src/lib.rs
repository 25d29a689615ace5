//! What the comparisons share: memory to lend to the library, and those of calls
//! that convert bytes.

pub mod conversions;
pub mod guarded;
