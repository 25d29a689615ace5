//! Compares the library with the reference on random typed texts, and formulas
//! to be written as text.
//!
//! `typed [INPUTS [SEED]]`, by default 100,000 and 1.

use differential::conversions::{run, Conversion};
use reference::eqn;
use reference::generate::{typed_case, Random, TypedCase};
use reference::Converted;
use std::process::ExitCode;
use torfianka::{sys, Refusal};

fn main() -> ExitCode {
    run::<Typed>("typed")
}

#[derive(Debug)]
struct Typed(TypedCase);

impl Conversion for Typed {
    const NUMBERS: &'static [u8] = &[0, 10, 11, 12, 13, 20, 21];

    fn drawn(random: &mut Random) -> Typed {
        Typed(typed_case(random))
    }

    fn room(&self) -> usize {
        self.0.room
    }

    fn by_reference(&self, buffer: &mut [u8]) -> Converted {
        let TypedCase { names, bytes, .. } = &self.0;
        match self.0.is_written {
            true => eqn::write(names, bytes, buffer),
            false => eqn::read(names, bytes, buffer),
        }
    }

    fn by_library(&self, buffer: &mut [u8], answer: &mut [i64]) -> u8 {
        let TypedCase { names, bytes, .. } = &self.0;
        let call = match self.0.is_written {
            true => sys::torfianka_eqn_write,
            false => sys::torfianka_eqn_read,
        };
        // SAFETY: every pointer is a slice's, with that slice's length; the ones
        // written through are borrowed alone.
        unsafe {
            call(
                names.as_ptr(),
                names.len(),
                bytes.as_ptr(),
                bytes.len(),
                buffer.as_mut_ptr(),
                buffer.len(),
                answer.as_mut_ptr(),
                answer.len(),
            )
        }
    }

    fn by_binding(&self, buffer: &mut [u8]) -> Result<usize, Refusal> {
        let TypedCase { names, bytes, .. } = &self.0;
        match self.0.is_written {
            true => torfianka::eqn::write(names, bytes, buffer),
            false => torfianka::eqn::read(names, bytes, buffer),
        }
    }
}
