//! Compares the library with the reference on random nodes and bodies of pages.
//!
//! `pages [INPUTS [SEED]]`, by default 100,000 and 1.

use differential::conversions::{run, Conversion};
use reference::dvi;
use reference::generate::{page_case, PageCase, Random};
use reference::Converted;
use std::process::ExitCode;
use torfianka::{sys, Refusal};

fn main() -> ExitCode {
    run::<Page>("pages")
}

#[derive(Debug)]
struct Page(PageCase);

impl Conversion for Page {
    const NUMBERS: &'static [u8] = &[0, 16, 17, 18];

    fn drawn(random: &mut Random) -> Page {
        Page(page_case(random))
    }

    fn room(&self) -> usize {
        self.0.room
    }

    fn by_reference(&self, buffer: &mut [u8]) -> Converted {
        match self.0.is_written {
            true => dvi::write(&self.0.bytes, buffer),
            false => dvi::read(&self.0.bytes, buffer),
        }
    }

    fn by_library(&self, buffer: &mut [u8], answer: &mut [i64]) -> u8 {
        let call = match self.0.is_written {
            true => sys::torfianka_dvi_write,
            false => sys::torfianka_dvi_read,
        };
        // SAFETY: every pointer is a slice's, with that slice's length; the ones
        // written through are borrowed alone.
        unsafe {
            call(
                self.0.bytes.as_ptr(),
                self.0.bytes.len(),
                buffer.as_mut_ptr(),
                buffer.len(),
                answer.as_mut_ptr(),
                answer.len(),
            )
        }
    }

    fn by_binding(&self, buffer: &mut [u8]) -> Result<usize, Refusal> {
        match self.0.is_written {
            true => torfianka::dvi::write(&self.0.bytes, buffer),
            false => torfianka::dvi::read(&self.0.bytes, buffer),
        }
    }
}
