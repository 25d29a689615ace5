//! Runs a file of cases and prints what the thin program prints for each.
//!
//! The file has parts: `T`, a four-byte length and a table, which holds from
//! there on; `C`, the same of a client's table, which is empty at first; `F`, a
//! style byte, a two-byte length and a formula; `L`, the same with a four-byte
//! length; `W`, as `F` with a four-byte place behind the formula, of an item
//! whose shifts are to be explained; `N` for nodes to be written as the body of
//! a page, or `D` for a body to be read, a four-byte length, the bytes and a
//! four-byte room; `Q`, a four-byte length and a name table, which holds from
//! there on; `E` for typed text to be read, or `U` for a formula to be written as
//! text, as `N`.

use reference::{dvi, eqn, measure, printed, printed_reasons, set, why, Converted, NODE_BYTES};
use std::io::{self, BufWriter, Write};
use std::process::ExitCode;

fn main() -> ExitCode {
    let Some(path) = std::env::args_os().nth(1) else {
        eprintln!("usage: vectors FILE");
        return ExitCode::FAILURE;
    };
    match std::fs::read(path).and_then(|cases| run(&cases)) {
        Ok(()) => ExitCode::SUCCESS,
        Err(error) => {
            eprintln!("vectors: {error}");
            ExitCode::FAILURE
        }
    }
}

fn run(mut cases: &[u8]) -> io::Result<()> {
    let mut out = BufWriter::new(io::stdout().lock());
    let (mut table, mut client, mut names): (&[u8], &[u8], &[u8]) = (&[], &[], &[]);
    while let Some((&mark, rest)) = cases.split_first() {
        cases = rest;
        match mark {
            b'T' => table = take_long(&mut cases)?,
            b'C' => client = take_long(&mut cases)?,
            b'Q' => names = take_long(&mut cases)?,
            b'F' | b'L' => {
                let [style] = take(&mut cases)?;
                let formula = match mark {
                    b'F' => take_short(&mut cases)?,
                    _ => take_long(&mut cases)?,
                };
                out.write_all(outcome(style, table, client, formula).as_bytes())?;
            }
            b'W' => {
                let [style] = take(&mut cases)?;
                let formula = take_short(&mut cases)?;
                let place = u32::from_le_bytes(take(&mut cases)?) as usize;
                let explanation = why(style, table, client, formula, place);
                out.write_all(printed_reasons(&explanation).as_bytes())?;
            }
            b'N' | b'D' | b'E' | b'U' => {
                let bytes = take_long(&mut cases)?;
                let room = u32::from_le_bytes(take(&mut cases)?);
                let mut result = vec![0; room as usize];
                let answer = match mark {
                    b'N' => dvi::write(bytes, &mut result),
                    b'D' => dvi::read(bytes, &mut result),
                    b'E' => eqn::read(names, bytes, &mut result),
                    _ => eqn::write(names, bytes, &mut result),
                };
                writeln!(out, "{}", converted_line(&answer, &result))?;
            }
            _ => return Err(malformed()),
        }
    }
    out.flush()
}

/// A refusal, or the result in hex.
fn converted_line(answer: &Converted, result: &[u8]) -> String {
    if answer.number != 0 {
        return format!("refused {} at {}", answer.number, answer.place);
    }
    let written = &result[..answer.bytes as usize];
    if written.is_empty() {
        return "bytes -".to_string();
    }
    let hex: String = written.iter().map(|byte| format!("{byte:02x}")).collect();
    format!("bytes {hex}")
}

fn outcome(style: u8, table: &[u8], client: &[u8], formula: &[u8]) -> String {
    let count = measure(style, table, client, formula).count as usize;
    let mut nodes = vec![0; NODE_BYTES * count];
    let answer = set(style, table, client, formula, &mut nodes);
    printed(&answer, &nodes)
}

/// Some bytes behind a length of two.
fn take_short<'a>(cases: &mut &'a [u8]) -> io::Result<&'a [u8]> {
    let length = u16::from_le_bytes(take(cases)?);
    take_slice(cases, usize::from(length))
}

/// Some bytes behind a length of four.
fn take_long<'a>(cases: &mut &'a [u8]) -> io::Result<&'a [u8]> {
    let length = u32::from_le_bytes(take(cases)?);
    take_slice(cases, length as usize)
}

fn take<const N: usize>(cases: &mut &[u8]) -> io::Result<[u8; N]> {
    let (taken, rest) = cases.split_first_chunk().ok_or_else(malformed)?;
    *cases = rest;
    Ok(*taken)
}

fn take_slice<'a>(cases: &mut &'a [u8], length: usize) -> io::Result<&'a [u8]> {
    let (taken, rest) = cases.split_at_checked(length).ok_or_else(malformed)?;
    *cases = rest;
    Ok(taken)
}

fn malformed() -> io::Error {
    io::Error::new(io::ErrorKind::InvalidData, "not a file of cases")
}
