//! Prints the bands of a formula's page that have to be free of ink, for a
//! picture: x, y of the lower left corner, width and height, in scaled points, a
//! line for each.
//!
//! `clearances TABLE FORMULA`; a formula is a style byte and the formula's bytes.

use reference::clearances::{bands, Page};
use reference::{measure, set, NODE_BYTES};
use std::fs;
use std::io;
use std::process::ExitCode;

fn main() -> ExitCode {
    let words: Vec<String> = std::env::args().skip(1).collect();
    let [table, formula] = &words[..] else {
        eprintln!("usage: clearances TABLE FORMULA");
        return ExitCode::FAILURE;
    };
    match print(table, formula) {
        Ok(()) => ExitCode::SUCCESS,
        Err(error) => {
            eprintln!("clearances: {error}");
            ExitCode::FAILURE
        }
    }
}

fn print(table: &str, formula: &str) -> io::Result<()> {
    let (table, record) = (fs::read(table)?, fs::read(formula)?);
    let [style, formula @ ..] = &record[..] else {
        return Err(io::Error::other("the record is empty"));
    };
    let measured = measure(*style, &table, &[], formula);
    let mut nodes = vec![0; NODE_BYTES * measured.count as usize];
    set(*style, &table, &[], formula, &mut nodes);
    let page = Page {
        style: *style,
        table: &table,
        client: &[],
        formula,
        nodes: &nodes,
        height: measured.height,
        depth: measured.depth,
    };
    for band in bands(&page) {
        println!("{} {} {} {}", band.x, band.y, band.width, band.height);
    }
    Ok(())
}
