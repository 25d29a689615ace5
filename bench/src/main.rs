//! Compares the library with the reference and prints Markdown tables.
//!
//! - `bench times`: formulas a second, nanoseconds a node of a page, microseconds
//!   a typed text
//! - `bench instructions`: instructions a formula, a node, or a typed text; needs
//!   valgrind
//! - `bench stack`: bytes of stack a call, of the library alone
//! - `bench turns ROW SETTER TURNS`: makes calls for `instructions` to count

mod figures;
mod formulas;
mod instructions;
mod pages;
mod rows;
mod stack;
mod tables;
mod times;
mod timing;
mod typed;
mod work;

use pages::{page, PAGES};
use rows::{row, ROWS};
use std::env;
use std::process::ExitCode;
use timing::Timed;
use typed::{typed, TYPED};
use work::Setter;

/// How the rows are numbered: formulas, then pages, then typed texts.
const FIRST_PAGE: usize = ROWS;
const FIRST_TYPED: usize = FIRST_PAGE + PAGES;
const END: usize = FIRST_TYPED + TYPED;

fn main() -> ExitCode {
    let arguments: Vec<String> = env::args().skip(1).collect();
    let arguments: Vec<&str> = arguments.iter().map(String::as_str).collect();
    match run(&arguments) {
        Ok(()) => ExitCode::SUCCESS,
        Err(message) => {
            eprintln!("bench: {message}");
            ExitCode::FAILURE
        }
    }
}

fn run(arguments: &[&str]) -> Result<(), String> {
    match arguments {
        ["times"] => times::print(),
        ["instructions"] => instructions::print().map_err(|error| error.to_string())?,
        ["stack"] => stack::print(),
        [instructions::TURNS, number, setter, turns] => {
            make_turns(number, setter, turns).ok_or("no such row, setter or number of turns")?;
        }
        _ => return Err("wants `times`, `instructions` or `stack`".to_string()),
    }
    Ok(())
}

fn make_turns(number: &str, setter: &str, turns: &str) -> Option<()> {
    let number: usize = number.parse().ok()?;
    let setter = Setter::named(setter)?;
    let turns = turns.parse().ok()?;
    match number {
        ..FIRST_PAGE => row(number).run(setter, turns),
        FIRST_PAGE..FIRST_TYPED => page(number - FIRST_PAGE).run(setter, turns),
        FIRST_TYPED..END => typed(number - FIRST_TYPED).run(setter, turns),
        _ => return None,
    }
    Some(())
}
