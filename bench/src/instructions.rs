//! The tables of instructions: this program runs itself under callgrind.

use crate::figures::{grouped, ratio};
use crate::pages::{page, PAGES};
use crate::rows::{row, ROWS};
use crate::timing::Timed;
use crate::typed::{typed, TYPED};
use crate::work::Setter;
use crate::{FIRST_PAGE, FIRST_TYPED};
use std::process::Command;
use std::{env, io};

/// The mode of this program that only makes the calls of a row.
pub const TURNS: &str = "turns";

/// The turns of the two runs that are compared, with as many digits.
const SHORT_WORK: [usize; 2] = [10, 20];
/// For work that is long by itself.
const LONG_WORK: [usize; 2] = [1, 2];

const CALLGRIND: [&str; 2] = ["--tool=callgrind", "--callgrind-out-file=/dev/null"];
/// Before the count, on valgrind's error output.
const COLLECTED: &str = "Collected : ";

pub fn print() -> io::Result<()> {
    println!("| formulas | table | call | library, instructions | reference, instructions | reference/library |");
    println!("|---|---|---|--:|--:|--:|");
    for number in 0..ROWS {
        let work = row(number);
        print_row(&work.name, number, &work, SHORT_WORK)?;
        eprintln!("instructions: {} of {ROWS} rows", number + 1);
    }
    println!();
    println!("| nodes | call | library, instructions a node | reference, instructions a node | reference/library |");
    println!("|--:|---|--:|--:|--:|");
    for number in 0..PAGES {
        let page = page(number);
        print_row(&page.name, FIRST_PAGE + number, &page, SHORT_WORK)?;
    }
    println!();
    println!("| names | words | call | library, instructions | reference, instructions | reference/library |");
    println!("|--:|--:|---|--:|--:|--:|");
    for number in 0..TYPED {
        let typed = typed(number);
        print_row(&typed.name, FIRST_TYPED + number, &typed, LONG_WORK)?;
        eprintln!("instructions: {} of {TYPED} typed texts", number + 1);
    }
    Ok(())
}

/// `number` is that of the work among the turns.
fn print_row(name: &str, number: usize, work: &impl Timed, turns: [usize; 2]) -> io::Result<()> {
    let library = of_one(number, Setter::Library, work, turns)?;
    let reference = of_one(number, Setter::Reference, work, turns)?;
    println!(
        "| {name} | {} | {} | {} |",
        grouped(library),
        grouped(reference),
        ratio(reference / library)
    );
    Ok(())
}

/// The instructions that a formula, a node or a typed text takes. What a run does beside its
/// calls falls out of the difference of two runs.
fn of_one(
    number: usize,
    setter: Setter,
    work: &impl Timed,
    [few, many]: [usize; 2],
) -> io::Result<f64> {
    let more = collected(number, setter, many)? - collected(number, setter, few)?;
    Ok(more / work.done_in(many - few))
}

/// The instructions of a whole run.
fn collected(number: usize, setter: Setter, turns: usize) -> io::Result<f64> {
    let run = Command::new("valgrind")
        .args(CALLGRIND)
        .arg(env::current_exe()?)
        .args([
            TURNS,
            &number.to_string(),
            setter.name(),
            &turns.to_string(),
        ])
        .output()?;
    let errors = String::from_utf8_lossy(&run.stderr);
    let count = errors
        .lines()
        .find_map(|line| line.split_once(COLLECTED)?.1.trim().parse().ok());
    count
        .filter(|_| run.status.success())
        .ok_or_else(|| io::Error::other(errors))
}
