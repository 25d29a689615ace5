//! Prints an input, and a disagreement on it, so that it can be run again from
//! what is printed.

use crate::calls::{disagreement, Outcome};
use crate::input::Input;

pub fn print(input: &Input) {
    let Some(found) = disagreement(input) else {
        return;
    };
    println!("disagreement in {:?}: {}", found.call, found.fault);
    print_input(input);
    print_outcome("library", &found.library);
    print_outcome("reference", &found.reference);
}

pub fn print_input(input: &Input) {
    println!("  style     {}", input.style);
    println!("  table     {}", hex(&input.table));
    println!("  client    {}", hex(&input.client));
    println!("  formula   {}", hex(&input.formula));
    println!("  room      {}", input.room);
    print_index("index", &input.index);
    print_index("client's", &input.client_index);
}

fn print_outcome(name: &str, outcome: &Outcome) {
    let words: Vec<String> = outcome.answer.lent().iter().map(i64::to_string).collect();
    println!("  {name:9} {}: {}", outcome.number, words.join(" "));
    println!("    buffer  {}", hex(outcome.nodes.lent()));
    print_index("  index", outcome.index.lent());
    print_index("  client's", outcome.client_index.lent());
}

/// The number of words, and those that are not 0, each behind its place.
fn print_index(name: &str, words: &[u64]) {
    print!("  {name:9} {} words:", words.len());
    for (place, word) in words.iter().enumerate().filter(|(_, word)| **word != 0) {
        print!(" {place}:{word:x}");
    }
    println!();
}

fn hex(bytes: &[u8]) -> String {
    bytes.iter().map(|byte| format!("{byte:02x}")).collect()
}
