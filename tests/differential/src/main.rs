//! Compares the library with the reference on random inputs.
//!
//! `differential [INPUTS [SEED]]`, by default 200,000 and 1.

mod calls;
mod input;
mod report;
mod shrink;
mod watch;

use calls::disagreement_noting;
use input::Input;
use reference::generate::Random;
use std::collections::BTreeMap;
use std::env;
use std::process::ExitCode;

/// Answer numbers, in the order tested: 7 when setting, 9 when asking why.
const NUMBERS: [u8; 11] = [0, 1, 2, 8, 19, 3, 4, 5, 6, 7, 9];
/// So many inputs meet every answer number.
const ENOUGH_FOR_ALL_NUMBERS: u64 = 5_000;
/// Disagreements printed in full; further ones are only counted.
const MOST_PRINTED: u64 = 3;

fn main() -> ExitCode {
    let mut arguments = env::args().skip(1).map(|text| text.parse::<u64>());
    let inputs = arguments.next().unwrap_or(Ok(200_000));
    let seed = arguments.next().unwrap_or(Ok(1));
    let (Ok(inputs), Ok(seed), None) = (inputs, seed, arguments.next()) else {
        eprintln!("usage: differential [INPUTS [SEED]]");
        return ExitCode::FAILURE;
    };
    if !watch::is_watched() {
        return watch::run(seed).unwrap_or_else(|error| {
            eprintln!("cannot start the comparison: {error}");
            ExitCode::FAILURE
        });
    }
    println!("{inputs} inputs from seed {seed}");
    let tally = Tally::of(inputs, seed);
    tally.print();
    ExitCode::from(u8::from(!tally.is_good()))
}

#[derive(Default)]
struct Tally {
    agreed: u64,
    disagreed: u64,
    /// How often the reference gave each answer number, by any call.
    numbers: BTreeMap<u8, u64>,
}

impl Tally {
    fn of(inputs: u64, seed: u64) -> Tally {
        let mut tally = Tally::default();
        let mut random = Random::new(seed);
        for done in 1..=inputs {
            watch::announce(done);
            tally.compare(Input::drawn(&mut random));
            if done * 10 / inputs > (done - 1) * 10 / inputs {
                println!("{:3}%  {done} inputs", done * 10 / inputs * 10);
            }
        }
        tally
    }

    fn compare(&mut self, input: Input) {
        let note = |number| *self.numbers.entry(number).or_default() += 1;
        match disagreement_noting(&input, note) {
            None => self.agreed += 1,
            Some(_) => {
                self.disagreed += 1;
                if self.disagreed <= MOST_PRINTED {
                    report::print(&shrink::shrunk(input));
                }
            }
        }
    }

    fn missing_numbers(&self) -> bool {
        let inputs = self.agreed + self.disagreed;
        inputs >= ENOUGH_FOR_ALL_NUMBERS && NUMBERS.iter().any(|number| self.count(number) == 0)
    }

    fn count(&self, number: &u8) -> u64 {
        self.numbers.get(number).copied().unwrap_or(0)
    }

    fn is_good(&self) -> bool {
        self.disagreed == 0 && !self.missing_numbers()
    }

    fn print(&self) {
        for number in NUMBERS {
            println!("answer {number}: {}", self.count(&number));
        }
        if self.missing_numbers() {
            println!("an answer number never came");
        }
        println!(
            "{} inputs agreed, {} disagreed",
            self.agreed, self.disagreed
        );
    }
}
