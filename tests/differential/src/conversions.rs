//! Compares calls that convert bytes into a lent buffer, and answer with their
//! place and how many bytes they wrote.

use crate::guarded::Guarded;
use reference::generate::Random;
use reference::Converted;
use std::env;
use std::fmt::Debug;
use std::process::ExitCode;
use torfianka::sys::{DVI_ANSWER_WORDS, EQN_ANSWER_WORDS, SHORT_ANSWER};
use torfianka::Refusal;

const ANSWER_WORDS: usize = DVI_ANSWER_WORDS;
const _: () = assert!(EQN_ANSWER_WORDS == ANSWER_WORDS);

/// So many inputs meet every answer number.
const ENOUGH_FOR_ALL_NUMBERS: u64 = 5_000;
/// Disagreements printed in full; further ones are only counted.
const MOST_PRINTED: u64 = 3;

/// The input of one of the calls.
pub trait Conversion: Debug {
    /// Every answer number but 255.
    const NUMBERS: &'static [u8];

    fn drawn(random: &mut Random) -> Self;

    /// The length of the buffer to lend.
    fn room(&self) -> usize;

    fn by_reference(&self, buffer: &mut [u8]) -> Converted;

    /// Through the C interface.
    fn by_library(&self, buffer: &mut [u8], answer: &mut [i64]) -> u8;

    /// Through the safe functions.
    fn by_binding(&self, buffer: &mut [u8]) -> Result<usize, Refusal>;
}

/// The program `NAME [INPUTS [SEED]]`, by default 100,000 and 1.
pub fn run<C: Conversion>(name: &str) -> ExitCode {
    let mut arguments = env::args().skip(1).map(|text| text.parse::<u64>());
    let inputs = arguments.next().unwrap_or(Ok(100_000));
    let seed = arguments.next().unwrap_or(Ok(1));
    let (Ok(inputs), Ok(seed), None) = (inputs, seed, arguments.next()) else {
        eprintln!("usage: {name} [INPUTS [SEED]]");
        return ExitCode::FAILURE;
    };
    println!("{inputs} inputs from seed {seed}");
    let mut tally = Tally::new(C::NUMBERS);
    let mut random = Random::new(seed);
    for _ in 0..inputs {
        tally.compare(&C::drawn(&mut random), &mut random);
    }
    ExitCode::from(u8::from(!tally.is_good(inputs)))
}

struct Tally {
    /// How often the library gave each answer number.
    counts: Vec<(u8, u64)>,
    disagreed: u64,
}

impl Tally {
    fn new(numbers: &[u8]) -> Tally {
        let numbers = numbers.iter().chain(&[SHORT_ANSWER]);
        Tally {
            counts: numbers.map(|number| (*number, 0)).collect(),
            disagreed: 0,
        }
    }

    fn compare(&mut self, input: &impl Conversion, random: &mut Random) {
        let before = Lent::drawn(input, random);
        let library = by_library(input, before.clone());
        let reference = by_reference(input, before.clone());
        let mut counts = self.counts.iter_mut();
        if let Some((_, count)) = counts.find(|(number, _)| *number == library.number) {
            *count += 1;
        }
        let Some(fault) = fault(input, &before, &library, &reference) else {
            return;
        };
        self.disagreed += 1;
        if self.disagreed <= MOST_PRINTED {
            println!("{fault}: {input:?}");
        }
    }

    /// Whether all agreed and every number came; prints what came.
    fn is_good(&self, inputs: u64) -> bool {
        for (number, count) in &self.counts {
            println!("answer {number}: {count}");
        }
        let is_rare = self.counts.iter().any(|(_, count)| *count == 0);
        let is_missing = inputs >= ENOUGH_FOR_ALL_NUMBERS && is_rare;
        if is_missing {
            println!("an answer number never came");
        }
        let disagreed = self.disagreed;
        println!(
            "{} inputs agreed, {disagreed} disagreed",
            inputs - disagreed
        );
        disagreed == 0 && !is_missing
    }
}

/// A call's result and the memory lent to it.
#[derive(Clone)]
struct Lent {
    number: u8,
    answer: Guarded<i64>,
    buffer: Guarded<u8>,
}

impl Lent {
    fn drawn(input: &impl Conversion, random: &mut Random) -> Lent {
        let words = match random.percent(4) {
            true => random.below(ANSWER_WORDS),
            false => ANSWER_WORDS + random.below(2),
        };
        Lent {
            number: 0,
            answer: Guarded::drawn(words, random, |random| random.word() as i64),
            buffer: Guarded::drawn(input.room(), random, Random::byte),
        }
    }
}

fn by_library(input: &impl Conversion, mut lent: Lent) -> Lent {
    let (answer, buffer) = (lent.answer.lent_mut(), lent.buffer.lent_mut());
    lent.number = input.by_library(buffer, answer);
    lent
}

fn by_reference(input: &impl Conversion, mut lent: Lent) -> Lent {
    let Some(words) = lent.answer.lent_mut().first_chunk_mut() else {
        lent.number = SHORT_ANSWER;
        return lent;
    };
    let answer = input.by_reference(lent.buffer.lent_mut());
    *words = words_of(&answer);
    lent.number = answer.number;
    lent
}

fn words_of(answer: &Converted) -> [i64; ANSWER_WORDS] {
    [answer.place as i64, answer.bytes as i64]
}

/// What is wrong with the library's outcome, if anything.
fn fault(
    input: &impl Conversion,
    before: &Lent,
    library: &Lent,
    reference: &Lent,
) -> Option<&'static str> {
    let is_short = reference.number == SHORT_ANSWER;
    let answered = if is_short { 0 } else { ANSWER_WORDS };
    let written = match reference.number {
        0 => reference.answer.lent()[1] as usize,
        _ => 0,
    };
    let faults = [
        (library.number != reference.number, "the numbers differ"),
        (
            library.answer.lent() != reference.answer.lent(),
            "the answers differ",
        ),
        (
            !library.answer.kept_but(answered, &before.answer),
            "words outside the answer changed",
        ),
        (
            library.buffer.lent() != reference.buffer.lent(),
            "the results differ",
        ),
        (
            !library.buffer.kept_but(written, &before.buffer),
            "bytes outside the result changed",
        ),
        (
            !is_short && !binding_agrees(input, before, library),
            "the Rust binding differs",
        ),
    ];
    faults
        .into_iter()
        .find_map(|(is_so, fault)| is_so.then_some(fault))
}

/// Whether the safe functions tell what the C interface told.
fn binding_agrees(input: &impl Conversion, before: &Lent, library: &Lent) -> bool {
    let mut buffer = before.buffer.lent().to_vec();
    let outcome = input.by_binding(&mut buffer);
    let [place, bytes] = [0, 1].map(|word| library.answer.lent()[word] as usize);
    let expected = match library.number {
        0 => Ok(bytes),
        number => Err(Refusal { number, place }),
    };
    outcome == expected && buffer == library.buffer.lent()
}
