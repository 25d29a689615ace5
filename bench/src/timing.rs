//! Times both setters on the same work, in turns.

use crate::work::{Setter, Work};
use std::time::{Duration, Instant};

const ROUND: Duration = Duration::from_millis(10);

/// What is timed, by how much of it is done.
pub trait Timed {
    /// Does all of it once in every turn.
    fn run(&mut self, setter: Setter, turns: usize);

    /// How much is done in so many turns.
    fn done_in(&self, turns: usize) -> f64;
}

impl Timed for Work {
    fn run(&mut self, setter: Setter, turns: usize) {
        Work::run(self, setter, turns);
    }

    fn done_in(&self, turns: usize) -> f64 {
        self.formulas_in(turns)
    }
}

/// Formulas to time, or something else, and the times so far.
pub struct Job<W = Work> {
    pub work: W,
    library: Timer,
    reference: Timer,
}

/// How many turns there are in a round, and the nanoseconds that one formula,
/// node or typed text took in each.
struct Timer {
    setter: Setter,
    turns: usize,
    rounds: Vec<f64>,
}

impl<W: Timed> Job<W> {
    pub fn new(mut work: W) -> Job<W> {
        let [library, reference] = Setter::BOTH.map(|setter| Timer::new(setter, &mut work));
        Job {
            work,
            library,
            reference,
        }
    }

    /// Times the library, then the reference.
    pub fn round(&mut self) {
        self.library.round(&mut self.work);
        self.reference.round(&mut self.work);
    }

    /// The library's nanoseconds a formula.
    pub fn library(&self) -> f64 {
        median(self.library.rounds.clone())
    }

    /// The reference's nanoseconds a formula.
    pub fn reference(&self) -> f64 {
        median(self.reference.rounds.clone())
    }

    /// The library's formulas a second for one of the reference.
    pub fn speed_ratio(&self) -> f64 {
        let rounds = self.library.rounds.iter().zip(&self.reference.rounds);
        median(
            rounds
                .map(|(library, reference)| reference / library)
                .collect(),
        )
    }
}

impl Timer {
    /// The turns are so many that they fill a round.
    fn new(setter: Setter, work: &mut impl Timed) -> Timer {
        let mut turns = 1;
        while time(work, setter, turns) < ROUND {
            turns *= 2;
        }
        Timer {
            setter,
            turns,
            rounds: Vec::new(),
        }
    }

    fn round(&mut self, work: &mut impl Timed) {
        let nanoseconds = time(work, self.setter, self.turns).as_nanos() as f64;
        self.rounds.push(nanoseconds / work.done_in(self.turns));
    }
}

fn time(work: &mut impl Timed, setter: Setter, turns: usize) -> Duration {
    let start = Instant::now();
    work.run(setter, turns);
    start.elapsed()
}

fn median(mut values: Vec<f64>) -> f64 {
    values.sort_by(f64::total_cmp);
    values[values.len() / 2]
}
