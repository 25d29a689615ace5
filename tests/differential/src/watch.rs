//! Runs the comparison in a process of its own, so that an input that kills it
//! or never ends can still be printed.

use crate::input::Input;
use crate::report;
use reference::generate::Random;
use std::env;
use std::io::{BufRead, BufReader, Result};
use std::process::{Child, ChildStderr, Command, ExitCode, Stdio};
use std::sync::mpsc::{self, Receiver, RecvTimeoutError, Sender};
use std::thread;
use std::time::Duration;

/// Set in the process that compares.
const WATCHED: &str = "TORFIANKA_WATCHED";
/// Before the number of an input, on the error output of that process.
const TURN: &str = "input ";
/// There too, while one input is made smaller.
const ALIVE: &str = "the same input";
/// No comparison takes as long as this.
const LIMIT: Duration = Duration::from_secs(60);

pub fn is_watched() -> bool {
    env::var_os(WATCHED).is_some()
}

/// Says which input comes next.
pub fn announce(number: u64) {
    eprintln!("{TURN}{number}");
}

/// Says that the same input is compared once more, made smaller.
pub fn go_on() {
    eprintln!("{ALIVE}");
}

/// Starts this program again, watched, and gives its exit code.
pub fn run(seed: u64) -> Result<ExitCode> {
    let mut compared = Command::new(env::current_exe()?)
        .args(env::args_os().skip(1))
        .env(WATCHED, "1")
        .stderr(Stdio::piped())
        .spawn()?;
    let (sender, turns) = mpsc::channel();
    if let Some(errors) = compared.stderr.take() {
        thread::spawn(move || pass_on(errors, sender));
    }
    let (last, end) = follow(&turns);
    if end == RecvTimeoutError::Timeout {
        return stopped(compared, last, seed);
    }
    let status = compared.wait()?;
    if let Some(code) = status.code() {
        return Ok(ExitCode::from(u8::try_from(code).unwrap_or(1)));
    }
    println!("killed at input {last} from seed {seed}: {status}");
    report::print_input(&drawn(last, seed));
    Ok(ExitCode::FAILURE)
}

/// Ends a comparison that is over its time.
fn stopped(mut compared: Child, last: u64, seed: u64) -> Result<ExitCode> {
    compared.kill()?;
    compared.wait()?;
    println!("no end of input {last} from seed {seed} within {LIMIT:?}");
    report::print_input(&drawn(last, seed));
    Ok(ExitCode::FAILURE)
}

/// The last input announced, and why no more came.
fn follow(turns: &Receiver<u64>) -> (u64, RecvTimeoutError) {
    let mut last = 0;
    loop {
        match turns.recv_timeout(LIMIT) {
            Ok(number) => last = number,
            Err(end) => return (last, end),
        }
    }
}

/// Hands on the inputs announced; what else is written goes to the error output.
fn pass_on(errors: ChildStderr, turns: Sender<u64>) {
    let mut last = 0;
    for line in BufReader::new(errors).lines().map_while(Result::ok) {
        match line.strip_prefix(TURN).map(str::parse) {
            Some(Ok(number)) => last = number,
            _ if line == ALIVE => (),
            _ => eprintln!("{line}"),
        }
        if turns.send(last).is_err() {
            return;
        }
    }
}

/// The input of this number, from 1.
fn drawn(number: u64, seed: u64) -> Input {
    let mut random = Random::new(seed);
    let mut input = Input::drawn(&mut random);
    for _ in 1..number {
        input = Input::drawn(&mut random);
    }
    input
}
