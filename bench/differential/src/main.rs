//! Runs the library under test against the plain evaluator.
//!
//!     differential [THOUSANDS [SEED [PART CASE]]]
//!
//! THOUSANDS of histories are run, and other cases to match. With PART and CASE just that one case is run, and told as it goes.

mod boxes;
mod call;
mod damaged;
mod formulas;
mod histories;
mod library;
mod lines;
mod meaning;
mod numbers;
mod pair;
mod random;
mod records;
mod show;
mod spoiled;
mod tally;
mod windows;

use std::env::args;
use std::process::ExitCode;
use std::time::Instant;

use pair::{Difference, Log};
use random::Random;

/// Enough for a million lines, boxes and damaged strings each, with some to spare.
const THOUSANDS: u64 = 60;

struct Part {
    name: &'static str,
    run: fn(&mut Random, &mut Log) -> Result<(), Difference>,
    /// How many cases there are for a thousand histories.
    cases: u64,
}

const PARTS: [Part; 4] = [
    Part { name: "histories", run: histories::run, cases: 1000 },
    Part { name: "spoiled", run: spoiled::run, cases: 2000 },
    Part { name: "damaged", run: damaged::run, cases: 20_000 / damaged::STRINGS as u64 },
    Part { name: "windows", run: windows::run, cases: 20_000 / windows::WINDOWS as u64 },
];

fn number(place: usize, otherwise: u64) -> u64 {
    args().nth(place).map_or(otherwise, |word| word.parse().unwrap_or_else(|_| panic!("'{word}' is no number")))
}

fn main() -> ExitCode {
    let (thousands, seed) = (number(1, THOUSANDS), number(2, 1));
    if let Some(name) = args().nth(3) {
        let part = PARTS.iter().position(|part| part.name == name).expect("a part: histories, spoiled, damaged or windows");
        return told(part, seed, number(4, 0));
    }
    let (mut log, begin) = (Log::default(), Instant::now());
    for (index, part) in PARTS.iter().enumerate() {
        let cases = part.cases * thousands;
        for case in 0..cases {
            let mut random = Random::of_case(seed, index as u64, case);
            if (part.run)(&mut random, &mut log).is_err() {
                return told(index, seed, case);
            }
        }
        println!("{:12}{cases:>10} cases alike, {:.1} s", part.name, begin.elapsed().as_secs_f64());
    }
    log.tally.print();
    let missing = log.tally.missing();
    if missing.is_empty() {
        return ExitCode::SUCCESS;
    }
    println!("these refusals never happened: {}", missing.join(", "));
    ExitCode::FAILURE
}

/// Runs one case, and tells what is done and where the two differ.
fn told(index: usize, seed: u64, case: u64) -> ExitCode {
    let part = &PARTS[index];
    println!("seed {seed}, {} {case}", part.name);
    let mut log = Log { trace: true, ..Log::default() };
    match (part.run)(&mut Random::of_case(seed, index as u64, case), &mut log) {
        Ok(()) => {
            println!("alike");
            ExitCode::SUCCESS
        }
        Err(difference) => {
            println!("\ndifference: {difference}\n\nto run this case again: differential 1 {seed} {} {case}", part.name);
            ExitCode::FAILURE
        }
    }
}
