//! Counts of what happened.

use crate::call::NAMES;
use crate::library::Kind;

const REFUSALS: usize = 18;

/// The names of operations, by their numbers.
const OPERATIONS: [&str; 11] =
    ["channel", "constant", "sum", "difference", "product", "quotient", "square", "magnitude", "greater", "lesser", "branch"];

#[derive(Default)]
pub struct Tally {
    /// Answers by kind, call and refusal; 0 is none.
    answers: [[[u64; REFUSALS]; NAMES.len()]; 2],
    /// Lines that were taken, by kind and operation, without slopes and with.
    lines: [[[u64; 2]; OPERATIONS.len()]; 2],
    pub spoiled_lines: u64,
    pub strings: u64,
    pub moves: u64,
    pub windows: u64,
    pub narrowed: u64,
    pub crossed_alike: u64,
    pub crossed_apart: u64,
}

impl Tally {
    pub fn answered(&mut self, kind: Kind, call: usize, refusal: u32) {
        self.answers[kind as usize][call][refusal as usize % REFUSALS] += 1;
    }

    pub fn line(&mut self, kind: Kind, operation: u32, slopes: bool) {
        self.lines[kind as usize][operation as usize][usize::from(slopes)] += 1;
    }

    pub fn lines(&self) -> u64 {
        self.lines.iter().flatten().flatten().sum()
    }

    fn calls(&self, call: usize, refusal: usize) -> u64 {
        Kind::ALL.iter().map(|&kind| self.answers[kind as usize][call][refusal]).sum()
    }

    /// Boxes that were opened or moved to, and windows.
    pub fn boxes(&self) -> u64 {
        self.calls(0, 0) + self.calls(3, 0) + self.windows
    }

    /// The refusals that never happened in a kind.
    pub fn missing(&self) -> Vec<String> {
        let mut missing = Vec::new();
        for kind in Kind::ALL {
            for refusal in 1..REFUSALS {
                if self.answers[kind as usize].iter().all(|call| call[refusal] == 0) {
                    missing.push(format!("{} {refusal}", kind.name()));
                }
            }
        }
        missing
    }

    pub fn print(&self) {
        println!("\nlines taken, as with slopes + without");
        println!("{:12}{:>24}{:>24}", "", "fixed", "sliding");
        for (operation, name) in OPERATIONS.iter().enumerate() {
            let cell = |kind: usize| {
                let [without, with] = self.lines[kind][operation];
                format!("{with} + {without}")
            };
            println!("{name:12}{:>24}{:>24}", cell(0), cell(1));
        }

        println!("\nanswers by refusal (0 is none) and call");
        print!("{:>4}", "");
        NAMES.iter().chain(&["fixed", "sliding"]).for_each(|name| print!("{name:>10}"));
        println!();
        for refusal in 0..REFUSALS {
            print!("{refusal:>4}");
            (0..NAMES.len()).for_each(|call| print!("{:>10}", self.calls(call, refusal)));
            for kind in &self.answers {
                print!("{:>10}", kind.iter().map(|call| call[refusal]).sum::<u64>());
            }
            println!();
        }

        println!();
        println!("lines taken in runs of calls  {:>10}", self.lines());
        println!("reports narrower than U       {:>10}", self.narrowed);
        println!("lines added on spoiled memory {:>10}", self.spoiled_lines);
        println!("boxes                         {:>10}", self.boxes());
        println!("  of these windows            {:>10}", self.windows);
        println!("damaged byte strings          {:>10}", self.strings);
        println!("answers from crossed spans    {:>10} alike, {} apart", self.crossed_alike, self.crossed_apart);
    }
}
