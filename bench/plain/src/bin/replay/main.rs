//! Answers a script of calls, one a line, as `huqabo replay` does (docs/PROGRAM.md): from a file, or from standard input.

mod script;
mod station;
mod words;

use std::io::Read;

use station::Station;

fn main() {
    let mut text = String::new();
    match std::env::args().nth(1) {
        Some(file) => text = std::fs::read_to_string(file).expect("the script cannot be read"),
        None => _ = std::io::stdin().read_to_string(&mut text).expect("standard input cannot be read"),
    }
    let mut station = Station::new();
    for line in text.lines() {
        let words: Vec<&str> = line.split_whitespace().collect();
        if words.first().is_some_and(|word| !word.starts_with('#')) {
            println!("{}", station.answer(script::call(&words)));
        }
    }
}
