//! A station's job: reports the last line of a formula for each window of standard input, as `huqabo windows` does.
//!
//!     station [KIND [FORMULA]]
//!
//! KIND is fixed, which it is if left out, or sliding. The formula is the one below, or that of the file FORMULA, in hexadecimal. A window is a
//! line of counts: the lower and the upper end of each channel in turn. Channel 0 is swept about its midpoint.
use huqabo::{ChannelBox, Fixed, Kind, Range, Sheet, Sliding, window};
use std::error::Error;
use std::io::{BufRead, Write, stdin, stdout};
use std::{env, fs};

/// The square of a tilt that is corrected for temperature: (a - (b - 20) x 3/256) squared.
const TILT: [u8; 24] = [
    8, // lines:
    0, 0, // 0: channel 0, the tilt a
    0, 1, // 1: channel 1, the temperature b
    1, 0x80, 0x80, 0xa0, 1, // 2: the constant 20
    3, 1, 2, // 3: line 1 - line 2
    1, 0x80, 0x0c, // 4: the constant 3/256
    4, 3, 4, // 5: line 3 x line 4
    3, 0, 5, // 6: line 0 - line 5
    6, 6, // 7: line 6 squared
];

/// The bytes of a file in hexadecimal, with lines that begin with # passed over.
fn formula_of(name: &str) -> Result<Vec<u8>, Box<dyn Error>> {
    let mut bytes = Vec::new();
    for line in fs::read_to_string(name)?.lines().filter(|line| !line.starts_with('#')) {
        for word in line.split_whitespace() {
            for digits in word.as_bytes().chunks(2) {
                bytes.push(u8::from_str_radix(std::str::from_utf8(digits)?, 16)?);
            }
        }
    }
    Ok(bytes)
}

/// The box of a line.
fn box_of(line: &str) -> Result<ChannelBox, Box<dyn Error>> {
    let counts = line.split_whitespace().map(str::parse).collect::<Result<Vec<i64>, _>>()?;
    // A lower end without an upper one is refused as what it is: no box.
    let counts = if counts.len() % 2 == 0 { counts.as_slice() } else { &[] };
    let ranges: Vec<Range> = counts.chunks(2).map(|ends| Range { lower: ends[0], upper: ends[1] }).collect();
    Ok(ChannelBox::about_midpoint(&ranges))
}

fn station<K: Kind>(formula: &[u8]) -> Result<(), Box<dyn Error>> {
    let mut out = stdout().lock();
    // A formula begins with the number of its lines. (If that is not 1 to 64, it is refused, whatever line is to be reported.)
    let last = formula.first().map_or(0, |&lines| usize::from(lines).saturating_sub(1));
    let (mut reported, mut refused) = (0u64, 0u64);
    for (number, line) in (1..).zip(stdin().lock().lines()) {
        let over = box_of(&line?).map_err(|error| format!("line {number}: {error}"))?;
        match window::<K>(formula, last, &over) {
            Ok(report) => {
                reported += 1;
                writeln!(out, "window {number}: {report}")?;
            }
            Err(refusal) => {
                refused += 1;
                // Which call refused? A report of the last line never is.
                let step = if Sheet::<K>::blank().open(&over).is_err() { "open" } else { "read" };
                writeln!(out, "window {number}: {step} {refusal}")?;
            }
        }
    }
    writeln!(out, "windows {}, reported {reported}, refused {refused}", reported + refused)?;
    Ok(())
}

fn main() -> Result<(), Box<dyn Error>> {
    let mut words = env::args().skip(1);
    let kind = words.next().unwrap_or_else(|| Fixed::NAME.to_owned());
    let formula = words.next().map_or_else(|| Ok(TILT.to_vec()), |name| formula_of(&name))?;
    match kind.as_str() {
        Fixed::NAME => station::<Fixed>(&formula),
        Sliding::NAME => station::<Sliding>(&formula),
        word => Err(format!("'{word}' is no number kind").into()),
    }
}
