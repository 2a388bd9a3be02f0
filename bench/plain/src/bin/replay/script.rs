//! The calls of a script. Bad input ends the program.

use plain::memory::Line;

pub enum Call {
    Kind { sliding: bool },
    Lend { workings: usize, spares: usize },
    Open { lower: Vec<i64>, upper: Vec<i64>, swept: usize, centre: i64 },
    Add(Line),
    Strike,
    Move { channel: usize, lower: i64, upper: i64, centre: i64 },
    Read(Vec<u8>),
    Write(Option<usize>),
    Report(usize),
    Record(usize),
    Working(usize),
    Spare(usize),
}

pub fn call(words: &[&str]) -> Call {
    match words {
        ["kind", kind] => Call::Kind { sliding: *kind == "sliding" },
        ["lend", workings, spares] => Call::Lend { workings: number(workings), spares: number(spares) },
        ["open", "lower", rest @ ..] => open(rest),
        ["add", operation, operands @ ..] => Call::Add(line(operation, operands)),
        ["strike"] => Call::Strike,
        ["move", channel, "lower", lower, "upper", upper, "centre", centre] => {
            Call::Move { channel: number(channel), lower: number(lower), upper: number(upper), centre: number(centre) }
        }
        ["read", bytes @ ..] => Call::Read(bytes.iter().map(|byte| u8::from_str_radix(byte, 16).expect("a byte")).collect()),
        ["write"] => Call::Write(None),
        ["write", room] => Call::Write(Some(number(room))),
        ["report", line] => Call::Report(number(line)),
        ["record", line] => Call::Record(number(line)),
        ["working", line] => Call::Working(number(line)),
        ["spare", line] => Call::Spare(number(line)),
        _ => panic!("{words:?} is no call"),
    }
}

fn number<T: std::str::FromStr>(word: &str) -> T {
    word.parse().unwrap_or_else(|_| panic!("{word} is no number, or does not fit"))
}

fn open(words: &[&str]) -> Call {
    let behind = words.iter().position(|word| *word == "upper").expect("upper");
    let swept = words.iter().position(|word| *word == "swept").expect("swept");
    let list = |words: &[&str]| words.iter().map(|word| number(word)).collect();
    Call::Open {
        lower: list(&words[..behind]),
        upper: list(&words[behind + 1..swept]),
        swept: number(words[swept + 1]),
        centre: number(words[swept + 3]),
    }
}

fn line(operation: &str, operands: &[&str]) -> Line {
    const NAMES: [&str; 11] =
        ["channel", "constant", "sum", "difference", "product", "quotient", "square", "magnitude", "greater", "lesser", "branch"];
    let operation = NAMES.iter().position(|name| *name == operation).expect("an operation") as u32;
    if operation == 1 {
        return Line { operation, constant: number(operands[0]), ..Line::default() };
    }
    let operand = |place: usize| operands.get(place).map_or(0, |word| number(word));
    Line { operation, constant: 0, a: operand(0), b: operand(1), c: operand(2) }
}
