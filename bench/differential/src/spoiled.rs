//! Calls on spoiled memory: records that no call made, sheets with damaged fields, lines that no add would take.
//!
//! What add and report make of records whose spans have crossed ends no page fixes. So there the two may answer apart, within what
//! docs/CALLS.md says under "Spoiled working lines"; that is checked and counted. Everything else has to be alike.

use plain::memory::{Answer, LINES, Line, Sheet};

use crate::boxes::Draft;
use crate::call::{Call, Lent, Memory, ROOM};
use crate::formulas::{damage, formula_on};
use crate::library::Kind;
use crate::lines::Place;
use crate::meaning;
use crate::numbers::{Sizes, any_size, beyond, centre, wild};
use crate::pair::{Difference, Log, Pair};
use crate::random::Random;
use crate::records::{record, spoil_all};
use crate::show;

pub fn run(random: &mut Random, log: &mut Log) -> Result<(), Difference> {
    let kind = random.one_of(&Kind::ALL);
    let (sizes, crossed) = (Sizes::random(random), random.once_in(4));
    let mut memory = Memory::blank();
    spoil_all(random, kind, &mut memory, crossed);
    memory.sheet = sheet(random, kind, sizes, &memory);
    let mut pair = Pair::new(kind, memory);
    if log.trace {
        println!("kind {}\nthe sheet: {}", kind.name(), show::sheet(&pair.plain.sheet));
        pair.plain.working.iter().enumerate().for_each(|(line, working)| println!("working {line}: {}", show::record(working)));
    }
    for _ in 0..6 + random.below(10) {
        if random.once_in(3) {
            let line = random.below(LINES);
            pair.plain.working[line] = record(random, kind, crossed);
            pair.tested.working[line] = pair.plain.working[line];
            if log.trace {
                println!("working {line} becomes {}", show::record(&pair.plain.working[line]));
            }
        }
        let call = next(random, sizes, &pair);
        step(random, &mut pair, &call, log)?;
    }
    Ok(())
}

/// A sheet over a sound box, mostly, with lines that are mostly sound; and sometimes just anything.
fn sheet(random: &mut Random, kind: Kind, sizes: Sizes, memory: &Memory) -> Sheet {
    let mut draft = Draft::sound(random, sizes);
    if random.once_in(8) {
        draft.spoil(random);
    }
    let held = random.one_of(&[0, 1, 3, 8, 8, 20, 20, 62, 63, 64]);
    let over = draft.stored(random);
    let mut sheet = Sheet { over, held, ..Sheet::BLANK };
    for number in 0..held {
        let (channels, swept) = (over.channels, over.swept);
        let place = Place { kind, sizes, held: number, channels, swept, records: &memory.working };
        sheet.lines[number] = place.line(random);
    }
    match random.below(16) {
        0 => sheet.held = random.one_of(&[65, 66, 1 << 20, usize::MAX]),
        1 => sheet.over.channels = wild(random, &[0, 9]),
        2 => sheet.over.swept = wild(random, &[sheet.over.channels]),
        3 => sheet.over.lower[random.below(8)] = beyond(random),
        4 => {
            let operands = [any_size(random), any_size(random), any_size(random)];
            let operation = random.one_of(&[1, 4, 10, 11, 77, u32::MAX]);
            let line = Line { operation, constant: random.next() as i64, a: operands[0], b: operands[1], c: operands[2] };
            sheet.lines[random.below(held.max(1))] = line;
        }
        _ => (),
    }
    sheet
}

fn next(random: &mut Random, sizes: Sizes, pair: &Pair) -> Call {
    let sheet = meaning::sheet(&pair.plain.sheet);
    match random.weighted(&[2, 50, 8, 8, 4, 8, 25]) {
        0 => Call::Open(Draft::sound(random, sizes)),
        1 => Call::Add(Place::of(pair.kind, sizes, &pair.plain).line(random)),
        2 => Call::Strike,
        3 => {
            let (lower, upper) = sizes.range(random);
            let centre = centre(random, (lower, upper));
            Call::Move { channel: random.below(sheet.over.channels), lower, upper, centre }
        }
        4 => {
            let lines = 1 + random.below(6);
            let mut bytes = formula_on(random, pair.kind, sizes, &sheet.over, lines);
            if random.once_in(2) {
                damage(random, &mut bytes);
            }
            Call::Read(bytes)
        }
        5 => Call::Write { room: random.one_of(&[0, 20, 200, ROOM, ROOM, ROOM]) },
        _ => Call::Report { line: if random.once_in(9) { any_size(random) } else { random.below(sheet.held.max(1)) } },
    }
}

fn step(random: &mut Random, pair: &mut Pair, call: &Call, log: &mut Log) -> Result<(), Difference> {
    let mut lent = Lent::USUAL;
    if random.once_in(60) {
        lent.working = random.one_of(&[0, 63, 65]);
    }
    let answer = match leans_on_crossed(pair, call) {
        true => step_apart(pair, call, lent, log)?,
        false => pair.step(call, lent, log)?,
    };
    log.tally.spoiled_lines += u64::from(matches!(call, Call::Add(_)) && answer.refusal == 0);
    Ok(())
}

/// Whether a call takes a record in which a span has crossed ends.
fn leans_on_crossed(pair: &Pair, call: &Call) -> bool {
    let held = meaning::sheet(&pair.plain.sheet).held;
    let crossed = |line: usize| line < held && meaning::has_crossed(pair.kind, &pair.plain.working[line]);
    match call {
        Call::Add(line) if line.operation > 1 => {
            let Line { a, b, c, .. } = meaning::line(line);
            crossed(a) || crossed(b) || crossed(c)
        }
        &Call::Report { line } => crossed(line),
        _ => false,
    }
}

/// A call that may be answered apart. If it is, the memory of the plain side becomes that of the tested one.
fn step_apart(pair: &mut Pair, call: &Call, lent: Lent, log: &mut Log) -> Result<Answer, Difference> {
    let before = pair.tested.clone();
    let (plain, tested) = pair.make(call, lent, log);
    if plain == tested && pair.compare(call).is_ok() {
        log.tally.crossed_alike += 1;
        return Ok(plain);
    }
    log.tally.crossed_apart += 1;
    if log.trace {
        println!("  apart, as may be: plain {}, tested {}", show::answer(&plain), show::answer(&tested));
    }
    if !may_be(pair, call, &before, &plain, &tested) {
        let (plain, tested) = (show::answer(&plain), show::answer(&tested));
        return Err(format!("{call}, on crossed spans, beyond what is free\n  plain:  {plain}\n  tested: {tested}"));
    }
    pair.plain = pair.tested.clone();
    Ok(tested)
}

/// Whether the tested side did what is free on spoiled working lines, where the plain one did something else.
fn may_be(pair: &Pair, call: &Call, before: &Memory, plain: &Answer, tested: &Answer) -> bool {
    let mut wanted = meaning::sheet(&before.sheet);
    let free = |answer: &Answer| matches!(answer.refusal, 0 | 9 | 10);
    let kept =
        |line: usize| meaning::record(pair.kind, &before.working[line]) == meaning::record(pair.kind, &pair.tested.working[line]);
    match call {
        Call::Add(line) => {
            let number = wanted.held;
            let taken = tested.refusal == 0;
            let answer = match taken {
                true => Answer { number, ..Answer::default() },
                false => Answer { refusal: tested.refusal, place: number, ..Answer::default() },
            };
            if taken {
                wanted.lines[number] = meaning::line(line);
                wanted.held += 1;
            }
            let others = (0..LINES).filter(|&line| !(taken && line == number)).all(kept);
            free(plain) && free(tested) && *tested == answer && meaning::sheet(&pair.tested.sheet) == wanted && others
        }
        Call::Report { .. } => {
            let Answer { middle, margin, .. } = *tested;
            plain.refusal == 0 && *tested == Answer { middle, margin, ..Answer::default() }
        }
        _ => false,
    }
}
