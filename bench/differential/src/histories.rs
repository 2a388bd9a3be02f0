//! Long runs of calls on memory that nobody else touches: sound and unsound calls, taken and refused, in any order.

use plain::memory::{Answer, LINES, Line};

use crate::boxes::Draft;
use crate::call::{Call, Lent, Memory, ROOM};
use crate::formulas::{damage, formula_on};
use crate::library::Kind;
use crate::lines::Place;
use crate::meaning;
use crate::numbers::{Sizes, beyond, centre};
use crate::pair::{Difference, Log, Pair};
use crate::random::Random;
use crate::records::spoil_all;

pub fn run(random: &mut Random, log: &mut Log) -> Result<(), Difference> {
    let kind = random.one_of(&Kind::ALL);
    let mut history = History::new(random, kind, log)?;
    let calls = 10 + random.below(60);
    for _ in 0..calls {
        history.call(random, log)?;
    }
    if random.once_in(12) {
        history.fill(random, log)?;
    }
    Ok(())
}

struct History {
    pair: Pair,
    sizes: Sizes,
    /// Lines that are to be added next, the last one first.
    lines: Vec<Line>,
    /// Nothing is struck and no box opened while the sheet is to become full.
    filling: bool,
}

impl History {
    fn new(random: &mut Random, kind: Kind, log: &mut Log) -> Result<Self, Difference> {
        let sizes = Sizes::random(random);
        let mut memory = Memory::blank();
        if random.once_in(4) {
            spoil_all(random, kind, &mut memory, true);
        }
        let mut history = History { pair: Pair::new(kind, memory), sizes, lines: Vec::new(), filling: false };
        if log.trace {
            println!("kind {}", kind.name());
        }
        if !random.once_in(16) {
            let open = Call::Open(Draft::sound(random, sizes));
            history.step(random, &open, log)?;
        }
        Ok(history)
    }

    /// Calls until all lines are held, and some more.
    fn fill(&mut self, random: &mut Random, log: &mut Log) -> Result<(), Difference> {
        self.filling = true;
        for _ in 0..600 {
            if self.pair.plain.sheet.held == LINES {
                break;
            }
            self.call(random, log)?;
        }
        self.filling = false;
        for _ in 0..25 {
            self.call(random, log)?;
        }
        Ok(())
    }

    fn call(&mut self, random: &mut Random, log: &mut Log) -> Result<(), Difference> {
        let call = self.next(random);
        self.step(random, &call, log)
    }

    fn next(&mut self, random: &mut Random) -> Call {
        let held = self.pair.plain.sheet.held;
        let drawn = match self.filling {
            true => random.weighted(&[0, 90, 0, 4, 1, 2, 3]),
            false if held == LINES => random.weighted(&[1, 40, 12, 16, 3, 12, 16]),
            false if held == 0 => random.weighted(&[10, 50, 4, 4, 24, 4, 4]),
            false => random.weighted(&[3, 68, 5, 9, 2, 6, 7]),
        };
        match drawn {
            0 => Call::Open(self.draft(random)),
            1 => Call::Add(self.line(random)),
            2 => Call::Strike,
            3 => self.moving(random),
            4 => self.reading(random),
            5 => Call::Write { room: random.one_of(&[0, 1, 3, 40, 200, ROOM, ROOM, ROOM]) },
            _ => Call::Report { line: self.reported(random) },
        }
    }

    fn line(&mut self, random: &mut Random) -> Line {
        let place = Place::of(self.pair.kind, self.sizes, &self.pair.plain);
        self.lines.pop().unwrap_or_else(|| {
            self.lines = place.draw(random);
            self.lines.pop().unwrap_or_default()
        })
    }

    fn draft(&self, random: &mut Random) -> Draft {
        let mut draft = Draft::sound(random, self.sizes);
        for _ in 0..random.below(3) {
            draft.spoil(random);
        }
        draft
    }

    fn moving(&self, random: &mut Random) -> Call {
        let over = &self.pair.plain.sheet.over;
        let mut channel = if random.once_in(2) { over.swept } else { random.below(over.channels) };
        let (mut lower, mut upper) = self.sizes.range(random);
        let mut centre = centre(random, (lower, upper));
        if random.once_in(4) {
            match random.below(7) {
                0 => channel = random.one_of(&[over.channels, 8, usize::MAX]),
                1 => lower = beyond(random),
                2 => upper = beyond(random),
                3 => centre = beyond(random),
                4 => (lower, upper) = (upper, lower),
                5 => centre = self.sizes.count(random),
                _ => (lower, centre) = (beyond(random), beyond(random)),
            }
        }
        Call::Move { channel, lower, upper, centre }
    }

    fn reading(&self, random: &mut Random) -> Call {
        let lines = 1 + random.below(12);
        let mut bytes = formula_on(random, self.pair.kind, self.sizes, &self.pair.plain.sheet.over, lines);
        if random.once_in(4) {
            damage(random, &mut bytes);
        }
        Call::Read(bytes)
    }

    fn reported(&self, random: &mut Random) -> usize {
        match random.below(8) {
            0 => random.one_of(&[self.pair.plain.sheet.held, 63, 64, 200, usize::MAX]),
            _ => random.below(self.pair.plain.sheet.held.max(1)),
        }
    }

    /// Makes a call, and then the reports of the lines whose records it made; of some other line if it made none.
    fn step(&mut self, random: &mut Random, call: &Call, log: &mut Log) -> Result<(), Difference> {
        let mut lent = Lent { working: 64 + random.below(3), spare: 64 + random.below(3) };
        match random.below(120) {
            0 => lent.working = random.one_of(&[0, 1, 63]),
            1 => lent.spare = random.one_of(&[0, 1, 63]),
            _ => (),
        }
        let answer = self.pair.step(call, lent, log)?;
        match call {
            Call::Add(line) if answer.refusal == 0 => {
                let slopes = self.pair.plain.working[answer.number].slopes != 0;
                log.tally.line(self.pair.kind, line.operation, slopes);
                self.report(answer.number, log)
            }
            Call::Move { .. } | Call::Read(_) if answer.refusal == 0 => {
                log.tally.moves += u64::from(matches!(call, Call::Move { .. }));
                (0..self.pair.plain.sheet.held).try_for_each(|line| self.report(line, log))
            }
            Call::Write { room } if answer.refusal == 17 && random.once_in(2) => {
                // Once more, with just enough room or one byte too few.
                let room = answer.place - random.below(2);
                self.pair.step(&Call::Write { room }, lent, log).map(drop)
            }
            _ if self.pair.plain.sheet.held > 0 && random.once_in(4) => {
                self.report(random.below(self.pair.plain.sheet.held), log)
            }
            _ => Ok(()),
        }
    }

    fn report(&mut self, line: usize, log: &mut Log) -> Result<(), Difference> {
        let answer = self.pair.step(&Call::Report { line }, Lent::USUAL, log)?;
        log.tally.narrowed += u64::from(self.is_narrower(line, &answer));
        Ok(())
    }

    /// Whether a report is narrower than the line's span U.
    fn is_narrower(&self, line: usize, answer: &Answer) -> bool {
        let u = self.pair.plain.working[line].u;
        let shift = if self.pair.kind == Kind::Fixed { 0 } else { 8 };
        let [lower, upper] = [u.lower, u.upper].map(|end| meaning::order(self.pair.kind, end));
        let (low, high) = (answer.middle - answer.margin, answer.middle + answer.margin);
        low > (lower >> shift) + 1 || high < upper >> shift
    }
}
