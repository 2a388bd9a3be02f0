//! The windows job: a formula over box after box. Now and then each answer is compared with those of the single calls too.

use plain::memory::{Answer, ChannelBox};
use plain::table::Calls;

use crate::boxes::Draft;
use crate::call::{Call, Lent, Memory};
use crate::formulas::{bytes_of, damage, lines_on};
use crate::library::Kind;
use crate::numbers::{Sizes, any_size};
use crate::pair::{Difference, Log};
use crate::random::Random;
use crate::show;

/// How many windows a case has, mostly.
pub const WINDOWS: usize = 32;

/// What stands in answers that nobody gave.
const UNTOUCHED: Answer = Answer { refusal: 0xaaaa, place: 1, number: 2, middle: 3, margin: 4 };

struct Job {
    bytes: Vec<u8>,
    line: usize,
    boxes: Vec<ChannelBox>,
    room: usize,
}

pub fn run(random: &mut Random, log: &mut Log) -> Result<(), Difference> {
    let kind = random.one_of(&Kind::ALL);
    let job = Job::random(random, kind);
    if log.trace {
        println!("kind {}, windows, line {}, bytes {:02x?}", kind.name(), job.line, job.bytes);
        job.boxes.iter().for_each(|over| println!("  {}", show::channel_box(over)));
    }
    let (count, answers) = job.answers(&kind.plain());
    let (tested_count, tested) = job.answers(&kind.tested());
    if count != tested_count {
        return Err(format!("windows: plain did {count}, tested {tested_count}"));
    }
    for (window, (plain, tested)) in answers.iter().zip(&tested).enumerate() {
        if plain != tested {
            return Err(job.difference(window, "plain", plain, tested));
        }
    }
    log.tally.windows += count as u64;
    answers[..count].iter().for_each(|answer| log.tally.answered(kind, 7, answer.refusal));
    if random.once_in(16) { job.check_single(kind, &tested[..count]) } else { Ok(()) }
}

impl Job {
    fn random(random: &mut Random, kind: Kind) -> Self {
        let sizes = Sizes::random(random);
        let base = Draft::sound(random, sizes);
        let first = base.stored(random);
        let lines = if random.once_in(30) { 50 + random.below(15) } else { 1 + random.below(12) };
        let lines = lines_on(random, kind, sizes, &first, lines);
        let mut bytes = bytes_of(&lines);
        if random.once_in(5) {
            damage(random, &mut bytes);
        }
        let line = match random.below(12) {
            0 => any_size(random),
            1 => lines.len(),
            2 | 3 => random.below(lines.len()),
            _ => lines.len() - 1,
        };
        let windows = if random.once_in(8) { random.below(4) } else { WINDOWS };
        let boxes: Vec<_> = (0..windows)
            .map(|_| {
                let mut draft = base.varied(random, sizes);
                if random.once_in(8) {
                    draft.spoil(random);
                }
                draft.stored(random)
            })
            .collect();
        let room = if random.once_in(8) { random.below(windows + 4) } else { windows };
        Job { bytes, line, boxes, room }
    }

    /// How many windows a library did, and all answers, with some behind them that it may not touch.
    fn answers(&self, calls: &Calls) -> (usize, Vec<Answer>) {
        let Job { bytes, line, boxes, room } = self;
        let mut answers = vec![UNTOUCHED; room + 2];
        // Pointers are to live memory of the lengths that are told.
        let count = unsafe {
            (calls.windows)(bytes.as_ptr(), bytes.len(), *line, boxes.as_ptr(), boxes.len(), answers.as_mut_ptr(), *room)
        };
        (count, answers)
    }

    /// Each answer is that of the first of open, read and report that refuses.
    fn check_single(&self, kind: Kind, answers: &[Answer]) -> Result<(), Difference> {
        let calls = kind.tested();
        for (window, (over, answer)) in self.boxes.iter().zip(answers).enumerate() {
            let Some(lower) = over.lower.get(..over.channels) else { continue };
            let upper = over.upper[..over.channels].to_vec();
            let draft = Draft { lower: lower.to_vec(), upper, swept: over.swept, centre: over.centre };
            let mut memory = Memory::blank();
            let mut single = Answer::default();
            for call in [Call::Open(draft), Call::Read(self.bytes.clone()), Call::Report { line: self.line }] {
                if single.refusal == 0 {
                    single = call.make(&calls, &mut memory, Lent::USUAL);
                }
            }
            if single != *answer {
                return Err(self.difference(window, "the single calls", &single, answer));
            }
        }
        Ok(())
    }

    fn difference(&self, window: usize, other: &str, wanted: &Answer, given: &Answer) -> Difference {
        let over = self.boxes.get(window).map_or("none".into(), show::channel_box);
        let (wanted, given) = (show::answer(wanted), show::answer(given));
        let Job { bytes, line, .. } = self;
        format!("window {window}, line {line} of {bytes:02x?}\n  over {over}\n  {other}: {wanted}\n  tested: {given}")
    }
}
