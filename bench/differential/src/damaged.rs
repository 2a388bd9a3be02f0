//! Formula bytes, sound and damaged, read by both. What is taken has to be written as it was read.

use crate::boxes::Draft;
use crate::call::{Call, Lent, Memory, ROOM};
use crate::formulas::{damage, formula_on};
use crate::library::Kind;
use crate::numbers::Sizes;
use crate::pair::{Difference, Log, Pair};
use crate::random::Random;

/// How many strings of bytes a case has.
pub const STRINGS: usize = 16;

pub fn run(random: &mut Random, log: &mut Log) -> Result<(), Difference> {
    let kind = random.one_of(&Kind::ALL);
    let sizes = Sizes::random(random);
    let mut pair = Pair::new(kind, Memory::blank());
    let open = Call::Open(Draft::sound(random, sizes));
    if log.trace {
        println!("kind {}", kind.name());
    }
    pair.step(&open, Lent::USUAL, log)?;
    let lines = if random.once_in(40) { 50 + random.below(16) } else { 1 + random.below(10) };
    let base = formula_on(random, kind, sizes, &pair.plain.sheet.over, lines);
    for _ in 0..STRINGS {
        let mut bytes = base.clone();
        for _ in 0..random.one_of(&[0, 1, 1, 1, 1, 1, 2, 2, 3, 4]) {
            damage(random, &mut bytes);
        }
        log.tally.strings += u64::from(bytes != base);
        let call = Call::Read(bytes);
        let answer = pair.step(&call, Lent::USUAL, log)?;
        if answer.refusal == 0 {
            let Call::Read(bytes) = call else { unreachable!() };
            let written = pair.step(&Call::Write { room: ROOM }, Lent::USUAL, log)?;
            if pair.tested.out[..written.number] != bytes[..] {
                return Err(format!("read {bytes:02x?}\n  is written as {:02x?}", &pair.tested.out[..written.number]));
            }
            pair.step(&open, Lent::USUAL, log)?;
        }
    }
    Ok(())
}
