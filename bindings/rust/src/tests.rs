//! The wrapper against what the pages say of the calls.
use crate::*;
use std::fmt::Write;
use std::mem::{offset_of, size_of};

const ONE: i64 = 65_536;
const GREATEST: i64 = 1_073_741_823;

/// a x (4 - a).
const PARABOLA: [u8; 13] = [4, 0, 0, 1, 0x80, 0x80, 0x20, 3, 1, 0, 4, 0, 2];

fn range(lower: i64, upper: i64) -> Range {
    Range { lower, upper }
}

/// A sheet over a from 1 to 3 about 2.
fn opened<K: Kind>() -> Sheet<K> {
    let mut sheet = Sheet::blank();
    sheet.open(&ChannelBox::new(&[range(ONE, 3 * ONE)], 0, 2 * ONE)).unwrap();
    sheet
}

#[track_caller]
fn refused<T: std::fmt::Debug>(answer: Result<T, Refusal>, number: u32, place: usize) {
    assert_eq!(answer.unwrap_err(), Refusal { number, place });
}

/// The sizes and offsets here are those that C has: the file is what ../c/layout.c prints.
#[test]
fn layout() {
    let mut text = String::new();
    macro_rules! show {
        ($name:ident: $($field:ident),*) => {
            let _ = writeln!(text, "{} {}", stringify!($name).to_lowercase(), size_of::<raw::$name>());
            $(let _ = writeln!(text, "    {} {}", stringify!($field), offset_of!(raw::$name, $field));)*
        };
    }
    show!(Mark: number, scale);
    show!(Span: lower, upper);
    show!(Record: u, u0, a, b, c, slopes);
    show!(Line: operation, constant, a, b, c);
    show!(Box: lower, upper, channels, swept, centre);
    show!(Sheet: over, held, lines);
    show!(Answer: refusal, place, number, middle, margin);
    assert_eq!(text, include_str!("../../data/layout"));
    assert_eq!(size_of::<ChannelBox>(), size_of::<raw::Box>());
    assert_eq!(size_of::<Answer>(), size_of::<raw::Answer>());
    assert!(size_of::<Sheet<Fixed>>() < 14_000);
}

fn dialogue<K: Kind>() {
    let mut sheet = opened::<K>();
    sheet.read(&PARABOLA).unwrap();
    assert_eq!(sheet.held(), 4);
    assert_eq!(sheet.report(3).unwrap(), Report { middle: 4 * ONE, margin: ONE });
    let mut bytes = [0; FORMULA_BYTES];
    assert_eq!(sheet.write(&mut bytes), Ok(13));
    assert_eq!(bytes[..13], PARABOLA);
    sheet.move_channel(0, range(0, 2 * ONE), ONE).unwrap();
    assert_eq!(sheet.report(3).unwrap(), Report { middle: 3 * ONE, margin: 3 * ONE });
    sheet.strike().unwrap();
    assert_eq!(sheet.add(Line::Lesser(0, 2)), Ok(3));
}

#[test]
fn dialogues() {
    dialogue::<Fixed>();
    dialogue::<Sliding>();
}

#[test]
fn every_operation() {
    let mut sheet = opened::<Sliding>();
    let lines = [
        Line::Channel(0),
        Line::Constant(-ONE),
        Line::Sum(0, 1),
        Line::Difference(1, 0),
        Line::Product(0, 1),
        Line::Quotient(1, 0),
        Line::Square(0),
        Line::Magnitude(1),
        Line::Greater(0, 1),
        Line::Lesser(0, 1),
        Line::Branch { sign: 1, below: 0, otherwise: 2 },
    ];
    for (number, line) in lines.into_iter().enumerate() {
        assert_eq!(sheet.add(line), Ok(number));
    }
    let mut bytes = [0; 64];
    let length = sheet.write(&mut bytes).unwrap();
    let wanted = "0b 00 00 01 ff ff 07 02 00 01 03 01 00 04 00 01 05 01 00 06 00 07 01 08 00 01 09 00 01 0a 01 00 02";
    let text: Vec<String> = bytes[..length].iter().map(|byte| format!("{byte:02x}")).collect();
    assert_eq!(text.join(" "), wanted);
}

#[test]
fn refusals() {
    let mut sheet = opened::<Fixed>();
    refused(sheet.strike(), 11, 0);
    refused(sheet.write(&mut []), 11, 0);
    refused(sheet.report(0), 11, 0);
    refused(sheet.add(Line::Channel(1)), 2, 0);
    refused(sheet.add(Line::Constant(GREATEST + 1)), 3, 0);
    refused(sheet.add(Line::Square(0)), 8, 0);
    sheet.read(&PARABOLA).unwrap();
    refused(sheet.read(&PARABOLA), 12, 0);
    refused(sheet.write(&mut [0; 12]), 17, 13);
    refused(sheet.report(usize::MAX), 11, usize::MAX);
    refused(sheet.add(Line::Sum(usize::MAX, 0)), 8, 4);
    refused(sheet.move_channel(1, range(0, 0), 0), 2, 1);
    refused(sheet.move_channel(0, range(0, GREATEST + 1), 0), 3, 0);
    refused(sheet.move_channel(0, range(1, 0), 0), 4, 0);
    refused(sheet.move_channel(0, range(0, 1), 2), 5, 0);
    refused(sheet.move_channel(0, range(0, GREATEST), 2), 10, 3);
    assert_eq!(sheet.add(Line::Quotient(1, 0)), Ok(4));
    refused(sheet.move_channel(0, range(0, ONE), 0), 9, 4);
    for number in 5..LINES {
        assert_eq!(sheet.add(Line::Constant(0)), Ok(number));
    }
    refused(sheet.add(Line::Channel(9)), 7, 64);
    assert_eq!(sheet.report(3).unwrap(), Report { middle: 4 * ONE, margin: ONE });
}

#[test]
fn refused_boxes() {
    let mut sheet = opened::<Fixed>();
    let point = range(0, 0);
    sheet.read(&PARABOLA).unwrap();
    refused(sheet.open(&ChannelBox::new(&[], 0, 0)), 1, 0);
    refused(sheet.open(&ChannelBox::new(&[point; 9], 0, 0)), 1, 0);
    refused(sheet.open_ends(&[0; 2], &[0; 3], 0, 0), 1, 0);
    refused(sheet.open(&ChannelBox::new(&[point], 1, 0)), 2, 1);
    refused(sheet.open(&ChannelBox::new(&[point, range(0, i64::MAX)], 0, 0)), 3, 1);
    refused(sheet.open(&ChannelBox::new(&[point, range(i64::MIN, 0)], 0, 0)), 3, 1);
    refused(sheet.open(&ChannelBox::new(&[point, point, range(1, 0)], 0, 0)), 4, 2);
    refused(sheet.open(&ChannelBox::new(&[point, point], 1, -1)), 5, 1);
    assert_eq!(sheet.report(3).unwrap(), Report { middle: 4 * ONE, margin: ONE });
    sheet.open(&ChannelBox::new(&[point; 8], 7, 0)).unwrap();
    assert_eq!(sheet.held(), 0);
}

#[test]
fn refused_bytes() {
    let read = |bytes: &[u8]| opened::<Fixed>().read(bytes);
    refused(read(&[]), 13, 0);
    refused(read(&[0x80]), 13, 0);
    refused(read(&[0x80, 0]), 14, 0);
    refused(read(&[0]), 16, 0);
    refused(read(&[65]), 16, 0);
    refused(read(&[1, 0]), 13, 1);
    refused(read(&[1, 11, 0]), 15, 1);
    refused(read(&[1, 0, 0, 0]), 16, 3);
    let said = |bytes| read(bytes).unwrap_err().to_string();
    assert_eq!(said(&[0]), "refused 16 at 0 (not 1 to 64 lines)");
    assert_eq!(said(&[1, 0, 0, 7]), "refused 16 at 3 (bytes left over)");
}

#[test]
fn all_windows() {
    let boxes = [
        ChannelBox::about_midpoint(&[range(ONE, 3 * ONE)]),
        ChannelBox::about_midpoint(&[range(3 * ONE, ONE)]),
        ChannelBox::about_midpoint(&[range(-1, 0); 9]),
        ChannelBox::new(&[range(0, 2 * ONE)], 0, ONE),
    ];
    let mut answers = [Answer::default(); 3];
    assert_eq!(windows::<Fixed>(&PARABOLA, 3, &boxes, &mut answers), 3);
    assert_eq!(answers[0].report(), Ok(Report { middle: 4 * ONE, margin: ONE }));
    refused(answers[1].report(), 4, 0);
    refused(answers[2].report(), 1, 0);
    assert_eq!(windows::<Fixed>(&PARABOLA, 3, &[], &mut answers), 0);
    assert_eq!(window::<Sliding>(&PARABOLA, 3, &boxes[3]), Ok(Report { middle: 3 * ONE, margin: 3 * ONE }));
    refused(window::<Fixed>(&PARABOLA, 4, &boxes[0]), 11, 4);
    let low = ChannelBox::about_midpoint(&[range(-4, -1)]);
    assert_eq!(low, ChannelBox::new(&[range(-4, -1)], 0, -3));
}

/// Numbers with no order to them.
struct Noise(u64);

impl Noise {
    fn next(&mut self) -> u64 {
        self.0 ^= self.0 << 13;
        self.0 ^= self.0 >> 7;
        self.0 ^= self.0 << 17;
        self.0
    }

    fn record(&mut self) -> raw::Record {
        let mut mark = || raw::Mark { number: self.next() as i32, scale: (self.next() % 40) as u32 };
        let mut span = || raw::Span { lower: mark(), upper: mark() };
        raw::Record { u: span(), u0: span(), a: span(), b: span(), c: span(), slopes: self.next() as u32 % 3 }
    }
}

/// No content of the memory leads a call astray.
fn spoiled<K: Kind>() {
    let mut noise = Noise(0x1234_5678_9abc_def1);
    for turn in 0..2000 {
        let mut sheet = opened::<K>();
        sheet.read(&PARABOLA).unwrap();
        sheet.working.fill_with(|| noise.record());
        sheet.spare.fill_with(|| noise.record());
        if turn % 2 == 0 {
            sheet.sheet.held = (noise.next() % 80) as usize;
            for line in &mut sheet.sheet.lines {
                let mut operand =
                    || if noise.next() % 8 == 0 { noise.next() as usize } else { (noise.next() % 70) as usize };
                let (a, b, c) = (operand(), operand(), operand());
                *line = raw::Line { operation: (noise.next() % 14) as u32, constant: noise.next() as i64, a, b, c };
            }
        }
        let _ = sheet.report(3);
        let _ = sheet.add(Line::Product(0, 3));
        let _ = sheet.write(&mut [0; FORMULA_BYTES]);
        let _ = sheet.move_channel(0, range(-ONE, ONE), 0);
        let _ = sheet.strike();
        assert!(sheet.held() <= LINES);
        // An accepted open or move puts everything right.
        sheet.open(&ChannelBox::new(&[range(ONE, 3 * ONE)], 0, 2 * ONE)).unwrap();
        sheet.read(&PARABOLA).unwrap();
        assert_eq!(sheet.report(3).unwrap(), Report { middle: 4 * ONE, margin: ONE });
        sheet.working.fill_with(|| noise.record());
        sheet.move_channel(0, range(0, 2 * ONE), ONE).unwrap();
        assert_eq!(sheet.report(3).unwrap(), Report { middle: 3 * ONE, margin: 3 * ONE });
    }
}

#[test]
fn spoiled_memory() {
    spoiled::<Fixed>();
    spoiled::<Sliding>();
}

/// Memory that is no sheet counts as a blank one.
#[test]
fn blank_memory() {
    let blank = Sheet::<Fixed>::blank();
    let mut spoilt = [blank.clone(), blank.clone(), blank.clone()];
    spoilt[0].sheet.over.channels = 0;
    spoilt[1].sheet.held = 65;
    spoilt[2].sheet.over.centre = 1;
    for mut sheet in spoilt {
        refused(sheet.strike(), 11, 0);
        assert_eq!(sheet.sheet, blank.sheet);
        assert_eq!(sheet.add(Line::Channel(0)), Ok(0));
        assert_eq!(sheet.report(0), Ok(Report { middle: 0, margin: 0 }));
    }
}
