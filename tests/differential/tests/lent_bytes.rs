//! Memory that is lent: a refused call leaves every byte of it as it was, image and buffer, but for
//! the report of a call refused by 2 to 5, which is told like any other event. A call that is run
//! changes the image and the first 44 bytes of the buffer, and nothing before, between or behind.

use differential::place::{AWAITING, BUFFER, COMMAND_BYTE, SPARE};
use differential::{command, kind, Image, Pair, Tagged, IMAGE_LENGTH, SCANNER_LENGTH};
use reference::frame::{PARITY_BIT, STOP_BIT};
use reference::generator::{random_events, random_inputs, random_lists, Random, FLAVOURS};
use reference::PortEvent::{FromKeyboard, Write60, Write64};
use reference::{report, write_frame};
use reference::{CodeSet, Event, Outcome, CODE_SETS, REPORT_LENGTH};
use std::collections::BTreeSet;

/// Services in use that each refusal is tried on.
const SERVICES: usize = 256;
/// Bytes on either side of what is lent.
const MARGIN: usize = 64;
/// An image stands at a multiple of this.
const ALIGNMENT: usize = 8;
/// A processor reads so many bytes at a time.
const CACHE_LINE: usize = 64;
const TAGS: [u8; 7] = *b"KCPTERS";
/// The functions of int 16h that are not refused by 2.
const FUNCTIONS: [u8; 8] = [0x00, 0x10, 0x01, 0x11, 0x02, 0x12, 0x03, 0x05];

/// Services after random lists of every flavour, from either code set and every setting of the locks.
fn services_in_use() -> Vec<Pair> {
    let services: Vec<Pair> = random_lists(9, SERVICES, 149).map(Pair::after).collect();
    let is_used = |number: usize| services.iter().any(|pair| pair.image.scanner()[number] > 0);
    assert!((0..SCANNER_LENGTH).all(is_used), "scanners were used");
    // The numbers behind these mean nothing.
    let is_used = |number: usize| {
        services
            .iter()
            .any(|pair| pair.image.controller()[number] > 0)
    };
    assert!((0..SPARE - BUFFER).all(is_used), "so were controllers");
    let is_left = |turn: Option<u8>| services.iter().any(|pair| pair.image.turn() == turn);
    let turns = [Some(kind::LED), Some(kind::RATE), None];
    assert!(turns.into_iter().all(is_left), "so were lines");
    services
}

/// Bytes of which no two neighbours are alike, so that a byte moved is seen too.
fn memory(length: usize) -> Vec<u8> {
    (0..length).map(|place| (place * 7 + 3) as u8).collect()
}

/// Lends so many bytes with a margin on either side. Gives the refusal and all bytes after the call.
fn report_amid(image: &mut Image, event: Tagged, length: usize) -> (u8, Vec<u8>) {
    let mut memory = memory(MARGIN + length + MARGIN);
    let refusal = image.report(event, &mut memory[MARGIN..MARGIN + length]);
    (refusal, memory)
}

fn assert_unreported(pair: &Pair, event: Tagged, length: usize, refusal: u8) {
    let mut image = pair.image.clone();
    let left = report_amid(&mut image, event, length);
    assert_eq!(left, (refusal, memory(MARGIN + length + MARGIN)));
    assert_eq!(image, pair.image, "{event:?}");
}

fn assert_reported(pair: &Pair, event: &Event, length: usize, refusal: u8) {
    let Pair { image, service } = &mut pair.clone();
    let mut expected = memory(MARGIN + length + MARGIN);
    let text = report(event, &service.event(event));
    expected[MARGIN..MARGIN + REPORT_LENGTH].copy_from_slice(&text);
    let left = report_amid(image, event.into(), length);
    assert_eq!(left, (refusal, expected), "{event:?}");
    assert!(refusal == 0 || *image == pair.image, "{event:?}");
}

/// A call refused by 2 to 5, alone and with its report.
fn assert_call_refused(pair: &Pair, (function, a, b): (u8, u8, u8), refusal: u8) {
    let event = Event::Call(function, a, b);
    let expected = pair.service.clone().event(&event);
    assert_eq!((expected.ans, expected.word), (0x80 + refusal, 0));
    let mut image = pair.image.clone();
    assert_eq!(image.event(&event), expected);
    assert_eq!(image, pair.image);
    assert_reported(pair, &event, REPORT_LENGTH, refusal);
    assert_reported(pair, &event, REPORT_LENGTH + 13, refusal);
}

fn assert_frames_refused(pair: &Pair, frames: impl Iterator<Item = u16>, refusal: u8) {
    let expected = pair.image.standing(0x80 + refusal);
    let mut image = pair.image.clone();
    for frame in frames {
        assert_eq!(image.frame(frame), expected, "{frame:011b}");
        assert_eq!(image, pair.image, "{frame:011b}");
    }
}

#[test]
fn refusal_1_keeps_every_byte() {
    for pair in services_in_use() {
        let mut image = pair.image.clone();
        for locks in 16..=255 {
            for set in CODE_SETS {
                assert_eq!(image.make_on(set, locks), 1);
                assert_eq!(image, pair.image);
            }
        }
    }
}

#[test]
fn refusal_2_keeps_every_byte() {
    for pair in services_in_use() {
        for function in (0..=255).filter(|function| !FUNCTIONS.contains(function)) {
            assert_call_refused(&pair, (function, function ^ 0x5A, 0xFF), 2);
        }
    }
}

#[test]
fn refusal_3_keeps_every_byte() {
    for pair in services_in_use() {
        for delay in 4..=255 {
            assert_call_refused(&pair, (0x03, delay, delay ^ 0xFF), 3);
        }
    }
}

#[test]
fn refusal_4_keeps_every_byte() {
    for pair in services_in_use() {
        for rate in 32..=255 {
            assert_call_refused(&pair, (0x03, rate % 4, rate), 4);
        }
    }
}

#[test]
fn refusal_5_keeps_every_byte() {
    for mut pair in services_in_use() {
        while pair.service.clone().event(&Event::Call(0x05, 0, 0)).ans < 0x80 {
            pair.event(&Event::Call(0x05, 0x1E, 0x61));
        }
        for low in 0..=255 {
            assert_call_refused(&pair, (0x05, low ^ 0x33, low), 5);
        }
    }
}

#[test]
fn refusal_6_keeps_every_byte() {
    for pair in services_in_use() {
        let expected = pair.image.standing(0x86);
        for tag in (0..=255).filter(|tag| !TAGS.contains(tag)) {
            let operands = [tag, 0x00, 0xFF];
            let event = Tagged { tag, operands };
            let mut image = pair.image.clone();
            assert_eq!(image.event(event), expected);
            assert_eq!(image, pair.image);
            // It comes before 9.
            for length in [0, REPORT_LENGTH - 1, REPORT_LENGTH, 100] {
                assert_unreported(&pair, event, length, 6);
            }
        }
    }
}

#[test]
fn refusal_9_keeps_every_byte() {
    let mut random = Random::new(44);
    for pair in services_in_use() {
        for length in 0..REPORT_LENGTH {
            // It comes before 2 to 5.
            for refused in [(0x04, 0, 0), (0x03, 4, 0), (0x03, 0, 32), (0x05, 0, 0)] {
                let (function, a, b) = refused;
                let event = Event::Call(function, a, b);
                assert_unreported(&pair, Tagged::from(&event), length, 9);
            }
            for tag in TAGS {
                let operands = [random.byte(), random.byte(), random.byte()];
                assert_unreported(&pair, Tagged { tag, operands }, length, 9);
            }
        }
    }
}

#[test]
fn refusal_11_keeps_every_byte() {
    for pair in services_in_use() {
        let odd = (1..2048).step_by(2);
        let bits_above = (1..32).map(|bits| bits << 11);
        let sound_below =
            bits_above.flat_map(|bits| (0..=255).map(move |byte| bits | write_frame(byte)));
        assert_frames_refused(&pair, odd.chain([2048]).chain(sound_below), 11);
    }
}

#[test]
fn refusal_12_keeps_every_byte() {
    for pair in services_in_use() {
        let frames = (0..=255).map(|byte| write_frame(byte) ^ 1 << PARITY_BIT);
        assert_frames_refused(&pair, frames.clone(), 12);
        // It comes before 13.
        assert_frames_refused(&pair, frames.map(|frame| frame ^ 1 << STOP_BIT), 12);
    }
}

#[test]
fn refusal_13_keeps_every_byte() {
    for pair in services_in_use() {
        let frames = (0..=255).map(|byte| write_frame(byte) ^ 1 << STOP_BIT);
        assert_frames_refused(&pair, frames, 13);
    }
}

/// The refusal that an answer tells; 0 for none.
fn refusal_of(outcome: Outcome) -> u8 {
    outcome.ans.saturating_sub(0x80)
}

/// A call that gives the refusal it met.
type Refused = fn(&mut Image) -> u8;

/// Calls, each with the refusal it meets where the queue is full, the keyboard disabled and no command
/// byte awaited.
const REFUSED: [(u8, Refused); 15] = [
    (1, |image| image.make_on(CodeSet::One, 16)),
    (1, |image| image.make_on(CodeSet::Two, 255)),
    (2, |image| refusal_of(image.call(0x53, 0, 0))),
    (3, |image| refusal_of(image.call(0x03, 4, 32))),
    (4, |image| refusal_of(image.call(0x03, 3, 32))),
    (5, |image| refusal_of(image.call(0x05, 0x1E, 0x61))),
    (5, |image| {
        let event = Event::Call(0x05, 0x1E, 0x61);
        image.report(&event, &mut [0; REPORT_LENGTH])
    }),
    (6, |image| {
        let (tag, operands) = (b's', [0x1E; 3]);
        refusal_of(image.event(Tagged { tag, operands }))
    }),
    (9, |image| {
        image.report(&Event::Scan(0x1E), &mut [0; REPORT_LENGTH - 1])
    }),
    (11, |image| refusal_of(image.frame(1))),
    (12, |image| refusal_of(image.frame(0))),
    (13, |image| refusal_of(image.frame(1 << PARITY_BIT))),
    (14, |image| refusal_of(image.port(FromKeyboard(0x1E)).shown)),
    (15, |image| refusal_of(image.port(Write64(0xA7)).shown)),
    (16, |image| refusal_of(image.port(Write60(0x01)).shown)),
];

/// Numbers that no call would leave are kept too, at each of the 80 bytes.
#[test]
fn refused_calls_keep_any_bytes() {
    let mut random = Random::new(47);
    for _ in 0..SERVICES {
        let mut bytes = [0; IMAGE_LENGTH];
        // A count above 15 is read as 15.
        bytes.fill_with(|| random.between(16, 255) as u8);
        bytes[COMMAND_BYTE] |= command::DISABLED;
        bytes[AWAITING] = 0;
        let lent = Image { bytes };
        for (refusal, call) in REFUSED {
            let mut image = lent.clone();
            assert_eq!(call(&mut image), refusal);
            assert_eq!(image, lent, "refused by {refusal}");
        }
    }
}

#[test]
fn long_buffer_keeps_its_tail() {
    let mut random = Random::new(45);
    for pair in services_in_use() {
        for length in (REPORT_LENGTH..=2 * REPORT_LENGTH).chain([4096]) {
            let flavour = random.pick(&FLAVOURS);
            for event in random_events(&mut random, flavour, 4) {
                let outcome = pair.service.clone().event(&event);
                let refusal = outcome.ans.saturating_sub(0x80);
                assert_reported(&pair, &event, length, refusal);
            }
        }
    }
}

#[test]
fn unused_operands_are_not_read() {
    let mut random = Random::new(46);
    for pair in services_in_use() {
        let flavour = random.pick(&FLAVOURS);
        for event in random_events(&mut random, flavour, 50) {
            let plain = Tagged::from(&event);
            let mut filled = plain;
            let used = match event {
                Event::Key(_) | Event::Scan(_) => 1,
                Event::Call(..) => 3,
                Event::Poll | Event::TimeOut | Event::Empty | Event::Restart => 0,
            };
            filled.operands[used..].fill_with(|| random.byte());
            let (mut one, mut other) = (pair.image.clone(), pair.image.clone());
            assert_eq!(one.event(plain), other.event(filled));
            assert_eq!(one, other);
        }
    }
}

/// An image with bytes on either side of it.
#[repr(C)]
struct Amid {
    before: [u8; MARGIN],
    image: Image,
    after: [u8; MARGIN],
}

#[test]
fn neighbours_of_the_image_are_kept() {
    let margin: [u8; MARGIN] = memory(MARGIN).try_into().unwrap();
    let mut random = Random::new(80);
    for pair in services_in_use() {
        let set = pair.image.set();
        let mut amid = Amid {
            before: margin,
            image: pair.image,
            after: margin,
        };
        let flavour = random.pick(&FLAVOURS);
        for input in random_inputs(&mut random, flavour, set, 200) {
            amid.image.input(&input);
            amid.image.report_of(&input);
            amid.image.make_on(random.pick(&CODE_SETS), random.byte());
            if random.below(16) == 0 {
                amid.image.resynchronise();
            }
        }
        assert_eq!((amid.before, amid.after), (margin, margin));
    }
}

/// An image and a gap behind it, so long that each image of a row begins at another place of its cache
/// line than the one before.
#[repr(C)]
#[derive(Clone, Debug, PartialEq, Eq)]
struct Spaced {
    image: Image,
    gap: [u8; GAP],
}

const GAP: usize = ALIGNMENT;

/// Images in a row stand at addresses of every kind that the alignment allows. Each in turn is given a
/// list; it shows what an image that stands alone shows, and the others and the gaps are kept.
#[test]
fn images_stand_at_any_multiple_of_eight() {
    let mut random = Random::new(81);
    let gap: [u8; GAP] = memory(GAP).try_into().unwrap();
    let alone: Vec<Image> = services_in_use()
        .into_iter()
        .map(|pair| pair.image)
        .collect();
    let spaced = |image: Image| Spaced { image, gap };
    let mut row: Vec<Spaced> = alone.iter().cloned().map(spaced).collect();
    let kind = |spaced: &Spaced| &spaced.image as *const Image as usize % CACHE_LINE;
    let kinds: BTreeSet<usize> = row.iter().map(kind).collect();
    assert!(kinds.into_iter().eq((0..CACHE_LINE).step_by(ALIGNMENT)));
    for (place, mut expected) in alone.into_iter().enumerate() {
        let mut others = row.clone();
        let flavour = random.pick(&FLAVOURS);
        for input in random_inputs(&mut random, flavour, expected.set(), 50) {
            assert_eq!(row[place].image.input(&input), expected.input(&input));
        }
        others[place].image = expected;
        assert_eq!(row, others);
    }
}
