//! Set 2: from every state of prefix and mark, each pair of bytes shows what the reference shows; so does
//! each change of set, which writes half a byte and leaves the prefix in its other half and all other
//! bytes. To the scanner's bytes it is all one. A service is made on set 2 as on set 1, and resynchronised
//! on the set it has.

use differential::place::{BYTE_17, PREFIX_AND_CODES};
use differential::{codes, prefix, prefix_and_codes, Image, Pair, IMAGE_LENGTH, PREFIXES};
use reference::generator::all_up_events;
use reference::Event::{self, Call, Empty, Key, Poll, Restart, Scan};
use reference::{CodeSet, Input, CODE_SETS, DEVICES};

/// What brings a new service on set 1 into use, each another part of it.
const USES: [&[Event]; 14] = [
    &[],
    // A command runs: it has sent one byte, and two, the second not answered.
    &[Poll],
    &[Poll, Key(0xFA), Poll],
    // One more failure, and the command is given up.
    &[Poll, Key(0xFE), Poll, Key(0xFE), Poll],
    // A rate waits for the line.
    &[Call(0x03, 2, 5), Poll, Key(0xFE)],
    // Paused, with Num Lock held.
    &[Key(0x45), Key(0xE1), Key(0x1D), Key(0x45)],
    // The queue is full, and one short of it.
    &[Key(0x39); 15],
    &[Key(0x57); 14],
    // All Shift and Ctrl keys are down.
    &[Key(0x2A), Key(0x36), Key(0x1D), Key(0xE0), Key(0x1D)],
    // Both Alt keys are down, and a sum is typed.
    &[Key(0x38), Key(0xE0), Key(0x38), Key(0x4F)],
    // Ctrl and Alt, so that a key asks for a restart.
    &[Key(0x1D), Key(0x38)],
    // Caps Lock, Scroll Lock, Ins and SysReq held.
    &[Key(0x3A), Key(0x46), Key(0x52), Key(0x54)],
    // The scanner holds Shift, Num and Alt, has typed a sum, and has a prefix open.
    &[
        Scan(0x2A),
        Scan(0x45),
        Scan(0x38),
        Scan(0x4F),
        Scan(0xE1),
        Scan(0x1D),
    ],
    // The scanner holds Ins and Ctrl.
    &[Scan(0x52), Scan(0x1D), Scan(0xE0)],
];

/// What leads from a service on set 1 to one on either set and to one behind a mark, with the number for
/// each.
const TRANSLATIONS: [(&[Input], u8); 3] = [
    (&[], codes::SET_1),
    (&[Input::Change(CodeSet::Two)], codes::SET_2),
    (
        &[Input::Change(CodeSet::Two), Input::Event(Key(0xF0))],
        codes::SET_2_MARKED,
    ),
];

/// Bytes that tell what is open: the codes of either set that go on with E1, and a letter.
const TELLING: [u8; 5] = [0x14, 0x77, 0x1D, 0x45, 0x1C];

/// Services in every use, with no prefix open and with each, on either set and behind a mark.
fn services() -> Vec<Pair> {
    let mut services = Vec::new();
    for (place, used) in USES.into_iter().enumerate() {
        for (prefix, bytes) in PREFIXES {
            for (inputs, codes) in TRANSLATIONS {
                let mut pair = Pair::new_on(CodeSet::One, (7 * place % 16) as u8);
                used.iter().for_each(|event| pair.event(event));
                bytes.iter().for_each(|&byte| pair.event(&Key(byte)));
                pair.inputs(inputs);
                assert_eq!((pair.image.prefix(), pair.image.codes()), (prefix, codes));
                services.push(pair);
            }
        }
    }
    services
}

/// The bytes of an image with other codes to come.
fn with_codes(image: &Image, codes: u8) -> Image {
    let mut image = image.clone();
    image.put_codes(codes);
    image
}

fn codes_of(set: CodeSet) -> u8 {
    match set {
        CodeSet::One => codes::SET_1,
        CodeSet::Two => codes::SET_2,
    }
}

#[test]
fn every_pair_of_bytes_agrees() {
    for pair in services() {
        for first in 0..=255 {
            let mut opened = pair.clone();
            opened.event(&Key(first));
            for second in 0..=255 {
                opened.clone().event(&Key(second));
            }
        }
    }
}

#[test]
fn what_is_open_after_each_byte_agrees() {
    for pair in services() {
        for byte in 0..=255 {
            for telling in TELLING {
                let mut told = pair.clone();
                told.event(&Key(byte));
                told.event(&Key(telling));
                TELLING.iter().for_each(|&byte| told.event(&Key(byte)));
            }
        }
    }
}

#[test]
fn every_change_writes_half_a_byte() {
    for pair in services() {
        for set in CODE_SETS {
            let mut changed = pair.clone();
            let expected = pair.image.standing(0x00);
            assert_eq!(changed.image.change(set), expected);
            assert_eq!(changed.service.change(set), expected);
            assert_eq!(changed.image, with_codes(&pair.image, codes_of(set)));
            for byte in 0..=255 {
                changed.clone().event(&Key(byte));
                changed.clone().event(&Scan(byte));
            }
            // Once more, it changes nothing.
            let once = changed.image.clone();
            assert_eq!(changed.image.change(set), expected);
            assert_eq!(changed.image, once);
        }
    }
}

#[test]
fn a_mark_writes_half_a_byte() {
    for pair in services() {
        if pair.image.codes() != codes::SET_1 {
            let mut marked = pair.image.clone();
            assert_eq!(marked.key(0xF0), pair.image.standing(0x00));
            assert_eq!(marked, with_codes(&pair.image, codes::SET_2_MARKED));
        }
    }
}

/// On set 2 and behind a mark a byte of the scanner does what it does on set 1, and leaves both.
#[test]
fn scanners_have_set_1() {
    for pair in services() {
        for byte in 0..=255 {
            let mut scanned = pair.clone();
            scanned.event(&Scan(byte));
            let mut on_set_1 = with_codes(&pair.image, codes::SET_1);
            assert_eq!(on_set_1.scan(byte), pair.image.clone().scan(byte));
            assert_eq!(scanned.image, with_codes(&on_set_1, pair.image.codes()));
            TELLING.iter().for_each(|&byte| scanned.event(&Key(byte)));
        }
    }
}

#[test]
fn made_on_set_2_every_byte_is_written_or_none() {
    for pair in services() {
        for locks in 0..=255 {
            let mut image = pair.image.clone();
            let refusal = image.make_on(CodeSet::Two, locks);
            let mut bytes = [0; IMAGE_LENGTH];
            bytes[BYTE_17] = locks << 4;
            bytes[PREFIX_AND_CODES] = prefix_and_codes(prefix::NONE, codes::SET_2);
            if locks < 16 {
                assert_eq!((refusal, image), (0, Image { bytes }));
            } else {
                assert_eq!((refusal, image), (1, pair.image.clone()));
            }
        }
    }
}

/// The runs, E and R event by event, against the reference and against the one call.
#[test]
fn resynchronised_on_the_set_in_force() {
    for mut pair in services() {
        let set = pair.service.set();
        let mut at_once = pair.image.clone();
        let shown = at_once.resynchronise();
        let runs = DEVICES
            .into_iter()
            .flat_map(|device| all_up_events(device, set));
        for event in runs.chain([Empty]) {
            pair.event(&event);
        }
        assert_eq!(pair.image.event(&Restart), shown);
        assert_eq!(pair.image, at_once);
        let new = Pair::new_on(set, shown.flags[0] >> 4);
        assert_eq!(at_once, new.image);
        let settled = (at_once.prefix(), at_once.codes());
        assert_eq!(settled, (prefix::NONE, codes_of(set)));
        assert_eq!(pair.service.event(&Restart), shown);
        assert_eq!(pair.service, new.service);
    }
}
