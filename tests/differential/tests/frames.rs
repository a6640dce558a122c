//! Frames, as a board without a controller chip hands them over: each byte has the frame that the
//! reference writes, each of the 65,536 numbers is read as the reference reads it, and refused frames
//! could as well not have come.

use differential::{frame_of, Image, Pair};
use reference::generator::random_lists;
use reference::Event::{self, Key, Poll, Scan};
use reference::{read_frame, write_frame, CodeSet, Input};

const LISTS: usize = 8_000;
const LONGEST: usize = 200;

/// How the next byte is taken: on set 1, on set 2, and on set 2 behind a mark.
const TRANSLATIONS: [&[Input]; 3] = [
    &[],
    &[Input::Change(CodeSet::Two)],
    &[Input::Change(CodeSet::Two), Input::Event(Key(0xF0))],
];

/// What brings a new service into use, each another part of it.
const USES: [&[Event]; 13] = [
    &[],
    // A command runs, which has sent one byte, and three.
    &[Poll],
    &[Poll, Key(0xFE), Poll, Key(0xFA), Poll],
    // Each prefix is open.
    &[Key(0xE0)],
    &[Key(0xE1)],
    &[Key(0xE1), Key(0x1D)],
    &[Key(0xE1), Key(0x9D)],
    // Paused.
    &[Key(0xE1), Key(0x1D), Key(0x45)],
    // The queue is full.
    &[Key(0x39); 15],
    // Both Shift and both Ctrl keys are down.
    &[Key(0x2A), Key(0x36), Key(0x1D), Key(0xE0), Key(0x1D)],
    // Both Alt keys are down, and a sum is typed.
    &[Key(0x38), Key(0xE0), Key(0x38), Key(0x4F)],
    // The scanner has a prefix open that the keyboard has not, and keys down; frames go past it.
    &[Scan(0x1D), Scan(0x38), Scan(0x4F), Scan(0xE0)],
    &[Key(0xE0), Scan(0x2A), Scan(0xE1), Scan(0x1D)],
];

/// From a copy of the service: the frame of a byte does what the byte does, any other number nothing.
fn assert_read(pair: &Pair, frame: u16) {
    let Pair {
        mut image,
        mut service,
    } = pair.clone();
    let shown = image.frame(frame);
    assert_eq!(shown, service.frame(frame), "{frame:011b}");
    let mut expected = pair.image.clone();
    if let Ok(byte) = read_frame(frame) {
        assert_eq!(shown, expected.key(byte), "{byte:02X}");
    }
    assert_eq!(image, expected, "{frame:011b}");
}

#[test]
fn each_byte_has_its_frame() {
    for byte in 0..=255 {
        assert_eq!(frame_of(byte), write_frame(byte), "{byte:02X}");
    }
}

#[test]
fn every_number_is_read_as_the_reference_reads_it() {
    for (place, events) in USES.into_iter().enumerate() {
        for inputs in TRANSLATIONS {
            let mut pair = Pair::new_on(CodeSet::One, (3 * place % 16) as u8);
            events.iter().for_each(|event| pair.event(event));
            pair.inputs(inputs);
            (0..=u16::MAX).for_each(|frame| assert_read(&pair, frame));
        }
    }
}

#[test]
fn refused_frames_can_be_taken_out() {
    for (set, locks, inputs) in random_lists(0xF8A, LISTS, LONGEST) {
        let mut whole = Image::new_on(set, locks).unwrap();
        let mut without = whole.clone();
        for input in &inputs {
            let shown = whole.input(input);
            if !input.is_refused_frame() {
                assert_eq!(shown, without.input(input), "{inputs:X?}");
            }
        }
        assert_eq!(whole, without, "{inputs:X?}");
    }
}
