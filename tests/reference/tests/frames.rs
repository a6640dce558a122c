//! Frames: which numbers carry which byte, which refusal the others have, and that a service is fed
//! the bytes of the sound ones alone.

use reference::generator::random_lists;
use reference::prefix::Prefix;
use reference::{read_frame, write_frame, CodeSet, Device, Event, Input, Outcome, Seen, Service};

const LISTS: usize = 2_000;
const LONGEST: usize = 200;

/// Bytes and their frames, worked out by hand: stop bit, parity bit, data bits, start bit.
const FRAMES: [(u8, u16); 12] = [
    (0x00, 0b1_1_00000000_0),
    (0x01, 0b1_0_00000001_0),
    (0x1E, 0b1_1_00011110_0),
    (0x2A, 0b1_0_00101010_0),
    (0x39, 0b1_1_00111001_0),
    (0x80, 0b1_0_10000000_0),
    (0xE0, 0b1_0_11100000_0),
    (0xE1, 0b1_1_11100001_0),
    (0xED, 0b1_1_11101101_0),
    (0xFA, 0b1_1_11111010_0),
    (0xFE, 0b1_0_11111110_0),
    (0xFF, 0b1_1_11111111_0),
];

/// The frame of 2A with every set of faults, then two without data; with each the refusal that comes
/// first.
const SPOILED: [(u16, u8); 9] = [
    (0b1_0_00101010_1, 11),
    (0b1_1_00101010_1, 11),
    (0b0_0_00101010_1, 11),
    (0b0_1_00101010_1, 11),
    (0b1_1_00101010_0, 12),
    (0b0_1_00101010_0, 12),
    (0b0_0_00101010_0, 13),
    (0b0_1_00000000_0, 13),
    (0b0_0_00000000_0, 12),
];

fn lists() -> impl Iterator<Item = (CodeSet, u8, Vec<Input>)> {
    random_lists(11, LISTS, LONGEST)
}

#[test]
fn bytes_have_the_frames_worked_out() {
    for (byte, frame) in FRAMES {
        assert_eq!(write_frame(byte), frame, "{byte:02X}");
    }
}

#[test]
fn exactly_the_frames_of_bytes_are_read() {
    let read = |frame| read_frame(frame).ok().map(|byte| (frame, byte));
    let accepted: Vec<(u16, u8)> = (0..=u16::MAX).filter_map(read).collect();
    let mut written: Vec<(u16, u8)> = (0..=255).map(|byte| (write_frame(byte), byte)).collect();
    written.sort();
    assert_eq!(accepted, written);
}

#[test]
fn the_first_fault_is_told() {
    for (frame, refusal) in SPOILED {
        assert_eq!(read_frame(frame), Err(refusal), "{frame:011b}");
    }
}

#[test]
fn a_frame_has_eleven_bits() {
    assert_eq!(read_frame(2046), Ok(0xFF));
    let limits = [2047, 2048, 2049, 65_535].into_iter();
    let sound_but_for_one = (11..16).map(|bit| 0b1_0_00101010_0 | 1 << bit);
    for frame in limits.chain(sound_but_for_one) {
        assert_eq!(read_frame(frame), Err(11), "{frame}");
    }
}

/// A poll sends ED; its reply comes spoiled, then sound. Then a grey key, whose code comes sound at
/// the third try.
#[test]
fn spoiled_frames_leave_reply_awaited_and_prefix_open() {
    let steps = [
        (Input::Event(Event::Poll), 0x0C, 0x00ED, 0x00000040),
        (Input::Frame(0b1_0_11111010_0), 0x8C, 0x0000, 0x00000040),
        (Input::Frame(0b1_1_11111010_0), 0x06, 0x0000, 0x00000050),
        (Input::Frame(0b1_0_11100000_0), 0x00, 0x0000, 0x00000250),
        (Input::Frame(0b1_1_01001000_1), 0x8B, 0x0000, 0x00000250),
        (Input::Frame(0b0_1_01001000_0), 0x8D, 0x0000, 0x00000250),
        (Input::Frame(0b1_1_01001000_0), 0x01, 0x48E0, 0x00000050),
    ];
    let mut service = Service::unlocked();
    for (input, ans, word, flags) in steps {
        let expected = Outcome {
            ans,
            word,
            flags: u32::to_be_bytes(flags),
            sent: 1,
        };
        assert_eq!(service.input(&input).shown, expected, "{input:X?}");
    }
}

/// Before bytes of the scanner and port events too, and behind them. Where they are taken out, sound frames
/// come as the events that they carry.
#[test]
fn refused_frames_can_be_taken_out() {
    for (set, locks, inputs) in lists() {
        let mut whole = Service::on_set(set, locks).unwrap();
        let mut without = whole.clone();
        for input in &inputs {
            let seen = whole.input(input);
            if input.is_refused_frame() {
                assert_shows_what_stands(&without, &seen);
            } else {
                let unframed = input.fed().map_or(*input, Input::Event);
                assert_eq!(seen, without.input(&unframed), "{inputs:X?}");
            }
        }
        assert_eq!(whole, without, "{inputs:X?}");
    }
}

/// The answer and the word are the refusal's, and the rest is as a status call shows it.
fn assert_shows_what_stands(service: &Service, seen: &Seen) {
    let mut standing = service
        .clone()
        .input(&Input::Event(Event::Call(0x02, 0, 0)));
    assert!((0x8B..=0x8D).contains(&seen.shown.ans));
    standing.shown.ans = seen.shown.ans;
    standing.shown.word = 0x0000;
    assert_eq!(*seen, standing);
}

/// How many of the lists hold a frame that is read so.
fn lists_with(reading: Result<u8, u8>) -> usize {
    let is_read_so = |input: &Input| match *input {
        Input::Frame(frame) => read_frame(frame) == reading,
        Input::Event(_) | Input::Change(_) | Input::Port(_) => false,
    };
    let lists = lists().filter(|(_, _, inputs)| inputs.iter().any(is_read_so));
    lists.count()
}

#[test]
fn lists_hold_each_refusal_and_frames_of_prefixes_and_replies() {
    let refusals = [11, 12, 13].map(Err);
    let bytes = [0xE0, 0xE1, 0xFA, 0xFE].map(Ok);
    for reading in refusals.into_iter().chain(bytes) {
        assert!(lists_with(reading) > LISTS / 4, "{reading:X?}");
    }
}

/// Frames carry the keyboard's bytes alone; a scanner types between them.
#[test]
fn lists_hold_refused_frames_within_strings_of_the_scanner() {
    let mut count = 0;
    for (set, locks, inputs) in lists() {
        let mut service = Service::on_set(set, locks).unwrap();
        let met = inputs.iter().any(|input| {
            service.input(input);
            let prefix = service.port(Device::Scanner).prefix();
            input.is_refused_frame() && prefix != Prefix::Closed
        });
        count += usize::from(met);
    }
    println!("{count} of {LISTS} lists");
    assert!(count > LISTS / 4);
}
