//! Lists in which the keyboard's code set changes, with typing on set 2.

use super::devices::{duet, moved};
use super::random::Random;
use super::writer::ALL_UP_RUN;
use crate::input::Input;
use crate::pack::Device;
use crate::pack::Event::{self, Call, Empty, Key, Poll, Restart, Scan, TimeOut};
use crate::translation::{translated, CodeSet, BREAK, CODE_SETS, MARK};

/// The all-up run as a set 2 keyboard sends it.
const ALL_UP_RUN_OF_SET_2: [u8; 29] = [
    0xF0, 0x29, 0xF0, 0x12, 0xF0, 0x59, 0xF0, 0x14, 0xE0, 0xF0, 0x14, 0xF0, 0x11, 0xE0, 0xF0, 0x11,
    0xF0, 0x58, 0xF0, 0x77, 0xF0, 0x7E, 0xF0, 0x70, 0xF0, 0x84, 0x29, 0xF0, 0x29,
];

pub fn all_up_run(set: CodeSet) -> &'static [u8] {
    match set {
        CodeSet::One => &ALL_UP_RUN,
        CodeSet::Two => &ALL_UP_RUN_OF_SET_2,
    }
}

/// The run as it is fed at the port of a device, on this set.
pub fn all_up_events(device: Device, set: CodeSet) -> impl Iterator<Item = Event> {
    let run = match device {
        Device::Keyboard => all_up_run(set),
        Device::Scanner => &ALL_UP_RUN,
    };
    run.iter().map(move |&byte| device.event(byte))
}

/// What a mark may meet, mostly with a key behind it that tells whether the mark is still open.
const MARKED: [&[u8]; 16] = [
    &[0xF0, 0xF0, 0x12],
    &[0xF0, 0xFA, 0x12],
    &[0xF0, 0xFE, 0x12],
    &[0xF0, 0xE0, 0x14],
    &[0xF0, 0xE1, 0x14, 0x77],
    &[0xF0, 0x00, 0x12],
    &[0xF0, 0xFF, 0x12],
    &[0xF0, 0x83, 0x12],
    &[0xF0, 0x84, 0x12],
    // Codes that come out as FA, FE, E0, E1, FF and F0; the F0 is no mark.
    &[0xF0, 0x65, 0x12],
    &[0xF0, 0x6D, 0x12],
    &[0xF0, 0x47, 0x14],
    &[0xF0, 0x4F, 0x14, 0x77],
    &[0xF0, 0x6E, 0x12],
    &[0xF0, 0x13, 0x12],
    // Any byte may come next.
    &[0xF0],
];

/// Other strings of set 2: Pause and its break, right Ctrl and its break, F7 and SysReq.
const UNMARKED: [&[u8]; 6] = [
    &[0xE1, 0x14, 0x77],
    &[0xE1, 0xF0, 0x14, 0xF0, 0x77],
    &[0xE0, 0x14],
    &[0xE0, 0xF0, 0x14],
    &[0x83],
    &[0x84],
];

/// What few lists of most flavours would come to, in the bytes of set 1: keys held and let go, the Alt
/// sum, a restart asked, a full queue, words that are returned as others, and commands of six bytes,
/// done and given up.
const PHRASES: [&[Event]; 13] = [
    &[Key(0x2A), Key(0x1E), Key(0x9E), Key(0xAA)],
    &[Key(0xE0), Key(0x1D), Key(0x2E), Key(0xE0), Key(0x9D)],
    &[Key(0x41), Key(0xC1), Key(0x41), Key(0xC1)],
    &[Key(0x45), Key(0xC5), Key(0x45), Key(0xC5)],
    &[Key(0x54), Key(0xD4), Key(0xE0), Key(0x46)],
    &[Key(0x38), Key(0x51), Key(0xD1), Key(0x52), Key(0xB8)],
    &[Key(0x1D), Key(0x38), Key(0x53), Key(0xB8), Key(0x9D)],
    &full_queue(),
    &[
        Empty,
        Key(0xE0),
        Key(0x47),
        Call(0x11, 0, 0),
        Call(0x01, 0, 0),
        Call(0x10, 0, 0),
    ],
    &[
        Empty,
        Key(0x1D),
        Key(0xE0),
        Key(0x1C),
        Key(0x9D),
        Call(0x01, 0, 0),
        Call(0x00, 0, 0),
    ],
    &[
        Empty,
        Call(0x05, 0x85, 0xE0),
        Call(0x05, 0x00, 0xE0),
        Call(0x00, 0, 0),
        Call(0x00, 0, 0),
    ],
    &six_bytes(Key(0xFA)),
    &six_bytes(Key(0xFE)),
];

/// More words than the queue holds, then grey Insert down and up.
const fn full_queue() -> [Event; 20] {
    let mut events = [Key(0x39); 20];
    let insert = [Key(0xE0), Key(0x52), Key(0xE0), Key(0xD2)];
    let mut place = 0;
    while place < insert.len() {
        events[16 + place] = insert[place];
        place += 1;
    }
    events
}

/// A lamp command each of whose bytes is sent three times, with the last answer.
const fn six_bytes(answer: Event) -> [Event; 13] {
    let (failed, acknowledged) = (Key(0xFE), Key(0xFA));
    [
        Restart,
        Poll,
        failed,
        Poll,
        TimeOut,
        Poll,
        acknowledged,
        Poll,
        TimeOut,
        Poll,
        failed,
        Poll,
        answer,
    ]
}

/// Strings, in the bytes of set 1, that a change of set may cut in two; often there is none.
const CUT: [(&[Event], &[Event]); 10] = [
    (&[], &[]),
    (&[], &[]),
    (&[], &[]),
    (&[], &[Key(0x2A)]),
    (&[Key(0xE0)], &[Key(0x1D)]),
    (&[Key(0xE0)], &[Key(0x9D)]),
    (&[Key(0xE1)], &[Key(0x1D), Key(0x45)]),
    (&[Key(0xE1), Key(0x1D)], &[Key(0x45)]),
    (&[Key(0xE1)], &[Key(0x9D), Key(0xC5)]),
    (&[Key(0xE1), Key(0x9D)], &[Key(0xC5)]),
];

/// The longest stretches between two changes of a list that has changes, in events.
const STRETCHES: [usize; 3] = [10, 30, 60];

/// A list for a service on this set, made from events of set 1. Their bytes are mostly sent in the codes
/// of the set in force; odd strings and changes of set come between them. One list in four stays on its
/// set.
pub fn with_sets(random: &mut Random, mut set: CodeSet, events: &[Event]) -> Vec<Input> {
    let mut inputs = Vec::with_capacity(2 * events.len());
    let stays = random.below(4) == 0;
    let longest = random.pick(&STRETCHES);
    let mut rest = events;
    loop {
        let length = if stays {
            rest.len()
        } else {
            random.between(0, longest).min(rest.len())
        };
        let (stretch, next) = rest.split_at(length);
        add_stretch(&mut inputs, random, set, stretch);
        if next.is_empty() {
            return inputs;
        }
        rest = next;
        set = add_change(&mut inputs, random, set);
    }
}

/// Typing on one set. Some keyboards send the codes of the other, and some on set 2 send marks where none
/// belong.
fn add_stretch(inputs: &mut Vec<Input>, random: &mut Random, set: CodeSet, events: &[Event]) {
    let fits = random.below(6) > 0;
    let sent = if fits { set } else { other(set) };
    let odd = set == CodeSet::Two && random.below(3) > 0;
    for &event in events {
        if random.below(6) == 0 {
            let phrase = phrase(random);
            add_typed(inputs, random, set, &phrase);
        }
        if odd && random.below(2) == 0 {
            add_odd_string(inputs, random);
        }
        add_typed(inputs, random, sent, &[event]);
    }
}

/// Some come from the scanner, and some from both ports.
fn phrase(random: &mut Random) -> Vec<Event> {
    let phrase = random.pick(&PHRASES);
    match random.below(6) {
        0 => phrase.iter().map(moved).collect(),
        1 | 2 => duet(random),
        _ => phrase.to_vec(),
    }
}

/// Between its bytes the scanner may type.
fn add_odd_string(inputs: &mut Vec<Input>, random: &mut Random) {
    let string = match random.below(4) {
        0 => random.pick(&UNMARKED),
        _ => random.pick(&MARKED),
    };
    for &byte in string {
        inputs.push(Input::Event(Key(byte)));
        if random.below(12) == 0 {
            let byte = random.byte();
            inputs.push(Input::Event(Scan(byte)));
        }
    }
}

/// A change, also to the same set. It may come between the bytes of a string, and behind a mark.
fn add_change(inputs: &mut Vec<Input>, random: &mut Random, from: CodeSet) -> CodeSet {
    let to = random.pick(&CODE_SETS);
    let (before, behind) = random.pick(&CUT);
    add_typed(inputs, random, from, before);
    if from == CodeSet::Two && random.below(2) == 0 {
        inputs.push(Input::Event(Key(MARK)));
    }
    inputs.push(Input::Change(to));
    add_typed(inputs, random, to, behind);
    to
}

fn add_typed(inputs: &mut Vec<Input>, random: &mut Random, set: CodeSet, events: &[Event]) {
    for &event in events {
        let typed = typed_on(random, set, event);
        inputs.extend(typed.into_iter().map(Input::Event));
    }
}

fn other(set: CodeSet) -> CodeSet {
    match set {
        CodeSet::One => CodeSet::Two,
        CodeSet::Two => CodeSet::One,
    }
}

/// What comes from a keyboard of this set where one of set 1 sends this event's byte. Other events are
/// the same on either set.
pub fn typed_on(random: &mut Random, set: CodeSet, event: Event) -> Vec<Event> {
    match event {
        Key(byte) if set == CodeSet::Two => {
            let bytes = spelt(random, byte);
            bytes.into_iter().map(Key).collect()
        }
        _ => vec![event],
    }
}

/// Codes of set 2 by their codes on set 1; nothing comes out as 00.
const CODES: [u8; 128] = codes();

const fn codes() -> [u8; 128] {
    let mut codes = [0; 128];
    let mut code = 0x01;
    while code < 0x80 {
        codes[translated(code) as usize] = code;
        code += 1;
    }
    codes
}

/// Bytes that come out on set 2 as this byte of set 1. Many can come in two ways, by a mark or as they
/// are, and two makes have two codes: now and then it is the way that no keyboard takes.
fn spelt(random: &mut Random, byte: u8) -> Vec<u8> {
    let unusual = random.below(8) == 0;
    let code = match byte & !BREAK {
        0x41 if !unusual => 0x83,
        0x54 if !unusual => 0x84,
        make => CODES[usize::from(make)],
    };
    let usually_as_it_is = matches!(byte, 0xE0 | 0xE1 | 0xFA | 0xFE | 0xFF);
    match byte {
        // Comes out as FF, which is an overrun too.
        0x00 => vec![byte],
        0x01..=0x7F => vec![code],
        // Has no make, and so no code to mark.
        0x80 => vec![byte],
        // Mean something else as they are.
        0x83 | 0x84 | MARK => vec![MARK, code],
        _ if usually_as_it_is != unusual => vec![byte],
        _ => vec![MARK, code],
    }
}
