//! Packs that cut the strings of prefixes at each place.

use super::writer::{Writer, PAUSE};
use super::{add_joined, Pack};
use crate::pack::Event;

/// Beginnings after which every byte is tried.
const OPENED: [&[u8]; 9] = [
    &[],
    &[0xE0],
    &[0xE1],
    &[0xE1, 0x1D],
    &[0xE1, 0x9D],
    &[0xE0, 0xE0],
    &[0xE0, 0xE1],
    &[0xE1, 0x1D, 0xE0],
    &[0xE1, 0x9D, 0xE1],
];

/// What may follow the byte.
const FOLLOWING: [&[u8]; 5] = [&[0x1E], &[0x45], &[0xC5], &[0x1D, 0x45], &[0x47, 0x53]];

/// What may come before it: nothing, Alt with a sum, Ctrl and Alt, a pause with Num held.
const BEFORE: [&[u8]; 4] = [
    &[],
    &[0x38, 0x4F],
    &[0x1D, 0x38],
    &[PAUSE[0], PAUSE[1], PAUSE[2], 0x45],
];

pub fn add(packs: &mut Vec<Pack>) {
    for before in BEFORE {
        for opened in OPENED {
            for following in FOLLOWING {
                add_joined(packs, "prefix", cuts(before, opened, following));
            }
        }
    }
    add_joined(packs, "between", interposed());
}

fn cuts<'a>(
    before: &'a [u8],
    opened: &'a [u8],
    following: &'a [u8],
) -> impl Iterator<Item = Writer> + 'a {
    (0x00..=0xFF).map(move |byte| {
        let mut case = Writer::new();
        case.keys(before).keys(opened).key(byte).keys(following);
        case.take().all_up();
        case
    })
}

/// Events between the bytes of each string; only overruns may close a prefix.
fn interposed() -> impl Iterator<Item = Writer> {
    let strings: [&[u8]; 4] = [&PAUSE, &[0xE1, 0x9D, 0xC5], &[0xE0, 0x47], &[0xE0, 0x38]];
    let events = [
        Event::Key(0xFA),
        Event::Key(0xFE),
        Event::Key(0x00),
        Event::Key(0xFF),
        Event::Call(0x00, 0, 0),
        Event::Call(0x03, 0, 0),
        Event::Call(0x03, 4, 0),
        Event::Call(0x05, 1, 2),
        Event::Call(0xFF, 0, 0),
        Event::Poll,
        Event::TimeOut,
        Event::Empty,
        Event::Restart,
    ];
    strings.into_iter().flat_map(move |string| {
        (1..string.len()).flat_map(move |place| {
            events.into_iter().map(move |event| {
                let mut case = Writer::new();
                case.poll().keys(&string[..place]).event(event);
                case.keys(&string[place..]).key(0x1E).take().all_up();
                case
            })
        })
    })
}
