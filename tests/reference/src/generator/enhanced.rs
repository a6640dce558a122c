//! Packs for enhanced words: which words they are, and what each reading function does to them.

use super::writer::{Writer, ENHANCED_KEYS};
use super::{add_joined, choices, Pack};
use crate::pack::Event;
use crate::queue::CAPACITY;

/// The functions that read the queue.
const READERS: [u8; 4] = [0x00, 0x01, 0x10, 0x11];

pub fn add(packs: &mut Vec<Pack>) {
    add_joined(packs, "enhanced-key", keys());
    add_joined(packs, "enhanced-limit", limits());
    let words = [(0x85, 0x00), (0x84, 0x00), (0xFF, 0x00)];
    add_joined(packs, "enhanced-mixture", mixtures(&words, 4));
    add_joined(packs, "enhanced-turned", turned());
}

/// Both keys under every set of modifiers, read by every function.
fn keys() -> impl Iterator<Item = Writer> {
    (0..64).flat_map(|modifiers| {
        READERS.map(|function| {
            let mut case = Writer::new();
            case.modifiers(modifiers).keys(&ENHANCED_KEYS).key(0x1E);
            case.modifiers(0).call(function, 0, 0).drain_enhanced();
            case
        })
    })
}

/// Every high byte over low bytes about 00, from the program, read by every function.
fn limits() -> impl Iterator<Item = Writer> {
    let low_bytes = [0x00, 0x01, 0x80, 0xE0, 0xFF];
    let words = (0x00..=0xFF).flat_map(move |high| low_bytes.map(|low| (high, low)));
    words.flat_map(|(high, low)| {
        READERS.map(|function| {
            let mut case = Writer::new();
            case.call(0x05, high, low).call(function, 0, 0);
            case.call(0x11, 0, 0).event(Event::Empty);
            case
        })
    })
}

/// Every order of so many of these words, read by every order of three functions.
pub fn mixtures(words: &[(u8, u8)], length: u32) -> impl Iterator<Item = Writer> + '_ {
    choices(words.len(), length).flat_map(move |order| {
        choices(READERS.len(), 3).map(move |functions| {
            let mut case = Writer::new();
            for (high, low) in order.iter().map(|&place| words[place]) {
                case.call(0x05, high, low);
            }
            for function in functions.iter().map(|&place| READERS[place]) {
                case.call(function, 0, 0);
            }
            case.drain_enhanced();
            case
        })
    })
}

/// So many enhanced words before others, to a full queue, from every place of the ring on.
fn turned() -> impl Iterator<Item = Writer> {
    let fills = choices(CAPACITY + 1, 2).filter(|fill| fill[1] < CAPACITY);
    fills.flat_map(|fill| {
        READERS.map(|function| {
            let (enhanced, turn) = (fill[0], fill[1]);
            let mut case = Writer::new();
            for _ in 0..turn {
                case.key(0x39).take();
            }
            for place in 0..enhanced {
                case.key(ENHANCED_KEYS[place % 2]);
            }
            case.fill(CAPACITY - enhanced).call(function, 0, 0);
            case.call(0x05, 0x12, 0x34).drain_enhanced();
            case
        })
    })
}
