//! Packs for the queue at every fill and turn.

use super::writer::{all_codes, Writer, LEFT_ALT, LEFT_CTRL, LEFT_SHIFT};
use super::{add_joined, Pack};
use crate::queue::CAPACITY;

pub fn add(packs: &mut Vec<Pack>) {
    for words in CAPACITY - 2..=CAPACITY + 1 {
        for modifiers in [0, LEFT_SHIFT, LEFT_CTRL, LEFT_ALT] {
            add_joined(packs, "full", filled(words, modifiers));
        }
    }
    add_joined(packs, "alt-full", alt_words());
    add_joined(packs, "turned", turned());
    add_joined(packs, "stored", stored());
}

/// Every code on a queue filled so far.
fn filled(words: usize, modifiers: u8) -> impl Iterator<Item = Writer> {
    all_codes().map(move |code| {
        let mut case = Writer::new();
        case.fill(words).modifiers(modifiers).code(code);
        case.call(0x12, 0, 0).drain().all_up();
        case
    })
}

/// The word of an Alt sum on every fill, once more after a drain.
fn alt_words() -> impl Iterator<Item = Writer> {
    (0..=CAPACITY + 1).map(|words| {
        let mut case = Writer::new();
        case.fill(words).keys(&[0x38, 0x50, 0x51, 0xB8]).drain();
        case.keys(&[0x38, 0xB8]).take().all_up();
        case
    })
}

/// The ring at each place: words put and taken, then filled over, and drained or broken.
fn turned() -> impl Iterator<Item = Writer> {
    (0..=CAPACITY + 1).flat_map(|turn| {
        (0..=CAPACITY + 1).map(move |words| {
            let mut case = Writer::new();
            for _ in 0..turn {
                case.key(0x39).take();
            }
            case.fill(words).drain();
            case.fill(words).keys(&[0xE0, 0x46]).fill(CAPACITY).drain();
            case.all_up();
            case
        })
    })
}

/// Words from the program on every fill, between keys.
fn stored() -> impl Iterator<Item = Writer> {
    (0..=CAPACITY + 1).flat_map(|words| {
        [(0x00, 0x00), (0x1E, 0x61), (0xFF, 0x00), (0x00, 0xFF)].map(|(a, b)| {
            let mut case = Writer::new();
            case.fill(words).call(0x05, a, b).key(0x52);
            case.call(0x05, b, a).key(0x1E).take().call(0x05, 1, 2);
            case.drain().all_up();
            case
        })
    })
}
