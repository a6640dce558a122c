//! Packs for the int 16h functions and their refusals.

use super::writer::{Writer, LOCK_KEYS};
use super::{add_joined, Pack};
use crate::pack::Event;

pub fn add(packs: &mut Vec<Pack>) {
    for words in [0, 1, 14, 15] {
        add_joined(packs, "call", functions(words));
    }
    add_joined(packs, "delay", operands());
    add_joined(packs, "rate", rates());
    add_joined(packs, "status", statuses());
}

/// Every function number with operands inside and outside their bounds.
fn functions(words: usize) -> impl Iterator<Item = Writer> {
    (0x00..=0xFF).flat_map(move |function| {
        [(0, 0), (3, 31), (4, 32), (0xFF, 0xFF)].map(|(a, b)| {
            let mut case = Writer::new();
            case.event(Event::Empty).fill(words);
            case.call(function, a, b).call(0x01, a, b);
            case
        })
    })
}

/// Delays and rates around and far beyond their bounds, each sent by the next case.
fn operands() -> impl Iterator<Item = Writer> {
    let bounds = [0, 1, 3, 4, 5, 31, 32, 33, 127, 128, 255];
    let every_rate = (0..=255).flat_map(move |rate| [0, 3, 4].map(|delay| (delay, rate)));
    let every_delay = (0..=255).flat_map(move |delay| bounds.map(|rate| (delay, rate)));
    every_rate.chain(every_delay).map(|(delay, rate)| {
        let mut case = Writer::new();
        case.settle_line().call(0x03, delay, rate);
        case
    })
}

/// Every accepted pair, replaced and sent.
fn rates() -> impl Iterator<Item = Writer> {
    (0..4).flat_map(|delay| {
        (0..32).map(move |rate| {
            let mut case = Writer::new();
            case.settle_line().call(0x03, 3 - delay, 31 - rate);
            case.call(0x03, delay, rate).settle_line().poll();
            case
        })
    })
}

/// Both statuses under every set of modifiers and of held keys.
fn statuses() -> impl Iterator<Item = Writer> {
    (0..64).flat_map(|modifiers| {
        (0..32).map(move |held| {
            let mut case = Writer::new();
            for (place, &make) in LOCK_KEYS.iter().enumerate() {
                if held >> place & 1 == 1 {
                    case.key(make);
                }
            }
            if held >> 4 == 1 {
                case.key(0x54);
            }
            case.modifiers(modifiers);
            case.call(0x02, 0xAA, 0x55).call(0x12, 0x55, 0xAA).all_up();
            case
        })
    })
}
