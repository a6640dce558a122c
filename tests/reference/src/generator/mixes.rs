//! Random mixes of events, in which the interesting bytes are frequent.

use super::random::Random;
use super::writer::{Writer, ENHANCED_KEYS, LOCK_KEYS, MODIFIERS, PAUSE};
use super::{devices, grey, turns, Pack};
use crate::pack::{Event, MAXIMUM_PACK};
use crate::translation::{CodeSet, CODE_SETS};

/// What a mix dwells on.
#[derive(Clone, Copy, Debug)]
pub enum Flavour {
    Keys,
    Line,
    Queue,
    Everything,
    Enhanced,
    Grey,
    Scanner,
    Turns,
}

pub const FLAVOURS: [Flavour; 8] = [
    Flavour::Keys,
    Flavour::Line,
    Flavour::Queue,
    Flavour::Everything,
    Flavour::Enhanced,
    Flavour::Grey,
    Flavour::Scanner,
    Flavour::Turns,
];

/// The flavour of a numbered list, and the code set and the locks it starts from: each flavour in turn,
/// then on the other set, then with the next setting of the locks.
pub fn in_turn(number: usize) -> (Flavour, CodeSet, u8) {
    let (round, flavour) = (number / FLAVOURS.len(), number % FLAVOURS.len());
    let (locks, set) = (round / CODE_SETS.len() % 16, round % CODE_SETS.len());
    (FLAVOURS[flavour], CODE_SETS[set], locks as u8)
}

impl Flavour {
    fn kind(self) -> &'static str {
        match self {
            Flavour::Keys => "mix-keys",
            Flavour::Line => "mix-line",
            Flavour::Queue => "mix-queue",
            Flavour::Everything => "mix",
            Flavour::Enhanced => "mix-enhanced",
            Flavour::Grey => "mix-grey",
            Flavour::Scanner => "mix-scanner",
            Flavour::Turns => "mix-turns",
        }
    }

    /// Weights of a key, a call, a poll, a reply, an emptying and a restart.
    fn events(self) -> [usize; 6] {
        match self {
            Flavour::Keys => [90, 6, 2, 2, 1, 1],
            Flavour::Line => [10, 10, 40, 40, 1, 1],
            Flavour::Queue => [60, 40, 2, 2, 1, 1],
            Flavour::Everything => [40, 20, 20, 20, 2, 2],
            Flavour::Enhanced => [50, 46, 2, 2, 1, 1],
            Flavour::Grey => [30, 70, 2, 2, 1, 1],
            Flavour::Scanner => [60, 14, 10, 20, 2, 1],
            Flavour::Turns => [10, 12, 38, 38, 1, 1],
        }
    }

    /// Weights of the kinds of keys, in the order of `key_bytes`.
    fn keys(self) -> [usize; 10] {
        match self {
            Flavour::Keys => [20, 25, 12, 12, 12, 10, 4, 5, 0, 0],
            Flavour::Line => [10, 5, 50, 3, 3, 3, 1, 3, 0, 0],
            Flavour::Queue => [80, 10, 4, 10, 5, 2, 1, 2, 0, 0],
            Flavour::Everything => [20, 15, 15, 10, 10, 5, 5, 20, 0, 0],
            Flavour::Enhanced => [20, 15, 2, 5, 5, 2, 1, 2, 60, 0],
            Flavour::Grey => [8, 2, 6, 10, 6, 1, 1, 2, 4, 60],
            Flavour::Scanner => [20, 20, 12, 12, 12, 12, 4, 6, 2, 4],
            Flavour::Turns => [10, 5, 50, 3, 3, 3, 1, 3, 1, 1],
        }
    }

    /// Bytes that are typed one after the other.
    fn typed(self, random: &mut Random) -> Vec<Event> {
        match self {
            Flavour::Scanner => devices::typed(random),
            Flavour::Turns => turns::typed(random),
            _ => key_bytes(random, self)
                .into_iter()
                .map(Event::Key)
                .collect(),
        }
    }

    /// Whether the mix has bytes of a scanner by itself.
    pub fn has_scanner(self) -> bool {
        matches!(self, Flavour::Scanner | Flavour::Turns)
    }

    fn call(self, random: &mut Random) -> Event {
        match self {
            Flavour::Enhanced => enhanced_call(random),
            Flavour::Grey => grey::call(random),
            Flavour::Turns => turns::call(random),
            _ => call(random),
        }
    }

    /// What comes where a reply may be due.
    fn reply(self, random: &mut Random) -> Event {
        match self {
            Flavour::Scanner | Flavour::Turns => random.pick(&devices::REPLIES),
            _ => random.pick(&REPLIES),
        }
    }
}

const REPLIES: [Event; 4] = [
    Event::Key(0xFA),
    Event::Key(0xFA),
    Event::Key(0xFE),
    Event::TimeOut,
];

pub fn add(packs: &mut Vec<Pack>) {
    for (place, flavour) in FLAVOURS.into_iter().enumerate() {
        let mut random = Random::new(place as u64);
        for (count, shortest, longest) in [(300, 1, 60), (80, 100, 600), (12, 2000, 7000)] {
            for _ in 0..count {
                let events = random.between(shortest, longest);
                let events = random_events(&mut random, flavour, events);
                add_mix(packs, flavour.kind(), events);
            }
        }
        for _ in 0..3 {
            let events = random_events(&mut random, flavour, MAXIMUM_PACK);
            add_mix(packs, flavour.kind(), events);
        }
    }
    add_noise(packs, "noise", b"KCPTER");
}

/// Cut at the longest pack, perhaps inside an event.
pub fn add_mix(packs: &mut Vec<Pack>, kind: &'static str, events: Vec<Event>) {
    let mut writer = Writer::new();
    writer.events(&events);
    let mut bytes = writer.into_bytes();
    bytes.truncate(MAXIMUM_PACK);
    packs.push(Pack { kind, bytes });
}

/// Bytes of which most are these tags, so that a refusal comes after some events.
pub fn add_noise(packs: &mut Vec<Pack>, kind: &'static str, tags: &[u8]) {
    let mut random = Random::new(99);
    for _ in 0..300 {
        let length = random.between(1, 120);
        let byte = |random: &mut Random| match random.below(5) {
            0 => random.byte(),
            _ => random.pick(tags),
        };
        let bytes = (0..length).map(|_| byte(&mut random)).collect();
        packs.push(Pack { kind, bytes });
    }
}

/// A list of at least so many events.
pub fn random_events(random: &mut Random, flavour: Flavour, count: usize) -> Vec<Event> {
    let mut events = Vec::with_capacity(count + 4);
    while events.len() < count {
        match random.weighted(&flavour.events()) {
            0 => events.extend(flavour.typed(random)),
            1 => events.push(flavour.call(random)),
            2 => events.push(Event::Poll),
            3 => events.push(flavour.reply(random)),
            4 => events.push(Event::Empty),
            _ => events.push(Event::Restart),
        }
    }
    events
}

pub fn call(random: &mut Random) -> Event {
    let function = match random.below(8) {
        0 => random.byte(),
        1 | 2 => 0x05,
        3 => 0x03,
        _ => random.pick(&[0x00, 0x10, 0x01, 0x11, 0x02, 0x12]),
    };
    let operand = |random: &mut Random, limit| match random.below(6) {
        0 => random.byte(),
        _ => random.below(limit) as u8,
    };
    Event::Call(function, operand(random, 4), operand(random, 32))
}

/// A reading of the queue, or a word put about the limit of the enhanced ones.
fn enhanced_call(random: &mut Random) -> Event {
    let function = random.pick(&[0x00, 0x01, 0x10, 0x11, 0x05, 0x05]);
    let high = random.pick(&[0x84, 0x85, 0x86, 0x8C, 0xE0, 0xFF]);
    Event::Call(function, high, random.pick(&[0x00, 0x00, 0x01, 0xE0]))
}

/// One key, or the bytes of a string, perhaps cut.
pub fn key_bytes(random: &mut Random, flavour: Flavour) -> Vec<u8> {
    let strings: [&[u8]; 4] = [&PAUSE, &[0xE1, 0x9D, 0xC5], &[0xE1, 0x1D], &[0xE1]];
    match random.weighted(&flavour.keys()) {
        0 => vec![random.between(0x01, 0x58) as u8],
        1 => {
            let make = random.pick(&MODIFIERS);
            code_bytes(make | random.pick(&[0x00, 0x80]))
        }
        2 => vec![random.pick(&LOCK_KEYS) | random.pick(&[0x00, 0x80])],
        3 => vec![random.between(0x47, 0x53) as u8],
        4 => {
            let codes = [
                0x1C, 0x35, 0x37, 0x46, 0x47, 0x49, 0x4B, 0x52, 0x53, 0xD2, 0x2A, 0xB6,
            ];
            vec![0xE0, random.pick(&codes)]
        }
        5 => random.pick(&strings).to_vec(),
        6 => vec![random.pick(&[0xE0, 0x00, 0xFF, 0x54, 0xD4])],
        7 => vec![random.byte()],
        8 => vec![random.pick(&ENHANCED_KEYS)],
        _ => grey::typed(random),
    }
}

fn code_bytes(code: u16) -> Vec<u8> {
    if code >= 0xE000 {
        vec![0xE0, code as u8]
    } else {
        vec![code as u8]
    }
}
