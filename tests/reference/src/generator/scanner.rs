//! Packs in which a scanner types beside the keyboard.

use super::devices::with_scanner;
use super::keys::{type_every_code, DIGITS};
use super::line::{open, paths, strings, Opening, OPENINGS};
use super::mixes::{add_mix, add_noise, random_events, FLAVOURS};
use super::random::Random;
use super::refused::BEFORE;
use super::writer::{
    all_codes, Writer, LEFT_ALT, LEFT_CTRL, LEFT_SHIFT, PAUSE, RIGHT_ALT, RIGHT_CTRL,
};
use super::{add_joined, combinations, Pack};
use crate::pack::Event::{self, Call, Key, Poll, Restart, Scan, TimeOut};
use crate::pack::{Device, DEVICES, MAXIMUM_PACK};
use crate::queue::CAPACITY;

/// Bytes that leave each prefix open.
const OPENED: [&[u8]; 5] = [&[], &[0xE0], &[0xE1], &[0xE1, 0x1D], &[0xE1, 0x9D]];

/// Bytes that would be read otherwise, or would do something else, with the other port's prefix,
/// modifiers, held bits or sum.
const TELLING: [u8; 25] = [
    0xFA, 0xFE, 0x00, 0xFF, 0xE0, 0xE1, 0x1D, 0x9D, 0x45, 0xC5, 0x2A, 0xAA, 0x36, 0x38, 0xB8, 0x52,
    0xD2, 0x53, 0x46, 0x1E, 0x3A, 0xBA, 0x54, 0xD4, 0x39,
];

/// What closes a prefix, and by what it does tells which one it was.
const CLOSING: [&[u8]; 5] = [
    &[0x1E],
    &[0x45],
    &[0xC5, 0x45],
    &[0x1D, 0x45],
    &[0x47, 0x53],
];

/// What both ports did before: nothing, or Num is held and the sum begun.
const BOTH_BEFORE: [&[u8]; 2] = [&[], &[0x45, 0x38, 0x4F]];

pub fn add(packs: &mut Vec<Pack>) {
    add_joined(packs, "scanner-prefix", prefixes());
    add_joined(packs, "scanner-byte", every_byte());
    add_joined(packs, "scanner-split", split_strings());
    add_joined(packs, "scanner-merged", merged_strings());
    add_joined(packs, "scanner-row", rows());
    add_joined(packs, "scanner-modifier", modifiers());
    add_joined(packs, "scanner-sum", sums());
    add_joined(packs, "scanner-lock", locks());
    add_joined(packs, "scanner-pause", pauses());
    add_joined(packs, "scanner-full", full());
    for opening in OPENINGS {
        add_joined(packs, "scanner-line", commands(opening).into_iter());
        add_joined(packs, "scanner-replies", strings(opening, &ANSWERS, 5));
        add_joined(packs, "scanner-changes", strings(opening, &CHANGES, 4));
    }
    add_refused(packs);
    add_mixes(packs);
}

/// Each prefix on one port and each on the other, then a byte at the other; what follows closes both.
/// The line awaits a reply.
fn prefixes() -> impl Iterator<Item = Writer> {
    let counts = [
        DEVICES.len(),
        OPENED.len(),
        OPENED.len(),
        TELLING.len(),
        CLOSING.len(),
        BOTH_BEFORE.len(),
    ];
    combinations(counts).map(|[device, open, opened, byte, closing, before]| {
        let (device, other) = (DEVICES[device], DEVICES[device].other());
        let mut case = Writer::new();
        case.poll().at(device).keys(BOTH_BEFORE[before]);
        case.at(other).keys(BOTH_BEFORE[before]);
        case.at(device).keys(OPENED[open]);
        case.at(other).keys(OPENED[opened]).key(TELLING[byte]);
        case.at(device).keys(CLOSING[closing]);
        case.at(other).keys(CLOSING[closing]);
        case.call(0x12, 0, 0).take().both_up();
        case
    })
}

/// Every byte at one port while each prefix is open on the other.
fn every_byte() -> impl Iterator<Item = Writer> {
    combinations([DEVICES.len(), OPENED.len(), 256]).map(|[device, open, byte]| {
        let (device, other) = (DEVICES[device], DEVICES[device].other());
        let mut case = Writer::new();
        case.at(device).keys(OPENED[open]).at(other).key(byte as u8);
        case.at(device).keys(&[0x45, 0x1E]).at(other).key(0x1E);
        case.call(0x12, 0, 0).take().both_up();
        case
    })
}

/// The strings of prefixes, and a sum.
const STRINGS: [&[u8]; 8] = [
    &PAUSE,
    &[0xE1, 0x9D, 0xC5],
    &[0xE1, 0xFA, 0x1D, 0x45],
    &[0xE0, 0x47],
    &[0xE0, 0x38],
    &[0xE0, 0x9D],
    &[0xE0, 0xD2],
    &[0x38, 0x4F, 0xB8],
];

/// Each byte of a string from either port.
fn split_strings() -> impl Iterator<Item = Writer> {
    STRINGS.into_iter().flat_map(|string| {
        (0..1 << string.len()).map(move |devices: usize| {
            let mut case = Writer::new();
            for (place, &byte) in string.iter().enumerate() {
                case.at(DEVICES[devices >> place & 1]).key(byte);
            }
            tell(&mut case);
            case
        })
    })
}

/// Two strings, one from each port, with their bytes in every order.
fn merged_strings() -> impl Iterator<Item = Writer> {
    const LONGEST: usize = 8;
    let counts = [STRINGS.len(), STRINGS.len(), 1 << LONGEST];
    combinations(counts).filter_map(|[one, other, order]| {
        let strings = [STRINGS[one], STRINGS[other]];
        let length = strings.concat().len();
        let of_scanner = order.count_ones() as usize;
        let fits = order >> length == 0 && of_scanner == strings[1].len();
        fits.then(|| merged(strings, order))
    })
}

/// The strings of keyboard and scanner; a bit of the order says whose byte comes next.
fn merged(strings: [&[u8]; 2], order: usize) -> Writer {
    let mut case = Writer::new();
    let mut rest = strings.map(|string| string.iter());
    for place in 0..strings.concat().len() {
        let device = order >> place & 1;
        if let Some(&byte) = rest[device].next() {
            case.at(DEVICES[device]).key(byte);
        }
    }
    tell(&mut case);
    case
}

/// Types on both ports what tells how they stand, and brings both back.
fn tell(case: &mut Writer) {
    for device in [Device::Scanner, Device::Keyboard] {
        case.at(device).keys(&[0x1E, 0x45, 0xC5, 0x47]);
    }
    case.call(0x12, 0, 0).take().both_up();
}

/// Modifiers that are down on the scanner, and others on the keyboard.
const DOWN: [(u8, u8); 8] = [
    (0, LEFT_SHIFT),
    (LEFT_SHIFT, 0),
    (LEFT_CTRL, LEFT_ALT),
    (LEFT_ALT, LEFT_CTRL),
    (RIGHT_CTRL, LEFT_SHIFT),
    (RIGHT_ALT, RIGHT_CTRL),
    (LEFT_CTRL | LEFT_ALT, 0),
    (0, RIGHT_CTRL | RIGHT_ALT),
];

/// Every code from the scanner under every set of locks.
fn rows() -> impl Iterator<Item = Writer> {
    combinations([16, DOWN.len()]).map(|[locks, down]| {
        let (scanner, keyboard) = DOWN[down];
        let mut case = Writer::new();
        case.toggle_locks(locks as u8).modifiers(keyboard);
        case.at(Device::Scanner).modifiers(scanner);
        type_every_code(&mut case, scanner);
        case.call(0x12, 0, 0).both_up().toggle_locks(locks as u8);
        case
    })
}

/// Every set of modifiers on one port with every set on the other, and keys from both.
fn modifiers() -> impl Iterator<Item = Writer> {
    const TYPED: [u16; 6] = [0x1E, 0x3B, 0x53, 0x47, 0xE047, 0xE053];
    combinations([64, 64]).map(|down| {
        let mut case = Writer::new();
        for (device, down) in DEVICES.into_iter().zip(down) {
            case.at(device).modifiers(down as u8);
        }
        for code in TYPED {
            for device in DEVICES {
                case.at(device).code(code);
            }
        }
        case.call(0x02, 0, 0).call(0x12, 0, 0).event(Event::Empty);
        case
    })
}

/// Digits from each port in turn, with Alt down on both or on one; either lets go first.
fn sums() -> impl Iterator<Item = Writer> {
    const WITH_ALT: [&[Device]; 3] = [&DEVICES, &[Device::Keyboard], &[Device::Scanner]];
    combinations([WITH_ALT.len(), DEVICES.len(), 10, 10]).map(|[with_alt, first, one, two]| {
        let mut case = Writer::new();
        for &device in WITH_ALT[with_alt] {
            case.at(device).key(0x38);
        }
        case.at(Device::Keyboard).key(DIGITS[one]);
        case.at(Device::Scanner).key(DIGITS[two]);
        case.at(Device::Keyboard).key(DIGITS[two]);
        case.at(Device::Scanner).key(DIGITS[(one + two) % 10]);
        case.at(DEVICES[first]).key(0xB8);
        case.at(DEVICES[first].other()).key(0xB8);
        case.take().take().both_up();
        case
    })
}

/// Codes of each lock key; only those of Insert mean something behind E0 too.
const LOCK_CODES: [&[u16]; 4] = [
    &[0x46, 0xC6],
    &[0x45, 0xC5],
    &[0x3A, 0xBA],
    &[0x52, 0xD2, 0xE052, 0xE0D2],
];

/// Makes and breaks of each lock key from both ports in every order of four.
fn locks() -> impl Iterator<Item = Writer> {
    LOCK_CODES.into_iter().flat_map(|codes| {
        let steps = DEVICES.len() * codes.len();
        combinations([steps; 4]).map(move |order| {
            let mut case = Writer::new();
            for step in order {
                let device = DEVICES[step % DEVICES.len()];
                case.at(device).code(codes[step / DEVICES.len()]);
            }
            case.call(0x12, 0, 0).both_up();
            case
        })
    })
}

/// A pause from either port, every code at either, then a letter from both.
fn pauses() -> impl Iterator<Item = Writer> {
    let codes: Vec<u16> = all_codes().collect();
    let sets = [0, LEFT_ALT, LEFT_CTRL | LEFT_ALT];
    let counts = [DEVICES.len(), DEVICES.len(), sets.len(), codes.len()];
    combinations(counts).map(move |[paused_by, typed_at, down, code]| {
        let device = DEVICES[typed_at];
        let mut case = Writer::new();
        case.at(DEVICES[paused_by]).keys(&PAUSE);
        case.at(device).modifiers(sets[down]).code(codes[code]);
        case.at(device.other()).key(0x1E).at(device).key(0x1E);
        case.take().both_up();
        case
    })
}

/// Every code from the scanner on a queue that both have filled so far.
fn full() -> impl Iterator<Item = Writer> {
    let codes: Vec<u16> = all_codes().collect();
    combinations([4, codes.len()]).map(move |[more, code]| {
        let mut case = Writer::new();
        case.fill(CAPACITY / 2).at(Device::Scanner);
        case.fill(CAPACITY / 2 + more).code(codes[code]);
        case.call(0x02, 0, 0).drain_enhanced().both_up();
        case
    })
}

/// A command along every path, with bytes of the scanner before and behind each send that would be
/// replies from the keyboard, and a lock that the scanner turns.
fn commands(opening: Opening) -> Vec<Writer> {
    let paths = paths().into_iter();
    let run = |path: Vec<Event>| {
        let mut case = Writer::new();
        case.event(Restart);
        open(&mut case, opening);
        for answer in path {
            case.events(&[Scan(0xFA), Scan(0xFE), Poll]);
            case.events(&[Scan(0xFE), Scan(0x3A), Scan(0xFA), answer]);
            case.event(Scan(0xBA));
        }
        case.settle_line().settle_line().poll();
        case
    };
    paths.map(run).collect()
}

/// Answers to a send, and what comes from the scanner instead.
const ANSWERS: [&[Event]; 6] = [
    &[Poll],
    &[Key(0xFA)],
    &[Key(0xFE)],
    &[TimeOut],
    &[Scan(0xFA)],
    &[Scan(0xFE)],
];

const CHANGES: [&[Event]; 7] = [
    &[Poll],
    &[Poll, Key(0xFA)],
    &[Scan(0xFA), Scan(0xFE)],
    &[Scan(0x3A), Scan(0xBA)],
    &[Key(0x3A), Key(0xBA)],
    &[Scan(0x00), Scan(0xE0)],
    &[Call(0x03, 1, 2)],
];

/// Packs that are cut within an event of the scanner, or have its tag at odd places.
fn add_refused(packs: &mut Vec<Pack>) {
    let kind = "scanner-cut";
    let more: [&[u8]; 3] = [b"S\x1E", b"KS", b"SS"];
    for before in BEFORE.into_iter().chain(more) {
        for cut in [b"S".as_slice(), b"s", b"K", b"SSS"] {
            let bytes = [before, cut].concat();
            packs.push(Pack { kind, bytes });
        }
    }
    for length in [MAXIMUM_PACK - 1, MAXIMUM_PACK, MAXIMUM_PACK + 1] {
        for events in [b"S\x1E", b"PS"] {
            let bytes = events.iter().copied().cycle().take(length).collect();
            packs.push(Pack { kind, bytes });
        }
    }
    add_noise(packs, "scanner-noise", b"KSSCPTER");
}

/// Mixes of the flavours that have no scanner, with one.
fn add_mixes(packs: &mut Vec<Pack>) {
    let mut random = Random::new(0x206);
    let alone = FLAVOURS.into_iter();
    for flavour in alone.filter(|flavour| !flavour.has_scanner()) {
        for (count, shortest, longest) in [(40, 1, 60), (20, 100, 600), (2, 2000, 7000)] {
            for _ in 0..count {
                let events = random.between(shortest, longest);
                let events = random_events(&mut random, flavour, events);
                add_mix(packs, "mix-ports", with_scanner(&mut random, &events));
            }
        }
    }
}
