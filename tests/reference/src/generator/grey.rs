//! Packs for grey keys: the words that they put, and what each function returns for these words and
//! for words of their form from elsewhere.

use super::enhanced::mixtures;
use super::random::Random;
use super::writer::Writer;
use super::{add_joined, Pack};
use crate::pack::Event;
use crate::queue::CAPACITY;

/// Makes of the grey keys behind E0, and the names of the packs kept for them.
const GREY_KEYS: [(u8, &str); 12] = [
    (0x1C, "grey-enter"),
    (0x35, "grey-slash"),
    (0x47, "grey-home"),
    (0x48, "grey-up"),
    (0x49, "grey-page-up"),
    (0x4B, "grey-left"),
    (0x4D, "grey-right"),
    (0x4F, "grey-end"),
    (0x50, "grey-down"),
    (0x51, "grey-page-down"),
    (0x52, "grey-insert"),
    (0x53, "grey-delete"),
];

/// Strings between which a key is typed: none, Ctrl, Shift, Alt and Num, then the keys on the right.
const AROUND: [(&[u8], &[u8]); 8] = [
    (&[], &[]),
    (&[0x1D], &[0x9D]),
    (&[0x2A], &[0xAA]),
    (&[0x38], &[0xB8]),
    (&[0x45, 0xC5], &[0x45, 0xC5]),
    (&[0xE0, 0x1D], &[0xE0, 0x9D]),
    (&[0x36], &[0xB6]),
    (&[0xE0, 0x38], &[0xE0, 0xB8]),
];

/// How many of them are enough for the packs that are kept.
const KEPT_AROUND: usize = 5;

/// Words that 00 and 01 convert, words close to these, and enhanced ones.
const WORDS: [(u8, u8); 12] = [
    (0x1E, 0xE0),
    (0x00, 0xE0),
    (0xE0, 0xE0),
    (0xE0, 0x0D),
    (0xE0, 0x0A),
    (0xE0, 0x2F),
    (0xE0, 0x1C),
    (0x85, 0xE0),
    (0x85, 0x00),
    (0xE0, 0x00),
    (0x47, 0xE0),
    (0x47, 0x00),
];

/// Some of each kind: converted by the low byte or by both, left as it is, removed.
const MIXED: [(u8, u8); 5] = [
    (0x47, 0xE0),
    (0x85, 0xE0),
    (0xE0, 0x0D),
    (0x00, 0xE0),
    (0x85, 0x00),
];

pub fn add(packs: &mut Vec<Pack>) {
    add_joined(packs, "grey-key", keys());
    add_joined(packs, "converted-word", words());
    add_joined(packs, "converted-mixture", mixtures(&MIXED, 3));
}

/// A pack for each grey key, and one for words that the program puts. They are kept under the names
/// of their kinds.
pub fn kept() -> Vec<Pack> {
    let mut packs: Vec<Pack> = GREY_KEYS
        .iter()
        .map(|&(make, kind)| Pack {
            kind,
            bytes: in_each_state(make).into_bytes(),
        })
        .collect();
    let words = WORDS.into_iter().map(put_twice);
    add_joined(&mut packs, "converted-words", words);
    packs
}

fn in_each_state(make: u8) -> Writer {
    let mut pack = Writer::new();
    for (before, behind) in &AROUND[..KEPT_AROUND] {
        pack.keys(before);
        type_twice(&mut pack, make);
        pack.keys(behind);
    }
    pack
}

/// Every grey key under every set of modifiers, with Num off and on.
fn keys() -> impl Iterator<Item = Writer> {
    const NUM: u8 = 0x02;
    [0, NUM].into_iter().flat_map(|locks| {
        (0..64).map(move |modifiers| {
            let mut case = Writer::new();
            case.toggle_locks(locks).modifiers(modifiers);
            for (make, _) in GREY_KEYS {
                type_twice(&mut case, make);
            }
            case.modifiers(0).toggle_locks(locks);
            case
        })
    })
}

/// Every high byte over low bytes that matter and those beside E0, and every low byte under high
/// bytes that matter.
fn words() -> impl Iterator<Item = Writer> {
    let low_bytes = [0x00, 0x0A, 0x0D, 0x1C, 0x2F, 0xDF, 0xE0, 0xE1];
    let high_bytes = [0x00, 0x1C, 0x35, 0xE0];
    let every_high = (0..=255).flat_map(move |high| low_bytes.map(|low| (high, low)));
    let every_low = (0..=255).flat_map(move |low| high_bytes.map(|high| (high, low)));
    every_high.chain(every_low).map(put_twice)
}

fn type_twice(case: &mut Writer, make: u8) {
    case.keys(&[0xE0, make, 0xE0, make, 0xE0, make | 0x80]);
    read_two(case);
}

fn put_twice((high, low): (u8, u8)) -> Writer {
    let mut case = Writer::new();
    case.call(0x05, high, low).call(0x05, high, low);
    read_two(&mut case);
    case
}

/// Reads two equal words by every function. Both looks come before the first word goes, so that it
/// is seen whether one of them changed it.
fn read_two(case: &mut Writer) {
    for function in [0x11, 0x01, 0x10, 0x00] {
        case.call(function, 0, 0);
    }
}

/// Alt, 2, 2, 4: the sum whose word has the low byte of grey keys.
const ALT_SUM: [u8; 5] = [0x38, 0x50, 0x50, 0x4B, 0xB8];

/// A grey key, or the key with its code and no E0, among other keys; it may repeat until the queue is
/// full, and be let go. Now and then the sum.
pub fn typed(random: &mut Random) -> Vec<u8> {
    let makes = match random.below(16) {
        0 => return ALT_SUM.to_vec(),
        1 => CAPACITY + 1,
        _ => 1,
    };
    let prefixes: [&[u8]; 3] = [&[0xE0], &[0xE0], &[]];
    let (before, behind) = random.pick(&AROUND);
    let (make, _) = random.pick(&GREY_KEYS);
    let prefix = random.pick(&prefixes);
    let mut bytes = before.to_vec();
    bytes.extend([prefix, &[make]].concat().repeat(makes));
    if random.below(2) == 0 {
        bytes.extend([prefix, &[make | 0x80]].concat());
    }
    bytes.extend(behind);
    bytes
}

/// A reading of the queue, or a word put. More words are taken than put, since keys put some too.
pub fn call(random: &mut Random) -> Event {
    let function = random.pick(&[0x00, 0x00, 0x01, 0x10, 0x10, 0x11, 0x05]);
    let (high, low) = random.pick(&WORDS);
    Event::Call(function, high, low)
}
