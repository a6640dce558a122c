//! Random lists that come in at both devices.

use super::mixes::{key_bytes, Flavour};
use super::random::Random;
use crate::pack::Event::{self, Key, Scan, TimeOut};
use crate::pack::DEVICES;
use crate::written::events;

/// What comes where a reply may be due; from the scanner it is none.
pub const REPLIES: [Event; 6] = [
    Key(0xFA),
    Key(0xFA),
    Key(0xFE),
    TimeOut,
    Scan(0xFA),
    Scan(0xFE),
];

/// What one port does while the other is in the middle of something.
const DUETS: [&str; 18] = [
    // Strings of prefixes that neither port cuts or goes on with for the other.
    "KE1 S1E K1D S45 K45 S1E",
    "SE1 K1E S1D K45 S45 K1E",
    "KE1 K9D SC5 S45 KC5 K45",
    "SE1 S9D KC5 K45 SC5 S45",
    "KE0 S47 K47 SE0 K47 S47",
    // Bytes that leave a prefix open, and such that close that of their own port.
    "SE0 SFA S48 SE1 SFE S1D SFA S45",
    "SE0 KFF S48 KE0 SFF K48 SE0 S00 S48",
    // Delete with Ctrl on one port and Alt on the other, then with both on its own.
    "K1D S38 S53 K53 S1D S53 S9D SB8 K9D",
    "S1D K38 S53 K53 K1D K53 K9D KB8 S9D",
    // A sum on both; either lets go first.
    "K38 S38 K4F S50 K51 SB8 KB8",
    "K38 S38 K4F S50 S51 KB8 SB8",
    // Locks that both turn, one of them holding the key.
    "K3A S3A K3A SBA S3A KBA K3A",
    "S45 K45 S45 KC5 K45 SC5 S45",
    // Insert likewise, by the grey key, which needs no Num off; Ctrl and Alt go up first.
    "K9D KB8 S9D SB8 KE0 K52 SE0 S52 KE0 KD2 KE0 K52 SE0 SD2",
    // Keys down on one port, and keys of the other.
    "S2A S54 C12 K1E S1E SAA SD4",
    "K2A C02 S1E K1E KAA",
    // More words than the queue holds, from both.
    "S39 K39 S39 K39 S39 K39 S39 K39 S39 K39 S39 K39 S39 K39 S39 K39 S39",
    // A command of six bytes, with replies that are none.
    "R P KFE P SFE KFE P SFA KFA P T P S1E KFE P SFE KFA",
];

pub fn duet(random: &mut Random) -> Vec<Event> {
    events(random.pick(&DUETS))
}

/// A string from one port, one from each with their bytes in any order, or a duet.
pub fn typed(random: &mut Random) -> Vec<Event> {
    let string = |random: &mut Random| key_bytes(random, Flavour::Scanner);
    match random.below(4) {
        0 => {
            let device = random.pick(&DEVICES);
            let bytes = string(random).into_iter();
            bytes.map(|byte| device.event(byte)).collect()
        }
        1 => duet(random),
        _ => {
            let typed: Vec<Event> = string(random).into_iter().map(Key).collect();
            with_bytes_between(random, &typed)
        }
    }
}

/// The longest stretch of events that is typed in one way.
const STRETCH: usize = 24;

/// A list in which the scanner types too: in some stretches it types what the keyboard did, in others
/// anything, between the keyboard's bytes.
pub fn with_scanner(random: &mut Random, events: &[Event]) -> Vec<Event> {
    let mut mixed = Vec::with_capacity(2 * events.len());
    let mut rest = events;
    while !rest.is_empty() {
        let length = random.between(1, STRETCH).min(rest.len());
        let (stretch, next) = rest.split_at(length);
        match random.below(4) {
            0 => mixed.extend(stretch.iter().map(moved)),
            1 => mixed.extend(with_bytes_between(random, stretch)),
            _ => mixed.extend(stretch),
        }
        rest = next;
    }
    mixed
}

/// The event as it comes from the scanner. Replies stay: without them the line would stand still.
pub fn moved(event: &Event) -> Event {
    match *event {
        Key(byte) if !matches!(byte, 0xFA | 0xFE) => Scan(byte),
        event => event,
    }
}

/// The same events, with strings of the scanner that begin, go on and end between them.
fn with_bytes_between(random: &mut Random, events: &[Event]) -> Vec<Event> {
    let mut mixed = Vec::new();
    let mut string = key_bytes(random, Flavour::Scanner).into_iter();
    for &event in events {
        while random.below(2) == 0 {
            match string.next() {
                Some(byte) => mixed.push(Scan(byte)),
                None => string = key_bytes(random, Flavour::Scanner).into_iter(),
            }
        }
        mixed.push(event);
    }
    mixed.extend(string.map(Scan));
    mixed
}
