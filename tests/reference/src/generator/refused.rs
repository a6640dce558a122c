//! Packs that are refused, and their neighbours that are not.

use super::random::Random;
use super::Pack;
use crate::pack::MAXIMUM_PACK;

/// Events that stand before the refused place.
pub const BEFORE: [&[u8]; 6] = [b"", b"P", b"K\x1E", b"C\x05\x01\x02", b"ERT", b"PK\xFAP"];

pub fn add(packs: &mut Vec<Pack>) {
    add_tags(packs);
    add_cuts(packs);
    add_lengths(packs);
}

fn push(packs: &mut Vec<Pack>, kind: &'static str, bytes: Vec<u8>) {
    packs.push(Pack { kind, bytes });
}

/// Every byte as a tag: at the start and at the end alone, and in the middle followed by more.
fn add_tags(packs: &mut Vec<Pack>) {
    for tag in 0x00..=0xFF {
        push(packs, "tag", vec![tag]);
        let mut middle = BEFORE[usize::from(tag) % BEFORE.len()].to_vec();
        middle.extend([tag, 0x1E, b'P', b'P', b'P']);
        push(packs, "tag", middle);
    }
}

/// Events cut at each place.
fn add_cuts(packs: &mut Vec<Pack>) {
    push(packs, "cut", Vec::new());
    for before in BEFORE {
        for cut in [b"K".as_slice(), b"C", b"C\x05", b"C\x05\x1E"] {
            push(packs, "cut", [before, cut].concat());
        }
    }
}

/// Packs around the longest length, whole, cut and wrongly tagged at the end.
fn add_lengths(packs: &mut Vec<Pack>) {
    let events: [&[u8]; 3] = [b"P", b"K\x1E", b"C\x01\x00\x00"];
    for event in events {
        for length in [MAXIMUM_PACK - 1, MAXIMUM_PACK, MAXIMUM_PACK + 1] {
            let bytes = event.iter().copied().cycle().take(length).collect();
            push(packs, "length", bytes);
        }
    }
    for end in [b"K".as_slice(), b"C", b"Cx", b"Cxx", b"x", b"T"] {
        let mut bytes = vec![b'P'; MAXIMUM_PACK - end.len()];
        bytes.extend(end);
        push(packs, "length", bytes);
    }
    let mut random = Random::new(8);
    for length in [
        MAXIMUM_PACK + 1,
        MAXIMUM_PACK + 2,
        65_535,
        65_536,
        65_537,
        200_000,
    ] {
        push(packs, "length", vec![b'P'; length]);
        push(
            packs,
            "length",
            (0..length).map(|_| random.byte()).collect(),
        );
    }
}
