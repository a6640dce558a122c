//! Packs to compare programs with: systematic ones for every rule, and random mixes. For the calls
//! that no pack holds, random lists.

mod calls;
mod controller;
mod devices;
mod enhanced;
mod frames;
mod grey;
mod keys;
mod line;
mod lists;
mod mixes;
mod prefixes;
mod queue;
mod random;
mod refused;
mod scanner;
mod sets;
mod turns;
mod writer;

pub use controller::{random_port_event, typed_at_ports, DONE_AT_PORTS};
pub use devices::with_scanner;
pub use grey::kept as kept_for_grey_keys;
pub use lists::{all_up_inputs, random_inputs, random_lists};
pub use mixes::{in_turn, random_events, Flavour, FLAVOURS};
pub use random::Random;
pub use sets::{all_up_events, all_up_run, typed_on};
pub use writer::Writer;

use crate::pack::MAXIMUM_PACK;

/// A generated pack and the name of the rule it tries.
pub struct Pack {
    pub kind: &'static str,
    pub bytes: Vec<u8>,
}

/// All packs, the same at every call.
pub fn packs() -> Vec<Pack> {
    let mut packs = Vec::new();
    keys::add(&mut packs);
    prefixes::add(&mut packs);
    line::add(&mut packs);
    queue::add(&mut packs);
    enhanced::add(&mut packs);
    grey::add(&mut packs);
    calls::add(&mut packs);
    refused::add(&mut packs);
    mixes::add(&mut packs);
    scanner::add(&mut packs);
    turns::add(&mut packs);
    packs
}

/// Adds the cases joined to as few packs as the longest pack allows.
fn add_joined(packs: &mut Vec<Pack>, kind: &'static str, cases: impl Iterator<Item = Writer>) {
    let mut bytes = Vec::new();
    for case in cases {
        let case = case.into_bytes();
        if bytes.len() + case.len() > MAXIMUM_PACK {
            packs.push(Pack {
                kind,
                bytes: std::mem::take(&mut bytes),
            });
        }
        bytes.extend(case);
    }
    packs.push(Pack { kind, bytes });
}

/// All lists of places, each below its own count, in order.
fn combinations<const LENGTH: usize>(
    counts: [usize; LENGTH],
) -> impl Iterator<Item = [usize; LENGTH]> {
    (0..counts.iter().product()).map(move |number: usize| {
        let mut rest = number;
        counts.map(|count| {
            let place = rest % count;
            rest /= count;
            place
        })
    })
}

/// All lists of `length` places below `choices`, in order.
fn choices(choices: usize, length: u32) -> impl Iterator<Item = Vec<usize>> {
    (0..choices.pow(length)).map(move |number| {
        let digit = |place| number / choices.pow(place) % choices;
        (0..length).map(digit).collect()
    })
}
