//! The controller at ports 60 and 64, through the library: from every shape that it can have, on either
//! set, every byte to either port and every pair of port events shows and leaves what the reference does.
//! A byte of the keyboard that is read at once is its K event. Long random lists of port events, with all
//! else among them, agree too.

use differential::place::{AWAITING, BUFFER, BUFFERED, COMMANDED, COMMAND_BYTE};
use differential::{command, Pair};
use reference::generator::{
    in_turn, random_inputs, random_lists, random_port_event, Flavour, Random,
};
use reference::written::inputs;
use reference::PortEvent::{self, FromKeyboard, Read60, Read64, Write60, Write64};
use reference::{CodeSet, Input, CODE_SETS};
use std::collections::BTreeSet;

/// What comes to stand in the buffer of a controller that is new: nothing, a key, an answer.
const BUFFERS: [&str; 3] = ["", "key=1E", "w64=AA"];
const MORE_BUFFERS: [&str; 4] = ["key=E0", "key=F0", "key=FA", "w64=20"];

/// Command bytes with every choice of the two bits that do something, and some with all others.
const COMMAND_BYTES: [u8; 4] = [0x00, 0x01, 0x10, 0x11];
const MORE_COMMAND_BYTES: [u8; 4] = [0xEE, 0xEF, 0xFE, 0xFF];

/// The last accepted write.
#[derive(Clone, Copy)]
enum LastWrite {
    CommandByte,
    Command,
    /// A command behind which a command byte is awaited.
    Awaiting,
}

const LAST_WRITES: [LastWrite; 3] = [
    LastWrite::CommandByte,
    LastWrite::Command,
    LastWrite::Awaiting,
];

/// Shapes of a controller that differ in what it holds, awaits and tells, and in the two bits.
const SHAPES: usize = BUFFERS.len() * COMMAND_BYTES.len() * LAST_WRITES.len();

/// What the rest of the service is at before.
const USES: [&str; 4] = [
    "",
    // Shift down and a prefix open; a byte that was read at port 60 before.
    "key=2A r60 KE1 S1D",
    // A reply awaited, a sum begun.
    "P K38 K4F",
    // On set 2 also a mark.
    "key=9E r60 KE0 KF0",
];

/// Bytes from the keyboard: prefixes, a mark, replies, an overrun, makes and breaks.
const KEYS: [u8; 10] = [0x00, 0xFF, 0xE0, 0xE1, 0xF0, 0xFA, 0xFE, 0x1E, 0x1D, 0xAA];

/// The commands, and some that are none.
const COMMANDS: [u8; 10] = [0x20, 0x60, 0xAA, 0xAD, 0xAE, 0xFF, 0x00, 0x21, 0xA7, 0xD4];

/// Tells what a controller holds: status, bytes, a wait, whether the keyboard is disabled or interrupts.
const TELLING: &str = "r64 r60 r60 w60=00 key=1E r60 w64=20 r60";

const LISTS: usize = 4_000;
const PORT_EVENTS: usize = 400;
const LEAST_INPUTS: usize = 1_000_000;

/// Writes this command byte, and then as the last write what leaves it as it is.
fn writes(command_byte: u8, last: LastWrite) -> Vec<Input> {
    let set = [Write64(0x60), Write60(command_byte)];
    let kept = [0xAE, 0xAD][usize::from(command_byte & command::DISABLED != 0)];
    let behind = match last {
        LastWrite::CommandByte => None,
        LastWrite::Command => Some(Write64(kept)),
        LastWrite::Awaiting => Some(Write64(0x60)),
    };
    set.into_iter().chain(behind).map(Input::Port).collect()
}

/// Services on either set in this use, with every controller that these lead to.
fn services(used: &str, buffers: &[&str], command_bytes: &[u8]) -> Vec<Pair> {
    let mut services = Vec::new();
    for set in CODE_SETS {
        for buffer in buffers {
            let mut buffered = Pair::new_on(set, 0);
            buffered.inputs(&inputs(used));
            buffered.inputs(&inputs(buffer));
            for &command_byte in command_bytes {
                for last in LAST_WRITES {
                    let mut pair = buffered.clone();
                    pair.inputs(&writes(command_byte, last));
                    services.push(pair);
                }
            }
        }
    }
    services
}

/// What a controller holds, awaits and tells, and the two bits of its command byte.
fn shape(pair: &Pair) -> [u8; 4] {
    let bytes = &pair.image.bytes;
    let bits = bytes[COMMAND_BYTE] & (command::INTERRUPTS | command::DISABLED);
    [bytes[BUFFER], bytes[AWAITING], bytes[COMMANDED], bits]
}

#[test]
fn every_shape_is_among_the_services() {
    for used in USES {
        let services = services(used, &BUFFERS, &COMMAND_BYTES);
        let shapes: BTreeSet<[u8; 4]> = services.iter().map(shape).collect();
        assert_eq!(shapes.len(), SHAPES);
    }
}

#[test]
fn every_byte_agrees_at_every_port() {
    let buffers = [&BUFFERS[..], &MORE_BUFFERS].concat();
    let command_bytes = [COMMAND_BYTES, MORE_COMMAND_BYTES].concat();
    let telling = inputs(TELLING);
    let mut count = 0;
    for used in USES {
        for pair in services(used, &buffers, &command_bytes) {
            for byte in 0..=255 {
                for event in [Write64(byte), Write60(byte), FromKeyboard(byte)] {
                    let mut pair = pair.clone();
                    pair.input(&Input::Port(event));
                    pair.inputs(&telling);
                    count += 1 + telling.len();
                }
            }
        }
    }
    println!("{count} port events agree: each byte at each port, and what then tells");
}

/// Reads, commands, all command bytes, and keys.
fn telling_events() -> Vec<PortEvent> {
    let reads = [Read60, Read64].into_iter();
    let command_bytes = (0..=255).map(Write60);
    reads
        .chain(COMMANDS.map(Write64))
        .chain(command_bytes)
        .chain(KEYS.map(FromKeyboard))
        .collect()
}

#[test]
fn every_pair_of_port_events_agrees() {
    let events = telling_events();
    let mut count = 0;
    for pair in services(USES[1], &BUFFERS, &COMMAND_BYTES) {
        for &first in &events {
            let mut once = pair.clone();
            once.input(&Input::Port(first));
            for &second in &events {
                once.clone().input(&Input::Port(second));
            }
            count += 1 + events.len();
        }
    }
    println!("{count} port events of pairs agree");
}

/// Also byte for byte: what is left is what the K event leaves, and the byte as the one read last.
#[test]
fn a_byte_read_at_once_is_its_k_event() {
    let ready = inputs("w64=AE w64=AA r60");
    for list in random_lists(0x60, LISTS / 4, 100) {
        let mut pair = Pair::after(list);
        pair.inputs(&ready);
        let interrupts = pair.service.controller().command_byte() & command::INTERRUPTS != 0;
        for byte in 0..=255 {
            let mut typed = pair.image.clone();
            let taken = typed.port(FromKeyboard(byte));
            assert_eq!((taken.shown.ans, taken.interrupt), (0x00, interrupts));
            let read = typed.port(Read60);
            assert_eq!((read.byte, read.fed), (byte, true));
            let mut fed = pair.image.clone();
            assert_eq!(read.shown, fed.key(byte), "{byte:02X}");
            fed.bytes[BUFFERED] = byte;
            assert_eq!(typed, fed, "{byte:02X}");
        }
    }
}

/// Port events, most of them without anything else between.
fn mixed(random: &mut Random, flavour: Flavour, set: CodeSet) -> Vec<Input> {
    let mut mixed = Vec::new();
    for _ in 0..PORT_EVENTS {
        if random.below(20) == 0 {
            mixed.extend(random_inputs(random, flavour, set, 3));
        }
        mixed.push(Input::Port(random_port_event(random)));
    }
    mixed
}

#[test]
fn long_lists_of_port_events_agree() {
    let mut random = Random::new(0x64);
    let (mut count, mut refused, mut fed) = (0, 0, 0);
    for list in 0..LISTS {
        let (flavour, set, locks) = in_turn(list);
        let mut pair = Pair::new_on(set, locks);
        for input in mixed(&mut random, flavour, set) {
            let seen = pair.input(&input);
            count += 1;
            refused += usize::from(seen.is_refused());
            fed += usize::from(seen.fed);
        }
    }
    println!("{count} inputs agree, {refused} of them refused and {fed} reads that fed a key");
    assert!(count > LEAST_INPUTS && refused > count / 8 && fed > count / 20);
}
