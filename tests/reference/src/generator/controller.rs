//! Port events among other inputs: keyboard bytes typed through port 60, and all that a program may do at
//! the ports meanwhile.

use super::random::Random;
use crate::controller::PortEvent::{self, FromKeyboard, Read60, Read64, Write60, Write64};
use crate::input::Input;
use crate::pack::Event;
use crate::written::inputs as written;

/// What is done at the ports, and what then tells.
pub const DONE_AT_PORTS: [(&str, &str); 8] = [
    ("key=1E", "r64"),
    ("key=1E", "r60"),
    ("key=1E r60 E", "r60"),
    ("w64=AA", "r60"),
    ("w64=AE", "P"),
    ("w64=60", "w60=00"),
    ("w64=AD", "key=1E"),
    ("w64=60 w60=00", "key=1E"),
];

/// Makes the controller ready for a byte of the keyboard, and feeds nothing, whatever it held: the
/// keyboard is enabled, no command byte awaited, and the buffer empty.
const MADE_READY: &str = "w64=AE w64=AA r60";

/// The same where what the buffer held may be fed.
const READ_AND_READY: [&str; 3] = ["r60 w64=AE", "w64=60 r60 w60=01", "r64 r60 w64=60 w60=EE"];

/// Done at a controller that is ready, these leave it ready, and feed nothing.
const ASIDES: [&str; 26] = [
    "r64",
    "r60",
    "r60 r60 r64",
    // Refused: commands that are none, and a byte for which none of them asked.
    "w64=FF",
    "w64=21 r64",
    "w60=1E",
    "w60=60 w60=AA",
    // Answers, also over each other, and of which the last is repeated.
    "w64=20 r60",
    "w64=AA r60 r60",
    "w64=AA r64 w64=20 r60 r64",
    "w64=20 w64=AA w64=AE r60",
    // Command bytes, with the interrupt and without.
    "w64=60 w60=00",
    "w64=60 w60=EF w64=20 r60",
    "w64=60 r64 w60=01",
    // A wait that goes on, that begins anew, and that is ended.
    "w64=60 w64=FF r60 w60=23",
    "w64=60 w64=60 w60=45 w60=10",
    "w64=60 w64=AE w60=10",
    "w64=60 w64=AD w60=00 w64=AE",
    "w64=60 w64=20 w60=10 r60",
    "w64=60 w64=AA w60=10 r60",
    // Keys refused by a disabled keyboard, and by a buffer that holds an answer.
    "w64=AD key=2A r60 w64=AE",
    "w64=AD key=1D w64=60 w60=22",
    "w64=60 w60=FF key=E0 w64=20 r60 w64=AE",
    "w64=AA key=1D r60",
    // Keys lost under answers.
    "key=E1 key=38 w64=20 r60 r60",
    "key=2A w64=AD w64=AA w64=AE r60",
];

/// What may come while a byte waits to be read, and what then makes the controller ready again.
const AROUND_A_READ: [(&str, &str); 12] = [
    ("", ""),
    ("", ""),
    ("", ""),
    ("", "r60"),
    ("r64", "r64"),
    ("key=2A", ""),
    ("w64=FF w60=00", ""),
    ("w64=AD key=1E", "w64=AE"),
    ("w64=60", "w60=01"),
    ("w64=60 w60=FE", "w64=AE"),
    ("w64=60 w60=00", ""),
    ("w64=60 w64=AE w60=10", ""),
];

/// Whatever the controller holds, no row of these feeds anything: nothing is read but answers, and these
/// again.
const UNFED: [&str; 10] = [
    "r64",
    "key=2A",
    "key=E0 key=1D",
    "w64=AD",
    "w64=AE",
    "w64=60",
    "w60=10",
    "w64=FF",
    "w64=20 r60",
    "w64=AA r60 r60",
];

/// Events that meet something in the controller, and what then tells whether it is still there.
const MEETINGS: [&str; 12] = [
    "key=1E E r60",
    "w64=AA E r60",
    "w64=60 E w60=00",
    "w64=AD E key=1E",
    "key=1E R r60",
    "w64=20 R r60",
    "w64=60 R w60=10",
    "w64=AD R key=1E r60",
    "w64=60 w60=00 R key=1E r60",
    "key=E1 r60 R key=1D r60 key=45 r60",
    "key=1E K2A r60 KAA",
    "key=9E S3A r60 SBA",
];

/// What is left in the controller at the end of a list.
const LEFT: [&str; 8] = [
    "key=2A",
    "key=E0",
    "key=1D w64=AD",
    "w64=AA",
    "w64=20 w64=60",
    "w64=60",
    "w64=AD",
    "w64=60 w60=00",
];

/// The longest stretches that are typed in one way; the last is as good as a whole list.
const STRETCHES: [usize; 3] = [12, 40, 1_000];

/// A list in which port events stand too: in some stretches keyboard bytes are typed through port 60, in
/// others anything is done at the ports between what was there. Some leave something in the controller.
pub fn with_ports(random: &mut Random, inputs: &[Input]) -> Vec<Input> {
    let mut mixed = Vec::with_capacity(2 * inputs.len());
    let longest = random.pick(&STRETCHES);
    let mut rest = inputs;
    while !rest.is_empty() {
        let length = random.between(1, longest).min(rest.len());
        let (stretch, next) = rest.split_at(length);
        match random.below(5) {
            0 => mixed.extend(with_anything(random, stretch)),
            1 | 2 => {
                let ready = random.pick(&READ_AND_READY);
                mixed.extend(written(random.pick(&[MADE_READY, ready])));
                mixed.extend(through_port_60(random, stretch));
            }
            _ => mixed.extend(stretch),
        }
        rest = next;
    }
    if random.below(2) == 0 {
        mixed.extend(written(random.pick(&LEFT)));
    }
    mixed
}

/// A list for a service whatever its controller holds, that feeds the same as this one: keyboard bytes
/// through port 60, most of them, and asides before its inputs. Behind the last comes nothing more.
pub fn typed_at_ports(random: &mut Random, inputs: &[Input]) -> Vec<Input> {
    let mut typed = written(MADE_READY);
    typed.extend(through_port_60(random, inputs));
    typed
}

/// The same inputs with port events before them that feed nothing, whatever the controller holds.
pub fn with_unfed(random: &mut Random, inputs: &[Input]) -> Vec<Input> {
    let mut mixed = Vec::with_capacity(3 * inputs.len());
    for &input in inputs {
        while random.below(2) == 0 {
            mixed.extend(written(random.pick(&UNFED)));
        }
        mixed.push(input);
    }
    mixed
}

/// At a controller that is ready; so it is too after a restart among the inputs.
fn through_port_60(random: &mut Random, inputs: &[Input]) -> Vec<Input> {
    let mut typed = Vec::with_capacity(3 * inputs.len());
    for &input in inputs {
        while random.below(5) == 0 {
            add_aside(&mut typed, random);
        }
        match input {
            Input::Event(Event::Key(byte)) if random.below(8) > 0 => {
                add_typed(&mut typed, random, byte);
            }
            _ => typed.push(input),
        }
    }
    typed
}

/// Now and then a command byte, any, and the keyboard is enabled in case that it was not.
fn add_aside(typed: &mut Vec<Input>, random: &mut Random) {
    if random.below(3) == 0 {
        let command_byte = [Write64(0x60), Write60(random.byte()), Write64(0xAE)];
        typed.extend(command_byte.map(Input::Port));
    } else {
        typed.extend(written(random.pick(&ASIDES)));
    }
}

fn add_typed(typed: &mut Vec<Input>, random: &mut Random, byte: u8) {
    let (before, behind) = random.pick(&AROUND_A_READ);
    typed.push(Input::Port(FromKeyboard(byte)));
    typed.extend(written(before));
    typed.push(Input::Port(Read60));
    typed.extend(written(behind));
}

fn with_anything(random: &mut Random, inputs: &[Input]) -> Vec<Input> {
    let mut mixed = Vec::with_capacity(2 * inputs.len());
    for &input in inputs {
        while random.below(2) == 0 {
            mixed.push(Input::Port(random_port_event(random)));
        }
        if random.below(16) == 0 {
            mixed.extend(written(random.pick(&MEETINGS)));
        }
        mixed.push(input);
    }
    mixed
}

/// Any byte may be written and come from the keyboard. Frequent are the commands, command bytes that leave
/// the keyboard enabled, and keys that open a prefix or a mark, are held, or reply.
pub fn random_port_event(random: &mut Random) -> PortEvent {
    let any = random.byte();
    let commands = [0x20, 0x60, 0x60, 0x60, 0xAA, 0xAD, 0xAE, 0xAE, any];
    let keys = [0xE0, 0xE1, 0xF0, 0x1D, 0x2A, 0x45, 0x1E, 0xFA, 0xFE, any];
    match random.weighted(&[6, 6, 2, 4, 6]) {
        0 => FromKeyboard(random.pick(&keys)),
        1 => Read60,
        2 => Read64,
        3 => Write60(any & random.pick(&[0xEF, 0xFF])),
        _ => Write64(random.pick(&commands)),
    }
}
