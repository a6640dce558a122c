//! Keyboard bytes that come as frames, with noise between them.

use super::random::Random;
use crate::frame::{read_frame, write_frame, FIRST_DATA_BIT, PARITY_BIT, START_BIT, STOP_BIT};
use crate::input::Input;
use crate::pack::Event;

/// A list that does the same as this one: two of three keyboard bytes as frames, and before, between
/// and behind them refused frames.
pub fn with_frames(random: &mut Random, inputs: &[Input]) -> Vec<Input> {
    let mut framed = Vec::with_capacity(2 * inputs.len());
    add_refused(&mut framed, random);
    for &input in inputs {
        framed.push(match input {
            Input::Event(Event::Key(byte)) if random.below(3) > 0 => {
                Input::Frame(write_frame(byte))
            }
            _ => input,
        });
        add_refused(&mut framed, random);
    }
    framed
}

/// At most places none, at some more than one.
fn add_refused(inputs: &mut Vec<Input>, random: &mut Random) {
    while random.below(4) == 0 {
        inputs.push(Input::Frame(refused_frame(random)));
    }
}

/// Noise that carries a byte unnoticed is drawn again.
fn refused_frame(random: &mut Random) -> u16 {
    loop {
        let frame = noise(random);
        if read_frame(frame).is_err() {
            return frame;
        }
    }
}

/// Any number, any eleven bits, a wire that is stuck, or what is left of a sound frame: one or two
/// bits of it turned over, or one bit too many. Prefixes and replies are frequent, since a service
/// that was fed one soon shows it.
fn noise(random: &mut Random) -> u16 {
    let any = random.number() as u16;
    let byte = random.byte();
    let sound = write_frame(random.pick(&[0xE0, 0xE1, 0xFA, 0xFE, byte]));
    match random.below(6) {
        0 => any,
        1 => any >> 5,
        2 => random.pick(&[0x0000, 0x07FF, 0xFFFF]),
        3 => sound ^ bit(random),
        4 => sound ^ bit(random) ^ bit(random),
        _ => sound | 1 << random.between(STOP_BIT + 1, 15),
    }
}

/// One bit of a frame, chosen so that each refusal is as likely to come of it.
fn bit(random: &mut Random) -> u16 {
    let guarded = random.between(FIRST_DATA_BIT, PARITY_BIT);
    1 << random.pick(&[START_BIT, guarded, STOP_BIT])
}
