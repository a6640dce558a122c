//! Lists of inputs for one service, with all that can stand in them.

use super::controller::{typed_at_ports, with_ports, with_unfed};
use super::devices::with_scanner;
use super::frames::with_frames;
use super::mixes::{in_turn, random_events, Flavour};
use super::random::Random;
use super::sets::{all_up_events, with_sets};
use super::turns::with_commands;
use crate::input::Input;
use crate::pack::{Event, DEVICES};
use crate::translation::CodeSet;

/// In shorter lists, commands would outnumber all else.
const ROOM_FOR_COMMANDS: usize = 40;

/// So many lists for services newly made, each with the set and the locks of its service: every flavour in
/// turn, then the other set, then the next setting of the locks. None is longer than this before commands,
/// port events and refused frames come among its inputs.
pub fn random_lists(
    seed: u64,
    lists: usize,
    longest: usize,
) -> impl Iterator<Item = (CodeSet, u8, Vec<Input>)> {
    let mut random = Random::new(seed);
    (0..lists).map(move |list| {
        let (flavour, set, locks) = in_turn(list);
        let length = random.below(longest + 1);
        let inputs = random_inputs(&mut random, flavour, set, length);
        (set, locks, inputs)
    })
}

/// A list for a service on this set: so many events and changes of set, with port events and refused frames
/// among them, and with commands of the line if it is long. Most hold bytes of the scanner, and most port
/// events. It may end anywhere, also behind a prefix or a mark, or with a key in the buffer.
pub fn random_inputs(
    random: &mut Random,
    flavour: Flavour,
    set: CodeSet,
    length: usize,
) -> Vec<Input> {
    let mut events = random_events(random, flavour, length);
    if random.below(4) > 0 {
        events = with_scanner(random, &events);
    }
    let mut inputs = with_sets(random, set, &events);
    inputs.truncate(length);
    if inputs.len() >= ROOM_FOR_COMMANDS && random.below(6) > 0 {
        inputs = with_commands(random, set, &inputs);
    }
    if random.below(4) > 0 {
        inputs = with_ports(random, &inputs);
    }
    with_frames(random, &inputs)
}

/// A list that feeds the all-up run at both devices, whichever comes first, an emptying and a restart.
/// The keyboard's is that of its set, and may be typed through port 60. Other port events, which feed
/// nothing, may stand anywhere but behind the restart.
pub fn all_up_inputs(random: &mut Random, set: CodeSet) -> Vec<Input> {
    let first = random.pick(&DEVICES);
    let runs = [first, first.other()].map(|device| all_up_events(device, set));
    let events = runs.into_iter().flatten();
    let events = events.chain([Event::Empty, Event::Restart]);
    let mut inputs: Vec<Input> = events.map(Input::Event).collect();
    match random.below(3) {
        0 => {}
        1 => inputs = with_unfed(random, &inputs),
        _ => inputs = typed_at_ports(random, &inputs),
    }
    with_frames(random, &inputs)
}
