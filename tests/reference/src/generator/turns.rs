//! Packs in which a lamp value and a rate are there at once, and one of them goes first.

use super::line::{open, paths, strings, Opening, OPENINGS};
use super::mixes::{call as any_call, key_bytes, Flavour};
use super::random::Random;
use super::sets::typed_on;
use super::writer::{Writer, LOCK_KEYS};
use super::{add_joined, combinations, Pack};
use crate::input::{set_after, Input};
use crate::pack::Event::{self, Call, Key, Poll, Restart, Scan, TimeOut};
use crate::pack::DEVICES;
use crate::translation::CodeSet;
use crate::written::events;

/// A command done with as many bytes as it can have.
const SIX_BYTES: &str = "T KFE KFA KFE T KFA";

/// Replies that end a command: done, with two bytes and with six, and given up at either byte.
const REPLIES: [&str; 5] = [
    "KFA KFA",
    SIX_BYTES,
    "KFE T KFA T KFE T",
    "T T KFE",
    "KFA KFE T KFE",
];

/// A lamp value and a rate that come while a command runs, or behind it; some rates replace others, and
/// refused ones do not.
const BOTH: [&str; 4] = [
    "C030203 K3A KBA",
    "S45 SC5 C03031F",
    "C030007 K46 C030110 KC6",
    "C03011F C030400 C030020 S3A SBA",
];

/// What else may come then.
const OTHERS: [&str; 7] = [
    "",
    "C030102",
    "K3A KBA",
    // Lamps that go there and back beside a rate.
    "K3A KBA K3A KBA C030004",
    "C030105 K45 KC5 S45 SC5",
    // Of these the restart leaves what comes behind it.
    "C030102 R K3A KBA",
    "K3A R C030304 KBA",
];

/// A rate and lamps come to an idle line, and another command of six bytes goes first.
const WAITS_FROM_IDLE: &str = "R C030102 P T P T P KFA P KFE P T P KFA P KFA P KFA \
    K3A KBA P KFA P KFA \
    C03031F S45 SC5 P KFE P KFE P KFA P T P KFE P KFA P";

pub fn add(packs: &mut Vec<Pack>) {
    packs.extend(every_end().map(|case| Pack {
        kind: "turns",
        bytes: case.into_bytes(),
    }));
    add_joined(packs, "turns-meanwhile", two_commands());
    for opening in OPENINGS {
        add_joined(packs, "turns-path", every_path(opening));
        add_joined(packs, "turns-string", strings(opening, &STEPS, 4));
    }
}

/// What comes when each of three commands has started. If the first is one of lamps, a lamp value and a rate
/// wait at the end of each.
const COMING: [&str; 3] = ["C030102 K3A KBA", "C03031F", "S46 SC6"];

/// Lamps, a rate and lamps, along these replies. Where all have six bytes, the second lamps and the rate
/// behind them wait for as many bytes as they can.
fn in_turns(replies: [&str; 3]) -> Vec<Event> {
    let commands = replies.into_iter().zip(COMING);
    commands
        .flat_map(|(replies, coming)| command(&events(replies), 0, &events(coming)))
        .collect()
}

/// Three commands that end in every way, and settled ones that show what waited.
fn every_end() -> impl Iterator<Item = Writer> {
    combinations([REPLIES.len(); 3]).map(|ways| {
        let mut case = Writer::new();
        case.events(&in_turns(ways.map(|way| REPLIES[way])));
        case.settle_line().settle_line().poll();
        case
    })
}

/// Each way to end, with all that can come during the command and behind it, and all this once more.
fn two_commands() -> impl Iterator<Item = Writer> {
    const PLACES: [usize; 2] = [0, usize::MAX];
    let meanwhile = meanwhile();
    let counts = [REPLIES.len(), meanwhile.len(), PLACES.len()];
    let commands: Vec<Vec<Event>> = combinations(counts)
        .map(|[replies, coming, place]| {
            command(&events(REPLIES[replies]), PLACES[place], &meanwhile[coming])
        })
        .collect();
    combinations([commands.len(); 2]).map(move |order| {
        let mut case = Writer::new();
        case.event(Restart);
        for place in order {
            case.events(&commands[place]);
        }
        case.settle_line().settle_line().poll();
        case
    })
}

/// A command along every path, with all that can come when its first byte was sent.
fn every_path(opening: Opening) -> impl Iterator<Item = Writer> {
    let (paths, meanwhile) = (paths(), meanwhile());
    combinations([paths.len(), meanwhile.len()]).map(move |[path, coming]| {
        let mut case = Writer::new();
        case.event(Restart);
        open(&mut case, opening);
        case.events(&command(&paths[path], 0, &meanwhile[coming]));
        case.settle_line().settle_line().poll();
        case
    })
}

/// Whole commands, done and given up, parts of them, and what is between them.
const STEPS: [&[Event]; 10] = [
    &[Poll],
    &[Poll, Key(0xFA)],
    &[Poll, Key(0xFA), Poll, Key(0xFA)],
    &[Poll, TimeOut, Poll, Key(0xFE), Poll, TimeOut],
    &[
        Poll,
        Key(0xFA),
        Poll,
        TimeOut,
        Poll,
        TimeOut,
        Poll,
        Key(0xFE),
    ],
    &[Key(0x3A), Key(0xBA)],
    &[Scan(0x45), Scan(0xC5)],
    &[Call(0x03, 1, 2)],
    &[Call(0x03, 3, 31)],
    &[Restart],
];

/// A command along its replies. What comes meanwhile stands before the reply at this place, or behind the
/// last.
fn command(replies: &[Event], place: usize, meanwhile: &[Event]) -> Vec<Event> {
    let mut list = Vec::new();
    for (sent, &reply) in replies.iter().enumerate() {
        list.push(Poll);
        if sent == place {
            list.extend(meanwhile);
        }
        list.push(reply);
    }
    if place >= replies.len() {
        list.extend(meanwhile);
    }
    list
}

fn meanwhile() -> Vec<Vec<Event>> {
    let texts = BOTH.into_iter().chain(OTHERS);
    texts.map(events).collect()
}

/// Commands that take turns, often with the longest waits, or some with anything that comes meanwhile.
fn commands(random: &mut Random) -> Vec<Event> {
    let mut list = events(random.pick(&["", "R"]));
    match random.below(8) {
        0 => list.extend(in_turns([SIX_BYTES; 3])),
        1 => list.extend(events(WAITS_FROM_IDLE)),
        2..=5 => list.extend(in_turns([(); 3].map(|()| random.pick(&REPLIES)))),
        _ => {
            let count = random.between(2, 5);
            list.extend((0..count).flat_map(|_| random_command(random)));
        }
    }
    list.push(Poll);
    list
}

/// What comes meanwhile mostly does as early or as late as it can.
fn random_command(random: &mut Random) -> Vec<Event> {
    let replies = random_replies(random);
    let place = random.below(replies.len() + 1);
    let place = random.pick(&[0, 0, place, replies.len()]);
    let coming = match random.below(6) {
        0 | 1 => "",
        2..=4 => random.pick(&BOTH),
        _ => random.pick(&OTHERS),
    };
    command(&replies, place, &events(coming))
}

/// Replies that end a command, mostly after many sends.
fn random_replies(random: &mut Random) -> Vec<Event> {
    let mut replies = Vec::new();
    for _byte in 0..2 {
        let failures = random.pick(&[0, 1, 2, 2, 2, 3, 3]);
        replies.extend((0..failures).map(|_| random.pick(&[Key(0xFE), TimeOut])));
        if failures == 3 {
            break;
        }
        replies.push(Key(0xFA));
    }
    replies
}

/// A list for a service on this set, made from this one by commands at one place, typed on the set that is
/// in force there.
pub fn with_commands(random: &mut Random, set: CodeSet, inputs: &[Input]) -> Vec<Input> {
    let (before, behind) = inputs.split_at(random.below(inputs.len() + 1));
    let set = set_after(set, before);
    let mut list = before.to_vec();
    for event in commands(random) {
        let typed = typed_on(random, set, event);
        list.extend(typed.into_iter().map(Input::Event));
    }
    list.extend(behind);
    list
}

/// Whole commands, a lock key down and up at either port, or any key.
pub fn typed(random: &mut Random) -> Vec<Event> {
    let device = random.pick(&DEVICES);
    let bytes = match random.below(6) {
        0 | 1 => return commands(random),
        2 => key_bytes(random, Flavour::Turns),
        _ => {
            let make = random.pick(&LOCK_KEYS);
            vec![make, make | 0x80]
        }
    };
    bytes.into_iter().map(|byte| device.event(byte)).collect()
}

/// Mostly a rate.
pub fn call(random: &mut Random) -> Event {
    match random.below(6) {
        0 => any_call(random),
        _ => Call(0x03, random.below(4) as u8, random.below(32) as u8),
    }
}
