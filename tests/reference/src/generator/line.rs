//! Packs for the line: every way a command can go, and what may happen meanwhile.

use super::writer::Writer;
use super::{add_joined, choices, Pack};
use crate::pack::Event;

/// Answers to one send.
const ACKNOWLEDGE: Event = Event::Key(0xFA);
const FAILURES: [Event; 2] = [Event::Key(0xFE), Event::TimeOut];

pub fn add(packs: &mut Vec<Pack>) {
    let paths = paths();
    for opening in OPENINGS {
        for meanwhile in MEANWHILE {
            packs.extend(paths.iter().map(|path| Pack {
                kind: "line",
                bytes: run(opening, meanwhile, path).into_bytes(),
            }));
        }
        add_joined(packs, "restarted", restarted(opening, &paths).into_iter());
        add_joined(packs, "replies", strings(opening, &REPLIES, 7));
        add_joined(packs, "changes", strings(opening, &CHANGES, 5));
    }
}

/// How a line comes to its next command.
#[derive(Clone, Copy)]
pub enum Opening {
    /// The first lamp command of a new line.
    FirstLamps,
    /// Another lamp value after one was handled.
    OtherLamps,
    /// A rate, the lamps being handled.
    Rate,
}

pub const OPENINGS: [Opening; 3] = [Opening::FirstLamps, Opening::OtherLamps, Opening::Rate];

pub fn open(case: &mut Writer, opening: Opening) {
    match opening {
        Opening::FirstLamps => {}
        Opening::OtherLamps => {
            case.settle_line().keys(&[0x3A, 0xBA]);
        }
        Opening::Rate => {
            case.settle_line().call(0x03, 2, 0x15);
        }
    }
}

/// What happens around each send and its answer.
#[derive(Clone, Copy)]
enum Meanwhile {
    Nothing,
    /// Polls before the answer.
    Polls,
    /// Answers that nobody awaits.
    StrayAnswers,
    /// A lock key, so that the lamp value changes.
    Locks,
    /// New rates, accepted and refused.
    Rates,
    /// Other events that show the count of bytes sent.
    Others,
}

const MEANWHILE: [Meanwhile; 6] = [
    Meanwhile::Nothing,
    Meanwhile::Polls,
    Meanwhile::StrayAnswers,
    Meanwhile::Locks,
    Meanwhile::Rates,
    Meanwhile::Others,
];

fn interrupt(case: &mut Writer, meanwhile: Meanwhile, place: usize, awaiting: bool) {
    match meanwhile {
        Meanwhile::Polls if awaiting => {
            case.poll().poll();
        }
        Meanwhile::StrayAnswers if !awaiting => {
            case.events(&[FAILURES[0], ACKNOWLEDGE, FAILURES[1]]);
        }
        Meanwhile::Locks => {
            let make = [0x3A, 0x45, 0x46][place % 3];
            case.keys(&[make, make | 0x80]);
        }
        Meanwhile::Rates => {
            let step = 2 * place as u8 + u8::from(awaiting);
            case.call(0x03, step % 4, step).call(0x03, 4, 0);
        }
        Meanwhile::Others => {
            case.key(0xE0).event(Event::Empty).call(0x99, 0, 0);
            case.key(0x1E).call(0x00, 0, 0);
        }
        Meanwhile::Nothing | Meanwhile::Polls | Meanwhile::StrayAnswers => {}
    }
}

/// A command along its path, and two settled commands after it.
fn run(opening: Opening, meanwhile: Meanwhile, path: &[Event]) -> Writer {
    let mut case = Writer::new();
    open(&mut case, opening);
    for (place, &answer) in path.iter().enumerate() {
        interrupt(&mut case, meanwhile, place, false);
        case.poll();
        interrupt(&mut case, meanwhile, place, true);
        case.event(answer);
    }
    interrupt(&mut case, meanwhile, path.len(), false);
    case.settle_line().settle_line().poll();
    case
}

/// All lists of answers that end a command, done or given up at either byte.
pub fn paths() -> Vec<Vec<Event>> {
    let (acknowledged, given_up) = byte_paths();
    let mut paths = given_up.clone();
    for first in &acknowledged {
        for second in acknowledged.iter().chain(&given_up) {
            paths.push([first.as_slice(), second].concat());
        }
    }
    paths
}

/// Answers to the sends of one byte: those that end acknowledged, and those that end given up.
fn byte_paths() -> (Vec<Vec<Event>>, Vec<Vec<Event>>) {
    let failing = |count| {
        choices(FAILURES.len(), count).map(|places| {
            let answers = places.iter().map(|&place| FAILURES[place]);
            answers.collect::<Vec<Event>>()
        })
    };
    let mut acknowledged = Vec::new();
    for failures in 0..3 {
        acknowledged.extend(failing(failures).map(|mut answers| {
            answers.push(ACKNOWLEDGE);
            answers
        }));
    }
    (acknowledged, failing(3).collect())
}

/// Each path cut by a restart at each place, with a rate waiting.
fn restarted(opening: Opening, paths: &[Vec<Event>]) -> Vec<Writer> {
    let mut cases = Vec::new();
    for path in paths {
        for cut in 0..2 * path.len() {
            let mut case = Writer::new();
            case.event(Event::Restart);
            open(&mut case, opening);
            let steps = path.iter().flat_map(|&answer| [Event::Poll, answer]);
            let steps: Vec<Event> = steps.take(cut + 1).collect();
            case.events(&steps).call(0x03, 1, 1).event(Event::Restart);
            case.event(ACKNOWLEDGE).settle_line().poll();
            cases.push(case);
        }
    }
    cases
}

const REPLIES: [&[Event]; 4] = [
    &[Event::Poll],
    &[ACKNOWLEDGE],
    &[FAILURES[0]],
    &[FAILURES[1]],
];

const CHANGES: [&[Event]; 7] = [
    &[Event::Poll],
    &[Event::Poll, ACKNOWLEDGE],
    &[Event::Poll, FAILURES[0]],
    &[Event::Key(0x3A), Event::Key(0xBA)],
    &[Event::Call(0x03, 1, 2)],
    &[Event::Call(0x03, 3, 31)],
    &[Event::Restart],
];

/// Every list of so many steps, from a restarted line.
pub fn strings(
    opening: Opening,
    steps: &'static [&'static [Event]],
    length: u32,
) -> impl Iterator<Item = Writer> {
    choices(steps.len(), length).map(move |places| {
        let mut case = Writer::new();
        case.event(Event::Restart);
        open(&mut case, opening);
        for place in places {
            case.events(steps[place]);
        }
        case
    })
}
