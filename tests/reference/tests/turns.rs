//! Neither lamps nor rates are held back for long: over random lists of all that a list can hold, which meet
//! both in a good part of them, and over every state of the line.

mod steps;

use reference::line::Line;
use reference::vectors::{Vector, TURNS};
use reference::waits::{both_take_turns, commands_are_short, waits_are_short};
use reference::waits::{what_waited_is_sent, what_waits_starts};
use reference::waits::{Law, Lengths, Look, Shown, Waits, LAMPS, LAWS, RATE};
use reference::{read_event, CodeSet, Event, Input, Seen, Service};
use std::collections::HashSet;
use steps::{each_step, lists_that_meet, Memory, LISTS};

impl Memory for Look {
    fn keep(&mut self, _: &Service, input: &Input, seen: &Seen) {
        *self = self.next(input, seen);
    }
}

fn assert_over_random_lists(law: Law) {
    each_step(0x208, |_, step: &steps::Step<Look>| law(step.kept));
}

#[test]
fn neither_waits_for_more_than_eleven_bytes() {
    assert_over_random_lists(waits_are_short);
}

#[test]
fn no_command_sends_more_than_six_bytes() {
    assert_over_random_lists(commands_are_short);
}

#[test]
fn lamps_and_rates_take_turns() {
    assert_over_random_lists(both_take_turns);
}

#[test]
fn the_value_that_waited_is_sent() {
    assert_over_random_lists(what_waited_is_sent);
}

#[test]
fn no_idle_poll_leaves_anything_waiting() {
    assert_over_random_lists(what_waits_starts);
}

#[test]
fn random_lists_reach_waits_of_every_length() {
    let mut lengths = Lengths::default();
    each_step(0x208, |_, step: &steps::Step<Look>| lengths.keep(step.kept));
    lengths.assert_all();
}

/// What may happen on the line, and to the lamps.
#[derive(Clone, Copy)]
enum Happening {
    Lamps(u8),
    Rate(u8),
    Poll,
    Reply(u8),
    TimeOut,
    Restart,
}

/// A value that was handled, another that runs and a third that is due; one rate that runs and one that
/// waits.
const HAPPENINGS: [Happening; 10] = [
    Happening::Lamps(0),
    Happening::Lamps(1),
    Happening::Lamps(4),
    Happening::Rate(0),
    Happening::Rate(31),
    Happening::Poll,
    Happening::Reply(0xFA),
    Happening::Reply(0xFE),
    Happening::TimeOut,
    Happening::Restart,
];

#[derive(Clone, PartialEq, Eq, Hash)]
struct State {
    line: Line,
    lamps: u8,
    waits: Waits,
}

impl State {
    fn new() -> State {
        let (line, lamps) = (Line::new(), 0);
        let waits = Waits::default().after(Shown::Restarted, lamps);
        State { line, lamps, waits }
    }

    fn happen(&mut self, happening: Happening) -> Look {
        let shown = self.shown(happening);
        let look = Look::new(self.waits, shown, self.lamps);
        self.waits = look.after;
        look
    }

    fn shown(&mut self, happening: Happening) -> Shown {
        match happening {
            Happening::Lamps(lamps) => self.lamps = lamps,
            Happening::Rate(rate) => {
                self.line.wait_rate(0, rate);
                return Shown::Accepted(rate);
            }
            Happening::Poll => return self.poll(),
            Happening::Reply(byte) => {
                self.line.reply(byte);
            }
            Happening::TimeOut => {
                self.line.time_out();
            }
            Happening::Restart => {
                self.line = Line::new();
                return Shown::Restarted;
            }
        }
        Shown::Nothing
    }

    fn poll(&mut self) -> Shown {
        let answer = self.line.poll(self.lamps);
        let count = self.line.sent();
        match answer.number {
            0x0C => Shown::Sent {
                byte: answer.word as u8,
                count,
            },
            _ if count == 0 => Shown::Idle,
            _ => Shown::Nothing,
        }
    }
}

#[test]
fn every_state_of_the_line_keeps_the_laws() {
    let mut lengths = Lengths::default();
    let mut known = HashSet::from([State::new()]);
    let mut left = vec![State::new()];
    while let Some(state) = left.pop() {
        for happening in HAPPENINGS {
            let mut next = state.clone();
            let look = next.happen(happening);
            LAWS.iter().for_each(|law| law(&look));
            lengths.keep(&look);
            if known.insert(next.clone()) {
                left.push(next);
            }
        }
    }
    println!("{} states", known.len());
    lengths.assert_all();
}

/// What the last event of a kept list shows.
fn last_look(vector: &Vector) -> Look {
    let pack = vector.bytes();
    let mut service = Service::unlocked();
    let mut look = Look::default();
    let mut start = 0;
    while let Ok(Some((event, next))) = read_event(&pack, start) {
        let before = service.clone();
        let input = Input::Event(event);
        let seen = service.input(&input);
        look.keep(&before, &input, &seen);
        start = next;
    }
    look
}

#[test]
fn kept_lists_wait_for_as_many_bytes_as_they_say() {
    let names = [("eleven", 11), ("six", 6), ("five", 5)];
    for (first, what) in [(LAMPS, "lamps"), (RATE, "rate")] {
        for (number, bytes) in names {
            let name = format!("{what}-after-{number}-bytes");
            let vector = TURNS.iter().find(|vector| vector.name == name);
            let look = last_look(vector.expect(&name));
            assert_eq!(look.waited(first), Some(bytes), "{name}");
        }
    }
}

/// How far a command came.
#[derive(Clone, Copy, Default)]
struct Command {
    /// The byte sent last, and how many were sent.
    byte: u8,
    count: u8,
    given_up: bool,
}

impl Command {
    fn at_operand(&self) -> bool {
        self.count > 0 && !matches!(self.byte, LAMPS | RATE)
    }
}

/// What is shown last, and the last two commands that were started, the newer one second.
#[derive(Default)]
struct Story {
    look: Look,
    commands: [Command; 2],
}

impl Memory for Story {
    fn keep(&mut self, before: &Service, input: &Input, seen: &Seen) {
        self.look.keep(before, input, seen);
        if self.look.start().is_some() {
            self.commands = [self.commands[1], Command::default()];
        }
        let newer = &mut self.commands[1];
        match self.look.shown {
            Shown::Sent { byte, count } => (newer.byte, newer.count) = (byte, count),
            Shown::Restarted => self.commands = Default::default(),
            _ => newer.given_up |= seen.shown.ans == 0x0E,
        }
    }
}

type Step<'a> = steps::Step<'a, Story>;

impl Step<'_> {
    fn look(&self) -> &Look {
        &self.kept.look
    }

    /// Both wait, and the command with this first byte starts.
    fn wins(&self, first: u8) -> bool {
        self.look().contested_start() == Some(first)
    }

    /// The same behind another command that sent so many bytes.
    fn wins_behind(&self, first: u8, count: u8) -> bool {
        self.wins(first) && self.kept.commands[0].count == count
    }

    /// The same behind one that was given up, at its operand or before.
    fn wins_behind_given_up(&self, first: u8, at_operand: bool) -> bool {
        let behind = self.kept.commands[0];
        self.wins(first) && behind.given_up && behind.at_operand() == at_operand
    }

    /// The same kind starts as before, so the other does not wait.
    fn starts_out_of_turn(&self, first: u8) -> bool {
        let look = self.look();
        let behind = look.before.started.map(|(first, _)| first);
        look.start() == Some(first) && behind == Some(first)
    }

    fn both_wait(&self) -> bool {
        let Waits { rate, lamps, .. } = self.look().after;
        rate.is_some() && lamps.is_some()
    }

    fn rate_waited(&self) -> bool {
        self.look().before.rate.is_some()
    }

    fn is_accepted(&self) -> bool {
        matches!(self.look().shown, Shown::Accepted(_))
    }

    fn is_given_up(&self) -> bool {
        self.seen.shown.ans == 0x0E
    }

    /// Whether a lock that has a lamp turns.
    fn turns_lamp(&self) -> bool {
        (self.before.flag_bytes()[0] ^ self.after.flag_bytes()[0]) & 0x70 != 0
    }
}

/// What lists meet that makes the turn matter.
const MET: [(&str, fn(&Step) -> bool); 23] = [
    ("lamps first, none before", |step| {
        step.wins_behind(LAMPS, 0)
    }),
    ("lamps first after two bytes", |step| {
        step.wins_behind(LAMPS, 2)
    }),
    ("lamps first after six bytes", |step| {
        step.wins_behind(LAMPS, 6)
    }),
    ("a rate first after two bytes", |step| {
        step.wins_behind(RATE, 2)
    }),
    ("a rate first after six bytes", |step| {
        step.wins_behind(RATE, 6)
    }),
    ("lamps first, the first byte given up", |step| {
        step.wins_behind_given_up(LAMPS, false)
    }),
    ("lamps first, the operand given up", |step| {
        step.wins_behind_given_up(LAMPS, true)
    }),
    ("a rate first, the first byte given up", |step| {
        step.wins_behind_given_up(RATE, false)
    }),
    ("a rate first, the operand given up", |step| {
        step.wins_behind_given_up(RATE, true)
    }),
    ("lamps after lamps", |step| step.starts_out_of_turn(LAMPS)),
    ("a rate after a rate", |step| step.starts_out_of_turn(RATE)),
    ("lamps after five bytes", |step| {
        step.look().waited(LAMPS) == Some(5)
    }),
    ("lamps after six bytes", |step| {
        step.look().waited(LAMPS) == Some(6)
    }),
    ("lamps after eleven bytes", |step| {
        step.look().waited(LAMPS) == Some(11)
    }),
    ("a rate after five bytes", |step| {
        step.look().waited(RATE) == Some(5)
    }),
    ("a rate after six bytes", |step| {
        step.look().waited(RATE) == Some(6)
    }),
    ("a rate after eleven bytes", |step| {
        step.look().waited(RATE) == Some(11)
    }),
    ("a rate replaced", |step| {
        step.is_accepted() && step.rate_waited()
    }),
    ("a rate dropped", |step| {
        matches!(step.look().shown, Shown::Restarted) && step.rate_waited()
    }),
    ("the scanner turns a lamp where a rate waits", |step| {
        let is_scan = matches!(step.event(), Some(Event::Scan(_)));
        is_scan && step.turns_lamp() && step.rate_waited()
    }),
    ("a lamp turned by a frame where a rate waits", |step| {
        matches!(step.input, Input::Frame(_)) && step.turns_lamp() && step.rate_waited()
    }),
    (
        "a command given up through port 60 where both wait",
        |step| step.seen.fed && step.is_given_up() && step.both_wait(),
    ),
    ("a rate first on set 2", |step| {
        step.wins(RATE) && step.before.set() == CodeSet::Two
    }),
];

#[test]
fn lamps_and_rates_meet() {
    let counts = lists_that_meet(0x208, &MET.map(|(_, rule)| rule));
    for ((name, _), count) in MET.into_iter().zip(counts) {
        println!("{name}: {count} of {LISTS} lists");
        assert!(count > LISTS / 20, "{name}");
    }
}
