//! What waits for its turn on the line, told from what is shown alone, and the laws of it. Any
//! implementation can be held to them by what it shows.

use crate::input::{Input, Seen};
use crate::pack::Event;
use crate::service::Outcome;
use std::collections::BTreeSet;

/// First bytes of the commands.
pub const LAMPS: u8 = 0xED;
pub const RATE: u8 = 0xF3;

/// What is shown of the line.
#[derive(Clone, Copy, Debug, Default)]
pub enum Shown {
    #[default]
    Nothing,
    /// A rate is accepted that has this operand.
    Accepted(u8),
    /// A byte goes out, as one of so many of its command so far.
    Sent {
        byte: u8,
        count: u8,
    },
    /// A poll finds no command, and none to start.
    Idle,
    Restarted,
}

/// A value that is to be sent, and the bytes sent since it came.
#[derive(Clone, Copy, Debug, PartialEq, Eq, Hash)]
pub struct Wait {
    pub value: u8,
    pub bytes: u8,
}

impl Wait {
    fn new(value: u8) -> Wait {
        Wait { value, bytes: 0 }
    }
}

#[derive(Clone, Copy, Debug, Default, PartialEq, Eq, Hash)]
pub struct Waits {
    /// The rate accepted last, until its F3 or a restart.
    pub rate: Option<Wait>,
    /// The value of the locks, until its ED.
    pub lamps: Option<Wait>,
    /// First byte and operand of the command that started last; none since a restart.
    pub started: Option<(u8, u8)>,
    /// The lamp value that started last; none since a restart.
    lamps_started: Option<u8>,
}

impl Waits {
    /// After this was shown, with these lamps.
    pub fn after(mut self, shown: Shown, lamps: u8) -> Waits {
        match shown {
            Shown::Accepted(value) => self.rate = Some(Wait::new(value)),
            Shown::Sent { byte, count } => self.send(byte, count, lamps),
            Shown::Restarted => self = Waits::default(),
            Shown::Idle | Shown::Nothing => {}
        }
        if self.lamps_started == Some(lamps) {
            self.lamps = None;
        } else if self.lamps.is_none_or(|wait| wait.value != lamps) {
            self.lamps = Some(Wait::new(lamps));
        }
        self
    }

    /// What starts by this byte waits no longer; what else waits has waited for it.
    fn send(&mut self, byte: u8, count: u8, lamps: u8) {
        match (byte, count) {
            (LAMPS, 1) => {
                self.lamps = None;
                self.lamps_started = Some(lamps);
                self.started = Some((LAMPS, lamps));
            }
            (RATE, 1) => {
                let rate = self.rate.take().expect("a rate waits where one starts");
                self.started = Some((RATE, rate.value));
            }
            _ => {}
        }
        for wait in [&mut self.rate, &mut self.lamps].into_iter().flatten() {
            wait.bytes += 1;
        }
    }
}

/// What is shown once, and what waited before and waits after it.
#[derive(Clone, Copy, Debug, Default)]
pub struct Look {
    pub before: Waits,
    pub shown: Shown,
    pub after: Waits,
}

impl Look {
    pub fn new(before: Waits, shown: Shown, lamps: u8) -> Look {
        let after = before.after(shown, lamps);
        Look {
            before,
            shown,
            after,
        }
    }

    /// What is shown by the next input.
    pub fn next(&self, input: &Input, seen: &Seen) -> Look {
        let shown = shown(input.ran(seen), &seen.shown);
        let lamps = seen.shown.flags[0] >> 4 & 0x07;
        Look::new(self.after, shown, lamps)
    }

    /// The first byte of the command that starts here.
    pub fn start(&self) -> Option<u8> {
        match self.shown {
            Shown::Sent { byte, count: 1 } => Some(byte),
            _ => None,
        }
    }

    /// The same where a lamp value and a rate both wait.
    pub fn contested_start(&self) -> Option<u8> {
        let both_wait = self.before.rate.is_some() && self.before.lamps.is_some();
        self.start().filter(|_| both_wait)
    }

    /// For how many bytes that waited which starts here by this byte.
    pub fn waited(&self, first: u8) -> Option<u8> {
        let waits = self.before;
        let wait = if first == LAMPS {
            waits.lamps
        } else {
            waits.rate
        };
        let started = self.start() == Some(first);
        wait.filter(|_| started).map(|wait| wait.bytes)
    }
}

/// What an event that reached the service shows of the line.
fn shown(event: Option<Event>, outcome: &Outcome) -> Shown {
    match (event, outcome.ans) {
        (Some(Event::Call(0x03, delay, rate)), 0x0B) => Shown::Accepted(32 * delay + rate),
        (Some(Event::Poll), 0x0C) => Shown::Sent {
            byte: outcome.word as u8,
            count: outcome.sent,
        },
        (Some(Event::Poll), 0x0D) if outcome.sent == 0 => Shown::Idle,
        (Some(Event::Restart), _) => Shown::Restarted,
        _ => Shown::Nothing,
    }
}

/// Bytes that one command sends at most, and bytes that go out at most before what waits is started.
pub const LONGEST_COMMAND: u8 = 6;
pub const LONGEST_WAIT: u8 = 11;

/// What holds at each step, whatever the replies.
pub type Law = fn(&Look);

pub const LAWS: [Law; 5] = [
    waits_are_short,
    commands_are_short,
    both_take_turns,
    what_waited_is_sent,
    what_waits_starts,
];

pub fn waits_are_short(look: &Look) {
    let Waits { rate, lamps, .. } = look.after;
    for wait in [rate, lamps].into_iter().flatten() {
        assert!(wait.bytes <= LONGEST_WAIT, "{look:?}");
    }
}

pub fn commands_are_short(look: &Look) {
    if let Shown::Sent { count, .. } = look.shown {
        assert!(count <= LONGEST_COMMAND, "{look:?}");
    }
}

/// However the command before ended.
pub fn both_take_turns(look: &Look) {
    if let Some(first) = look.contested_start() {
        let expected = match look.before.started {
            Some((LAMPS, _)) => RATE,
            _ => LAMPS,
        };
        assert_eq!(first, expected, "{look:?}");
    }
}

/// The newest rate, and the lamps as they were at the start.
pub fn what_waited_is_sent(look: &Look) {
    if let Shown::Sent { byte, .. } = look.shown {
        let (first, operand) = look.after.started.expect("a command started");
        assert!(byte == first || byte == operand, "{look:?}");
    }
}

/// Without this, a line that never sends would hold nothing back.
pub fn what_waits_starts(look: &Look) {
    if let Shown::Idle = look.shown {
        let Waits { rate, lamps, .. } = look.after;
        assert_eq!((rate, lamps), (None, None), "{look:?}");
    }
}

/// How many bytes lamps waited for, and rates.
#[derive(Default)]
pub struct Lengths {
    lamps: BTreeSet<u8>,
    rates: BTreeSet<u8>,
}

impl Lengths {
    pub fn keep(&mut self, look: &Look) {
        self.lamps.extend(look.waited(LAMPS));
        self.rates.extend(look.waited(RATE));
    }

    /// Up to the longest; so this bound cannot be lower.
    pub fn assert_all(&self) {
        let all: BTreeSet<u8> = (0..=LONGEST_WAIT).collect();
        assert_eq!(self.lamps, all, "lamps");
        assert_eq!(self.rates, all, "rates");
    }
}
