//! The random lists meet what is new with the controller's ports, each thing in a good part of them.

mod steps;

use reference::OutputBuffer::{Answer, Empty, Key};
use reference::PortEvent::{self, FromKeyboard, Read60, Write60, Write64};
use reference::{CodeSet, Controller, Event, Input, OutputBuffer, Seen, Service, Translation};
use steps::{Memory, LISTS};

const KEYBOARD_DISABLED: u8 = 0x10;

/// The bytes of the keyboard so far, and whether each was read at port 60.
#[derive(Default)]
struct Bytes(Vec<(u8, bool)>);

impl Memory for Bytes {
    fn keep(&mut self, _: &Service, input: &Input, seen: &Seen) {
        if let Some(Event::Key(byte)) = input.ran(seen) {
            self.0.push((byte, seen.fed));
        }
    }
}

fn is_disabled(service: &Service) -> bool {
    service.controller().command_byte() & KEYBOARD_DISABLED != 0
}

type Step<'a> = steps::Step<'a, Bytes>;

/// A name, and what is then to be met.
type Rule = (&'static str, fn(&Step) -> bool);

impl Step<'_> {
    fn controller(&self) -> &Controller {
        self.before.controller()
    }

    fn buffer(&self) -> OutputBuffer {
        self.controller().buffer()
    }

    fn holds_key(&self) -> bool {
        matches!(self.buffer(), Key(_))
    }

    fn is_disabled(&self) -> bool {
        is_disabled(self.before)
    }

    /// A command byte disables the keyboard, or enables it again.
    fn command_byte_sets(&self, from: bool, to: bool) -> bool {
        let is_command_byte = matches!(self.port_event(), Some(Write60(_)));
        is_command_byte && (self.is_disabled(), is_disabled(self.after)) == (from, to)
    }

    fn awaits(&self) -> bool {
        self.controller().awaits_command_byte()
    }

    fn port_event(&self) -> Option<PortEvent> {
        match *self.input {
            Input::Port(event) => Some(event),
            _ => None,
        }
    }

    fn is_from_keyboard(&self) -> bool {
        matches!(self.port_event(), Some(FromKeyboard(_)))
    }

    fn is(&self, event: PortEvent) -> bool {
        self.port_event() == Some(event)
    }

    /// The event itself, and no read that fed it.
    fn is_event(&self, event: Event) -> bool {
        *self.input == Input::Event(event)
    }

    fn is_answered(&self, ans: u8) -> bool {
        self.port_event().is_some() && self.seen.shown.ans == ans
    }

    /// A byte read at port 60 and fed, with this answer.
    fn is_fed(&self, ans: u8) -> bool {
        self.seen.fed && self.seen.shown.ans == ans
    }

    /// A byte read at port 60 and fed that is the last of this string, of which every byte came so.
    fn ends_fed(&self, string: &[u8]) -> bool {
        let string: Vec<(u8, bool)> = string.iter().map(|&byte| (byte, true)).collect();
        self.seen.fed && self.kept.0.ends_with(&string)
    }
}

fn lists_that_meet<Rule: Fn(&Step) -> bool>(rules: &[Rule]) -> Vec<usize> {
    steps::lists_that_meet(0x207, rules)
}

/// Each is met in more than this part of the lists.
fn assert_met(rules: &[Rule], part: usize) {
    let tests: Vec<_> = rules.iter().map(|(_, rule)| rule).collect();
    for ((name, _), count) in rules.iter().zip(lists_that_meet(&tests)) {
        println!("{name}: {count} of {LISTS} lists");
        assert!(count > LISTS / part, "{name}");
    }
}

#[test]
fn each_refusal_comes_by_each_cause() {
    assert_met(
        &[
            ("a key while a key waits", |step| {
                step.is_answered(0x8E) && step.holds_key() && !step.is_disabled()
            }),
            ("a key while an answer waits", |step| {
                let holds_answer = matches!(step.buffer(), Answer(_));
                step.is_answered(0x8E) && holds_answer && !step.is_disabled()
            }),
            ("a key while the keyboard is disabled", |step| {
                step.is_answered(0x8E) && step.buffer() == Empty
            }),
            ("a key by both causes", |step| {
                step.is_answered(0x8E) && step.buffer() != Empty && step.is_disabled()
            }),
            ("a command that is none", |step| step.is_answered(0x8F)),
            ("a command that is none in a wait", |step| {
                step.is_answered(0x8F) && step.awaits()
            }),
            ("a byte not awaited", |step| step.is_answered(0x90)),
        ],
        6,
    );
}

#[test]
fn keys_are_taken_read_and_lost() {
    assert_met(
        &[
            ("an interrupt", |step| step.seen.interrupt),
            ("a key without interrupt", |step| {
                step.is_from_keyboard() && step.is_answered(0x00) && !step.seen.interrupt
            }),
            ("a key lost under the command byte", |step| {
                step.is(Write64(0x20)) && step.holds_key()
            }),
            ("a key lost under the test's answer", |step| {
                step.is(Write64(0xAA)) && step.holds_key()
            }),
            ("a key read while the keyboard is disabled", |step| {
                step.seen.fed && step.is_disabled()
            }),
            ("a key read while a command byte is awaited", |step| {
                step.seen.fed && step.awaits()
            }),
            ("a byte repeated", |step| {
                step.is(Read60) && step.buffer() == Empty && step.seen.byte != 0x00
            }),
        ],
        6,
    );
}

#[test]
fn other_inputs_come_while_a_key_waits() {
    assert_met(
        &[
            ("an emptying", |step| {
                step.is_event(Event::Empty) && step.holds_key()
            }),
            ("a restart", |step| {
                step.is_event(Event::Restart) && step.holds_key()
            }),
            ("a byte past the ports", |step| {
                let is_key = matches!(step.event(), Some(Event::Key(_)));
                is_key && !step.seen.fed && step.holds_key()
            }),
            ("a byte of the scanner", |step| {
                matches!(step.event(), Some(Event::Scan(_))) && step.holds_key()
            }),
            ("a change of set", |step| {
                matches!(step.input, Input::Change(_)) && step.holds_key()
            }),
        ],
        20,
    );
}

#[test]
fn waits_end_in_each_way() {
    assert_met(
        &[
            ("by the command byte", |step| {
                step.awaits() && matches!(step.port_event(), Some(Write60(_)))
            }),
            ("by 20", |step| step.awaits() && step.is(Write64(0x20))),
            ("by AA", |step| step.awaits() && step.is(Write64(0xAA))),
            ("by AD", |step| step.awaits() && step.is(Write64(0xAD))),
            ("by AE", |step| step.awaits() && step.is(Write64(0xAE))),
            ("by another", |step| step.awaits() && step.is(Write64(0x60))),
            ("not by an emptying", |step| {
                step.awaits() && step.is_event(Event::Empty)
            }),
            ("by a restart", |step| {
                step.awaits() && step.is_event(Event::Restart)
            }),
        ],
        40,
    );
}

#[test]
fn port_60_brings_about_what_events_do() {
    assert_met(
        &[
            ("a word put", |step| step.is_fed(0x01)),
            ("a word dropped", |step| step.is_fed(0x02)),
            ("a break of the queue", |step| step.is_fed(0x03)),
            ("a restart asked", |step| step.is_fed(0x04)),
            ("an overrun", |step| step.is_fed(0x05)),
            ("a reply taken", |step| step.is_fed(0x06)),
            ("a reply ignored", |step| step.is_fed(0x07)),
            ("a command given up", |step| step.is_fed(0x0E)),
            ("a command of six bytes", |step| {
                step.seen.fed && step.seen.shown.sent == 6
            }),
            ("all of Pause", |step| {
                step.ends_fed(&[0xE1, 0x1D, 0x45]) || step.ends_fed(&[0xE1, 0x14, 0x77])
            }),
            ("a key of set 2", |step| {
                step.is_fed(0x01) && step.before.set() == CodeSet::Two
            }),
            ("a key of set 2 behind a mark", |step| {
                step.seen.fed && step.before.translation() == Translation::SetTwoMarked
            }),
        ],
        20,
    );
}

/// Also without port 60, a good part of the lists come to what takes many events.
#[test]
fn lists_with_port_events_meet_what_others_do() {
    assert_met(
        &[
            ("a word dropped", |step| step.seen.shown.ans == 0x02),
            ("a command of six bytes", |step| step.seen.shown.sent == 6),
            ("all of Pause", |step| {
                let bytes: Vec<u8> = step.kept.0.iter().map(|&(byte, _)| byte).collect();
                bytes.ends_with(&[0xE1, 0x1D, 0x45]) || bytes.ends_with(&[0xE1, 0x14, 0x77])
            }),
        ],
        4,
    );
}

#[test]
fn each_status_is_met() {
    let statuses = [0x14, 0x15, 0x1C, 0x1D];
    let rules = statuses
        .map(|status| move |step: &Step| step.port_event().is_some() && step.seen.status == status);
    for (status, count) in statuses.into_iter().zip(lists_that_meet(&rules)) {
        println!("{status:02X}: {count} of {LISTS} lists");
        assert!(count > LISTS / 2, "{status:02X}");
    }
}

#[test]
fn every_command_byte_is_written() {
    assert_met(
        &[
            ("one that disables the keyboard", |step| {
                step.command_byte_sets(false, true)
            }),
            ("one that enables the keyboard", |step| {
                step.command_byte_sets(true, false)
            }),
        ],
        4,
    );
    let rules: Vec<_> = (0..=255)
        .map(|byte| move |step: &Step| step.awaits() && step.is(Write60(byte)))
        .collect();
    for (byte, count) in lists_that_meet(&rules).into_iter().enumerate() {
        println!("{byte:02X}: {count} of {LISTS} lists");
        assert!(count > LISTS / 200, "{byte:02X}");
    }
}
