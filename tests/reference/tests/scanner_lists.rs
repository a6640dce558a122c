//! The random lists meet what is new with a scanner, each thing in a good part of them.

mod steps;

use reference::prefix::Prefix;
use reference::{Device, Event, Input, Port, Seen, Service, Translation, DEVICES};
use steps::{Memory, LISTS};

/// Bits of flag byte 17, and the pause in byte 18.
const LOCKS: u8 = 0xF0;
const INSERT: u8 = 0x80;
const PAUSED: u8 = 0x08;

/// Where the last pause came from.
#[derive(Default)]
struct PausedBy(Option<Device>);

impl Memory for PausedBy {
    fn keep(&mut self, before: &Service, input: &Input, seen: &Seen) {
        if pauses(before, seen) {
            let incoming = input.ran(seen).and_then(|event| event.incoming());
            self.0 = incoming.map(|(device, _)| device);
        }
    }
}

type Step<'a> = steps::Step<'a, PausedBy>;

fn pauses(before: &Service, seen: &Seen) -> bool {
    !before.flag_bytes()[1] & seen.shown.flags[1] & PAUSED != 0
}

impl Step<'_> {
    /// Where a byte came in, and the byte.
    fn incoming(&self) -> Option<(Device, u8)> {
        self.event()?.incoming()
    }

    fn is_from(&self, device: Device) -> bool {
        self.incoming().is_some_and(|(from, _)| from == device)
    }

    /// A byte from this device with this answer.
    fn is_answered(&self, device: Device, ans: u8) -> bool {
        self.is_from(device) && self.seen.shown.ans == ans
    }

    /// The port of a device, as it stood before.
    fn port(&self, device: Device) -> &Port {
        self.before.port(device)
    }

    /// The locks that turn.
    fn turned(&self) -> u8 {
        (self.before.flag_bytes()[0] ^ self.seen.shown.flags[0]) & LOCKS
    }

    /// A byte from this device turns a lock that the other port holds, one of these.
    fn turns_held(&self, device: Device, locks: u8) -> bool {
        let held = self.port(device.other()).keys().byte_18();
        self.is_from(device) && self.turned() & held & locks != 0
    }

    fn pauses(&self) -> bool {
        pauses(self.before, &self.seen)
    }

    /// A byte from this device ends a pause that came from that one.
    fn ends_pause(&self, device: Device, of: Device) -> bool {
        let ended = self.before.flag_bytes()[1] & !self.seen.shown.flags[1] & PAUSED != 0;
        ended && self.is_from(device) && self.kept.0 == Some(of)
    }

    /// A byte from this device puts a word, and Shift is down on the other port alone.
    fn is_put_beside_shift(&self, device: Device) -> bool {
        let shift = |device| self.port(device).keys().shift();
        self.is_answered(device, 0x01) && !shift(device) && shift(device.other())
    }

    /// Delete is pressed where Ctrl and Alt are down, but not both on its own port.
    fn is_delete_beside(&self, device: Device) -> bool {
        let (own, other) = (self.port(device).keys(), self.port(device.other()).keys());
        let both = (own.ctrl() || other.ctrl()) && (own.alt() || other.alt());
        let asks = own.ctrl() && own.alt();
        self.incoming() == Some((device, 0x53)) && both && !asks
    }

    /// A sum is put from this device while the other port has one.
    fn puts_sum_beside_sum(&self, device: Device) -> bool {
        let put = self.is_answered(device, 0x01) && self.seen.shown.word < 0x0100;
        put && self.port(device).alt_sum() > 0 && self.port(device.other()).alt_sum() > 0
    }

    fn is_reply_of_the_scanner(&self) -> bool {
        matches!(self.incoming(), Some((Device::Scanner, 0xFA | 0xFE)))
    }

    /// A status that the scanner's keys would change if they were shown.
    fn is_status_beside_keys(&self) -> bool {
        let keys = self.port(Device::Scanner).keys();
        let is_status = matches!(self.event(), Some(Event::Call(0x02 | 0x12, ..)));
        is_status && keys.byte_17() != 0
    }
}

fn lists_that_meet<Rule: Fn(&Step) -> bool>(rules: &[Rule]) -> Vec<usize> {
    steps::lists_that_meet(0x206, rules)
}

#[test]
fn each_prefix_of_one_port_meets_bytes_of_the_other() {
    let prefixes = [Prefix::E0, Prefix::E1, Prefix::E1Then1D, Prefix::E1Then9D];
    let cases: Vec<(Device, Prefix)> = DEVICES
        .into_iter()
        .flat_map(|device| prefixes.map(|prefix| (device, prefix)))
        .collect();
    let rule = |&(device, prefix): &(Device, Prefix)| {
        move |step: &Step| step.is_from(device.other()) && step.port(device).prefix() == prefix
    };
    let rules: Vec<_> = cases.iter().map(rule).collect();
    for ((device, prefix), count) in cases.into_iter().zip(lists_that_meet(&rules)) {
        println!("{prefix:?} open at {device:?}: {count} of {LISTS} lists");
        assert!(count > LISTS / 10, "{device:?}, {prefix:?}");
    }
}

#[test]
fn each_answer_comes_from_the_scanner() {
    let answers = [0x00, 0x01, 0x02, 0x03, 0x04, 0x05, 0x07];
    let rules = answers.map(|ans| move |step: &Step| step.is_answered(Device::Scanner, ans));
    for (ans, count) in answers.into_iter().zip(lists_that_meet(&rules)) {
        println!("{ans:02X}: {count} of {LISTS} lists");
        assert!(count > LISTS / 10, "{ans:02X}");
    }
}

/// What one port brings about beside the other.
const BROUGHT_ABOUT: [(&str, fn(&Step) -> bool); 28] = [
    ("prefixes open on both", |step| {
        let open = |device| step.after.port(device).prefix() != Prefix::Closed;
        open(Device::Keyboard) && open(Device::Scanner)
    }),
    ("the scanner behind a mark", |step| {
        step.is_from(Device::Scanner) && step.before.translation() == Translation::SetTwoMarked
    }),
    ("a change of set behind the scanner's prefix", |step| {
        let is_change = matches!(step.input, Input::Change(_));
        is_change && step.port(Device::Scanner).prefix() != Prefix::Closed
    }),
    ("the scanner's reply in its prefix", |step| {
        let is_open = step.port(Device::Scanner).prefix() != Prefix::Closed;
        step.is_reply_of_the_scanner() && is_open
    }),
    ("the scanner's reply while a command runs", |step| {
        step.is_reply_of_the_scanner() && step.seen.shown.sent > 0
    }),
    ("the scanner after six bytes sent", |step| {
        step.is_from(Device::Scanner) && step.seen.shown.sent == 6
    }),
    ("a word of the scanner beside Shift", |step| {
        step.is_put_beside_shift(Device::Scanner)
    }),
    ("a word of the keyboard beside Shift", |step| {
        step.is_put_beside_shift(Device::Keyboard)
    }),
    ("the scanner's Delete beside Ctrl or Alt", |step| {
        step.is_delete_beside(Device::Scanner)
    }),
    ("the keyboard's Delete beside Ctrl or Alt", |step| {
        step.is_delete_beside(Device::Keyboard)
    }),
    ("a pause from the scanner", |step| {
        step.is_from(Device::Scanner) && step.pauses()
    }),
    ("the scanner ends the keyboard's pause", |step| {
        step.ends_pause(Device::Scanner, Device::Keyboard)
    }),
    ("the keyboard ends the scanner's pause", |step| {
        step.ends_pause(Device::Keyboard, Device::Scanner)
    }),
    ("the scanner ends its own pause", |step| {
        step.ends_pause(Device::Scanner, Device::Scanner)
    }),
    ("the scanner turns a lock", |step| {
        step.is_from(Device::Scanner) && step.turned() != 0
    }),
    ("the scanner turns a lock that is held", |step| {
        step.turns_held(Device::Scanner, LOCKS)
    }),
    ("the keyboard turns a lock that is held", |step| {
        step.turns_held(Device::Keyboard, LOCKS)
    }),
    ("the scanner turns Insert, which is held", |step| {
        step.turns_held(Device::Scanner, INSERT)
    }),
    ("the keyboard turns Insert, which is held", |step| {
        step.turns_held(Device::Keyboard, INSERT)
    }),
    ("sums on both", |step| {
        let sum = |device| step.after.port(device).alt_sum();
        sum(Device::Keyboard) > 0 && sum(Device::Scanner) > 0
    }),
    ("the scanner's sum put", |step| {
        let put = matches!(step.seen.shown.ans, 0x01 | 0x02);
        step.is_from(Device::Scanner) && put && (0x0001..=0x00FF).contains(&step.seen.shown.word)
    }),
    ("the scanner's sum put beside a sum", |step| {
        step.puts_sum_beside_sum(Device::Scanner)
    }),
    ("the keyboard's sum put beside a sum", |step| {
        step.puts_sum_beside_sum(Device::Keyboard)
    }),
    ("a grey key's word of the scanner", |step| {
        step.is_answered(Device::Scanner, 0x01) && step.port(Device::Scanner).prefix() == Prefix::E0
    }),
    ("a key of the scanner with its own Shift", |step| {
        step.is_answered(Device::Scanner, 0x01) && step.port(Device::Scanner).keys().shift()
    }),
    ("a key of the scanner with its own Ctrl", |step| {
        step.is_answered(Device::Scanner, 0x01) && step.port(Device::Scanner).keys().ctrl()
    }),
    ("a status beside the scanner's modifiers", |step| {
        step.is_status_beside_keys()
    }),
    ("SysReq held on the scanner", |step| {
        let held = |service: &Service| service.port(Device::Scanner).keys().byte_18() & 0x04;
        held(step.after) & !held(step.before) != 0
    }),
];

#[test]
fn ports_meet_in_what_they_share() {
    let counts = lists_that_meet(&BROUGHT_ABOUT.map(|(_, rule)| rule));
    for ((name, _), count) in BROUGHT_ABOUT.into_iter().zip(counts) {
        println!("{name}: {count} of {LISTS} lists");
        assert!(count > LISTS / 20, "{name}");
    }
}
