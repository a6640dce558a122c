//! The random lists meet what is new with set 2, each thing in a good part of them, though a scanner types
//! in most of them.

mod steps;

use reference::Translation::{self, SetOne, SetTwo, SetTwoMarked};
use reference::{CodeSet, Event, Input, Seen, Service, CODE_SETS};
use steps::{Memory, LISTS};

/// The bytes of the keyboard so far.
#[derive(Default)]
struct Bytes(Vec<u8>);

impl Memory for Bytes {
    fn keep(&mut self, _: &Service, input: &Input, seen: &Seen) {
        if let Some(Event::Key(byte)) = input.ran(seen) {
            self.0.push(byte);
        }
    }
}

type Step<'a> = steps::Step<'a, Bytes>;

impl Step<'_> {
    /// The byte of the keyboard that is fed.
    fn byte(&self) -> Option<u8> {
        match self.event() {
            Some(Event::Key(byte)) => Some(byte),
            _ => None,
        }
    }

    fn is_of_scanner(&self) -> bool {
        matches!(self.event(), Some(Event::Scan(_)))
    }

    fn is_byte_of_set_2(&self) -> bool {
        self.before.set() == CodeSet::Two && self.byte().is_some()
    }

    /// A byte of a set 2 keyboard that is the last of this string.
    fn ends(&self, string: &[u8]) -> bool {
        self.is_byte_of_set_2() && self.kept.0.ends_with(string)
    }

    /// A byte of a set 2 keyboard with this answer.
    fn is_answered(&self, ans: u8) -> bool {
        self.is_byte_of_set_2() && self.seen.shown.ans == ans
    }

    fn is_marked(&self) -> bool {
        self.before.translation() == SetTwoMarked
    }

    fn has_prefix(&self) -> bool {
        self.before.flag_bytes()[2] & 0x03 != 0
    }

    fn is_change(&self) -> bool {
        matches!(self.input, Input::Change(_))
    }

    fn changes(&self, from: Translation, to: Translation) -> bool {
        let translations = (self.before.translation(), self.after.translation());
        self.is_change() && translations == (from, to)
    }

    /// Whether a bit of a flag byte goes on.
    fn sets(&self, place: usize, bit: u8) -> bool {
        !self.before.flag_bytes()[place] & self.seen.shown.flags[place] & bit != 0
    }

    /// Whether a bit of a flag byte goes off.
    fn clears(&self, place: usize, bit: u8) -> bool {
        self.before.flag_bytes()[place] & !self.seen.shown.flags[place] & bit != 0
    }
}

fn lists_that_meet<Rule: Fn(&Step) -> bool>(rules: &[Rule]) -> Vec<usize> {
    steps::lists_that_meet(0x5E7, rules)
}

#[test]
fn marks_come_before_each_kind_of_byte() {
    let bytes = [
        0xF0, 0xFA, 0xFE, 0xE0, 0xE1, 0x00, 0xFF, 0x83, 0x84, 0x65, 0x6D, 0x47, 0x4F, 0x6E, 0x13,
        0x12, 0x14, 0x11,
    ];
    let rules = bytes.map(|byte| move |step: &Step| step.is_marked() && step.byte() == Some(byte));
    for (byte, count) in bytes.into_iter().zip(lists_that_meet(&rules)) {
        println!("a mark, then {byte:02X}: {count} of {LISTS} lists");
        assert!(count > LISTS / 6, "{byte:02X}");
    }
}

#[test]
fn changes_come_from_each_set_and_behind_marks() {
    let changes = [
        (SetOne, SetOne),
        (SetOne, SetTwo),
        (SetTwo, SetOne),
        (SetTwo, SetTwo),
        (SetTwoMarked, SetOne),
        (SetTwoMarked, SetTwo),
    ];
    let rules = changes.map(|(from, to)| move |step: &Step| step.changes(from, to));
    for ((from, to), count) in changes.into_iter().zip(lists_that_meet(&rules)) {
        println!("from {from:?} to {to:?}: {count} of {LISTS} lists");
        assert!(count > LISTS / 6, "{from:?}, {to:?}");
    }
}

/// What a set 2 keyboard or a change of set brings about.
const BROUGHT_ABOUT: [(&str, fn(&Step) -> bool); 20] = [
    ("a change behind a prefix", |step| {
        step.is_change() && step.has_prefix()
    }),
    ("a change to the other set behind a prefix", |step| {
        step.has_prefix() && step.before.set() != step.after.set()
    }),
    ("a change behind a prefix and a mark", |step| {
        step.is_change() && step.has_prefix() && step.is_marked()
    }),
    ("a pause", |step| step.ends(&[0x77]) && step.sets(1, 0x08)),
    ("all of Pause", |step| step.ends(&[0xE1, 0x14, 0x77])),
    ("all of Pause's break", |step| {
        step.ends(&[0xE1, 0xF0, 0x14, 0xF0, 0x77])
    }),
    ("left Shift up", |step| {
        step.ends(&[0xF0, 0x12]) && step.clears(0, 0x02)
    }),
    ("right Ctrl up", |step| {
        step.ends(&[0xE0, 0xF0, 0x14]) && step.clears(2, 0x04)
    }),
    ("SysReq up", |step| {
        step.ends(&[0xF0, 0x84]) && step.clears(1, 0x04)
    }),
    ("Num up", |step| {
        step.ends(&[0xF0, 0x77]) && step.clears(1, 0x20)
    }),
    ("a word put", |step| step.is_answered(0x01)),
    ("a word of 83", |step| {
        step.ends(&[0x83]) && matches!(step.seen.shown.ans, 0x01 | 0x02)
    }),
    ("a word dropped", |step| step.is_answered(0x02)),
    ("a break of the queue", |step| step.is_answered(0x03)),
    ("a restart asked", |step| step.is_answered(0x04)),
    ("a reply taken", |step| step.is_answered(0x06)),
    ("a reply taken behind a mark", |step| {
        step.is_answered(0x06) && step.is_marked()
    }),
    ("a reply taken that came as a break", |step| {
        step.is_answered(0x06) && matches!(step.byte(), Some(0x65 | 0x6D))
    }),
    ("a command given up", |step| step.is_answered(0x0E)),
    ("a command of six bytes", |step| {
        step.is_byte_of_set_2() && step.seen.shown.sent == 6
    }),
];

#[test]
fn a_scanner_types_beside_either_set() {
    let types = |set| move |step: &Step| step.is_of_scanner() && step.before.set() == set;
    let rules = CODE_SETS.map(types);
    for (set, count) in CODE_SETS.into_iter().zip(lists_that_meet(&rules)) {
        println!("a byte of the scanner on {set:?}: {count} of {LISTS} lists");
        assert!(count > LISTS / 2, "{set:?}");
    }
}

#[test]
fn set_2_brings_about_what_set_1_does() {
    let counts = lists_that_meet(&BROUGHT_ABOUT.map(|(_, rule)| rule));
    for ((name, _), count) in BROUGHT_ABOUT.into_iter().zip(counts) {
        println!("{name}: {count} of {LISTS} lists");
        assert!(count > LISTS / 10, "{name}");
    }
}
