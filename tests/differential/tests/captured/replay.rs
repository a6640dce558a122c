//! A capture through the library: what is done at the ports, line by line.

use super::{lines, Difference, Held, Line, Machine, Sent};
use differential::Pair;
use reference::PortEvent::{FromKeyboard, Read60, Read64, Write60, Write64};
use reference::{CodeSet, Event, Input, Outcome, PortEvent, Seen};
use std::collections::BTreeMap;

/// From here on the BIOS does much in another way than the service.
const OWN_WAY: &str = "Strokes that this BIOS takes in its own way";

/// The service has a byte to send.
const TO_SEND: u8 = 0x0C;

/// How often the captured machine did otherwise than the service, and in what.
pub type Counts = BTreeMap<Difference, usize>;

pub struct Replay {
    pub(super) pair: Pair,
    machine: Machine,
    pub differences: Counts,
    /// Bytes of the keyboard that were accepted, and such as were refused by 14.
    pub accepted: usize,
    pub refused: usize,
    /// The byte that the service gave last at port 60.
    last_byte: u8,
    pub(super) in_its_own_way: bool,
    pub(super) stroke: String,
    /// The flag bytes that were told last; none where no BIOS is asked.
    pub(super) flags: Option<[u8; 4]>,
    /// What the terminal made of the last stroke.
    pub(super) text: Vec<u8>,
}

impl Replay {
    /// All of a capture, on a new service that has met these events.
    pub fn of(capture: &str, first: &[Event]) -> Replay {
        let mut replay = Replay::new();
        for &event in first {
            replay.event(event);
        }
        let lines = lines(capture);
        for (place, line) in lines.iter().enumerate() {
            let before = place.checked_sub(1).map(|place| &lines[place]);
            replay.line(before, line, lines.get(place + 1));
        }
        replay.compare_standing_flags();
        replay.end_stroke();
        assert!(replay.machine.owes_nothing());
        replay
    }

    fn new() -> Replay {
        Replay {
            pair: Pair::new_on(CodeSet::One, 0),
            machine: Machine::default(),
            differences: Counts::new(),
            accepted: 0,
            refused: 0,
            last_byte: 0,
            in_its_own_way: false,
            stroke: String::new(),
            flags: None,
            text: Vec::new(),
        }
    }

    pub(super) fn count(&mut self, difference: Difference) {
        *self.differences.entry(difference).or_default() += 1;
    }

    fn port(&mut self, event: PortEvent) -> Seen {
        self.pair.input(&Input::Port(event))
    }

    pub(super) fn event(&mut self, event: Event) -> Outcome {
        self.pair.input(&Input::Event(event)).shown
    }

    /// What an event would show.
    pub(super) fn asked(&self, event: Event) -> Outcome {
        self.pair.clone().input(&Input::Event(event)).shown
    }

    /// One line, with the one before it and the one behind it.
    fn line(&mut self, before: Option<&Line>, line: &Line, behind: Option<&Line>) {
        match line {
            Line::Read60(byte) => self.read_60(*byte),
            Line::Read64(status) => self.read_64(*status),
            Line::Write60(byte) => self.write_60(*byte),
            Line::Write64(command) => self.write_64(*command),
            Line::Key(byte) => {
                // Where it comes on the heels of another, the BIOS had no time to tell.
                if !matches!(before, Some(Line::Read60(_))) {
                    self.compare_standing_flags();
                }
                self.key(*byte, behind == Some(&Line::Interrupt));
            }
            Line::Kept(byte) => {
                assert_eq!(self.port(FromKeyboard(*byte)).shown.ans, 0x8E);
                self.refused += 1;
            }
            Line::Mouse(_) => self.machine.held = Some(Held::ReplyOfTheMouse),
            Line::Interrupt => self.interrupt(before),
            Line::Returned(function, word) => self.call(*function, *word),
            Line::Flags(bytes) => self.compare_told_flags(*bytes),
            Line::Text(byte) => self.text.push(*byte),
            Line::Stroke(stroke) => {
                self.end_stroke();
                self.stroke.clone_from(stroke);
            }
            Line::Heading(heading) => {
                self.end_stroke();
                self.in_its_own_way = heading == OWN_WAY;
            }
        }
    }

    fn key(&mut self, byte: u8, interrupt: bool) {
        self.machine.key(byte);
        let seen = self.port(FromKeyboard(byte));
        assert_eq!((seen.shown.ans, seen.interrupt), (0x00, interrupt));
        self.accepted += 1;
    }

    /// That of a key was compared with the key.
    fn interrupt(&mut self, before: Option<&Line>) {
        match before {
            Some(Line::Key(_)) => {}
            Some(Line::Write64(0x20)) => {
                assert_eq!(self.pair.service.controller().command_byte() & 0x01, 0x01);
                self.count(Difference::InterruptAtAnAnswer);
            }
            _ => panic!("an interrupt behind {before:X?}"),
        }
    }

    fn read_60(&mut self, byte: u8) {
        let seen = self.port(Read60);
        let held = self.machine.held.take().expect("no empty buffer was read");
        if let Some((_, difference)) = held.differences() {
            assert_eq!((seen.byte, seen.fed), (self.last_byte, false));
            self.count(difference);
        } else if seen.byte != byte {
            assert!(held == Held::Answer && self.machine.mouse_opened);
            assert_eq!(seen.byte & !0x20, byte);
            self.count(Difference::CommandByteBehindA8);
        }
        match held {
            Held::Key => assert!(seen.fed),
            Held::Reply(answer) => {
                assert_eq!((seen.fed, seen.shown.ans), (true, answer));
                self.count(Difference::ReplyFed);
            }
            _ => assert!(!seen.fed),
        }
        self.last_byte = seen.byte;
    }

    /// Bit by bit.
    fn read_64(&mut self, status: u8) {
        let seen = self.port(Read64);
        assert_eq!(seen.byte, seen.status);
        let held = self.machine.held;
        assert_eq!(status & 0x21, held.map_or(0x00, Held::status));
        let is_full = held.is_some_and(|held| held.differences().is_none());
        assert_eq!(seen.byte & 0x21, u8::from(is_full));
        if let Some((difference, _)) = held.and_then(Held::differences) {
            self.count(difference);
        }
        assert_eq!(status & 0x08, 0x08);
        if seen.byte & 0x08 == 0 {
            self.count(Difference::StatusBit3);
        }
        assert_eq!(status & 0x04 != 0, self.machine.self_tested);
        assert_eq!(seen.byte & 0x04, 0x04);
        if !self.machine.self_tested {
            self.count(Difference::StatusBit2);
        }
        assert_eq!(status & 0xD2, seen.byte & 0xD2);
    }

    fn write_64(&mut self, command: u8) {
        self.machine.write_64(command);
        let answer = self.port(Write64(command)).shown.ans;
        match command {
            0x20 | 0x60 | 0xAA | 0xAD | 0xAE => assert_eq!(answer, 0x00),
            _ => {
                assert_eq!(answer, 0x8F);
                self.count(Difference::Command(command));
            }
        }
    }

    /// Lamps and rate come from the service too, where it is asked for what it has to send.
    fn write_60(&mut self, byte: u8) {
        let answer = self.port(Write60(byte)).shown.ans;
        let difference = match self.machine.write_60(byte) {
            Sent::CommandByte => return assert_eq!(answer, 0x00),
            Sent::ToTheMouse => Difference::ForTheMouse,
            Sent::ToTheKeyboard(difference) => difference,
        };
        assert_eq!(answer, 0x90);
        self.count(difference);
        if matches!(difference, Difference::SetsLamps | Difference::SetsRate) {
            let shown = self.event(Event::Poll);
            assert_eq!((shown.ans, shown.word), (TO_SEND, u16::from(byte)));
        }
    }
}
