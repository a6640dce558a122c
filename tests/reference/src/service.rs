//! The service: two ports, queue, line and controller brought together, one event at a time.

use crate::answer::{self, Answer};
use crate::controller::{Controller, Effect, PortEvent};
use crate::frame::read_frame;
use crate::input::{Input, Seen};
use crate::line::Line;
use crate::pack::{Device, Event};
use crate::port::Port;
use crate::queue::as_an_old_program_sees;
use crate::report::{report, REPORT_LENGTH};
use crate::shared::Shared;
use crate::translation::{CodeSet, Translation};

/// What is seen of an event.
#[derive(Clone, Copy, Debug, PartialEq, Eq)]
pub struct Outcome {
    pub ans: u8,
    pub word: u16,
    /// Flag bytes 17, 18, 96 and 97 after the event.
    pub flags: [u8; 4],
    /// Bytes sent by the command that runs or that this event ended.
    pub sent: u8,
}

#[derive(Clone, Debug, PartialEq, Eq)]
pub struct Service {
    /// Of the keyboard alone: a scanner has set 1.
    translation: Translation,
    keyboard: Port,
    scanner: Port,
    shared: Shared,
    line: Line,
    controller: Controller,
}

impl Service {
    /// A new service on set 1; the refusal's number for lock bits above 15.
    pub fn new(locks: u8) -> Result<Service, u8> {
        Service::on_set(CodeSet::One, locks)
    }

    /// A new service on either set, refused as on set 1.
    pub fn on_set(set: CodeSet, locks: u8) -> Result<Service, u8> {
        if locks > 15 {
            return Err(answer::LOCKS_TOO_LARGE);
        }
        Ok(Service {
            translation: Translation::new(set),
            shared: Shared::new(locks),
            ..Service::unlocked()
        })
    }

    /// A new service on set 1 with no lock on.
    pub const fn unlocked() -> Service {
        Service {
            translation: Translation::new(CodeSet::One),
            keyboard: Port::new(),
            scanner: Port::new(),
            shared: Shared::new(0),
            line: Line::new(),
            controller: Controller::new(),
        }
    }

    /// Only a poll changes the count of bytes sent, so every other event shows the count before
    /// it: that of the command still running, or of the one it ended.
    pub fn event(&mut self, event: &Event) -> Outcome {
        let sent_before = self.line.sent();
        let answer = match *event {
            Event::Key(byte) => self.keyboard_byte(byte),
            Event::Scan(byte) => self.scanner_byte(byte),
            Event::Call(function, a, b) => self.call(function, a, b),
            Event::Poll => self.line.poll(self.shared.lamps()),
            Event::TimeOut => self.line.time_out(),
            Event::Empty => self.empty(),
            Event::Restart => self.restart(),
        };
        let sent = match event {
            Event::Poll => self.line.sent(),
            Event::Restart => 0,
            _ => sent_before,
        };
        self.outcome(answer, sent)
    }

    /// What comes over the wire of a board without a controller chip: the event of the frame's
    /// byte. From a refused frame nothing reaches keys, queue or line.
    pub fn frame(&mut self, frame: u16) -> Outcome {
        match read_frame(frame) {
            Ok(byte) => self.event(&Event::Key(byte)),
            Err(refusal) => self.standing(Answer::refused(refusal)),
        }
    }

    /// The keyboard's codes are of this set from now on. Nothing but an open mark is lost, also where
    /// the set stays; the string of a prefix may go on in the codes of the other set.
    pub fn change(&mut self, set: CodeSet) -> Outcome {
        self.translation = Translation::new(set);
        self.standing(Answer::plain(answer::NOTHING))
    }

    /// What the keyboard or a program does at the controller. A key that is read there is fed as its event,
    /// and only now translated: the program reads what the keyboard sent.
    pub fn port_event(&mut self, event: &PortEvent) -> Seen {
        let effect = self.controller.port_event(*event);
        let shown = match effect {
            Ok(Effect {
                byte, fed: true, ..
            }) => self.event(&Event::Key(byte)),
            Ok(_) => self.standing(Answer::plain(answer::NOTHING)),
            Err(refusal) => self.standing(Answer::refused(refusal)),
        };
        self.seen(shown, effect.unwrap_or_default())
    }

    pub fn input(&mut self, input: &Input) -> Seen {
        let shown = match *input {
            Input::Event(event) => self.event(&event),
            Input::Frame(frame) => self.frame(frame),
            Input::Change(set) => self.change(set),
            Input::Port(event) => return self.port_event(&event),
        };
        self.seen(shown, Effect::default())
    }

    /// Runs an event and writes its report at the start of the buffer.
    /// A buffer too short is refused first.
    pub fn reported_event(&mut self, event: &Event, buffer: &mut [u8]) -> Result<Outcome, u8> {
        let place = buffer.get_mut(..REPORT_LENGTH);
        let place = place.ok_or(answer::BUFFER_TOO_SHORT)?;
        let outcome = self.event(event);
        place.copy_from_slice(&report(event, &outcome));
        Ok(outcome)
    }

    /// Flag bytes 17, 18, 96 and 97. Of the two ports they show the keyboard's.
    pub fn flag_bytes(&self) -> [u8; 4] {
        let keys = self.keyboard.keys();
        [
            self.byte_17(),
            keys.byte_18() | self.shared.byte_18(),
            keys.byte_96() | self.keyboard.prefix().bits(),
            self.line.byte_97(),
        ]
    }

    /// The set in force.
    pub fn set(&self) -> CodeSet {
        self.translation.set()
    }

    /// The set in force and whether a mark is open.
    pub fn translation(&self) -> Translation {
        self.translation
    }

    pub fn port(&self, device: Device) -> &Port {
        match device {
            Device::Keyboard => &self.keyboard,
            Device::Scanner => &self.scanner,
        }
    }

    /// The same service with another port of this device.
    pub fn with_port(mut self, device: Device, port: Port) -> Service {
        match device {
            Device::Keyboard => self.keyboard = port,
            Device::Scanner => self.scanner = port,
        }
        self
    }

    pub fn controller(&self) -> &Controller {
        &self.controller
    }

    /// The same service with another controller.
    pub fn with_controller(self, controller: Controller) -> Service {
        Service { controller, ..self }
    }

    fn byte_17(&self) -> u8 {
        self.keyboard.keys().byte_17() | self.shared.byte_17()
    }

    fn outcome(&self, answer: Answer, sent: u8) -> Outcome {
        Outcome {
            ans: answer.number,
            word: answer.word,
            flags: self.flag_bytes(),
            sent,
        }
    }

    /// What is shown where keys, queue and line stay as they are.
    fn standing(&self, answer: Answer) -> Outcome {
        self.outcome(answer, self.line.sent())
    }

    fn seen(&self, shown: Outcome, effect: Effect) -> Seen {
        Seen {
            shown,
            status: self.controller.status(),
            byte: effect.byte,
            interrupt: effect.interrupt,
            fed: effect.fed,
        }
    }

    fn empty(&mut self) -> Answer {
        self.shared.queue.empty();
        Answer::plain(answer::DONE)
    }

    /// Also of the controller. What the ports hold of keys stays.
    fn restart(&mut self) -> Answer {
        self.line = Line::new();
        self.controller = Controller::new();
        Answer::plain(answer::DONE)
    }

    /// Every byte of the keyboard passes here, however it came. All further steps see set 1 alone.
    fn keyboard_byte(&mut self, byte: u8) -> Answer {
        match self.translation.read(byte) {
            Some(reply) if is_reply(reply) => self.line.reply(reply),
            Some(byte) => self.keyboard.read(byte, &mut self.shared),
            None => Answer::plain(answer::NOTHING),
        }
    }

    /// The line leads to the keyboard, so a scanner has nothing to reply to.
    fn scanner_byte(&mut self, byte: u8) -> Answer {
        if is_reply(byte) {
            return Answer::plain(answer::IGNORED);
        }
        self.scanner.read(byte, &mut self.shared)
    }

    /// The functions of int 16h. Old programs call 00 and 01, which know no enhanced words: those
    /// ahead of the next word are gone even where 01 only looks. The next word is converted as it is
    /// handed over, and in the queue it stays as it was put.
    fn call(&mut self, function: u8, a: u8, b: u8) -> Answer {
        let queue = &mut self.shared.queue;
        if matches!(function, 0x00 | 0x01) {
            queue.drop_enhanced();
        }
        match function {
            0x00 => returned(queue.take().map(as_an_old_program_sees)),
            0x01 => returned(queue.oldest().map(as_an_old_program_sees)),
            0x10 => returned(queue.take()),
            0x11 => returned(queue.oldest()),
            0x02 => self.status(0x00),
            0x12 => self.status(self.keyboard.keys().extended_status()),
            0x03 => self.set_rate(a, b),
            0x05 => self.store(u16::from_be_bytes([a, b])),
            _ => Answer::refused(answer::UNKNOWN_FUNCTION),
        }
    }

    fn status(&self, high: u8) -> Answer {
        let word = u16::from_be_bytes([high, self.byte_17()]);
        Answer::with_word(answer::STATUS, word)
    }

    fn set_rate(&mut self, delay: u8, rate: u8) -> Answer {
        if delay > 3 {
            return Answer::refused(answer::DELAY_TOO_LARGE);
        }
        if rate > 31 {
            return Answer::refused(answer::RATE_TOO_LARGE);
        }
        self.line.wait_rate(delay, rate);
        Answer::plain(answer::DONE)
    }

    /// A word from the program; unlike a key's word, it is refused by a full queue.
    fn store(&mut self, word: u16) -> Answer {
        if self.shared.queue.put(word) {
            Answer::with_word(answer::DONE, word)
        } else {
            Answer::refused(answer::QUEUE_FULL)
        }
    }
}

/// Step 1: the bytes by which a keyboard answers the line.
fn is_reply(byte: u8) -> bool {
    matches!(byte, 0xFA | 0xFE)
}

fn returned(word: Option<u16>) -> Answer {
    match word {
        Some(word) => Answer::with_word(answer::WORD_RETURNED, word),
        None => Answer::plain(answer::NO_WORD),
    }
}
