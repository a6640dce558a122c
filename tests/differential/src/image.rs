//! The exported functions, declared once, and safe calls over them.

use reference::{CodeSet, Event, Input, Outcome, PortEvent, Seen, REPORT_LENGTH};

/// Bytes of a service as the library keeps it.
pub const IMAGE_LENGTH: usize = 80;

/// Bytes of the scanner's port, and of the controller behind it, which stands last.
pub const SCANNER_LENGTH: usize = 8;
pub const CONTROLLER_LENGTH: usize = 8;

/// Where each number of a service stands in those bytes, as the header says.
pub mod place {
    pub const BYTE_17: usize = 0;
    pub const BYTE_18: usize = 1;
    pub const BYTE_96: usize = 2;
    pub const BYTE_97: usize = 3;
    /// Two numbers in one byte: the lower half is the prefix, the upper half the codes that come.
    pub const PREFIX_AND_CODES: usize = 4;
    pub const ALT_SUM: usize = 5;
    pub const RATE_KNOWN: usize = 6;
    pub const RATE: usize = 7;
    pub const HANDLED_KNOWN: usize = 8;
    pub const HANDLED: usize = 9;
    pub const PHASE: usize = 10;
    /// Of the command that runs; on an idle line, of the one whose turn it is.
    pub const KIND: usize = 11;
    pub const VALUE: usize = 12;
    pub const OPERAND: usize = 13;
    pub const SENDS: usize = 14;
    pub const SENT: usize = 15;
    /// Sixteen words of a scan code and an ASCII byte.
    pub const WORDS: usize = 16;
    /// Eight bytes each, the lowest first.
    pub const HEAD: usize = 48;
    pub const COUNT: usize = 56;
    pub const SCANNER_PREFIX: usize = 64;
    pub const SCANNER_SUM: usize = 65;
    pub const SCANNER_SHIFT: usize = 66;
    pub const SCANNER_CTRL: usize = 67;
    pub const SCANNER_ALT: usize = 68;
    pub const SCANNER_LOCKS: usize = 69;
    pub const SCANNER_INSERT: usize = 70;
    pub const SCANNER_SYSREQ: usize = 71;
    pub const BUFFER: usize = 72;
    /// What the buffer holds, or the byte that was read last where it is empty.
    pub const BUFFERED: usize = 73;
    pub const COMMAND_BYTE: usize = 74;
    pub const AWAITING: usize = 75;
    pub const COMMANDED: usize = 76;
    /// Three bytes that mean nothing.
    pub const SPARE: usize = 77;
}

/// The bits of the flag bytes, each with the place of its byte.
pub mod flag {
    use super::place::{BYTE_17, BYTE_18, BYTE_96, BYTE_97};

    pub const RIGHT_SHIFT: (usize, u8) = (BYTE_17, 0x01);
    pub const LEFT_SHIFT: (usize, u8) = (BYTE_17, 0x02);
    /// Either Ctrl, and either Alt.
    pub const CTRL: (usize, u8) = (BYTE_17, 0x04);
    pub const ALT: (usize, u8) = (BYTE_17, 0x08);
    pub const SCROLL_LOCK: (usize, u8) = (BYTE_17, 0x10);
    pub const NUM_LOCK: (usize, u8) = (BYTE_17, 0x20);
    pub const CAPS_LOCK: (usize, u8) = (BYTE_17, 0x40);
    pub const INSERT: (usize, u8) = (BYTE_17, 0x80);
    pub const LEFT_CTRL: (usize, u8) = (BYTE_18, 0x01);
    pub const LEFT_ALT: (usize, u8) = (BYTE_18, 0x02);
    pub const SYSREQ_HELD: (usize, u8) = (BYTE_18, 0x04);
    pub const PAUSED: (usize, u8) = (BYTE_18, 0x08);
    pub const SCROLL_HELD: (usize, u8) = (BYTE_18, 0x10);
    pub const NUM_HELD: (usize, u8) = (BYTE_18, 0x20);
    pub const CAPS_HELD: (usize, u8) = (BYTE_18, 0x40);
    pub const INSERT_HELD: (usize, u8) = (BYTE_18, 0x80);
    pub const E1_OPEN: (usize, u8) = (BYTE_96, 0x01);
    pub const E0_OPEN: (usize, u8) = (BYTE_96, 0x02);
    pub const RIGHT_CTRL: (usize, u8) = (BYTE_96, 0x04);
    pub const RIGHT_ALT: (usize, u8) = (BYTE_96, 0x08);
    pub const SCROLL_DONE: (usize, u8) = (BYTE_97, 0x01);
    pub const NUM_DONE: (usize, u8) = (BYTE_97, 0x02);
    pub const CAPS_DONE: (usize, u8) = (BYTE_97, 0x04);
    pub const ACKNOWLEDGED: (usize, u8) = (BYTE_97, 0x10);
    pub const RESEND: (usize, u8) = (BYTE_97, 0x20);
    pub const LED_COMMAND_RUNS: (usize, u8) = (BYTE_97, 0x40);
    pub const GIVEN_UP: (usize, u8) = (BYTE_97, 0x80);

    /// The bits that are read. The others follow from these, the prefix and the command, or have
    /// no meaning.
    pub const READ: [u8; 4] = [0xF3, 0xFF, 0x0C, 0xB7];

    /// The bits that tell of both ports: the locks, the pause and the line. The others are the keyboard's
    /// own.
    pub const SHARED: [u8; 4] = [0xF0, 0x08, 0x00, 0xFF];
}

/// The bits of the scanner's modifiers and of its lock keys that are held. Others are not read.
pub mod held {
    /// Of Shift, Ctrl and Alt alike.
    pub const RIGHT: u8 = 0x01;
    pub const LEFT: u8 = 0x02;
    pub const SCROLL: u8 = 0x01;
    pub const NUM: u8 = 0x02;
    pub const CAPS: u8 = 0x04;
}

/// The open prefix of either port, as a number; any other is read as none.
pub mod prefix {
    pub const NONE: u8 = 0;
    pub const E0: u8 = 1;
    pub const E1: u8 = 2;
    pub const E1_1D: u8 = 3;
    pub const E1_9D: u8 = 4;
}

/// The codes that come, as a number; any other is read as set 1.
pub mod codes {
    pub const SET_1: u8 = 0;
    pub const SET_2: u8 = 1;
    /// The next code is a break.
    pub const SET_2_MARKED: u8 = 2;
}

/// What the controller's output buffer holds, as a number; any other is read as empty.
pub mod buffer {
    pub const EMPTY: u8 = 0;
    pub const KEY: u8 = 1;
    pub const ANSWER: u8 = 2;
}

/// The kind of a command, as a number; any other is read as rate.
pub mod kind {
    pub const LED: u8 = 0;
    pub const RATE: u8 = 1;
}

/// The bits of the command byte that do something.
pub mod command {
    pub const INTERRUPTS: u8 = 0x01;
    pub const DISABLED: u8 = 0x10;
    /// Stands turned over in the image, so that 0 there is the command byte of a new service.
    pub const TURNED: u8 = INTERRUPTS;
}

/// Numbers that one half of a byte can hold.
const HALF: u8 = 16;

/// The byte that holds a prefix and the codes that come; each is below 16.
pub fn prefix_and_codes(prefix: u8, codes: u8) -> u8 {
    prefix + HALF * codes
}

/// A service in memory that the caller lends. Any bytes mean some service, so any may be lent.
#[repr(C, align(8))]
#[derive(Clone, Debug, PartialEq, Eq)]
pub struct Image {
    pub bytes: [u8; IMAGE_LENGTH],
}

/// An event as a pack writes it; bytes that it has no use for are not read.
#[repr(C)]
#[derive(Clone, Copy, Debug, PartialEq, Eq)]
pub struct Tagged {
    pub tag: u8,
    pub operands: [u8; 3],
}

#[repr(C)]
struct Shown {
    word: u16,
    ans: u8,
    sent: u8,
    flags: FlagBytes,
}

#[repr(C)]
struct FlagBytes {
    bytes: [u8; 4],
}

#[repr(C)]
struct PortShown {
    shown: Shown,
    byte: u8,
    status: u8,
    interrupt: u8,
    fed: u8,
}

extern "C" {
    fn xiquepazo_make(image: &mut Image, bits: u8) -> u8;
    fn xiquepazo_make_set_2(image: &mut Image, bits: u8) -> u8;
    fn xiquepazo_to_set_1(image: &mut Image) -> Shown;
    fn xiquepazo_to_set_2(image: &mut Image) -> Shown;
    fn xiquepazo_event(image: &mut Image, event: Tagged) -> Shown;
    fn xiquepazo_report(image: &mut Image, event: Tagged, buffer: *mut u8, length: usize) -> u8;
    fn xiquepazo_resynchronise(image: &mut Image) -> Shown;
    fn xiquepazo_flags(image: &Image) -> FlagBytes;
    fn xiquepazo_read(pack: *const u8, length: usize, start: usize) -> Reading;
    fn xiquepazo_frame(image: &mut Image, frame: u16) -> Shown;
    fn xiquepazo_frame_of(byte: u8) -> u16;
    fn xiquepazo_from_keyboard(image: &mut Image, byte: u8) -> PortShown;
    fn xiquepazo_read_60(image: &mut Image) -> PortShown;
    fn xiquepazo_read_64(image: &mut Image) -> PortShown;
    fn xiquepazo_write_60(image: &mut Image, byte: u8) -> PortShown;
    fn xiquepazo_write_64(image: &mut Image, byte: u8) -> PortShown;
}

// Each call is sound for every argument: the library has no `requires`, every image is a service,
// and a slice is as long as it says.
impl Image {
    /// A new service on set 1, or the refusal's number.
    pub fn new(locks: u8) -> Result<Image, u8> {
        Image::new_on(CodeSet::One, locks)
    }

    /// A new service on this set, or the refusal's number.
    pub fn new_on(set: CodeSet, locks: u8) -> Result<Image, u8> {
        let bytes = [0; IMAGE_LENGTH];
        let mut image = Image { bytes };
        match image.make_on(set, locks) {
            0 => Ok(image),
            refusal => Err(refusal),
        }
    }

    /// Makes the service anew; returns the refusal's number, 0 for none.
    pub fn make_on(&mut self, set: CodeSet, locks: u8) -> u8 {
        match set {
            CodeSet::One => unsafe { xiquepazo_make(self, locks) },
            CodeSet::Two => unsafe { xiquepazo_make_set_2(self, locks) },
        }
    }

    pub fn key(&mut self, byte: u8) -> Outcome {
        self.event(&Event::Key(byte))
    }

    pub fn scan(&mut self, byte: u8) -> Outcome {
        self.event(&Event::Scan(byte))
    }

    pub fn call(&mut self, function: u8, a: u8, b: u8) -> Outcome {
        self.event(&Event::Call(function, a, b))
    }

    pub fn event(&mut self, event: impl Into<Tagged>) -> Outcome {
        unsafe { xiquepazo_event(self, event.into()) }.into()
    }

    /// Runs an event and writes its report at the start of the buffer; returns the refusal's
    /// number, 0 for none.
    pub fn report(&mut self, event: impl Into<Tagged>, buffer: &mut [u8]) -> u8 {
        let (start, length) = (buffer.as_mut_ptr(), buffer.len());
        unsafe { xiquepazo_report(self, event.into(), start, length) }
    }

    /// Reads a frame, and runs the event of the byte in it.
    pub fn frame(&mut self, frame: u16) -> Outcome {
        unsafe { xiquepazo_frame(self, frame) }.into()
    }

    /// Changes the set, or closes the mark where it is the set in force.
    pub fn change(&mut self, set: CodeSet) -> Outcome {
        match set {
            CodeSet::One => unsafe { xiquepazo_to_set_1(self) }.into(),
            CodeSet::Two => unsafe { xiquepazo_to_set_2(self) }.into(),
        }
    }

    /// What the keyboard or a program does at the controller.
    pub fn port(&mut self, event: PortEvent) -> Seen {
        let shown = match event {
            PortEvent::FromKeyboard(byte) => unsafe { xiquepazo_from_keyboard(self, byte) },
            PortEvent::Read60 => unsafe { xiquepazo_read_60(self) },
            PortEvent::Read64 => unsafe { xiquepazo_read_64(self) },
            PortEvent::Write60(byte) => unsafe { xiquepazo_write_60(self, byte) },
            PortEvent::Write64(command) => unsafe { xiquepazo_write_64(self, command) },
        };
        shown.into()
    }

    /// The controller's status, as a program would read it now.
    pub fn status(&self) -> u8 {
        let Seen { byte, .. } = self.clone().port(PortEvent::Read64);
        byte
    }

    pub fn input(&mut self, input: &Input) -> Seen {
        let shown = match input {
            Input::Event(event) => self.event(event),
            Input::Frame(frame) => self.frame(*frame),
            Input::Change(set) => self.change(*set),
            Input::Port(event) => return self.port(*event),
        };
        Seen {
            shown,
            status: self.status(),
            byte: 0,
            interrupt: false,
            fed: false,
        }
    }

    /// Does by the reporting call what an input does, and gives what is reported of it. A change of set
    /// and a port event have no report, and a refused frame feeds nothing that could be told.
    pub fn report_of(&mut self, input: &Input) -> Option<Reported> {
        if matches!(input, Input::Change(_) | Input::Port(_)) {
            self.input(input);
        }
        let event = input.fed()?;
        let mut text = [0; REPORT_LENGTH];
        let refusal = self.report(&event, &mut text);
        Some(Reported { refusal, text })
    }

    /// Does what an input does, and gives what is seen and what is reported of it.
    pub fn seen(&mut self, input: &Input) -> (Seen, Option<Reported>) {
        let reported = self.clone().report_of(input);
        (self.input(input), reported)
    }

    /// A service newly made with the code set and the locks that stand in this one.
    pub fn new_like(&self) -> Image {
        let locks = self.flag_bytes()[0] >> 4;
        Image::new_on(self.set(), locks).expect("there are four locks")
    }

    /// What is shown with this answer where no event is run: flag bytes and `sent` are those of a status
    /// call.
    pub fn standing(&self, ans: u8) -> Outcome {
        Outcome {
            ans,
            word: 0x0000,
            ..self.clone().call(0x02, 0, 0)
        }
    }

    /// What the all-up runs of both ports, E and R leave; gives what this R shows.
    pub fn resynchronise(&mut self) -> Outcome {
        unsafe { xiquepazo_resynchronise(self) }.into()
    }

    /// Flag bytes 17, 18, 96 and 97, as the call for them reads them.
    pub fn flag_bytes(&self) -> [u8; 4] {
        unsafe { xiquepazo_flags(self) }.bytes
    }

    /// The number of the prefix as it stands, in range or not.
    pub fn prefix(&self) -> u8 {
        self.bytes[place::PREFIX_AND_CODES] % HALF
    }

    /// The number of the codes that come as it stands, in range or not.
    pub fn codes(&self) -> u8 {
        self.bytes[place::PREFIX_AND_CODES] / HALF
    }

    /// Puts another number of codes, and leaves that of the prefix.
    pub fn put_codes(&mut self, codes: u8) {
        self.bytes[place::PREFIX_AND_CODES] = prefix_and_codes(self.prefix(), codes);
    }

    /// The set that is read from the number of the codes.
    pub fn set(&self) -> CodeSet {
        match self.codes() {
            codes::SET_2 | codes::SET_2_MARKED => CodeSet::Two,
            _ => CodeSet::One,
        }
    }

    /// The four bytes where the flag bytes stand.
    pub fn first_bytes(&self) -> [u8; 4] {
        let [byte_17, byte_18, byte_96, byte_97, ..] = self.bytes;
        [byte_17, byte_18, byte_96, byte_97]
    }

    /// What stands beside the flag bytes of the two ports.
    pub fn ports(&self) -> Ports {
        Ports {
            prefix_and_codes: self.bytes[place::PREFIX_AND_CODES],
            sum: self.bytes[place::ALT_SUM],
            scanner: self.scanner(),
        }
    }

    /// The numbers of the scanner's port as they stand, in range or not.
    pub fn scanner(&self) -> [u8; SCANNER_LENGTH] {
        let scanner = &self.bytes[place::SCANNER_PREFIX..place::BUFFER];
        scanner.try_into().expect("the controller stands behind it")
    }

    /// Puts another port of the scanner, and leaves all else.
    pub fn put_scanner(&mut self, numbers: [u8; SCANNER_LENGTH]) {
        self.bytes[place::SCANNER_PREFIX..place::BUFFER].copy_from_slice(&numbers);
    }

    /// The numbers of the controller as they stand, in range or not.
    pub fn controller(&self) -> [u8; CONTROLLER_LENGTH] {
        let controller = &self.bytes[place::BUFFER..];
        controller.try_into().expect("it stands last")
    }

    /// Puts another controller, and leaves all else.
    pub fn put_controller(&mut self, numbers: [u8; CONTROLLER_LENGTH]) {
        self.bytes[place::BUFFER..].copy_from_slice(&numbers);
    }

    /// Whether no command runs: one does in phases 1 and 2, and in no other.
    pub fn is_idle(&self) -> bool {
        !matches!(self.bytes[place::PHASE], 1 | 2)
    }

    /// The kind that goes first where both are due, as its number stands on an idle line, in range or not.
    /// While a command runs, no turn is kept.
    pub fn turn(&self) -> Option<u8> {
        self.is_idle().then_some(self.bytes[place::KIND])
    }

    /// Puts another number of the turn on an idle line, and leaves all else.
    pub fn put_turn(&mut self, number: u8) {
        assert!(self.is_idle(), "a turn is kept on an idle line alone");
        self.bytes[place::KIND] = number;
    }
}

/// Numbers of both ports: prefix, codes and Alt sum of the keyboard's, whose other bits are in the flag
/// bytes, and all of the scanner's.
#[derive(Clone, Copy, Debug, PartialEq, Eq)]
pub struct Ports {
    pub prefix_and_codes: u8,
    pub sum: u8,
    pub scanner: [u8; SCANNER_LENGTH],
}

/// The text of a report, and the number that the call for it returned.
#[derive(Clone, Copy, Debug, PartialEq, Eq)]
pub struct Reported {
    pub refusal: u8,
    pub text: [u8; REPORT_LENGTH],
}

/// What stands at a start in a pack: the next start, the event, tag 0 for none, and the refusal.
#[repr(C)]
#[derive(Clone, Copy, Debug, PartialEq, Eq)]
pub struct Reading {
    pub next: usize,
    pub event: Tagged,
    pub refusal: u8,
}

/// Reads one event of a pack.
pub fn read(pack: &[u8], start: usize) -> Reading {
    unsafe { xiquepazo_read(pack.as_ptr(), pack.len(), start) }
}

/// The frame of a byte that is to be sent.
pub fn frame_of(byte: u8) -> u16 {
    unsafe { xiquepazo_frame_of(byte) }
}

impl From<&Event> for Tagged {
    fn from(event: &Event) -> Tagged {
        let operands = match *event {
            Event::Key(byte) | Event::Scan(byte) => [byte, 0, 0],
            Event::Call(function, a, b) => [function, a, b],
            Event::Poll | Event::TimeOut | Event::Empty | Event::Restart => [0; 3],
        };
        let tag = event.tag();
        Tagged { tag, operands }
    }
}

impl From<Shown> for Outcome {
    fn from(shown: Shown) -> Outcome {
        Outcome {
            ans: shown.ans,
            word: shown.word,
            flags: shown.flags.bytes,
            sent: shown.sent,
        }
    }
}

impl From<PortShown> for Seen {
    fn from(shown: PortShown) -> Seen {
        Seen {
            shown: shown.shown.into(),
            status: shown.status,
            byte: shown.byte,
            interrupt: is_on(shown.interrupt),
            fed: is_on(shown.fed),
        }
    }
}

/// The header promises no third number.
fn is_on(number: u8) -> bool {
    assert!(number <= 1, "{number} is neither 0 nor 1");
    number == 1
}
