//! The controller between the keyboard and a program: an output buffer of one byte, read at port 60, and
//! a command byte. Port 64 shows its status and takes its commands.

use crate::answer::{COMMAND_BYTE_NOT_AWAITED, KEYBOARD_BYTE_NOT_TAKEN, UNKNOWN_COMMAND};

/// What the keyboard or a program does at the controller. No pack holds it.
#[derive(Clone, Copy, Debug, PartialEq, Eq)]
pub enum PortEvent {
    /// The keyboard hands over a byte.
    FromKeyboard(u8),
    Read60,
    Read64,
    Write60(u8),
    Write64(u8),
}

/// The commands of port 64.
const READ_COMMAND_BYTE: u8 = 0x20;
const WRITE_COMMAND_BYTE: u8 = 0x60;
const TEST: u8 = 0xAA;
const DISABLE_KEYBOARD: u8 = 0xAD;
const ENABLE_KEYBOARD: u8 = 0xAE;

/// What the test answers.
const TEST_PASSED: u8 = 0x55;

/// The bits of the command byte that do something.
const RAISES_INTERRUPT: u8 = 0x01;
const KEYBOARD_DISABLED: u8 = 0x10;

/// Bits of the status.
const BUFFER_FULL: u8 = 0x01;
const WRITTEN_TO_64: u8 = 0x08;
const ALWAYS_ON: u8 = 0x14;

/// What waits to be read at port 60.
#[derive(Clone, Copy, Debug, PartialEq, Eq)]
pub enum OutputBuffer {
    Empty,
    /// A byte of the keyboard, which the service has yet to be fed.
    Key(u8),
    /// An answer to a command, which is for the program alone.
    Answer(u8),
}

/// What comes of an accepted port event outside of the controller.
#[derive(Clone, Copy, Debug, Default, PartialEq, Eq)]
pub struct Effect {
    /// The byte read; 0 where nothing is.
    pub byte: u8,
    /// Interrupt 1 is raised.
    pub interrupt: bool,
    /// The byte read is the keyboard's, and goes to the service.
    pub fed: bool,
}

impl Effect {
    fn read(byte: u8) -> Effect {
        Effect {
            byte,
            ..Effect::default()
        }
    }
}

#[derive(Clone, Copy, Debug, PartialEq, Eq)]
pub struct Controller {
    command_byte: u8,
    buffer: OutputBuffer,
    /// Read last at port 60, and read there again while the buffer is empty.
    last_byte: u8,
    /// The next write to port 60 is the command byte.
    awaits_command_byte: bool,
    /// The last write that was accepted went to port 64.
    written_to_64: bool,
}

impl Controller {
    pub const fn new() -> Controller {
        Controller {
            command_byte: RAISES_INTERRUPT,
            buffer: OutputBuffer::Empty,
            last_byte: 0x00,
            awaits_command_byte: false,
            written_to_64: false,
        }
    }

    pub fn command_byte(&self) -> u8 {
        self.command_byte
    }

    pub fn buffer(&self) -> OutputBuffer {
        self.buffer
    }

    pub fn last_byte(&self) -> u8 {
        self.last_byte
    }

    pub fn awaits_command_byte(&self) -> bool {
        self.awaits_command_byte
    }

    pub fn status(&self) -> u8 {
        let full = if self.is_full() { BUFFER_FULL } else { 0 };
        let written = if self.written_to_64 { WRITTEN_TO_64 } else { 0 };
        ALWAYS_ON | full | written
    }

    /// The number of the refusal where nothing is done.
    pub fn port_event(&mut self, event: PortEvent) -> Result<Effect, u8> {
        match event {
            PortEvent::FromKeyboard(byte) => self.take_key(byte),
            PortEvent::Read60 => Ok(self.read_buffer()),
            PortEvent::Read64 => Ok(Effect::read(self.status())),
            PortEvent::Write60(byte) => self.take_command_byte(byte),
            PortEvent::Write64(command) => self.take_command(command),
        }
    }

    fn is_full(&self) -> bool {
        self.buffer != OutputBuffer::Empty
    }

    fn take_key(&mut self, byte: u8) -> Result<Effect, u8> {
        if self.is_full() || self.command_byte & KEYBOARD_DISABLED != 0 {
            return Err(KEYBOARD_BYTE_NOT_TAKEN);
        }
        self.buffer = OutputBuffer::Key(byte);
        Ok(Effect {
            interrupt: self.command_byte & RAISES_INTERRUPT != 0,
            ..Effect::default()
        })
    }

    fn read_buffer(&mut self) -> Effect {
        if let OutputBuffer::Key(byte) | OutputBuffer::Answer(byte) = self.buffer {
            self.last_byte = byte;
        }
        let fed = matches!(self.buffer, OutputBuffer::Key(_));
        self.buffer = OutputBuffer::Empty;
        Effect {
            fed,
            ..Effect::read(self.last_byte)
        }
    }

    fn take_command_byte(&mut self, byte: u8) -> Result<Effect, u8> {
        if !self.awaits_command_byte {
            return Err(COMMAND_BYTE_NOT_AWAITED);
        }
        self.command_byte = byte;
        self.awaits_command_byte = false;
        self.written_to_64 = false;
        Ok(Effect::default())
    }

    /// An answer takes the place of a key that was not read yet, which is lost.
    fn take_command(&mut self, command: u8) -> Result<Effect, u8> {
        match command {
            READ_COMMAND_BYTE => self.buffer = OutputBuffer::Answer(self.command_byte),
            TEST => self.buffer = OutputBuffer::Answer(TEST_PASSED),
            DISABLE_KEYBOARD => self.command_byte |= KEYBOARD_DISABLED,
            ENABLE_KEYBOARD => self.command_byte &= !KEYBOARD_DISABLED,
            WRITE_COMMAND_BYTE => {}
            _ => return Err(UNKNOWN_COMMAND),
        }
        self.awaits_command_byte = command == WRITE_COMMAND_BYTE;
        self.written_to_64 = true;
        Ok(Effect::default())
    }
}

impl Default for Controller {
    fn default() -> Controller {
        Controller::new()
    }
}
