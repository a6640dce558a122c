//! Writes events into a pack, by name.

use crate::pack::{Device, Event};
use crate::queue::CAPACITY;

/// Breaks of every key that has a state, and a space typed.
pub const ALL_UP_RUN: [u8; 16] = [
    0xB9, 0xAA, 0xB6, 0x9D, 0xE0, 0x9D, 0xB8, 0xE0, 0xB8, 0xBA, 0xC5, 0xC6, 0xD2, 0xD4, 0x39, 0xB9,
];

/// Makes of the six modifiers, E0 codes as E0xx.
pub const MODIFIERS: [u16; 6] = [0x2A, 0x36, 0x1D, 0x38, 0xE01D, 0xE038];

pub const LEFT_SHIFT: u8 = 0x01;
pub const LEFT_CTRL: u8 = 0x04;
pub const LEFT_ALT: u8 = 0x08;
pub const RIGHT_CTRL: u8 = 0x10;
pub const RIGHT_ALT: u8 = 0x20;

/// Makes of the lock keys in the order of the lock bits.
pub const LOCK_KEYS: [u8; 4] = [0x46, 0x45, 0x3A, 0x52];

/// Makes of F11 and F12, whose words are enhanced under every modifier.
pub const ENHANCED_KEYS: [u8; 2] = [0x57, 0x58];

pub const PAUSE: [u8; 3] = [0xE1, 0x1D, 0x45];

/// Every byte as a code, by itself and after E0.
pub fn all_codes() -> impl Iterator<Item = u16> {
    (0x00..=0xFF).chain(0xE000..=0xE0FF)
}

#[derive(Default)]
pub struct Writer {
    bytes: Vec<u8>,
    /// Where keys come in.
    device: Device,
}

impl Writer {
    pub fn new() -> Writer {
        Writer::default()
    }

    pub fn into_bytes(self) -> Vec<u8> {
        self.bytes
    }

    pub fn event(&mut self, event: Event) -> &mut Writer {
        event.write(&mut self.bytes);
        self
    }

    pub fn events(&mut self, events: &[Event]) -> &mut Writer {
        for &event in events {
            self.event(event);
        }
        self
    }

    /// Keys come in here from now on; before, it is the keyboard's port.
    pub fn at(&mut self, device: Device) -> &mut Writer {
        self.device = device;
        self
    }

    pub fn key(&mut self, byte: u8) -> &mut Writer {
        self.event(self.device.event(byte))
    }

    pub fn keys(&mut self, bytes: &[u8]) -> &mut Writer {
        for &byte in bytes {
            self.key(byte);
        }
        self
    }

    /// A code with its E0 if it has one.
    pub fn code(&mut self, code: u16) -> &mut Writer {
        if code >= 0xE000 {
            self.key(0xE0);
        }
        self.key(code as u8)
    }

    pub fn call(&mut self, function: u8, a: u8, b: u8) -> &mut Writer {
        self.event(Event::Call(function, a, b))
    }

    pub fn poll(&mut self) -> &mut Writer {
        self.event(Event::Poll)
    }

    /// Takes a word from the queue.
    pub fn take(&mut self) -> &mut Writer {
        self.call(0x00, 0, 0)
    }

    /// Puts the six modifiers down or up as the bits say.
    pub fn modifiers(&mut self, down: u8) -> &mut Writer {
        for (place, &make) in MODIFIERS.iter().enumerate() {
            let up = if down >> place & 1 == 1 { 0 } else { 0x80 };
            self.code(make | up);
        }
        self
    }

    /// Toggles the locks of these bits from a state with Num off and all keys up.
    /// Insert comes first: with Num on its key types a digit.
    pub fn toggle_locks(&mut self, locks: u8) -> &mut Writer {
        for place in [3, 0, 1, 2] {
            if locks >> place & 1 == 1 {
                let make = LOCK_KEYS[place];
                self.keys(&[make, make | 0x80]);
            }
        }
        self.event(Event::Empty)
    }

    /// Brings all but the locks and the other port back to the state of a new service.
    pub fn all_up(&mut self) -> &mut Writer {
        self.keys(&ALL_UP_RUN);
        self.events(&[Event::Empty, Event::Restart])
    }

    /// The same for both ports; keys come in at the keyboard's port afterwards.
    pub fn both_up(&mut self) -> &mut Writer {
        self.at(Device::Scanner).keys(&ALL_UP_RUN);
        self.at(Device::Keyboard).all_up()
    }

    /// Brings the line to a handled value with nothing to send.
    pub fn settle_line(&mut self) -> &mut Writer {
        let acknowledged = [Event::Poll, Event::Key(0xFA)];
        self.events(&acknowledged).events(&acknowledged)
    }

    /// Fills the queue with so many words, each another letter.
    pub fn fill(&mut self, words: usize) -> &mut Writer {
        for place in 0..words {
            self.key(0x10 + (place % 10) as u8);
        }
        self
    }

    /// Takes every word until none is left, enhanced ones too.
    pub fn drain_enhanced(&mut self) -> &mut Writer {
        for _ in 0..=CAPACITY {
            self.call(0x10, 0, 0);
        }
        self
    }

    /// Takes words until none is left, looking at each before it goes.
    pub fn drain(&mut self) -> &mut Writer {
        for place in 0..17 {
            let new = if place % 2 == 0 { 0x00 } else { 0x10 };
            self.call(new + 1, 0, 0).call(new, 0, 0);
        }
        self
    }
}
