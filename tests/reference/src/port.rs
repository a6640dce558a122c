//! A port: what belongs to the keys of one device alone, and what a byte from this device does.

use crate::answer::{self, Answer};
use crate::flags::{self, Keys};
use crate::prefix::{Meaning, Prefix};
use crate::rows::{self, Row};
use crate::shared::Shared;

#[derive(Clone, Copy, Debug, PartialEq, Eq)]
pub struct Port {
    prefix: Prefix,
    keys: Keys,
    /// The number typed on the keypad under Alt.
    alt_sum: u8,
}

impl Port {
    pub const fn new() -> Port {
        Port {
            prefix: Prefix::Closed,
            keys: Keys::all_up(),
            alt_sum: 0,
        }
    }

    pub fn prefix(&self) -> Prefix {
        self.prefix
    }

    pub fn keys(&self) -> &Keys {
        &self.keys
    }

    /// The number typed so far under Alt; 0 whenever no Alt is down.
    pub fn alt_sum(&self) -> u8 {
        self.alt_sum
    }

    /// Steps 2 and 3: overruns and prefixes. Replies, step 1, do not come here: they are for the line.
    pub fn read(&mut self, byte: u8, shared: &mut Shared) -> Answer {
        if matches!(byte, 0x00 | 0xFF) {
            self.prefix = Prefix::Closed;
            return Answer::plain(answer::OVERRUN);
        }
        match self.prefix.read(byte) {
            Meaning::Swallowed => {}
            Meaning::Pause => shared.pause(),
            Meaning::Code(code) if code & 0x80 == 0 => return self.make(code, shared),
            Meaning::Code(code) => return self.release(code & !0x80, shared),
        }
        Answer::plain(answer::NOTHING)
    }

    /// Step 4 for makes; a make with a row goes on. The Shifts after E0 have neither bit nor row.
    fn make(&mut self, code: u16, shared: &mut Shared) -> Answer {
        if self.keys.assign(code, true) {
            return Answer::plain(answer::NOTHING);
        }
        if let Some(lock) = lock_of(code) {
            self.press_lock(lock, shared);
            return Answer::plain(answer::NOTHING);
        }
        match rows::row(code) {
            Some(row) => self.press(code, row, shared),
            None => Answer::plain(answer::NOTHING),
        }
    }

    /// Step 4 for breaks, named by their make.
    fn release(&mut self, code: u16, shared: &mut Shared) -> Answer {
        if self.keys.assign(code, false) {
            let last_alt = matches!(code, 0x38 | 0xE038) && !self.keys.alt();
            if last_alt && self.alt_sum > 0 {
                return self.put_alt_sum(shared);
            }
            return Answer::plain(answer::NOTHING);
        }
        let lock = match code {
            0x52 | 0xE052 => Some(flags::INSERT),
            _ => lock_of(code),
        };
        if let Some(lock) = lock {
            self.keys.let_go(lock);
        }
        Answer::plain(answer::NOTHING)
    }

    fn put_alt_sum(&mut self, shared: &mut Shared) -> Answer {
        let word = u16::from(self.alt_sum);
        self.alt_sum = 0;
        shared.put(word)
    }

    /// A lock turns once until its key is released here; the other port's key may turn it meanwhile.
    fn press_lock(&mut self, lock: u8, shared: &mut Shared) {
        if self.keys.hold(lock) {
            shared.toggle(lock);
        }
    }

    /// Steps 5 to 8 for a make with a row.
    fn press(&mut self, code: u16, row: &Row, shared: &mut Shared) -> Answer {
        let alt = self.keys.alt();
        if matches!(code, 0x53 | 0xE053) && alt && self.keys.ctrl() {
            return Answer::plain(answer::RESTART_ASKED);
        }
        if shared.end_pause() {
            return Answer::plain(answer::NOTHING);
        }
        if alt {
            if let Some(digit) = keypad_digit(code) {
                self.alt_sum = self.alt_sum.wrapping_mul(10).wrapping_add(digit);
                return Answer::plain(answer::NOTHING);
            }
        }
        self.alt_sum = 0;
        if code == 0xE046 {
            return shared.put_break();
        }
        self.put_from(code, row, shared)
    }

    /// Step 9, and the toggling of Insert.
    fn put_from(&mut self, code: u16, row: &Row, shared: &mut Shared) -> Answer {
        let Some(word) = row.words[self.column(row, shared)] else {
            return Answer::plain(answer::NOTHING);
        };
        if matches!(code, 0x52 | 0xE052) && matches!(word, 0x5200 | 0x52E0) {
            self.press_lock(flags::INSERT, shared);
        }
        shared.put(word)
    }

    fn column(&self, row: &Row, shared: &Shared) -> usize {
        if self.keys.alt() {
            rows::ALT
        } else if self.keys.ctrl() {
            rows::CTRL
        } else if self.keys.shift() != shared.locked(row.lock) {
            rows::SHIFT
        } else {
            rows::PLAIN
        }
    }
}

impl Default for Port {
    fn default() -> Port {
        Port::new()
    }
}

/// The lock that a make toggles by itself.
fn lock_of(code: u16) -> Option<u8> {
    match code {
        0x3A => Some(flags::CAPS),
        0x45 => Some(flags::NUM),
        0x46 => Some(flags::SCROLL),
        _ => None,
    }
}

/// The digit on a keypad key.
fn keypad_digit(code: u16) -> Option<u8> {
    match code {
        0x52 => Some(0),
        0x4F..=0x51 => Some((code - 0x4F) as u8 + 1),
        0x4B..=0x4D => Some((code - 0x4B) as u8 + 4),
        0x47..=0x49 => Some((code - 0x47) as u8 + 7),
        _ => None,
    }
}
