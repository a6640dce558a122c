//! Modifier and held bits of one port's keys, kept where the flag bytes 17, 18 and 96 show those of
//! the keyboard.

/// Bits of byte 17. Ctrl and Alt are not stored there: they follow from the left and right keys.
pub const RIGHT_SHIFT: u8 = 0x01;
pub const LEFT_SHIFT: u8 = 0x02;
pub const CTRL: u8 = 0x04;
pub const ALT: u8 = 0x08;
pub const SCROLL: u8 = 0x10;
pub const NUM: u8 = 0x20;
pub const CAPS: u8 = 0x40;
pub const INSERT: u8 = 0x80;

/// Bits of byte 18. A lock's held bit has the lock's own place in byte 17.
pub const LEFT_CTRL: u8 = 0x01;
pub const LEFT_ALT: u8 = 0x02;
pub const SYSREQ_HELD: u8 = 0x04;
pub const PAUSED: u8 = 0x08;

/// Bits of byte 96 that belong to keys.
pub const RIGHT_CTRL: u8 = 0x04;
pub const RIGHT_ALT: u8 = 0x08;

/// Which keys of one port are down, as far as anything depends on it.
#[derive(Clone, Copy, Debug, PartialEq, Eq)]
pub struct Keys {
    /// Shift keys, as in byte 17.
    shifts: u8,
    /// Left Ctrl and left Alt, SysReq, and the keys of the locks, as in byte 18.
    held: u8,
    /// Right Ctrl and right Alt, as in byte 96.
    right: u8,
}

impl Keys {
    pub const fn all_up() -> Keys {
        Keys {
            shifts: 0,
            held: 0,
            right: 0,
        }
    }

    /// All of byte 17 but the locks.
    pub fn byte_17(&self) -> u8 {
        let ctrl = if self.ctrl() { CTRL } else { 0 };
        let alt = if self.alt() { ALT } else { 0 };
        self.shifts | ctrl | alt
    }

    /// All of byte 18 but the pause.
    pub fn byte_18(&self) -> u8 {
        self.held
    }

    /// All of byte 96 but the prefix.
    pub fn byte_96(&self) -> u8 {
        self.right
    }

    /// High byte of the extended status.
    pub fn extended_status(&self) -> u8 {
        let left = self.held & (LEFT_CTRL | LEFT_ALT);
        let locks_held = self.held & (SCROLL | NUM | CAPS);
        let sysreq = (self.held & SYSREQ_HELD) << 5;
        left | self.right | locks_held | sysreq
    }

    pub fn shift(&self) -> bool {
        self.shifts != 0
    }

    pub fn ctrl(&self) -> bool {
        self.held & LEFT_CTRL != 0 || self.right & RIGHT_CTRL != 0
    }

    pub fn alt(&self) -> bool {
        self.held & LEFT_ALT != 0 || self.right & RIGHT_ALT != 0
    }

    /// Sets or clears the key that `code` names by its make, E0 codes as E0xx.
    /// False if the key has no bit of its own.
    pub fn assign(&mut self, code: u16, down: bool) -> bool {
        let (byte, bit) = match code {
            0x2A => (&mut self.shifts, LEFT_SHIFT),
            0x36 => (&mut self.shifts, RIGHT_SHIFT),
            0x1D => (&mut self.held, LEFT_CTRL),
            0x38 => (&mut self.held, LEFT_ALT),
            0xE01D => (&mut self.right, RIGHT_CTRL),
            0xE038 => (&mut self.right, RIGHT_ALT),
            0x54 => (&mut self.held, SYSREQ_HELD),
            _ => return false,
        };
        if down {
            *byte |= bit;
        } else {
            *byte &= !bit;
        }
        true
    }

    /// Holds the key of a lock; false if it was held already, as when its make repeats.
    pub fn hold(&mut self, lock: u8) -> bool {
        let was_up = self.held & lock == 0;
        self.held |= lock;
        was_up
    }

    pub fn let_go(&mut self, lock: u8) {
        self.held &= !lock;
    }
}
