//! The open prefix and what a byte means under it.

/// How far a prefix has been read.
#[derive(Clone, Copy, Debug, PartialEq, Eq)]
pub enum Prefix {
    Closed,
    E0,
    E1,
    E1Then1D,
    E1Then9D,
}

/// What a byte turned out to be.
#[derive(Clone, Copy, Debug, PartialEq, Eq)]
pub enum Meaning {
    /// Part of a prefix, or the end of the string that does nothing.
    Swallowed,
    /// The end of the Pause string.
    Pause,
    /// A code by itself as 00xx, or after E0 as E0xx.
    Code(u16),
}

impl Prefix {
    /// Reads one byte other than a reply or an overrun.
    pub fn read(&mut self, byte: u8) -> Meaning {
        let (next, meaning) = match (*self, byte) {
            (Prefix::E1, 0x1D) => (Prefix::E1Then1D, Meaning::Swallowed),
            (Prefix::E1, 0x9D) => (Prefix::E1Then9D, Meaning::Swallowed),
            (Prefix::E1Then1D, 0x45) => (Prefix::Closed, Meaning::Pause),
            (Prefix::E1Then9D, 0xC5) => (Prefix::Closed, Meaning::Swallowed),
            (_, 0xE0) => (Prefix::E0, Meaning::Swallowed),
            (_, 0xE1) => (Prefix::E1, Meaning::Swallowed),
            (Prefix::E0, code) => (Prefix::Closed, Meaning::Code(0xE000 | u16::from(code))),
            (_, code) => (Prefix::Closed, Meaning::Code(u16::from(code))),
        };
        *self = next;
        meaning
    }

    /// The prefix bits of flag byte 96.
    pub fn bits(self) -> u8 {
        match self {
            Prefix::Closed => 0x00,
            Prefix::E0 => 0x02,
            Prefix::E1 | Prefix::E1Then1D | Prefix::E1Then9D => 0x01,
        }
    }
}
