//! The code set of the keyboard. A controller chip would bring set 2 to set 1; where a board has none,
//! it is done here.

/// The codes that a keyboard sends.
#[derive(Clone, Copy, Debug, PartialEq, Eq)]
pub enum CodeSet {
    One,
    Two,
}

pub const CODE_SETS: [CodeSet; 2] = [CodeSet::One, CodeSet::Two];

/// Comes on set 2 before the code of a key that went up.
pub const MARK: u8 = 0xF0;

/// The bit that tells a break from its make on set 1.
pub const BREAK: u8 = 0x80;

/// Set 1 codes for the codes 00 to 7F of set 2. The first stands for an overrun, not for a key.
const TABLE: [u8; 128] = [
    0xFF, 0x43, 0x41, 0x3F, 0x3D, 0x3B, 0x3C, 0x58, 0x64, 0x44, 0x42, 0x40, 0x3E, 0x0F, 0x29, 0x59,
    0x65, 0x38, 0x2A, 0x70, 0x1D, 0x10, 0x02, 0x5A, 0x66, 0x71, 0x2C, 0x1F, 0x1E, 0x11, 0x03, 0x5B,
    0x67, 0x2E, 0x2D, 0x20, 0x12, 0x05, 0x04, 0x5C, 0x68, 0x39, 0x2F, 0x21, 0x14, 0x13, 0x06, 0x5D,
    0x69, 0x31, 0x30, 0x23, 0x22, 0x15, 0x07, 0x5E, 0x6A, 0x72, 0x32, 0x24, 0x16, 0x08, 0x09, 0x5F,
    0x6B, 0x33, 0x25, 0x17, 0x18, 0x0B, 0x0A, 0x60, 0x6C, 0x34, 0x35, 0x26, 0x27, 0x19, 0x0C, 0x61,
    0x6D, 0x73, 0x28, 0x74, 0x1A, 0x0D, 0x62, 0x6E, 0x3A, 0x36, 0x1C, 0x1B, 0x75, 0x2B, 0x63, 0x76,
    0x55, 0x56, 0x77, 0x78, 0x79, 0x7A, 0x0E, 0x7B, 0x7C, 0x4F, 0x7D, 0x4B, 0x47, 0x7E, 0x7F, 0x6F,
    0x52, 0x53, 0x50, 0x4C, 0x4D, 0x48, 0x01, 0x45, 0x57, 0x4E, 0x51, 0x4A, 0x37, 0x49, 0x46, 0x54,
];

/// The set 1 code for a code of set 2 that no mark came before.
pub const fn translated(code: u8) -> u8 {
    match code {
        0x00..=0x7F => TABLE[code as usize],
        0x83 => 0x41,
        0x84 => 0x54,
        _ => code,
    }
}

/// How the keyboard's next byte is to be taken.
#[derive(Clone, Copy, Debug, PartialEq, Eq)]
pub enum Translation {
    SetOne,
    SetTwo,
    /// Set 2, and the next code is a break.
    SetTwoMarked,
}

impl Translation {
    /// For a keyboard of this set, with no mark open.
    pub const fn new(set: CodeSet) -> Translation {
        match set {
            CodeSet::One => Translation::SetOne,
            CodeSet::Two => Translation::SetTwo,
        }
    }

    pub fn set(self) -> CodeSet {
        match self {
            Translation::SetOne => CodeSet::One,
            Translation::SetTwo | Translation::SetTwoMarked => CodeSet::Two,
        }
    }

    /// The set 1 byte that this byte of the keyboard stands for; none for a mark.
    pub fn read(&mut self, byte: u8) -> Option<u8> {
        let (next, read) = match (*self, byte) {
            (Translation::SetOne, _) => (Translation::SetOne, Some(byte)),
            (_, MARK) => (Translation::SetTwoMarked, None),
            // Replies come between the bytes of a key, and are no codes.
            (same, 0xFA | 0xFE) => (same, Some(byte)),
            (_, 0xE0 | 0xE1) => (Translation::SetTwo, Some(byte)),
            (Translation::SetTwo, code) => (Translation::SetTwo, Some(translated(code))),
            (Translation::SetTwoMarked, code) => {
                (Translation::SetTwo, Some(translated(code) | BREAK))
            }
        };
        *self = next;
        read
    }
}
