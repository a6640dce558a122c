//! Numbers of the answers and of the refusals.

pub const NOTHING: u8 = 0x00;
pub const WORD_PUT: u8 = 0x01;
pub const WORD_DROPPED: u8 = 0x02;
pub const BREAK: u8 = 0x03;
pub const RESTART_ASKED: u8 = 0x04;
pub const OVERRUN: u8 = 0x05;
pub const REPLY_TAKEN: u8 = 0x06;
pub const IGNORED: u8 = 0x07;
pub const WORD_RETURNED: u8 = 0x08;
pub const NO_WORD: u8 = 0x09;
pub const STATUS: u8 = 0x0A;
pub const DONE: u8 = 0x0B;
pub const BYTE_TO_SEND: u8 = 0x0C;
pub const NOTHING_TO_SEND: u8 = 0x0D;
pub const GIVEN_UP: u8 = 0x0E;

/// Added to the number of a refused call.
pub const REFUSED: u8 = 0x80;

pub const LOCKS_TOO_LARGE: u8 = 1;
pub const UNKNOWN_FUNCTION: u8 = 2;
pub const DELAY_TOO_LARGE: u8 = 3;
pub const RATE_TOO_LARGE: u8 = 4;
pub const QUEUE_FULL: u8 = 5;
pub const UNKNOWN_TAG: u8 = 6;
pub const EVENT_CUT_SHORT: u8 = 7;
pub const PACK_TOO_LONG: u8 = 8;
pub const BUFFER_TOO_SHORT: u8 = 9;
pub const START_BEYOND_PACK: u8 = 10;
/// Also for a number that has more bits than a frame.
pub const BAD_START_BIT: u8 = 11;
pub const BAD_PARITY_BIT: u8 = 12;
pub const BAD_STOP_BIT: u8 = 13;
/// The buffer is full, or the keyboard disabled.
pub const KEYBOARD_BYTE_NOT_TAKEN: u8 = 14;
pub const UNKNOWN_COMMAND: u8 = 15;
pub const COMMAND_BYTE_NOT_AWAITED: u8 = 16;

/// What an event answers: the number and the word shown with it.
#[derive(Clone, Copy, Debug, PartialEq, Eq)]
pub struct Answer {
    pub number: u8,
    pub word: u16,
}

impl Answer {
    pub const fn plain(number: u8) -> Answer {
        Answer { number, word: 0 }
    }

    pub const fn with_word(number: u8, word: u16) -> Answer {
        Answer { number, word }
    }

    pub const fn refused(refusal: u8) -> Answer {
        Answer::plain(REFUSED + refusal)
    }
}
