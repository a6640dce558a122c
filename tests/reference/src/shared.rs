//! What the keys of both ports act on: the locks, the pause and the queue.

use crate::answer::{self, Answer};
use crate::flags::PAUSED;
use crate::queue::Queue;

#[derive(Clone, Debug, PartialEq, Eq)]
pub struct Shared {
    /// The four locks, as in byte 17.
    locks: u8,
    paused: bool,
    pub queue: Queue,
}

impl Shared {
    /// No pause and no word, with the four lock bits in the low half of `locks`.
    pub const fn new(locks: u8) -> Shared {
        Shared {
            locks: locks << 4,
            paused: false,
            queue: Queue::new(),
        }
    }

    /// The locks in their places of byte 17.
    pub fn byte_17(&self) -> u8 {
        self.locks
    }

    /// The pause in its place of byte 18.
    pub fn byte_18(&self) -> u8 {
        if self.paused {
            PAUSED
        } else {
            0
        }
    }

    /// Scroll, Num and Caps as the keyboard's lamps take them.
    pub fn lamps(&self) -> u8 {
        (self.locks >> 4) & 0x07
    }

    /// Whether any of the given lock bits is on; no bit, no lock.
    pub fn locked(&self, locks: u8) -> bool {
        self.locks & locks != 0
    }

    pub fn toggle(&mut self, lock: u8) {
        self.locks ^= lock;
    }

    pub fn pause(&mut self) {
        self.paused = true;
    }

    /// Whether there was a pause to end.
    pub fn end_pause(&mut self) -> bool {
        std::mem::take(&mut self.paused)
    }

    /// A word from a key, which a full queue drops.
    pub fn put(&mut self, word: u16) -> Answer {
        let number = if self.queue.put(word) {
            answer::WORD_PUT
        } else {
            answer::WORD_DROPPED
        };
        Answer::with_word(number, word)
    }

    /// All words are gone but that of the break.
    pub fn put_break(&mut self) -> Answer {
        self.queue.empty();
        self.queue.put(0x0000);
        Answer::plain(answer::BREAK)
    }
}
