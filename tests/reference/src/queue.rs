//! The queue of words that wait for the program.

pub const CAPACITY: usize = 15;

/// A ring one slot wider than the queue, so that places wrap by a mask.
const SLOTS: usize = 16;

/// A high byte of 85 or more over a low byte of 00.
pub fn is_enhanced(word: u16) -> bool {
    word >= 0x8500 && word & 0xFF == 0
}

/// A stored word as 00 and 01 return it: programs that call these know the grey keys by the words of
/// the keys that have the same codes without E0. In 00E0 the low byte is a character.
pub fn as_an_old_program_sees(word: u16) -> u16 {
    match word {
        0xE00D => 0x1C0D,
        0xE00A => 0x1C0A,
        0xE02F => 0x352F,
        0x0100.. if word & 0xFF == 0xE0 => word & 0xFF00,
        _ => word,
    }
}

#[derive(Clone, Debug)]
pub struct Queue {
    slots: [u16; SLOTS],
    head: usize,
    count: usize,
}

impl Queue {
    pub const fn new() -> Queue {
        Queue {
            slots: [0; SLOTS],
            head: 0,
            count: 0,
        }
    }

    pub fn is_full(&self) -> bool {
        self.count == CAPACITY
    }

    /// Puts a word behind the others; false, and no change, on a full queue.
    pub fn put(&mut self, word: u16) -> bool {
        if self.is_full() {
            return false;
        }
        self.slots[(self.head + self.count) % SLOTS] = word;
        self.count += 1;
        true
    }

    pub fn oldest(&self) -> Option<u16> {
        (self.count > 0).then(|| self.slots[self.head])
    }

    pub fn take(&mut self) -> Option<u16> {
        let word = self.oldest()?;
        self.head = (self.head + 1) % SLOTS;
        self.count -= 1;
        Some(word)
    }

    /// Removes the words that only the enhanced functions show, up to the first that all may see.
    pub fn drop_enhanced(&mut self) {
        while self.oldest().is_some_and(is_enhanced) {
            self.take();
        }
    }

    pub fn empty(&mut self) {
        self.count = 0;
    }

    /// The words from the oldest to the newest.
    pub fn words(&self) -> impl Iterator<Item = u16> + '_ {
        (0..self.count).map(|place| self.slots[(self.head + place) % SLOTS])
    }
}

impl Default for Queue {
    fn default() -> Queue {
        Queue::new()
    }
}

/// Equal words in equal order; where the ring happens to stand is not seen.
impl PartialEq for Queue {
    fn eq(&self, other: &Queue) -> bool {
        self.words().eq(other.words())
    }
}

impl Eq for Queue {}

#[cfg(test)]
mod tests {
    use super::*;

    #[test]
    fn tells_enhanced_words_by_both_bytes() {
        for word in [0x8500, 0x8600, 0x8C00, 0xE000, 0xFF00] {
            assert!(is_enhanced(word), "{word:04X}");
        }
        for word in [0x0000, 0x8400, 0x84FF, 0x8501, 0x85E0, 0xFF01] {
            assert!(!is_enhanced(word), "{word:04X}");
        }
    }

    #[test]
    fn old_programs_see_the_words_they_know() {
        let seen = [
            (0x47E0, 0x4700),
            (0x84E0, 0x8400),
            (0x01E0, 0x0100),
            (0x85E0, 0x8500),
            (0xE0E0, 0xE000),
            (0xFFE0, 0xFF00),
            (0xE00D, 0x1C0D),
            (0xE00A, 0x1C0A),
            (0xE02F, 0x352F),
            (0x00E0, 0x00E0),
            (0xE000, 0xE000),
            (0xE01C, 0xE01C),
            (0x1C0D, 0x1C0D),
            (0x352F, 0x352F),
        ];
        for (word, expected) in seen {
            assert_eq!(as_an_old_program_sees(word), expected, "{word:04X}");
        }
    }

    /// One word for each high byte but 00, and those of two keys.
    #[test]
    fn old_programs_see_other_words_as_they_are() {
        let differs = |&word: &u16| as_an_old_program_sees(word) != word;
        let converted: Vec<u16> = (0..=u16::MAX).filter(differs).collect();
        let mut expected: Vec<u16> = (0x01..=0xFF).map(|high| high << 8 | 0xE0).collect();
        expected.extend([0xE00A, 0xE00D, 0xE02F]);
        expected.sort();
        assert_eq!(converted, expected);
    }

    #[test]
    fn drops_only_before_the_first_other_word() {
        let mut queue = Queue::new();
        for word in [0x8500, 0xFF00, 0x1E61, 0x8600] {
            queue.put(word);
        }
        queue.drop_enhanced();
        assert!(queue.words().eq([0x1E61, 0x8600]));
        queue.take();
        queue.drop_enhanced();
        assert_eq!(queue.oldest(), None);
    }
}
