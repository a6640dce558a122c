//! What programs were told of the keys: words, flag bytes, and what a terminal made of them.

use super::{Difference, Replay};
use reference::Event::Call;

const SCROLL_LOCK: u8 = 0x10;
const ENHANCED_KEYBOARD: u8 = 0x10;
const ACKNOWLEDGED: u8 = 0x10;
const LAMPS: u8 = 0x07;

/// Answers of the service.
const RETURNED: u8 = 0x08;
const NO_WORD: u8 = 0x09;
const STATUS: u8 = 0x0A;
const DONE: u8 = 0x0B;

impl Replay {
    /// The boot sector, ports/sector.s, asked the BIOS for this function.
    pub(super) fn call(&mut self, function: u8, word: u16) {
        match function {
            // AX is as it was. The BIOS sends nothing of it, so the service is to have nothing to send.
            0x03 => {
                assert_eq!(word, 0x0305);
                assert_eq!(self.asked(Call(0x03, 0x01, 0x0B)).ans, DONE);
                self.count(Difference::NoFunction03);
            }
            // AL is 00 where there was room.
            0x05 => {
                assert_eq!(word, 0x0500);
                assert_eq!(self.event(Call(0x05, 0x2C, 0x7A)).ans, DONE);
            }
            _ => {
                let shown = self.event(Call(function, 0, 0));
                let due = if function == 0x12 { STATUS } else { RETURNED };
                if (shown.ans, shown.word) != (due, word) {
                    let difference = self.own_answer(function, word, (shown.ans, shown.word));
                    self.count(difference);
                }
            }
        }
    }

    fn own_answer(&self, function: u8, word: u16, answer: (u8, u16)) -> Difference {
        assert!(self.in_its_own_way);
        match (self.stroke.as_str(), function, word, answer) {
            ("f11", 0x00, 0x8500, (NO_WORD, 0)) => Difference::OldProgramSeesF11,
            ("-ctrl", 0x12, 0x0400, (STATUS, 0x0404)) => Difference::OneCtrlForBoth,
            ("c", 0x10 | 0x11, 0x2E63, (RETURNED, 0x2E03)) => Difference::OneCtrlForBoth,
            // It ended the pause.
            ("a", 0x10 | 0x11, 0x1E61, (NO_WORD, 0)) => Difference::NoPause,
            _ => panic!("function {function:02X} returned {word:04X}, the service {answer:X?}"),
        }
    }

    /// All four as they are told.
    pub(super) fn compare_told_flags(&mut self, told: [u8; 4]) {
        self.flags = Some(told);
        let [.., byte_96, byte_97] = told;
        assert_eq!(byte_96 & ENHANCED_KEYBOARD, ENHANCED_KEYBOARD);
        self.count(Difference::EnhancedKeyboard);
        assert_eq!(byte_97 & !LAMPS, 0);
        let [.., of_service] = self.pair.image.flag_bytes();
        match of_service & !LAMPS {
            0 => {}
            ACKNOWLEDGED => self.count(Difference::Acknowledged),
            _ => panic!("byte 97 is {byte_97:02X}, of the service {of_service:02X}"),
        }
        self.compare_standing_flags();
    }

    /// What was told last still stands, but for the bits in which every telling differs.
    pub(super) fn compare_standing_flags(&mut self) {
        let Some([byte_17, byte_18, byte_96, byte_97]) = self.flags else {
            return;
        };
        let told = [byte_17, byte_18, byte_96 & !ENHANCED_KEYBOARD, byte_97];
        let mut flags = self.pair.image.flag_bytes();
        flags[3] &= LAMPS;
        let mut differing = told;
        for (byte, flags) in differing.iter_mut().zip(flags) {
            *byte ^= flags;
        }
        if differing != [0; 4] {
            assert!(
                self.in_its_own_way,
                "{told:02X?}, of the service {flags:02X?}"
            );
            self.count(own_flags(differing));
        }
    }

    /// The boot sector took all words that were put, unless Scroll Lock held it; so did the terminal.
    pub(super) fn end_stroke(&mut self) {
        let Some([byte_17, ..]) = self.flags else {
            return self.compare_text();
        };
        let left = self.asked(Call(0x11, 0, 0));
        if byte_17 & SCROLL_LOCK == 0 && left.ans != NO_WORD {
            assert!(self.in_its_own_way);
            assert_eq!((self.stroke.as_str(), left.word), ("-alt", 0x0041));
            self.count(Difference::NoAltNumber);
        }
    }

    fn compare_text(&mut self) {
        let take = || Some(self.event(Call(0x10, 0, 0)));
        let returned = std::iter::from_fn(take).take_while(|shown| shown.ans == RETURNED);
        let words: Vec<u16> = returned.map(|shown| shown.word).collect();
        let text = std::mem::take(&mut self.text);
        let characters: Vec<u8> = words.iter().map(|&word| word as u8).collect();
        if characters == text {
            return;
        }
        let difference = match (self.stroke.as_str(), &words[..], &text[..]) {
            ("", [0x4100], []) => Difference::WordOfAReply,
            ("up", [0x48E0], [0x1B, 0x5B, ..]) => Difference::TerminalString,
            ("f11", [0x8500], [0x1B, 0x5B, ..]) => Difference::TerminalString,
            ("home", [0x47E0], [0x1B, 0x5B, ..]) => Difference::TerminalString,
            ("pause", [], [0x1B, 0x5B, ..]) => Difference::TerminalString,
            ("print", [], [0x1C]) => Difference::TerminalPrint,
            (stroke, ..) => panic!("{stroke}: {text:02X?}, of the service {words:04X?}"),
        };
        self.count(difference);
    }
}

/// By the flags that are on at one side only.
fn own_flags(differing: [u8; 4]) -> Difference {
    match differing {
        [0x04, 0x00, 0x00, 0x00] => Difference::OneCtrlForBoth,
        [0x00, 0x04, 0x00, 0x00] => Difference::NoSystemRequest,
        [0x00, 0x08, 0x00, 0x00] => Difference::NoPause,
        [0x80, 0x80, 0x00, 0x00] | [0x80, 0x00, 0x00, 0x00] | [0x00, 0x80, 0x00, 0x00] => {
            Difference::NoInsert
        }
        _ => panic!("flags differ in {differing:02X?}"),
    }
}
