//! The captured controller and its keyboard, as far as it takes to say why a line differs.

use super::Difference;
use std::collections::VecDeque;

/// What stands in the captured controller's buffer.
#[derive(Clone, Copy, Debug, PartialEq, Eq)]
pub enum Held {
    Key,
    /// A reply of the keyboard, and the answer with which the service is to meet it.
    Reply(u8),
    /// To 20 or AA.
    Answer,
    AnswerOfTheLineTest,
    ByteBehindD3,
    ReplyOfTheMouse,
}

impl Held {
    /// The bits of the status that tell of it.
    pub fn status(self) -> u8 {
        match self {
            Held::Key | Held::Reply(_) | Held::Answer | Held::AnswerOfTheLineTest => 0x01,
            Held::ByteBehindD3 | Held::ReplyOfTheMouse => 0x21,
        }
    }

    /// Why the service's buffer is empty meanwhile, in its status and where it is read; none where it
    /// holds the same.
    pub fn differences(self) -> Option<(Difference, Difference)> {
        match self {
            Held::Key | Held::Reply(_) | Held::Answer => None,
            Held::AnswerOfTheLineTest => Some((
                Difference::StatusOfTheLineTest,
                Difference::AnswerOfTheLineTest,
            )),
            Held::ByteBehindD3 => Some((Difference::StatusOfTheMouse, Difference::ByteBehindD3)),
            Held::ReplyOfTheMouse => {
                Some((Difference::StatusOfTheMouse, Difference::ReplyOfTheMouse))
            }
        }
    }
}

/// What becomes of a write to port 60.
#[derive(Clone, Copy, Debug, PartialEq, Eq)]
pub enum Sent {
    CommandByte,
    ToTheMouse,
    ToTheKeyboard(Difference),
}

#[derive(Default)]
pub struct Machine {
    pub held: Option<Held>,
    pub self_tested: bool,
    /// A8 came behind the last command byte.
    pub mouse_opened: bool,
    /// The command that takes the next write to port 60.
    awaits: Option<u8>,
    /// What the keyboard has yet to reply, and the answers with which the service is to meet it.
    owed: VecDeque<(u8, u8)>,
    /// The last byte that went to the keyboard.
    last_sent: u8,
}

/// Answers of the service.
const NOTHING: u8 = 0x00;
const WORD_PUT: u8 = 0x01;
const TAKEN: u8 = 0x06;
const IGNORED: u8 = 0x07;

impl Machine {
    /// A byte of the keyboard comes to stand at port 60: its replies first.
    pub fn key(&mut self, byte: u8) {
        assert_eq!(self.held, None);
        self.held = Some(match self.owed.pop_front() {
            None => Held::Key,
            Some((reply, answer)) => {
                assert_eq!(byte, reply);
                Held::Reply(answer)
            }
        });
    }

    pub fn write_64(&mut self, command: u8) {
        self.awaits = matches!(command, 0x60 | 0xD3 | 0xD4).then_some(command);
        match command {
            0x20 => self.held = Some(Held::Answer),
            0xAA => {
                self.held = Some(Held::Answer);
                self.self_tested = true;
            }
            0xAB => self.held = Some(Held::AnswerOfTheLineTest),
            0xA8 => self.mouse_opened = true,
            _ => {}
        }
    }

    pub fn write_60(&mut self, byte: u8) -> Sent {
        match self.awaits.take() {
            Some(0x60) => {
                self.mouse_opened = false;
                Sent::CommandByte
            }
            Some(0xD3) => {
                self.held = Some(Held::ByteBehindD3);
                Sent::ToTheMouse
            }
            Some(_) => Sent::ToTheMouse,
            None => Sent::ToTheKeyboard(self.send(byte)),
        }
    }

    /// What a byte is to the keyboard, which replies to it. Lamps and rate the service sends by itself, so
    /// it takes the replies to these.
    fn send(&mut self, byte: u8) -> Difference {
        let operand_of = std::mem::replace(&mut self.last_sent, byte);
        let (difference, replies): (Difference, &[(u8, u8)]) = match (operand_of, byte) {
            (0xED, _) | (_, 0xED) => (Difference::SetsLamps, &[(0xFA, TAKEN)]),
            (0xF3, _) | (_, 0xF3) => (Difference::SetsRate, &[(0xFA, TAKEN)]),
            (_, 0xFF) => (
                Difference::StartsTheKeyboard,
                &[(0xFA, IGNORED), (0xAA, NOTHING)],
            ),
            (_, 0xF0 | 0xF4 | 0xF5) | (0xF0, 0x02) => {
                (Difference::StartsTheKeyboard, &[(0xFA, IGNORED)])
            }
            (_, 0xF2) => (
                Difference::AsksWhoItIs,
                &[(0xFA, IGNORED), (0xAB, NOTHING), (0x41, WORD_PUT)],
            ),
            _ => panic!("{byte:02X} is no command of the keyboard"),
        };
        self.owed.extend(replies);
        difference
    }

    pub fn owes_nothing(&self) -> bool {
        self.owed.is_empty()
    }
}
