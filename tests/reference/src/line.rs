//! The line to the keyboard: lamp and rate commands of two bytes, each byte answered.

use crate::answer::{self, Answer};

const SET_LAMPS: u8 = 0xED;
const SET_RATE: u8 = 0xF3;
const ACKNOWLEDGED: u8 = 0xFA;

/// Bits of flag byte 97 above the last value done.
const ACKNOWLEDGE_TAKEN: u8 = 0x10;
const RESEND_TAKEN: u8 = 0x20;
const LAMPS_RUN: u8 = 0x40;
const GAVE_UP: u8 = 0x80;

/// Sends that one byte of a command may take.
const SENDS_PER_BYTE: u8 = 3;

/// What goes first where a lamp value and a rate could both start.
#[derive(Clone, Copy, Debug, PartialEq, Eq, Hash)]
enum Turn {
    Lamps,
    Rate,
}

/// A running command.
#[derive(Clone, Debug, PartialEq, Eq, Hash)]
struct Command {
    first: u8,
    operand: u8,
    /// The operand is the byte to send, or sent.
    at_operand: bool,
    /// Sends of the present byte.
    tries: u8,
    /// Sends of the whole command.
    sent: u8,
    awaits: bool,
}

impl Command {
    fn new(first: u8, operand: u8) -> Command {
        Command {
            first,
            operand,
            at_operand: false,
            tries: 0,
            sent: 0,
            awaits: false,
        }
    }

    fn send(&mut self) -> u8 {
        self.tries += 1;
        self.sent += 1;
        self.awaits = true;
        if self.at_operand {
            self.operand
        } else {
            self.first
        }
    }

    fn is_lamps(&self) -> bool {
        self.first == SET_LAMPS
    }
}

#[derive(Clone, Debug, PartialEq, Eq, Hash)]
pub struct Line {
    command: Option<Command>,
    turn: Turn,
    /// The operand of a rate that waits for an idle line.
    waiting_rate: Option<u8>,
    /// The lamp value last done or given up.
    handled: Option<u8>,
    /// The lamp value last done, as flag byte 97 shows it.
    done: u8,
    /// The bits of replies taken and of giving up, as flag byte 97 shows them.
    marks: u8,
}

impl Line {
    pub const fn new() -> Line {
        Line {
            command: None,
            turn: Turn::Lamps,
            waiting_rate: None,
            handled: None,
            done: 0,
            marks: 0,
        }
    }

    /// Bytes sent by the running command; 0 without one.
    pub fn sent(&self) -> u8 {
        self.command.as_ref().map_or(0, |command| command.sent)
    }

    pub fn byte_97(&self) -> u8 {
        let lamps_run = self.command.as_ref().is_some_and(Command::is_lamps);
        self.done | self.marks | if lamps_run { LAMPS_RUN } else { 0 }
    }

    /// Lets a rate wait, in place of one that waits already.
    pub fn wait_rate(&mut self, delay: u8, rate: u8) {
        self.waiting_rate = Some(32 * delay + rate);
    }

    pub fn poll(&mut self, lamps: u8) -> Answer {
        if self.command.is_none() {
            self.command = self.next_command(lamps);
            if self.command.is_some() {
                self.marks &= !GAVE_UP;
            }
        }
        match &mut self.command {
            Some(command) if !command.awaits => {
                self.marks &= !(ACKNOWLEDGE_TAKEN | RESEND_TAKEN);
                Answer::with_word(answer::BYTE_TO_SEND, u16::from(command.send()))
            }
            _ => Answer::plain(answer::NOTHING_TO_SEND),
        }
    }

    /// A lamp value that is due, or a waiting rate; where both are there, the one whose turn it is. The
    /// start passes the turn, so it does not matter how the command ends. A rate taken up waits no longer.
    fn next_command(&mut self, lamps: u8) -> Option<Command> {
        let lamps_due = self.handled != Some(lamps);
        let rate_goes_first = self.turn == Turn::Rate && self.waiting_rate.is_some();
        if lamps_due && !rate_goes_first {
            self.turn = Turn::Rate;
            return Some(Command::new(SET_LAMPS, lamps));
        }
        let operand = self.waiting_rate.take()?;
        self.turn = Turn::Lamps;
        Some(Command::new(SET_RATE, operand))
    }

    /// A reply byte from the keyboard.
    pub fn reply(&mut self, byte: u8) -> Answer {
        if !self.awaits() {
            return Answer::plain(answer::IGNORED);
        }
        if byte == ACKNOWLEDGED {
            self.marks |= ACKNOWLEDGE_TAKEN;
            self.acknowledge();
            return Answer::plain(answer::REPLY_TAKEN);
        }
        self.marks |= RESEND_TAKEN;
        self.fail(answer::REPLY_TAKEN)
    }

    pub fn time_out(&mut self) -> Answer {
        if !self.awaits() {
            return Answer::plain(answer::IGNORED);
        }
        self.fail(answer::DONE)
    }

    fn awaits(&self) -> bool {
        self.command.as_ref().is_some_and(|command| command.awaits)
    }

    /// Goes on to the operand, or ends the command as done.
    fn acknowledge(&mut self) {
        let Some(command) = &mut self.command else {
            return;
        };
        if !command.at_operand {
            command.at_operand = true;
            command.tries = 0;
            command.awaits = false;
            return;
        }
        if command.is_lamps() {
            self.done = command.operand;
            self.handled = Some(command.operand);
        }
        self.command = None;
    }

    /// The byte is sent again, with answer `resent`, unless it had its last send.
    fn fail(&mut self, resent: u8) -> Answer {
        let Some(command) = &mut self.command else {
            return Answer::plain(answer::IGNORED);
        };
        command.awaits = false;
        if command.tries < SENDS_PER_BYTE {
            return Answer::plain(resent);
        }
        if command.is_lamps() {
            self.handled = Some(command.operand);
        }
        self.marks |= GAVE_UP;
        self.command = None;
        Answer::plain(answer::GIVEN_UP)
    }
}

impl Default for Line {
    fn default() -> Line {
        Line::new()
    }
}
