//! Lists written as words: `K1E` is a byte of the keyboard and `S1E` one of the scanner, `C12` a function
//! with the bytes 00 and 00, `C030102` one with other bytes, `P`, `T`, `E` and `R` are themselves,
//! `frame=624` is a frame by its number, and `set=2` a change of set. At the controller, `key=1E` is a byte
//! of the keyboard, `r60` and `r64` are reads, and `w60=01` and `w64=AA` writes.

use crate::controller::PortEvent;
use crate::input::Input;
use crate::pack::Event;
use crate::translation::CodeSet;
use crate::vectors::from_hex;

pub fn inputs(text: &str) -> Vec<Input> {
    text.split_whitespace().map(input).collect()
}

/// A list of what a pack can hold.
pub fn events(text: &str) -> Vec<Event> {
    text.split_whitespace().map(event).collect()
}

fn input(word: &str) -> Input {
    let (name, digits) = word.split_once('=').unwrap_or((word, ""));
    let byte = || number(digits) as u8;
    match name {
        "frame" => Input::Frame(number(digits)),
        "set" => Input::Change(set(digits)),
        "key" => Input::Port(PortEvent::FromKeyboard(byte())),
        "r60" => Input::Port(PortEvent::Read60),
        "r64" => Input::Port(PortEvent::Read64),
        "w60" => Input::Port(PortEvent::Write60(byte())),
        "w64" => Input::Port(PortEvent::Write64(byte())),
        _ => Input::Event(event(word)),
    }
}

fn set(digit: &str) -> CodeSet {
    match digit {
        "1" => CodeSet::One,
        "2" => CodeSet::Two,
        _ => panic!("no set is written {digit}"),
    }
}

fn event(word: &str) -> Event {
    let (tag, digits) = word.split_at(1);
    let byte = || number(digits) as u8;
    match tag {
        "K" => Event::Key(byte()),
        "S" => Event::Scan(byte()),
        "C" => call(word, &from_hex(digits)),
        "P" => Event::Poll,
        "T" => Event::TimeOut,
        "E" => Event::Empty,
        "R" => Event::Restart,
        _ => panic!("no event is written {word}"),
    }
}

fn call(word: &str, bytes: &[u8]) -> Event {
    match *bytes {
        [function] => Event::Call(function, 0x00, 0x00),
        [function, a, b] => Event::Call(function, a, b),
        _ => panic!("no event is written {word}"),
    }
}

fn number(digits: &str) -> u16 {
    u16::from_str_radix(digits, 16).expect("the digits are hexadecimal")
}

#[cfg(test)]
mod tests {
    use super::*;

    #[test]
    fn each_word_is_read() {
        let expected = [
            Event::Key(0x1E),
            Event::Scan(0xFA),
            Event::Call(0x12, 0, 0),
            Event::Call(0x03, 1, 2),
            Event::Poll,
            Event::TimeOut,
            Event::Empty,
            Event::Restart,
        ];
        assert_eq!(events("K1E SFA C12 C030102 P T E R"), expected);
        let expected = [
            Input::Change(CodeSet::One),
            Input::Change(CodeSet::Two),
            Input::Frame(0x624),
            Input::Event(Event::Key(0x1E)),
        ];
        assert_eq!(inputs("set=1 set=2 frame=624 K1E"), expected);
        let expected = [
            PortEvent::FromKeyboard(0x1E),
            PortEvent::Read60,
            PortEvent::Read64,
            PortEvent::Write60(0x01),
            PortEvent::Write64(0xAA),
        ];
        let expected = expected.map(Input::Port);
        assert_eq!(inputs("key=1E r60 r64 w60=01 w64=AA"), expected);
    }
}
