//! What was captured at the ports of a real machine, by the lines of its files in ports/, and where that
//! machine does otherwise than the service.

mod difference;
mod machine;
mod replay;
mod words;

pub use difference::Difference;
pub use replay::{Counts, Replay};

use machine::{Held, Machine, Sent};

/// A line of a capture. Bytes are as they stood at the ports.
#[derive(Clone, Debug, PartialEq, Eq)]
pub enum Line {
    Read60(u8),
    Read64(u8),
    Write60(u8),
    Write64(u8),
    /// A byte of the keyboard came to stand at port 60.
    Key(u8),
    /// The keyboard could not hand this byte over yet.
    Kept(u8),
    /// A byte of the mouse came to stand at port 60.
    Mouse(u8),
    Interrupt,
    /// A function of int 16h and what it returned.
    Returned(u8, u16),
    /// The four flag bytes, which have changed.
    Flags([u8; 4]),
    /// A byte that a terminal made of what was typed.
    Text(u8),
    /// What is typed from here on.
    Stroke(String),
    /// What the strokes from here on are about.
    Heading(String),
}

/// The lines behind the comment at the top.
pub fn lines(capture: &str) -> Vec<Line> {
    let lines = capture.lines();
    lines
        .skip_while(|line| line.starts_with('#'))
        .map(line)
        .collect()
}

fn line(text: &str) -> Line {
    let (name, rest) = text.split_once(' ').unwrap_or((text, ""));
    let byte = || number(rest) as u8;
    match name {
        "r60" => Line::Read60(byte()),
        "r64" => Line::Read64(byte()),
        "w60" => Line::Write60(byte()),
        "w64" => Line::Write64(byte()),
        "key" => Line::Key(byte()),
        "kept" => Line::Kept(byte()),
        "mouse" => Line::Mouse(byte()),
        "irq1" => Line::Interrupt,
        "int16" => {
            let (function, word) = rest.split_once(' ').expect("a function and a word");
            Line::Returned(number(function) as u8, number(word) as u16)
        }
        "flags" => Line::Flags(number(rest).to_be_bytes()),
        "text" => Line::Text(byte()),
        "#" => Line::Stroke(rest.to_string()),
        "##" => Line::Heading(rest.to_string()),
        _ => panic!("no line is written {text}"),
    }
}

fn number(digits: &str) -> u32 {
    u32::from_str_radix(digits, 16).expect("the digits are hexadecimal")
}
