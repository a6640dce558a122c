//! The text form of a pack: a name and its bytes on each line, `#` before a comment.

use crate::form::Form;
use crate::layout::MAXIMUM_PACK;
use std::fmt;

/// What cannot be read, and where. Lines and columns are counted from 1, columns in characters.
#[derive(Debug, PartialEq, Eq)]
pub struct Fault {
    pub line: usize,
    pub column: usize,
    pub message: String,
}

impl fmt::Display for Fault {
    fn fmt(&self, out: &mut fmt::Formatter) -> fmt::Result {
        write!(out, "line {}, column {}: ", self.line, self.column)?;
        out.write_str(&self.message)
    }
}

/// A word of a line and the column where it begins.
struct Word<'a> {
    column: usize,
    text: &'a str,
}

impl Word<'_> {
    /// The word as a column to complain about.
    fn fault<T>(&self, message: String) -> Result<T, (usize, String)> {
        Err((self.column, message))
    }
}

/// The pack that a text stands for.
pub fn write(text: &str) -> Result<Vec<u8>, Fault> {
    let mut pack = Vec::new();
    for (place, line) in text.lines().enumerate() {
        append(&mut pack, &words(line)).map_err(|(column, message)| Fault {
            line: place + 1,
            column,
            message,
        })?;
    }
    Ok(pack)
}

/// The words of a line in front of its comment.
fn words(line: &str) -> Vec<Word<'_>> {
    let code = line.split('#').next().unwrap_or_default();
    let mut words = Vec::new();
    let mut column = 1;
    for text in code.split(char::is_whitespace) {
        if !text.is_empty() {
            words.push(Word { column, text });
        }
        column += text.chars().count() + 1;
    }
    words
}

/// Appends the events of one line; what cannot be read is given with its column.
fn append(pack: &mut Vec<u8>, words: &[Word]) -> Result<(), (usize, String)> {
    let Some((name, operands)) = words.split_first() else {
        return Ok(());
    };
    let Some(form) = Form::named(name.text) else {
        return name.fault(format!("no event is called {:?}", name.text));
    };
    let (least, most) = form.operands().into_inner();
    if operands.len() < least {
        return name.fault(format!("{} needs a byte behind it", name.text));
    }
    if let Some(operand) = operands.get(most) {
        return operand.fault(format!("{} takes {most} bytes and no more", name.text));
    }
    let bytes: Result<Vec<u8>, _> = operands.iter().map(byte).collect();
    pack.extend(form.encode(&bytes?));
    if pack.len() > MAXIMUM_PACK {
        return name.fault("the pack grows beyond 32,768 bytes here".to_string());
    }
    Ok(())
}

fn byte(word: &Word) -> Result<u8, (usize, String)> {
    let hexadecimal = word.text.bytes().all(|digit| digit.is_ascii_hexdigit());
    match u8::from_str_radix(word.text, 16) {
        Ok(byte) if hexadecimal && word.text.len() == 2 => Ok(byte),
        _ => word.fault(format!(
            "{:?} is no byte of two hexadecimal digits",
            word.text
        )),
    }
}

#[cfg(test)]
mod tests {
    use super::*;

    fn place(text: &str) -> (usize, usize) {
        let fault = write(text).unwrap_err();
        (fault.line, fault.column)
    }

    #[test]
    fn lines_become_events() {
        let text = "# Shift and A\nkey 2A 1e\t9E # A\n\n  call 05 1E 61\r\ncall 02\npoll\n";
        assert_eq!(
            write(text).unwrap(),
            b"K\x2AK\x1EK\x9EC\x05\x1E\x61C\x02\x00\x00P"
        );
        assert_eq!(write("").unwrap(), b"");
        assert_eq!(write("restart#").unwrap(), b"R");
    }

    #[test]
    fn faults_have_their_place() {
        assert_eq!(place("poll\n  keys 1E"), (2, 3));
        assert_eq!(place("key"), (1, 1));
        assert_eq!(place("# é\n\nkey 1E é9"), (3, 8));
        assert_eq!(place("key 1E\t1"), (1, 8));
        assert_eq!(place("key 01E"), (1, 5));
        assert_eq!(place("key +1"), (1, 5));
        assert_eq!(place("call"), (1, 1));
        assert_eq!(place("call 05 1E 61 00"), (1, 15));
        assert_eq!(place("poll poll"), (1, 6));
        assert_eq!(place("bytes  # none"), (1, 1));
    }

    #[test]
    fn columns_are_characters() {
        assert_eq!(place("\u{A0}\u{A0}kéy 1E"), (1, 3));
        assert_eq!(place("key é"), (1, 5));
    }

    #[test]
    fn a_pack_has_its_limit() {
        let full = "poll\n".repeat(MAXIMUM_PACK);
        assert_eq!(write(&full).unwrap().len(), MAXIMUM_PACK);
        assert_eq!(place(&(full + "  empty")), (MAXIMUM_PACK + 1, 3));
        let keys = "key".to_string() + &" 1E".repeat(MAXIMUM_PACK / 2 + 1);
        assert_eq!(place(&keys), (1, 1));
    }

    #[test]
    fn a_fault_is_told_in_one_line() {
        let fault = write("poll\nkey 2A XY").unwrap_err();
        let told = "line 2, column 8: \"XY\" is no byte of two hexadecimal digits";
        assert_eq!(fault.to_string(), told);
    }
}
