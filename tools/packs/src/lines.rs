//! Lines of the form `name=value`, taken one by one and counted.

use std::fmt;

/// A line that cannot stand where it stands.
#[derive(Debug, PartialEq, Eq)]
pub struct Fault {
    pub line: usize,
    pub message: String,
}

impl fmt::Display for Fault {
    fn fmt(&self, out: &mut fmt::Formatter) -> fmt::Result {
        write!(out, "line {} of the trace: {}", self.line, self.message)
    }
}

pub struct Lines<'a> {
    /// What was not taken yet.
    rest: &'a str,
    /// The number of the line taken last, from 1; 0 before the first.
    line: usize,
}

impl<'a> Lines<'a> {
    pub fn new(text: &'a str) -> Lines<'a> {
        Lines {
            rest: text,
            line: 0,
        }
    }

    /// Whether a line of this name comes next.
    pub fn next_is(&self, name: &str) -> bool {
        let after = self.rest.strip_prefix(name);
        after.is_some_and(|after| after.starts_with('='))
    }

    /// Takes the line that must come next, and hands its value on if `read` knows it.
    pub fn value<T>(
        &mut self,
        name: &str,
        expected: &str,
        read: impl Fn(&str) -> Option<T>,
    ) -> Result<T, Fault> {
        self.line += 1;
        if self.rest.is_empty() {
            return self.fault(format!("the trace ends before its line {name}="));
        }
        let Some((line, rest)) = self.rest.split_once('\n') else {
            return self.fault(format!("{:?} has no line end", self.rest));
        };
        self.rest = rest;
        let value = line
            .strip_prefix(name)
            .and_then(|value| value.strip_prefix('='));
        match value.and_then(read) {
            Some(value) => Ok(value),
            None => self.fault(format!("{line:?} is not {name}= and {expected}")),
        }
    }

    /// A value of so many hexadecimal digits, in upper case.
    pub fn hexadecimal(&mut self, name: &str, digits: usize) -> Result<u32, Fault> {
        let expected = format!("{digits} hexadecimal digits");
        self.value(name, &expected, |value| {
            let upper = |digit: u8| matches!(digit, b'0'..=b'9' | b'A'..=b'F');
            let fits = value.len() == digits && value.bytes().all(upper);
            fits.then(|| u32::from_str_radix(value, 16).ok())?
        })
    }

    /// A value of one digit, one of these.
    pub fn digit(&mut self, name: &str, digits: &str) -> Result<u8, Fault> {
        let expected = format!("one of {digits}");
        self.value(name, &expected, |value| {
            let fits = value.len() == 1 && digits.contains(value);
            fits.then(|| value.parse().ok())?
        })
    }

    /// Nothing may be left.
    pub fn close(mut self) -> Result<(), Fault> {
        self.line += 1;
        match self.rest {
            "" => Ok(()),
            _ => self.fault("the trace goes on behind its last line".to_string()),
        }
    }

    /// A complaint about the line taken last.
    pub fn fault<T>(&self, message: String) -> Result<T, Fault> {
        let line = self.line;
        Err(Fault { line, message })
    }
}

#[cfg(test)]
mod tests {
    use super::*;

    #[test]
    fn values_are_taken_in_order() {
        let mut lines = Lines::new("flags=020000FF\nsent=6\nend=");
        assert!(lines.next_is("flags"));
        assert!(!lines.next_is("flag"));
        assert_eq!(lines.hexadecimal("flags", 8), Ok(0x0200_00FF));
        assert_eq!(lines.digit("sent", "0123456"), Ok(6));
        assert!(lines.next_is("end"));
        assert_eq!(lines.close().unwrap_err().line, 3);
        assert_eq!(Lines::new("").close(), Ok(()));
    }

    #[test]
    fn other_lines_are_told() {
        for text in [
            "ans=0a\n",
            "ans=+A\n",
            "ans=00\r\n",
            "ans=0\n",
            "ans 00\n",
            "Ans=00\n",
        ] {
            let fault = Lines::new(text).hexadecimal("ans", 2).unwrap_err();
            assert_eq!(fault.line, 1);
            assert!(fault
                .message
                .ends_with("is not ans= and 2 hexadecimal digits"));
        }
        for text in ["sent=7\n", "sent=\n", "sent=12\n", "sent=é\n"] {
            let fault = Lines::new(text).digit("sent", "0123456").unwrap_err();
            assert!(fault.message.ends_with("is not sent= and one of 0123456"));
        }
    }

    #[test]
    fn a_line_has_an_end() {
        let ends = |text| Lines::new(text).hexadecimal("ans", 2).unwrap_err().message;
        assert_eq!(ends(""), "the trace ends before its line ans=");
        assert_eq!(ends("ans=00"), "\"ans=00\" has no line end");
    }
}
