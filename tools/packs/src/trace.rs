//! A trace read back: five lines an event, and two that close it.

use crate::answer::Answer;
use crate::flags;
use crate::lines::{Fault, Lines};

/// What the trace shows of one event.
#[derive(Debug, PartialEq, Eq)]
pub struct Report {
    pub tag: char,
    pub answer: Answer,
    pub word: u16,
    /// Flag bytes 17, 18, 96 and 97 after the event.
    pub flags: [u8; 4],
    pub sent: u8,
}

#[derive(Debug, PartialEq, Eq)]
pub struct Trace {
    pub reports: Vec<Report>,
    pub end: usize,
    pub refused: u8,
}

pub fn read(text: &str) -> Result<Trace, Fault> {
    let mut lines = Lines::new(text);
    let mut reports = Vec::new();
    while !lines.next_is("end") {
        reports.push(report(&mut lines)?);
    }
    let end = lines.hexadecimal("end", 4)? as usize;
    let refused = lines.digit("refused", "0678")?;
    lines.close()?;
    Ok(Trace {
        reports,
        end,
        refused,
    })
}

/// The five lines of an event; none may contradict those before it.
fn report(lines: &mut Lines) -> Result<Report, Fault> {
    let tag = lines.value("ev", "one of K, S, C, P, T, E, R", tag)?;
    let ans = lines.hexadecimal("ans", 2)? as u8;
    let Some(answer) = Answer::of(tag, ans) else {
        return lines.fault(format!("no event {tag} is answered by {ans:02X}"));
    };
    let word = lines.hexadecimal("word", 4)? as u16;
    if !answer.has_word(word) {
        return lines.fault(format!("no answer {ans:02X} has the word {word:04X}"));
    }
    let flags = lines.hexadecimal("flags", 8)?.to_be_bytes();
    if !flags::can_be(flags) {
        return lines.fault("a bit is set that stands for nothing".to_string());
    }
    let sent = lines.digit("sent", "0123456")?;
    Ok(Report {
        tag,
        answer,
        word,
        flags,
        sent,
    })
}

fn tag(value: &str) -> Option<char> {
    let tags = ['K', 'S', 'C', 'P', 'T', 'E', 'R'];
    tags.into_iter().find(|&tag| value.chars().eq([tag]))
}

#[cfg(test)]
mod tests {
    use super::*;

    const TEXT: &str = "ev=P\nans=0C\nword=00ED\nflags=00000040\nsent=1\nend=0001\nrefused=0\n";

    #[test]
    fn reads_each_value() {
        let report = Report {
            tag: 'P',
            answer: Answer::of('P', 0x0C).unwrap(),
            word: 0x00ED,
            flags: [0x00, 0x00, 0x00, 0x40],
            sent: 1,
        };
        let trace = Trace {
            reports: vec![report],
            end: 1,
            refused: 0,
        };
        assert_eq!(read(TEXT), Ok(trace));
    }

    #[test]
    fn a_line_that_cannot_be_is_told_with_its_number() {
        let cases = [
            ("ev=P", "ev=p", 1),
            ("ev=P", "ev=K", 2),
            ("ev=P", "ev=S", 2),
            ("ans=0C", "ans=0D", 3),
            ("ans=0C", "ans=0F", 2),
            ("word=00ED", "word=01ED", 3),
            ("word=00ED", "word=00eD", 3),
            ("flags=00000040", "flags=00000048", 4),
            ("flags=00000040", "flags=0000004", 4),
            ("sent=1", "sent=7", 5),
            ("end=0001", "end=1", 6),
            ("end=0001", "ends=0001", 6),
            ("refused=0", "refused=5", 7),
            ("refused=0\n", "refused=0", 7),
            ("refused=0\n", "refused=0\n\n", 8),
            ("end=0001\nrefused=0\n", "", 6),
        ];
        for (old, new, line) in cases {
            let fault = read(&TEXT.replace(old, new)).unwrap_err();
            assert_eq!(fault.line, line, "{old} {new}: {fault}");
        }
    }
}
