//! The text reported for each event, and for a whole pack.

use crate::pack::{read_event, Event};
use crate::service::{Outcome, Service};

pub const REPORT_LENGTH: usize = 44;

const TEMPLATE: [u8; REPORT_LENGTH] = *b"ev= \nans=  \nword=    \nflags=        \nsent= \n";

/// Where the values stand in the template.
const TAG: usize = 3;
const ANSWER: usize = 9;
const WORD: usize = 17;
const FLAGS: usize = 28;
const SENT: usize = 42;

/// The five lines of one event.
pub fn report(event: &Event, outcome: &Outcome) -> [u8; REPORT_LENGTH] {
    let mut text = TEMPLATE;
    text[TAG] = event.tag();
    write_hex(&mut text, ANSWER, &[outcome.ans]);
    write_hex(&mut text, WORD, &outcome.word.to_be_bytes());
    write_hex(&mut text, FLAGS, &outcome.flags);
    text[SENT] = b'0' + outcome.sent;
    text
}

fn write_hex(text: &mut [u8], start: usize, bytes: &[u8]) {
    const DIGITS: &[u8; 16] = b"0123456789ABCDEF";
    for (pair, byte) in text[start..].chunks_exact_mut(2).zip(bytes) {
        pair[0] = DIGITS[usize::from(byte >> 4)];
        pair[1] = DIGITS[usize::from(byte & 0x0F)];
    }
}

/// All that the trace program prints for a pack, from a service with no lock on.
pub fn trace(pack: &[u8]) -> Vec<u8> {
    let mut text = Vec::with_capacity(REPORT_LENGTH * (pack.len() + 1));
    let mut service = Service::unlocked();
    let mut start = 0;
    let refusal = loop {
        match read_event(pack, start) {
            Ok(Some((event, next))) => {
                text.extend_from_slice(&report(&event, &service.event(&event)));
                start = next;
            }
            Ok(None) => break 0,
            Err(refusal) => break refusal,
        }
    };
    text.extend_from_slice(format!("end={start:04X}\nrefused={refusal}\n").as_bytes());
    text
}

#[cfg(test)]
mod tests {
    use super::*;

    #[test]
    fn writes_each_value_in_its_place() {
        let outcome = Outcome {
            ans: 0x0C,
            word: 0x12AB,
            flags: [0x34, 0x56, 0x78, 0x9A],
            sent: 6,
        };
        for (event, tag) in [(Event::Poll, 'P'), (Event::Scan(0x1E), 'S')] {
            let text = report(&event, &outcome);
            let expected = format!("ev={tag}\nans=0C\nword=12AB\nflags=3456789A\nsent=6\n");
            assert_eq!(text, expected.as_bytes());
        }
    }

    #[test]
    fn ends_where_the_pack_is_refused() {
        assert_eq!(trace(b""), b"end=0000\nrefused=0\n");
        assert_eq!(trace(b"x"), b"end=0000\nrefused=6\n");
        assert_eq!(trace(b"S"), b"end=0000\nrefused=7\n");
        assert!(trace(b"PC\x05\x00").ends_with(b"sent=1\nend=0001\nrefused=7\n"));
        assert!(trace(&[b'P'; 32_768]).ends_with(b"end=8000\nrefused=0\n"));
        assert_eq!(trace(&[b'P'; 32_769]), b"end=0000\nrefused=8\n");
    }
}
