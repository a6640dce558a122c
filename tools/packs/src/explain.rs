//! The trace of a pack in words, one line an event.

use crate::fit::check;
use crate::flags::changes;
use crate::layout::{layout, Event, EVENT_CUT_SHORT, PACK_TOO_LONG, UNKNOWN_TAG};
use crate::line::{lamps, line};
use crate::trace::{read, Report, Trace};

/// What stands in each column.
struct Row<'a> {
    offset: &'a str,
    tag: &'a str,
    bytes: &'a str,
    happened: &'a str,
    lamps: &'a str,
    line: &'a str,
    changes: &'a str,
}

const HEADING: Row = Row {
    offset: "at",
    tag: "ev",
    bytes: "bytes",
    happened: "what happened",
    lamps: "lamps",
    line: "line",
    changes: "flags that changed",
};

impl Row<'_> {
    fn text(&self) -> String {
        let text = format!(
            "{:<4}  {:<2} {:<11}  {:<29}  {:<5}  {:<20}  {}",
            self.offset, self.tag, self.bytes, self.happened, self.lamps, self.line, self.changes
        );
        text.trim_end().to_string() + "\n"
    }
}

/// Explains a trace if it fits the pack; else says where it does not.
pub fn explain(pack: &[u8], trace: &str) -> Result<String, String> {
    let layout = layout(pack);
    let trace = read(trace).map_err(|fault| fault.to_string())?;
    check(&layout, &trace)?;
    let mut text = HEADING.text();
    // The flag bytes of a new service with no lock on.
    let mut flags = [0; 4];
    for (event, report) in layout.events.iter().zip(&trace.reports) {
        text += &explained(event, report, flags);
        flags = report.flags;
    }
    Ok(text + &closing(pack, &trace))
}

fn explained(event: &Event, report: &Report, before: [u8; 4]) -> String {
    let byte_97 = report.flags[3];
    let row = Row {
        offset: &format!("{:04X}", event.offset),
        tag: &report.tag.to_string(),
        bytes: &digits(event.bytes),
        happened: &report.answer.told(report.word),
        lamps: &lamps(byte_97),
        line: &line(byte_97, report.sent),
        changes: &changes(before, report.flags),
    };
    row.text()
}

fn digits(bytes: &[u8]) -> String {
    let digits: Vec<String> = bytes.iter().map(|byte| format!("{byte:02X}")).collect();
    digits.join(" ")
}

/// Where the trace ends, and why.
fn closing(pack: &[u8], trace: &Trace) -> String {
    let rest = &pack[trace.end..];
    let why = match trace.refused {
        UNKNOWN_TAG => format!("refused 6: {:02X} begins no event", rest[0]),
        EVENT_CUT_SHORT => format!("refused 7: the pack ends within the event {}", digits(rest)),
        PACK_TOO_LONG => format!(
            "refused 8: the pack has {} bytes, more than 32768",
            rest.len()
        ),
        _ => "end of the pack, nothing refused".to_string(),
    };
    format!("{:04X}  {why}\n", trace.end)
}

#[cfg(test)]
mod tests {
    use super::*;

    const POLL: &str = "ev=P\nans=0C\nword=00ED\nflags=00000040\nsent=1\n";

    fn last_line(pack: &[u8], trace: &str) -> String {
        let text = explain(pack, trace).unwrap();
        text.lines().last().unwrap().to_string()
    }

    #[test]
    fn columns_are_aligned() {
        let text = explain(b"P", &[POLL, "end=0001\nrefused=0\n"].concat()).unwrap();
        let expected = "\
at    ev bytes        what happened                  lamps  line                  flags that changed
0000  P  50           send ED                        ---    LED, 1 sent
0001  end of the pack, nothing refused
";
        assert_eq!(text, expected);
    }

    /// A scanner changes only flags that both ports share.
    #[test]
    fn a_scanner_has_its_own_lines() {
        let caps = "ev=S\nans=00\nword=0000\nflags=40000040\nsent=1\n";
        let reply = "ev=S\nans=07\nword=0000\nflags=40000040\nsent=1\n";
        let trace = [POLL, caps, reply, "end=0005\nrefused=0\n"].concat();
        let text = explain(b"PS\x3AS\xFA", &trace).unwrap();
        let expected = [
            "0001  S  53 3A        nothing                        ---    LED, 1 sent           Caps Lock on",
            "0003  S  53 FA        scanner's reply ignored        ---    LED, 1 sent",
        ];
        let lines: Vec<&str> = text.lines().collect();
        assert_eq!(lines[2..4], expected);
    }

    #[test]
    fn each_refusal_is_told() {
        let told = last_line(b"PX", &[POLL, "end=0001\nrefused=6\n"].concat());
        assert_eq!(told, "0001  refused 6: 58 begins no event");
        let told = last_line(b"C\x05\x1E", "end=0000\nrefused=7\n");
        assert_eq!(
            told,
            "0000  refused 7: the pack ends within the event 43 05 1E"
        );
        let told = last_line(b"PS", &[POLL, "end=0001\nrefused=7\n"].concat());
        assert_eq!(told, "0001  refused 7: the pack ends within the event 53");
        let told = last_line(&[b'P'; 32_769], "end=0000\nrefused=8\n");
        assert_eq!(
            told,
            "0000  refused 8: the pack has 32769 bytes, more than 32768"
        );
    }

    #[test]
    fn a_trace_that_does_not_fit_is_not_explained() {
        assert!(explain(b"P", "end=0000\nrefused=0\n").is_err());
        assert!(explain(b"P", POLL).is_err());
    }
}
