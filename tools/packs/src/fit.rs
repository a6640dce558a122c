//! Whether a trace is one of this pack, as far as both can be compared.

use crate::layout::Layout;
use crate::trace::Trace;

/// Lines of the report of one event.
const REPORT_LINES: usize = 5;

/// The first place where pack and trace do not fit, in words.
pub fn check(layout: &Layout, trace: &Trace) -> Result<(), String> {
    check_events(layout, trace)?;
    let line = trace.reports.len() * REPORT_LINES + 1;
    if trace.end != layout.end {
        let told = format!("end={:04X}, but the pack's events end", trace.end);
        return Err(at(line, &format!("{told} at {:04X}", layout.end)));
    }
    if trace.refused != layout.refused {
        let told = format!("refused={}, but the pack has", trace.refused);
        return Err(at(line + 1, &format!("{told} refusal {}", layout.refused)));
    }
    Ok(())
}

/// As many events, with the same tags.
fn check_events(layout: &Layout, trace: &Trace) -> Result<(), String> {
    for (place, (event, report)) in layout.events.iter().zip(&trace.reports).enumerate() {
        if event.tag() != report.tag {
            let (offset, tag) = (event.offset, event.tag());
            let told = format!("ev={}, but the pack has {tag} at {offset:04X}", report.tag);
            return Err(at(place * REPORT_LINES + 1, &told));
        }
    }
    let (events, reports) = (layout.events.len(), trace.reports.len());
    if events != reports {
        let line = events.min(reports) * REPORT_LINES + 1;
        let told = format!("the trace has {reports} events, but the pack has {events}");
        return Err(at(line, &told));
    }
    Ok(())
}

fn at(line: usize, message: &str) -> String {
    format!("line {line} of the trace: {message}")
}

#[cfg(test)]
mod tests {
    use super::*;
    use crate::layout::layout;
    use crate::trace::read;

    const POLL: &str = "ev=P\nans=0C\nword=00ED\nflags=00000040\nsent=1\n";
    const EMPTY: &str = "ev=E\nans=0B\nword=0000\nflags=00000040\nsent=1\n";

    /// What is said of a pack and a trace of these reports and this end.
    fn said(pack: &[u8], reports: &[&str], end: &str) -> Result<(), String> {
        let text = reports.concat() + end;
        check(&layout(pack), &read(&text).unwrap())
    }

    #[test]
    fn a_trace_of_the_pack_fits() {
        assert_eq!(said(b"", &[], "end=0000\nrefused=0\n"), Ok(()));
        assert_eq!(said(b"PE", &[POLL, EMPTY], "end=0002\nrefused=0\n"), Ok(()));
        assert_eq!(said(b"PX", &[POLL], "end=0001\nrefused=6\n"), Ok(()));
        assert_eq!(said(b"PK", &[POLL], "end=0001\nrefused=7\n"), Ok(()));
        let long = [b'P'; 32_769];
        assert_eq!(said(&long, &[], "end=0000\nrefused=8\n"), Ok(()));
    }

    #[test]
    fn another_trace_is_told_where_it_parts() {
        let whole = "end=0002\nrefused=0\n";
        let cases: [(&[u8], &[&str], &str, &str); 6] = [
            (
                b"PR",
                &[POLL, EMPTY],
                whole,
                "line 6 of the trace: ev=E, but the pack has R at 0001",
            ),
            (
                b"P",
                &[POLL, EMPTY],
                whole,
                "line 6 of the trace: the trace has 2 events, but the pack has 1",
            ),
            (
                b"PE",
                &[POLL],
                whole,
                "line 6 of the trace: the trace has 1 events, but the pack has 2",
            ),
            (
                b"PE",
                &[POLL, EMPTY],
                "end=0003\nrefused=0\n",
                "line 11 of the trace: end=0003, but the pack's events end at 0002",
            ),
            (
                b"PE",
                &[POLL, EMPTY],
                "end=0002\nrefused=6\n",
                "line 12 of the trace: refused=6, but the pack has refusal 0",
            ),
            (
                b"PEX",
                &[POLL, EMPTY],
                whole,
                "line 12 of the trace: refused=0, but the pack has refusal 6",
            ),
        ];
        for (pack, reports, end, told) in cases {
            assert_eq!(said(pack, reports, end), Err(told.to_string()));
        }
    }
}
