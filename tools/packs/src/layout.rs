//! Where the events of a pack stand.

/// Bytes that a pack may hold.
pub const MAXIMUM_PACK: usize = 32_768;

pub const UNKNOWN_TAG: u8 = 6;
pub const EVENT_CUT_SHORT: u8 = 7;
pub const PACK_TOO_LONG: u8 = 8;

/// One event: its offset, and its bytes from the tag on.
#[derive(Debug, PartialEq, Eq)]
pub struct Event<'a> {
    pub offset: usize,
    pub bytes: &'a [u8],
}

impl Event<'_> {
    pub fn tag(&self) -> char {
        char::from(self.bytes[0])
    }
}

/// The events of a pack, the offset behind the last, and the refusal that stands there, or 0.
#[derive(Debug, PartialEq, Eq)]
pub struct Layout<'a> {
    pub events: Vec<Event<'a>>,
    pub end: usize,
    pub refused: u8,
}

pub fn layout(pack: &[u8]) -> Layout<'_> {
    let mut events = Vec::new();
    let mut end = 0;
    let refused = loop {
        match event_length(pack, end) {
            Ok(0) => break 0,
            Ok(length) => {
                let bytes = &pack[end..end + length];
                events.push(Event { offset: end, bytes });
                end += length;
            }
            Err(refusal) => break refusal,
        }
    };
    Layout {
        events,
        end,
        refused,
    }
}

/// How many bytes the event at `start` has; 0 at the end of the pack.
fn event_length(pack: &[u8], start: usize) -> Result<usize, u8> {
    if pack.len() > MAXIMUM_PACK {
        return Err(PACK_TOO_LONG);
    }
    let length = match pack.get(start) {
        None => 0,
        Some(b'K' | b'S') => 2,
        Some(b'C') => 4,
        Some(b'P' | b'T' | b'E' | b'R') => 1,
        Some(_) => return Err(UNKNOWN_TAG),
    };
    if pack.len() - start < length {
        return Err(EVENT_CUT_SHORT);
    }
    Ok(length)
}

#[cfg(test)]
mod tests {
    use super::*;

    #[test]
    fn events_stand_one_behind_the_other() {
        let pack = b"K\x2AC\x05\x1E\x61PTERS\x53";
        let layout = layout(pack);
        let offsets: Vec<usize> = layout.events.iter().map(|event| event.offset).collect();
        assert_eq!(offsets, [0, 2, 6, 7, 8, 9, 10]);
        assert_eq!(layout.events[1].bytes, b"C\x05\x1E\x61");
        assert_eq!(layout.events[6].bytes, b"S\x53");
        assert_eq!((layout.end, layout.refused), (12, 0));
    }

    #[test]
    fn a_refused_pack_ends_at_the_refused_event() {
        let ending = |pack: &[u8]| {
            let layout = layout(pack);
            (layout.events.len(), layout.end, layout.refused)
        };
        assert_eq!(ending(b""), (0, 0, 0));
        assert_eq!(ending(b"PXP"), (1, 1, UNKNOWN_TAG));
        for cut in [b"PK".as_slice(), b"PS", b"PC", b"PC\x05", b"PC\x05\x1E"] {
            assert_eq!(ending(cut), (1, 1, EVENT_CUT_SHORT));
        }
        let longest = [b'P'; MAXIMUM_PACK];
        assert_eq!(ending(&longest), (MAXIMUM_PACK, MAXIMUM_PACK, 0));
        assert_eq!(ending(&[b'P'; MAXIMUM_PACK + 1]), (0, 0, PACK_TOO_LONG));
    }
}
