//! Events and how a pack encodes them.

use crate::answer::{EVENT_CUT_SHORT, PACK_TOO_LONG, START_BEYOND_PACK, UNKNOWN_TAG};

/// Bytes that a pack may hold.
pub const MAXIMUM_PACK: usize = 32_768;

/// Where a byte comes in.
#[derive(Clone, Copy, Debug, Default, PartialEq, Eq)]
pub enum Device {
    #[default]
    Keyboard,
    Scanner,
}

pub const DEVICES: [Device; 2] = [Device::Keyboard, Device::Scanner];

impl Device {
    /// A byte that comes in here.
    pub const fn event(self, byte: u8) -> Event {
        match self {
            Device::Keyboard => Event::Key(byte),
            Device::Scanner => Event::Scan(byte),
        }
    }

    pub const fn other(self) -> Device {
        match self {
            Device::Keyboard => Device::Scanner,
            Device::Scanner => Device::Keyboard,
        }
    }
}

#[derive(Clone, Copy, Debug, PartialEq, Eq)]
pub enum Event {
    /// A byte from the keyboard.
    Key(u8),
    /// A byte from the scanner.
    Scan(u8),
    /// An int 16h function with its two operand bytes.
    Call(u8, u8, u8),
    /// A poll for a byte to send.
    Poll,
    /// A reply timed out.
    TimeOut,
    /// Empty the queue.
    Empty,
    /// Restart the line.
    Restart,
}

impl Event {
    pub fn tag(&self) -> u8 {
        match self {
            Event::Key(_) => b'K',
            Event::Scan(_) => b'S',
            Event::Call(..) => b'C',
            Event::Poll => b'P',
            Event::TimeOut => b'T',
            Event::Empty => b'E',
            Event::Restart => b'R',
        }
    }

    /// The byte that comes in, and where.
    pub fn incoming(&self) -> Option<(Device, u8)> {
        match *self {
            Event::Key(byte) => Some((Device::Keyboard, byte)),
            Event::Scan(byte) => Some((Device::Scanner, byte)),
            _ => None,
        }
    }

    /// Appends the event as a pack holds it.
    pub fn write(&self, pack: &mut Vec<u8>) {
        pack.push(self.tag());
        match *self {
            Event::Key(byte) | Event::Scan(byte) => pack.push(byte),
            Event::Call(function, a, b) => pack.extend([function, a, b]),
            _ => {}
        }
    }
}

/// Reads the event at `start` and gives it with the offset behind it; none at the end of the pack.
pub fn read_event(pack: &[u8], start: usize) -> Result<Option<(Event, usize)>, u8> {
    if pack.len() > MAXIMUM_PACK {
        return Err(PACK_TOO_LONG);
    }
    let rest = pack.get(start..).ok_or(START_BEYOND_PACK)?;
    let (event, length) = match *rest {
        [] => return Ok(None),
        [b'K', byte, ..] => (Event::Key(byte), 2),
        [b'S', byte, ..] => (Event::Scan(byte), 2),
        [b'C', function, a, b, ..] => (Event::Call(function, a, b), 4),
        [b'P', ..] => (Event::Poll, 1),
        [b'T', ..] => (Event::TimeOut, 1),
        [b'E', ..] => (Event::Empty, 1),
        [b'R', ..] => (Event::Restart, 1),
        [b'K' | b'S' | b'C', ..] => return Err(EVENT_CUT_SHORT),
        _ => return Err(UNKNOWN_TAG),
    };
    Ok(Some((event, start + length)))
}

#[cfg(test)]
mod tests {
    use super::*;

    #[test]
    fn reads_what_it_wrote() {
        let events = [
            Event::Key(0x1E),
            Event::Scan(0x53),
            Event::Call(3, 1, 2),
            Event::Poll,
            Event::TimeOut,
            Event::Empty,
            Event::Restart,
        ];
        let mut pack = Vec::new();
        events.iter().for_each(|event| event.write(&mut pack));
        let mut start = 0;
        for event in events {
            let (read, next) = read_event(&pack, start).unwrap().unwrap();
            assert_eq!(read, event);
            start = next;
        }
        assert_eq!(read_event(&pack, start), Ok(None));
        assert_eq!(read_event(&pack, start + 1), Err(START_BEYOND_PACK));
    }

    #[test]
    fn refuses_in_order() {
        let long = vec![b'P'; MAXIMUM_PACK + 1];
        assert_eq!(read_event(&long, 0), Err(PACK_TOO_LONG));
        assert_eq!(read_event(&long, long.len() + 1), Err(PACK_TOO_LONG));
        assert_eq!(read_event(&[], 1), Err(START_BEYOND_PACK));
        assert_eq!(read_event(b"", 0), Ok(None));
        for unknown in [b"k", b"s", b"X"] {
            assert_eq!(read_event(unknown, 0), Err(UNKNOWN_TAG));
        }
        for cut in [b"K".as_slice(), b"S", b"C", b"C\x03", b"C\x03\x00"] {
            assert_eq!(read_event(cut, 0), Err(EVENT_CUT_SHORT));
        }
    }
}
