//! The names that events have in the text form, and the bytes each stands for.

use std::ops::RangeInclusive;

#[derive(Clone, Copy, Debug, PartialEq, Eq)]
pub enum Form {
    /// One event of this tag for each byte.
    Typed(u8),
    /// A function, then its bytes a and b; a missing one is 00.
    Call,
    /// An event that is its tag alone.
    Tag(u8),
    /// Bytes as they are, for packs that are to be refused.
    Bytes,
}

impl Form {
    pub fn named(name: &str) -> Option<Form> {
        let form = match name {
            "key" => Form::Typed(b'K'),
            "scanner" => Form::Typed(b'S'),
            "call" => Form::Call,
            "poll" => Form::Tag(b'P'),
            "time-out" => Form::Tag(b'T'),
            "empty" => Form::Tag(b'E'),
            "restart" => Form::Tag(b'R'),
            "bytes" => Form::Bytes,
            _ => return None,
        };
        Some(form)
    }

    /// How many bytes may follow the name.
    pub fn operands(self) -> RangeInclusive<usize> {
        match self {
            Form::Typed(_) | Form::Bytes => 1..=usize::MAX,
            Form::Call => 1..=3,
            Form::Tag(_) => 0..=0,
        }
    }

    /// What a pack holds for it.
    pub fn encode(self, operands: &[u8]) -> Vec<u8> {
        match self {
            Form::Typed(tag) => operands.iter().flat_map(|&byte| [tag, byte]).collect(),
            Form::Call => {
                let mut event = [b"C", operands].concat();
                event.resize(4, 0x00);
                event
            }
            Form::Tag(tag) => vec![tag],
            Form::Bytes => operands.to_vec(),
        }
    }
}

#[cfg(test)]
mod tests {
    use super::*;

    fn encoded(name: &str, operands: &[u8]) -> Vec<u8> {
        Form::named(name).unwrap().encode(operands)
    }

    #[test]
    fn each_name_has_its_bytes() {
        assert_eq!(encoded("key", &[0x2A, 0x1E]), b"K\x2AK\x1E");
        assert_eq!(encoded("scanner", &[0x2A, 0x53]), b"S\x2AS\x53");
        assert_eq!(encoded("call", &[0x05, 0x1E, 0x61]), b"C\x05\x1E\x61");
        assert_eq!(encoded("call", &[0x10]), b"C\x10\x00\x00");
        assert_eq!(encoded("poll", &[]), b"P");
        assert_eq!(encoded("time-out", &[]), b"T");
        assert_eq!(encoded("empty", &[]), b"E");
        assert_eq!(encoded("restart", &[]), b"R");
        assert_eq!(encoded("bytes", &[0x58, 0x00]), b"X\x00");
    }

    #[test]
    fn other_names_are_none() {
        for name in ["", "Key", "keys", "scan", "timeout", "K", "S"] {
            assert_eq!(Form::named(name), None);
        }
    }
}
