//! Flag bytes 17, 18 and 96 by the names of their bits.

/// What a bit is called, and what it means for it to be set and to be clear.
type Name = (&'static str, &'static str, &'static str);

const BYTE_17: [Name; 8] = [
    ("right Shift", "down", "up"),
    ("left Shift", "down", "up"),
    ("Ctrl", "down", "up"),
    ("Alt", "down", "up"),
    ("Scroll Lock", "on", "off"),
    ("Num Lock", "on", "off"),
    ("Caps Lock", "on", "off"),
    ("Insert", "on", "off"),
];

const BYTE_18: [Name; 8] = [
    ("left Ctrl", "down", "up"),
    ("left Alt", "down", "up"),
    ("SysReq", "held", "released"),
    ("pause", "on", "off"),
    ("Scroll", "held", "released"),
    ("Num", "held", "released"),
    ("Caps", "held", "released"),
    ("Ins", "held", "released"),
];

const BYTE_96: [Name; 4] = [
    ("E1", "open", "closed"),
    ("E0", "open", "closed"),
    ("right Ctrl", "down", "up"),
    ("right Alt", "down", "up"),
];

/// Bits of the four flag bytes that are never set.
const UNUSED: [u8; 4] = [0x00, 0x00, 0xF0, 0x08];

/// Whether flag bytes 17, 18, 96 and 97 can be so.
pub fn can_be(flags: [u8; 4]) -> bool {
    flags
        .iter()
        .zip(UNUSED)
        .all(|(byte, unused)| byte & unused == 0)
}

/// What changed in bytes 17, 18 and 96, in the order of the bits.
pub fn changes(before: [u8; 4], after: [u8; 4]) -> String {
    let names: [&[Name]; 3] = [&BYTE_17, &BYTE_18, &BYTE_96];
    let mut changes = Vec::new();
    for ((names, before), after) in names.into_iter().zip(before).zip(after) {
        for (bit, (name, set, clear)) in names.iter().enumerate() {
            if (before ^ after) >> bit & 1 == 1 {
                let state = if after >> bit & 1 == 1 { set } else { clear };
                changes.push(format!("{name} {state}"));
            }
        }
    }
    changes.join(", ")
}

#[cfg(test)]
mod tests {
    use super::*;

    #[test]
    fn each_bit_is_named_once() {
        let all = [0xFF, 0xFF, 0x0F, 0x00];
        let set = changes([0; 4], all);
        let clear = changes(all, [0; 4]);
        assert_eq!(set.split(", ").count(), 20);
        assert_eq!(clear.split(", ").count(), 20);
        assert!(set.starts_with("right Shift down, left Shift down, Ctrl down"));
        assert!(clear.ends_with("E1 closed, E0 closed, right Ctrl up, right Alt up"));
    }

    #[test]
    fn only_changes_are_told() {
        let same = [0x42, 0x40, 0x02, 0x54];
        assert_eq!(changes(same, same), "");
        assert_eq!(changes(same, [0x42, 0x40, 0x02, 0x00]), "");
        let changed = [0x02, 0x08, 0x01, 0x54];
        let told = "Caps Lock off, pause on, Caps released, E1 open, E0 closed";
        assert_eq!(changes(same, changed), told);
    }

    #[test]
    fn unused_bits_cannot_be_set() {
        assert!(can_be([0xFF, 0xFF, 0x0F, 0xF7]));
        assert!(!can_be([0x00, 0x00, 0x10, 0x00]));
        assert!(!can_be([0x00, 0x00, 0x00, 0x08]));
    }
}
