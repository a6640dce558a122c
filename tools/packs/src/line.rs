//! The lamps and the line to the keyboard, from flag byte 97 and the count of bytes sent.

/// The lamps as the keyboard last confirmed them: S, N and C in their places, or dashes.
pub fn lamps(byte_97: u8) -> String {
    let lamp = |(bit, letter)| if byte_97 & bit != 0 { letter } else { '-' };
    [(0x01, 'S'), (0x02, 'N'), (0x04, 'C')]
        .map(lamp)
        .iter()
        .collect()
}

/// The command that runs or ended just now, and what became of the last byte sent.
pub fn line(byte_97: u8, sent: u8) -> String {
    let mut parts = Vec::new();
    if byte_97 & 0x40 != 0 {
        parts.push("LED".to_string());
    }
    parts.push(match sent {
        0 => "idle".to_string(),
        _ => format!("{sent} sent"),
    });
    for (bit, mark) in [(0x10, "FA"), (0x20, "FE"), (0x80, "given up")] {
        if byte_97 & bit != 0 {
            parts.push(mark.to_string());
        }
    }
    parts.join(", ")
}

#[cfg(test)]
mod tests {
    use super::*;

    #[test]
    fn lamps_have_their_places() {
        assert_eq!(lamps(0x00), "---");
        assert_eq!(lamps(0xF9), "S--");
        assert_eq!(lamps(0x12), "-N-");
        assert_eq!(lamps(0x07), "SNC");
    }

    #[test]
    fn each_bit_of_the_line_is_told() {
        assert_eq!(line(0x00, 0), "idle");
        assert_eq!(line(0x07, 0), "idle");
        assert_eq!(line(0x40, 1), "LED, 1 sent");
        assert_eq!(line(0x50, 2), "LED, 2 sent, FA");
        assert_eq!(line(0x20, 1), "1 sent, FE");
        assert_eq!(line(0xA0, 3), "3 sent, FE, given up");
        assert_eq!(line(0x80, 0), "idle, given up");
    }
}
