//! Vectors whose outcomes are written down, to hold the reference to.

mod scanner;
mod turns;

pub use scanner::SCANNER;
pub use turns::TURNS;

use crate::service::Outcome;

/// A pack from locks 0 and what its last event must show; nothing if no event can be read.
pub struct Vector {
    pub name: &'static str,
    /// The pack in hexadecimal.
    pub pack: &'static str,
    pub last: Option<Outcome>,
}

impl Vector {
    const fn new(
        name: &'static str,
        pack: &'static str,
        (ans, word, flags, sent): (u8, u16, u32, u8),
    ) -> Vector {
        let last = Some(Outcome {
            ans,
            word,
            flags: flags.to_be_bytes(),
            sent,
        });
        Vector { name, pack, last }
    }

    const fn without_event(name: &'static str, pack: &'static str) -> Vector {
        let last = None;
        Vector { name, pack, last }
    }

    pub fn bytes(&self) -> Vec<u8> {
        from_hex(self.pack)
    }
}

/// Bytes of a text of hexadecimal digits.
pub fn from_hex(text: &str) -> Vec<u8> {
    let byte = |place| u8::from_str_radix(&text[place..place + 2], 16);
    let bytes: Result<_, _> = (0..text.len()).step_by(2).map(byte).collect();
    bytes.expect("the text is whole pairs of hexadecimal digits")
}

pub fn to_hex(bytes: &[u8]) -> String {
    bytes.iter().map(|byte| format!("{byte:02X}")).collect()
}

/// The decided readings that a pack can tell from their rivals, named as in `docs/DECISIONS.md`.
/// The outcomes of the x ones were taken from this reference and then followed by hand.
pub const READINGS: [Vector; 42] = [
    Vector::new("n01", "4B454BE14B1D4BC5", (0x00, 0x0000, 0x20000000, 0)),
    Vector::new(
        "n02",
        "4B3A504BFE504BFE504BFE",
        (0x0E, 0x0000, 0x404000A0, 3),
    ),
    Vector::new("n03", "43051E61", (0x0B, 0x1E61, 0x00000000, 0)),
    Vector::new("n04", "43051E6143000000", (0x08, 0x1E61, 0x00000000, 0)),
    Vector::new("n05", "4BE04BE1", (0x00, 0x0000, 0x00000100, 0)),
    Vector::new("n06", "4BE14BE0", (0x00, 0x0000, 0x00000200, 0)),
    Vector::new(
        "n07",
        "4B384B4F4BE14B1D4B454BB8",
        (0x01, 0x0001, 0x00080000, 0),
    ),
    Vector::new(
        "n08",
        "504BFA504BFA4303010250430302034BFA50",
        (0x0C, 0x0022, 0x00000000, 2),
    ),
    Vector::new("n09", "504B3A4BFA50", (0x0C, 0x0000, 0x40400040, 2)),
    Vector::new("n10", "504BFA504BFA", (0x06, 0x0000, 0x00000010, 2)),
    Vector::new("n11", "504BFA4BFA", (0x07, 0x0000, 0x00000050, 1)),
    Vector::new("n12", "5043FF0000", (0x82, 0x0000, 0x00000040, 1)),
    Vector::new("n13", "504BFA504BFE504BFE", (0x06, 0x0000, 0x00000060, 3)),
    Vector::new("n14", "43FF000050", (0x0C, 0x00ED, 0x00000040, 1)),
    Vector::new("n15", "4B1E4B", (0x01, 0x1E61, 0x00000000, 0)),
    Vector::new("n18", "4B2A4B0F", (0x01, 0x0F00, 0x02000000, 0)),
    Vector::new("n19", "4B1D4B07", (0x01, 0x071E, 0x04010000, 0)),
    Vector::new("n20", "4B384B4F4B2A4B4F4BB8", (0x01, 0x000B, 0x02000000, 0)),
    Vector::new(
        "n21",
        "4BE14B1D4B454BE14B1D4B45",
        (0x00, 0x0000, 0x00080000, 0),
    ),
    Vector::new("n22", "4BE14B1D4B454BE04B37", (0x00, 0x0000, 0x00000000, 0)),
    Vector::new("n23", "4B1D4B384B4F4B534BB8", (0x01, 0x0001, 0x04010000, 0)),
    Vector::new("n24", "4B384BE04B46", (0x03, 0x0000, 0x08020000, 0)),
    Vector::new(
        "n25",
        "4B394B394B394B394B394B394B394B394B394B394B394B394B394B394B394B384B4F4BB8454B384BB8",
        (0x00, 0x0000, 0x00000000, 0),
    ),
    Vector::new("n26", "505450545054", (0x0E, 0x0000, 0x00000080, 3)),
    Vector::new(
        "n27",
        "5054505450544303000050",
        (0x0C, 0x00F3, 0x00000000, 1),
    ),
    Vector::new("n28", "4B3A504BFA504BFA52", (0x0B, 0x0000, 0x40400000, 0)),
    Vector::new("n29", "5052", (0x0B, 0x0000, 0x00000000, 0)),
    Vector::new("n30", "43030420", (0x83, 0x0000, 0x00000000, 0)),
    Vector::new("n31", "4B384BE14B4F4BB8", (0x01, 0x0001, 0x00000000, 0)),
    Vector::new("n32", "4B454BE04BC5", (0x00, 0x0000, 0x20200000, 0)),
    Vector::new("s03", "4BE052", (0x0B, 0x0000, 0x00000200, 0)),
    Vector::new(
        "s04",
        "4BE04B384B4F4BB84BE04BB8",
        (0x01, 0x0001, 0x00000000, 0),
    ),
    Vector::new("x01", "4BE14B1D", (0x00, 0x0000, 0x00000100, 0)),
    Vector::new("x02", "4B384B4F4BE04B2A4BB8", (0x01, 0x0001, 0x00000000, 0)),
    Vector::new("x03", "4B1D4B384B52", (0x00, 0x0000, 0x0C030000, 0)),
    Vector::new(
        "x04-sum",
        "4B384B4F4BE04B374BB8",
        (0x00, 0x0000, 0x00000000, 0),
    ),
    Vector::new(
        "x04-pause",
        "4BE14B1D4B454BE04B46",
        (0x00, 0x0000, 0x00000000, 0),
    ),
    Vector::new("x05", "4BE04BE2", (0x00, 0x0000, 0x00000000, 0)),
    Vector::new("x06-done", "504BFA504BFA50", (0x0D, 0x0000, 0x00000010, 0)),
    Vector::new(
        "x06-given-up",
        "504BFE504BFE504BFE50",
        (0x0D, 0x0000, 0x000000A0, 0),
    ),
    Vector::new("x07", "43030102", (0x0B, 0x0000, 0x00000000, 0)),
    Vector::without_event("x10", "430000"),
];

/// The refusals of the calling program, each as close to an accepted call as can be.
pub const REFUSED_CALLS: [Vector; 4] = [
    Vector::new("refusal-2", "43040000", (0x82, 0x0000, 0x00000000, 0)),
    Vector::new("refusal-3", "4303041F", (0x83, 0x0000, 0x00000000, 0)),
    Vector::new("refusal-4", "43030320", (0x84, 0x0000, 0x00000000, 0)),
    Vector::new(
        "refusal-5",
        "4B394B394B394B394B394B394B394B394B394B394B394B394B394B394B3943051E61",
        (0x85, 0x0000, 0x00000000, 0),
    ),
];

/// The bench cases. Locks are switched on by their keys first.
pub const BENCH_CASES: [Vector; 13] = [
    Vector::new("bench-letter", "4B1E", (0x01, 0x1E61, 0x00000000, 0)),
    Vector::new(
        "bench-caps-and-shift",
        "4B3A4BBA4B2A4B1E",
        (0x01, 0x1E61, 0x42000000, 0),
    ),
    Vector::new("bench-ctrl", "4B1D4B2E", (0x01, 0x2E03, 0x04010000, 0)),
    Vector::new("bench-alt", "4B384B1E", (0x01, 0x1E00, 0x08020000, 0)),
    Vector::new("bench-num", "4B454BC54B47", (0x01, 0x4737, 0x20000000, 0)),
    Vector::new(
        "bench-num-extended",
        "4B454BC54BE04B47",
        (0x01, 0x47E0, 0x20000000, 0),
    ),
    Vector::new("bench-cut-pause", "4BE14B1E", (0x01, 0x1E61, 0x00000000, 0)),
    Vector::new(
        "bench-extended-letter",
        "4BE04B1E",
        (0x00, 0x0000, 0x00000000, 0),
    ),
    Vector::new(
        "bench-alt-sum",
        "4B384B514B524B524BB8",
        (0x01, 0x002C, 0x00000000, 0),
    ),
    Vector::new(
        "bench-other-ctrl",
        "4B1D4BE04B1D4B9D",
        (0x00, 0x0000, 0x04000400, 0),
    ),
    Vector::new(
        "bench-fifteen-words",
        "4B394B394B394B394B394B394B394B394B394B394B394B394B394B394B39",
        (0x01, 0x3920, 0x00000000, 0),
    ),
    Vector::new(
        "bench-sixteenth-word",
        "4B394B394B394B394B394B394B394B394B394B394B394B394B394B394B394B39",
        (0x02, 0x3920, 0x00000000, 0),
    ),
    Vector::new(
        "bench-given-up",
        "504BFE504BFE504BFE",
        (0x0E, 0x0000, 0x000000A0, 3),
    ),
];

/// The enhanced words: by the keys that put them, as words that the program put, and read by both
/// pairs of functions.
pub const ENHANCED_WORDS: [Vector; 27] = [
    Vector::new("f11", "4B57", (0x01, 0x8500, 0x00000000, 0)),
    Vector::new("f12", "4B58", (0x01, 0x8600, 0x00000000, 0)),
    Vector::new("f11-shift", "4B2A4B57", (0x01, 0x8700, 0x02000000, 0)),
    Vector::new("f12-shift", "4B364B58", (0x01, 0x8800, 0x01000000, 0)),
    Vector::new("f11-ctrl", "4B1D4B57", (0x01, 0x8900, 0x04010000, 0)),
    Vector::new("f12-ctrl", "4BE04B1D4B58", (0x01, 0x8A00, 0x04000400, 0)),
    Vector::new("f11-alt", "4B384B57", (0x01, 0x8B00, 0x08020000, 0)),
    Vector::new("f12-alt", "4BE04B384B58", (0x01, 0x8C00, 0x08000800, 0)),
    Vector::new("look-at-8400", "4305840043010000", (0x08, 0x8400, 0, 0)),
    Vector::new("look-at-84FF", "430584FF43010000", (0x08, 0x84FF, 0, 0)),
    Vector::new("look-at-8500", "4305850043010000", (0x09, 0x0000, 0, 0)),
    Vector::new("look-at-8501", "4305850143010000", (0x08, 0x8501, 0, 0)),
    Vector::new("look-at-85E0", "430585E043010000", (0x08, 0x8500, 0, 0)),
    Vector::new("look-at-8C00", "43058C0043010000", (0x09, 0x0000, 0, 0)),
    Vector::new("look-at-FF00", "4305FF0043010000", (0x09, 0x0000, 0, 0)),
    Vector::new("take-of-84FF", "430584FF43000000", (0x08, 0x84FF, 0, 0)),
    Vector::new("take-of-8500", "4305850043000000", (0x09, 0x0000, 0, 0)),
    Vector::new("look-removes", "4B574301000043110000", (0x09, 0, 0, 0)),
    Vector::new(
        "look-makes-room",
        "4B574B574B574B574B574B574B574B574B574B574B574B574B574B574B574301000043051234",
        (0x0B, 0x1234, 0, 0),
    ),
    Vector::new(
        "look-stops-at-a-letter",
        "4B1E4B57430100004310000043100000",
        (0x08, 0x8500, 0, 0),
    ),
    Vector::new(
        "look-passes-two",
        "4B574B584B1E4B5743010000",
        (0x08, 0x1E61, 0, 0),
    ),
    Vector::new(
        "look-leaves-the-letter",
        "4B574B584B1E4B574301000043100000",
        (0x08, 0x1E61, 0, 0),
    ),
    Vector::new(
        "take-passes-two",
        "4B574B584B1E4B5743000000",
        (0x08, 0x1E61, 0, 0),
    ),
    Vector::new(
        "take-leaves-what-is-behind",
        "4B574B584B1E4B584300000043100000",
        (0x08, 0x8600, 0, 0),
    ),
    Vector::new(
        "enhanced-look-leaves",
        "4B574B1E4311000043100000",
        (0x08, 0x8500, 0, 0),
    ),
    Vector::new(
        "enhanced-take-removes-one",
        "4B574B584B1E4310000043110000",
        (0x08, 0x8600, 0, 0),
    ),
    Vector::new(
        "sixteenth-enhanced",
        "4B574B574B574B574B574B574B574B574B574B574B574B574B574B574B574B58",
        (0x02, 0x8600, 0, 0),
    ),
];

/// The grey keys: their words as put and as each function returns them, words of their form from
/// elsewhere, and Insert.
pub const GREY_KEYS: [Vector; 21] = [
    Vector::new("extended-4C", "4BE04B4C", (0x00, 0x0000, 0x00000000, 0)),
    Vector::new(
        "grey-home-ctrl",
        "4B1D4BE04B47",
        (0x01, 0x77E0, 0x04010000, 0),
    ),
    Vector::new(
        "take-of-grey-home",
        "4BE04B4743000000",
        (0x08, 0x4700, 0, 0),
    ),
    Vector::new(
        "look-leaves-grey-home",
        "4BE04B474301000043110000",
        (0x08, 0x47E0, 0, 0),
    ),
    Vector::new(
        "enhanced-take-of-grey-home",
        "4BE04B4743100000",
        (0x08, 0x47E0, 0, 0),
    ),
    Vector::new(
        "take-of-grey-home-ctrl",
        "4B1D4BE04B4743000000",
        (0x08, 0x7700, 0x04010000, 0),
    ),
    Vector::new(
        "enhanced-look-at-grey-enter",
        "4BE04B1C43110000",
        (0x08, 0xE00D, 0, 0),
    ),
    Vector::new(
        "take-of-grey-enter",
        "4BE04B1C43000000",
        (0x08, 0x1C0D, 0, 0),
    ),
    Vector::new(
        "look-at-grey-enter-ctrl",
        "4B1D4BE04B1C43010000",
        (0x08, 0x1C0A, 0x04010000, 0),
    ),
    Vector::new(
        "enhanced-look-at-grey-slash",
        "4BE04B3543110000",
        (0x08, 0xE02F, 0, 0),
    ),
    Vector::new(
        "take-of-grey-slash",
        "4BE04B3543000000",
        (0x08, 0x352F, 0, 0),
    ),
    Vector::new("take-of-1EE0", "43051EE043000000", (0x08, 0x1E00, 0, 0)),
    Vector::new("look-at-E0E0", "4305E0E043010000", (0x08, 0xE000, 0, 0)),
    Vector::new("take-of-85E0", "430585E043000000", (0x08, 0x8500, 0, 0)),
    Vector::new("take-of-E01C", "4305E01C43000000", (0x08, 0xE01C, 0, 0)),
    Vector::new("take-of-00E0", "430500E043000000", (0x08, 0x00E0, 0, 0)),
    Vector::new(
        "take-of-alt-sum-E0",
        "4B384B504B504B4B4BB843000000",
        (0x08, 0x00E0, 0, 0),
    ),
    Vector::new("num-insert", "4B454BC54B52", (0x01, 0x5230, 0x20000000, 0)),
    Vector::new(
        "num-grey-insert",
        "4B454BC54BE04B52",
        (0x01, 0x52E0, 0xA0800000, 0),
    ),
    Vector::new(
        "grey-insert-held",
        "4BE04B524B52",
        (0x01, 0x5200, 0x80800000, 0),
    ),
    Vector::new(
        "grey-insert-dropped",
        "4B394B394B394B394B394B394B394B394B394B394B394B394B394B394B394BE04B52",
        (0x02, 0x52E0, 0x80800000, 0),
    ),
];

/// The printed example: its pack and the whole text.
pub const EXAMPLE_PACK: &str = "4B2A4B1E4BAA";
pub const EXAMPLE_TEXT: &str = "\
ev=K
ans=00
word=0000
flags=02000000
sent=0
ev=K
ans=01
word=1E41
flags=02000000
sent=0
ev=K
ans=00
word=0000
flags=00000000
sent=0
end=0006
refused=0
";
