//! Vectors for a scanner beside the keyboard.

use super::Vector;

/// What each port has of its own, and what both share.
pub const SCANNER: [Vector; 63] = [
    // Keys and columns.
    Vector::new("scanner-letter", "531E", (0x01, 0x1E61, 0, 0)),
    Vector::new("scanner-shift", "532A531E", (0x01, 0x1E41, 0, 0)),
    Vector::new(
        "scanner-beside-shift",
        "4B2A531E",
        (0x01, 0x1E61, 0x02000000, 0),
    ),
    Vector::new("keyboard-beside-shift", "532A4B1E", (0x01, 0x1E61, 0, 0)),
    Vector::new(
        "scanner-ctrl-beside-alt",
        "4B38531D532E",
        (0x01, 0x2E03, 0x08020000, 0),
    ),
    Vector::new("scanner-delete", "5353", (0x01, 0x5300, 0, 0)),
    Vector::new("scanner-grey-home", "53E05347", (0x01, 0x47E0, 0, 0)),
    Vector::new("scanner-num", "4B455347", (0x01, 0x4737, 0x20200000, 0)),
    // Prefixes.
    Vector::new(
        "scanner-own-prefix",
        "53E14B1D531E",
        (0x01, 0x1E61, 0x04010000, 0),
    ),
    Vector::new(
        "keyboard-own-prefix",
        "4BE05347",
        (0x01, 0x4700, 0x00000200, 0),
    ),
    Vector::new("keyboard-prefix-kept", "4BE053474B47", (0x01, 0x47E0, 0, 0)),
    Vector::new("scanner-prefix-hidden", "53E0", (0x00, 0x0000, 0, 0)),
    Vector::new(
        "scanner-splits-pause",
        "4BE1531D4B45",
        (0x00, 0x0000, 0x20200000, 0),
    ),
    Vector::new(
        "scanner-cannot-end-pause-string",
        "4BE14B1D5345",
        (0x00, 0x0000, 0x20000100, 0),
    ),
    Vector::new(
        "scanner-between-pause",
        "4BE14B1D531E4B45",
        (0x00, 0x0000, 0x00080000, 0),
    ),
    Vector::new(
        "both-pause-strings",
        "4BE153E14B1D531D53454B45",
        (0x00, 0x0000, 0x00080000, 0),
    ),
    Vector::new("scanner-overrun", "4BE053FF", (0x05, 0x0000, 0x00000200, 0)),
    Vector::new(
        "scanner-overrun-closes",
        "53E053FF5348",
        (0x01, 0x4800, 0, 0),
    ),
    Vector::new("scanner-00-closes", "53E053005348", (0x01, 0x4800, 0, 0)),
    Vector::new(
        "keyboard-overrun-leaves-scanner",
        "53E04BFF5348",
        (0x01, 0x48E0, 0, 0),
    ),
    // Locks and what is held.
    Vector::new("scanner-caps", "4B3A533A", (0x00, 0x0000, 0x00400000, 0)),
    Vector::new(
        "scanner-caps-repeated",
        "533A533A",
        (0x00, 0x0000, 0x40000000, 0),
    ),
    Vector::new(
        "scanner-caps-held",
        "533A4BBA533A",
        (0x00, 0x0000, 0x40000000, 0),
    ),
    Vector::new(
        "scanner-caps-for-keyboard",
        "533A4B1E",
        (0x01, 0x1E41, 0x40000000, 0),
    ),
    Vector::new(
        "keyboard-caps-held",
        "4B3A53BA4B3A",
        (0x00, 0x0000, 0x40400000, 0),
    ),
    Vector::new("scanner-insert", "5352", (0x01, 0x5200, 0x80000000, 0)),
    Vector::new(
        "scanner-insert-held",
        "4B525352",
        (0x01, 0x5200, 0x00800000, 0),
    ),
    Vector::new(
        "keyboard-insert-held",
        "4B5253D24B52",
        (0x01, 0x5200, 0x80800000, 0),
    ),
    // Restart asked, pause and break.
    Vector::new("scanner-restart", "531D53385353", (0x04, 0x0000, 0, 0)),
    Vector::new(
        "scanner-restart-needs-own-modifiers",
        "4B1D53385353",
        (0x00, 0x0000, 0x04010000, 0),
    ),
    Vector::new(
        "keyboard-restart-needs-own-modifiers",
        "531D4B384B53",
        (0x00, 0x0000, 0x08020000, 0),
    ),
    Vector::new(
        "scanner-restart-beside-modifiers",
        "4B1D4B385353",
        (0x01, 0x5300, 0x0C030000, 0),
    ),
    Vector::new(
        "scanner-pause",
        "53E1531D5345",
        (0x00, 0x0000, 0x00080000, 0),
    ),
    Vector::new(
        "scanner-pause-ended",
        "4BE14B1D4B45531E",
        (0x00, 0x0000, 0, 0),
    ),
    Vector::new(
        "keyboard-ends-pause-of-scanner",
        "53E1531D53454B1E",
        (0x00, 0x0000, 0, 0),
    ),
    Vector::new(
        "scanner-shift-leaves-pause",
        "4BE14B1D4B45532A",
        (0x00, 0x0000, 0x00080000, 0),
    ),
    Vector::new(
        "scanner-break",
        "4B1E53E0534643100000",
        (0x08, 0x0000, 0, 0),
    ),
    // Alt sums.
    Vector::new(
        "scanner-alt-sums",
        "4B3853384B4F53504BB853B8",
        (0x01, 0x0002, 0, 0),
    ),
    Vector::new(
        "scanner-alt-sums-other-order",
        "4B3853384B4F535053B84BB8",
        (0x01, 0x0001, 0, 0),
    ),
    Vector::new(
        "scanner-beside-alt",
        "4B38534F",
        (0x01, 0x4F00, 0x08020000, 0),
    ),
    Vector::new(
        "scanner-leaves-sum",
        "4B384B4F531E4BB8",
        (0x01, 0x0001, 0, 0),
    ),
    Vector::new(
        "keyboard-alt-puts-no-sum-of-scanner",
        "5338534F4B384BB8",
        (0x00, 0x0000, 0, 0),
    ),
    // What flags and statuses show.
    Vector::new(
        "scanner-flags-hidden",
        "532A531D43120000",
        (0x0A, 0x0000, 0, 0),
    ),
    Vector::new(
        "scanner-status-hidden",
        "5336533843020000",
        (0x0A, 0x0000, 0, 0),
    ),
    Vector::new(
        "scanner-right-keys-hidden",
        "53E0531D53E0533843120000",
        (0x0A, 0x0000, 0, 0),
    ),
    Vector::new(
        "scanner-held-hidden",
        "533A5354535243120000",
        (0x0A, 0x00C0, 0xC0000000, 0),
    ),
    // Replies that are none, and the line.
    Vector::new("scanner-fa-ignored", "53E053FA5348", (0x01, 0x48E0, 0, 0)),
    Vector::new("scanner-fe-ignored", "53E053FE5348", (0x01, 0x48E0, 0, 0)),
    Vector::new(
        "scanner-fa-not-taken",
        "5053FA",
        (0x07, 0x0000, 0x00000040, 1),
    ),
    Vector::new(
        "scanner-fe-not-taken",
        "5053FE",
        (0x07, 0x0000, 0x00000040, 1),
    ),
    Vector::new(
        "scanner-fe-not-counted",
        "504BFE504BFE5053FE",
        (0x07, 0x0000, 0x00000040, 3),
    ),
    Vector::new(
        "scanner-fa-leaves-reply-awaited",
        "5053FA4BFA",
        (0x06, 0x0000, 0x00000050, 1),
    ),
    Vector::new("scanner-fa-idle", "53FA", (0x07, 0x0000, 0, 0)),
    Vector::new(
        "scanner-lamps",
        "533A504BFA50",
        (0x0C, 0x0004, 0x40000040, 2),
    ),
    Vector::new(
        "scanner-sent",
        "504BFE50531E",
        (0x01, 0x1E61, 0x00000040, 2),
    ),
    // Queue, packs and resynchronising.
    Vector::new(
        "scanner-sixteenth-word",
        "4B394B394B394B394B394B394B394B394B394B394B394B394B394B394B395339",
        (0x02, 0x3920, 0, 0),
    ),
    Vector::new(
        "keyboard-sixteenth-word",
        "5339533953395339533953395339533953395339533953395339533953394B39",
        (0x02, 0x3920, 0, 0),
    ),
    Vector::new("scanner-cut-short", "531E53", (0x01, 0x1E61, 0, 0)),
    Vector::without_event("scanner-cut-short-alone", "53"),
    Vector::new(
        "keyboard-run-leaves-scanner",
        concat!(
            "532A",
            "4BB94BAA4BB64B9D4BE04B9D4BB84BE04BB84BBA4BC54BC64BD24BD44B394BB9",
            "4552531E"
        ),
        (0x01, 0x1E41, 0, 0),
    ),
    Vector::new(
        "scanner-run-leaves-keyboard",
        concat!(
            "4B2A",
            "53B953AA53B6539D53E0539D53B853E053B853BA53C553C653D253D4533953B9",
            "45524B1E"
        ),
        (0x01, 0x1E41, 0x02000000, 0),
    ),
    Vector::new(
        "both-runs",
        concat!(
            "532A4B36",
            "4BB94BAA4BB64B9D4BE04B9D4BB84BE04BB84BBA4BC54BC64BD24BD44B394BB9",
            "53B953AA53B6539D53E0539D53B853E053B853BA53C553C653D253D4533953B9",
            "4552531E"
        ),
        (0x01, 0x1E61, 0, 0),
    ),
    Vector::new(
        "both-runs-other-order",
        concat!(
            "532A4B36",
            "53B953AA53B6539D53E0539D53B853E053B853BA53C553C653D253D4533953B9",
            "4BB94BAA4BB64B9D4BE04B9D4BB84BE04BB84BBA4BC54BC64BD24BD44B394BB9",
            "45524B1E"
        ),
        (0x01, 0x1E61, 0, 0),
    ),
];
