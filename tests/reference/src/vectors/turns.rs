//! Vectors for lamps and rates that take turns on the line.

use super::Vector;

/// Most end with the first byte of a command: ED for the lamps, F3 for a rate.
pub const TURNS: [Vector; 39] = [
    // Who goes first.
    Vector::new(
        "lamps-first-when-new",
        "4303010250",
        (0x0C, 0x00ED, 0x00000040, 1),
    ),
    Vector::new(
        "rate-first-after-lamps",
        "504BFA504BFA430301024B3A4BBA50",
        (0x0C, 0x00F3, 0x40000000, 1),
    ),
    Vector::new(
        "lamps-first-after-rate",
        "504BFA504BFA43030102504BFA504BFA4303031F4B3A4BBA50",
        (0x0C, 0x00ED, 0x40000040, 1),
    ),
    Vector::new(
        "turns-go-on",
        concat!(
            "43030102",
            "504BFA504BFA",
            "4B3A4BBA",
            "504BFA504BFA",
            "4303031F",
            "504BFA504BFA",
            "4B3A4BBA50"
        ),
        (0x0C, 0x00F3, 0x00000004, 1),
    ),
    // How long a rate waits, by the bytes left of a running command and those of the next.
    Vector::new(
        "rate-after-eleven-bytes",
        concat!(
            "504BFA504BFA",
            "43030102504303031F4B3A4BBA",
            "54504BFE504BFA504BFE5054504BFA",
            "5054504BFE504BFA504BFE5054504BFA",
            "50"
        ),
        (0x0C, 0x00F3, 0x40000004, 1),
    ),
    Vector::new(
        "rate-after-eleven-bytes-sent",
        concat!(
            "504BFA504BFA",
            "43030102504303031F4B3A4BBA",
            "54504BFE504BFA504BFE5054504BFA",
            "5054504BFE504BFA504BFE5054504BFA",
            "504BFA50"
        ),
        (0x0C, 0x007F, 0x40000004, 2),
    ),
    Vector::new(
        "rate-after-six-bytes",
        "430301025054504BFE504BFA504BFE5054504BFA4B3A4BBA50",
        (0x0C, 0x00F3, 0x40000000, 1),
    ),
    Vector::new(
        "rate-after-five-bytes",
        "504303010254504BFE504BFA504BFE5054504BFA4B3A4BBA50",
        (0x0C, 0x00F3, 0x40000000, 1),
    ),
    Vector::new(
        "rate-at-once",
        "504BFA504BFA4B3A4BBA4303010250",
        (0x0C, 0x00F3, 0x40000000, 1),
    ),
    // How long lamps wait while rates come.
    Vector::new(
        "lamps-after-eleven-bytes",
        concat!(
            "50430301024B3A4BBA",
            "54504BFE504BFA504BFE5054504BFA",
            "504303031F",
            "54504BFE504BFA504BFE5054504BFA",
            "50"
        ),
        (0x0C, 0x00ED, 0x40000040, 1),
    ),
    Vector::new(
        "lamps-after-eleven-bytes-sent",
        concat!(
            "50430301024B3A4BBA",
            "54504BFE504BFA504BFE5054504BFA",
            "504303031F",
            "54504BFE504BFA504BFE5054504BFA",
            "504BFA50"
        ),
        (0x0C, 0x0004, 0x40000040, 2),
    ),
    Vector::new(
        "lamps-after-six-bytes",
        concat!(
            "504BFA504BFA",
            "430301024B3A4BBA504303031F",
            "54504BFE504BFA504BFE5054504BFA",
            "50"
        ),
        (0x0C, 0x00ED, 0x40000040, 1),
    ),
    Vector::new(
        "lamps-after-five-bytes",
        concat!(
            "504BFA504BFA",
            "43030102504303031F4B3A4BBA",
            "54504BFE504BFA504BFE5054504BFA",
            "50"
        ),
        (0x0C, 0x00ED, 0x40000040, 1),
    ),
    // A command given up passes the turn too.
    Vector::new(
        "lamps-given-up",
        "430301025054505450544B3A4BBA50",
        (0x0C, 0x00F3, 0x40000000, 1),
    ),
    Vector::new(
        "lamps-given-up-at-operand",
        "43030102504BFA5054504BFE50544B3A4BBA50",
        (0x0C, 0x00F3, 0x40000000, 1),
    ),
    Vector::new(
        "lamps-given-up-after-six-bytes",
        "4303010250545054504BFA50545054504BFE4B3A4BBA50",
        (0x0C, 0x00F3, 0x40000000, 1),
    ),
    Vector::new(
        "rate-given-up",
        "504BFA504BFA430301025054504BFE50544303031F4B3A4BBA50",
        (0x0C, 0x00ED, 0x40000040, 1),
    ),
    Vector::new(
        "rate-given-up-at-operand",
        "504BFA504BFA43030102504BFA5054505450544303031F4B3A4BBA50",
        (0x0C, 0x00ED, 0x40000040, 1),
    ),
    // A restart gives it to the lamps.
    Vector::new(
        "restart-after-lamps",
        "504BFA504BFA524303010250",
        (0x0C, 0x00ED, 0x00000040, 1),
    ),
    Vector::new(
        "restart-after-lamps-given-up",
        "505450545054524303010250",
        (0x0C, 0x00ED, 0x00000040, 1),
    ),
    Vector::new(
        "restart-in-lamps-command",
        "504BFA524303010250",
        (0x0C, 0x00ED, 0x00000040, 1),
    ),
    Vector::new(
        "restart-then-lamps-then-rate",
        "504BFA504BFA5243030102504BFA504BFA4B3A4BBA50",
        (0x0C, 0x00F3, 0x40000000, 1),
    ),
    Vector::new(
        "restart-drops-the-rate",
        "430301025052504BFA504BFA50",
        (0x0D, 0x0000, 0x00000010, 0),
    ),
    // What is there alone starts, whatever the turn, and passes it.
    Vector::new(
        "lone-rate-out-of-turn",
        "504BFA504BFA43030102504BFA504BFA4303031F50",
        (0x0C, 0x00F3, 0x00000000, 1),
    ),
    Vector::new(
        "lone-lamps-out-of-turn",
        "504BFA504BFA4B3A4BBA50",
        (0x0C, 0x00ED, 0x40000040, 1),
    ),
    Vector::new(
        "lone-lamps-pass-the-turn",
        "504BFA504BFA4B3A4BBA504BFA504BFA430301024B3A4BBA50",
        (0x0C, 0x00F3, 0x00000004, 1),
    ),
    Vector::new(
        "lone-rates-pass-the-turn",
        concat!(
            "504BFA504BFA",
            "43030102",
            "504BFA504BFA",
            "4303031F",
            "504BFA504BFA",
            "430301024B3A4BBA50"
        ),
        (0x0C, 0x00ED, 0x40000040, 1),
    ),
    // Polls that start nothing leave it.
    Vector::new(
        "idle-poll-leaves-the-turn",
        "504BFA504BFA50430301024B3A4BBA50",
        (0x0C, 0x00F3, 0x40000000, 1),
    ),
    Vector::new(
        "early-poll-leaves-the-turn",
        "50504BFA5050504BFA430301024B3A4BBA50",
        (0x0C, 0x00F3, 0x40000000, 1),
    ),
    Vector::new(
        "resend-leaves-the-turn",
        "5054504BFA504BFA430301024B3A4BBA50",
        (0x0C, 0x00F3, 0x40000000, 1),
    ),
    // Rates that replace others, or do not.
    Vector::new(
        "newest-rate-sent",
        "430301024303031F504BFA504BFA504BFA50",
        (0x0C, 0x007F, 0x00000000, 2),
    ),
    Vector::new(
        "replaced-rate-not-sent",
        "430301024303031F504BFA504BFA504BFA504BFA50",
        (0x0D, 0x0000, 0x00000010, 0),
    ),
    Vector::new(
        "rate-replaced-in-lamps-command",
        "43030102504BFA4303031F504BFA4B3A4BBA504BFA50",
        (0x0C, 0x007F, 0x40000000, 2),
    ),
    Vector::new(
        "rate-behind-a-rate",
        concat!(
            "504BFA504BFA",
            "43030102504303031F4BFA504BFA",
            "4B3A4BBA",
            "504BFA504BFA",
            "504BFA50"
        ),
        (0x0C, 0x007F, 0x40000004, 2),
    ),
    Vector::new(
        "refused-rate-replaces-none",
        "4303010243030400504BFA504BFA504BFA50",
        (0x0C, 0x0022, 0x00000000, 2),
    ),
    // Caps Lock played with, and turned by a scanner.
    Vector::new(
        "caps-there-and-back",
        "504B3A4BBA430301024BFA504BFA504B3A4BBA4BFA504BFA50",
        (0x0D, 0x0000, 0x00000010, 0),
    ),
    Vector::new(
        "scanner-caps-behind-a-rate",
        "504BFA504BFA43030102533A53BA50",
        (0x0C, 0x00F3, 0x40000000, 1),
    ),
    Vector::new(
        "scanner-caps-after-a-rate",
        "504BFA504BFA43030102533A53BA504BFA504BFA50",
        (0x0C, 0x00ED, 0x40000040, 1),
    ),
    Vector::new(
        "scanner-replies-leave-the-turn",
        "430301025053FA53FE4BFA5053FE4BFA4B3A4BBA50",
        (0x0C, 0x00F3, 0x40000000, 1),
    ),
];
