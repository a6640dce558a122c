//! The controller's ports one by one: what each does, what it is refused for, and what it leaves alone.

mod shown;

use reference::written::inputs;
use reference::OutputBuffer::Empty;
use reference::PortEvent::{FromKeyboard, Read60, Write60, Write64};
use reference::{Controller, Input, Seen, Service};
use shown::assert_shown;
use Beside::{Fed, Interrupt, Nothing};

/// What else there is to see of a port event.
#[derive(Clone, Copy, Debug, PartialEq, Eq)]
enum Beside {
    Nothing,
    Interrupt,
    Fed,
}

/// Answer, byte read, status, and what else.
type Given = (u8, u8, u8, Beside);

/// What is seen of the last input of a list from locks 0 on set 1.
fn last_seen(text: &str) -> Seen {
    let mut service = Service::unlocked();
    let seen = inputs(text).iter().map(|input| service.input(input)).last();
    seen.expect("the list is not empty")
}

fn given(seen: &Seen) -> Given {
    let beside = match (seen.interrupt, seen.fed) {
        (false, false) => Nothing,
        (true, false) => Interrupt,
        (false, true) => Fed,
        (true, true) => panic!("a byte is not read as it comes"),
    };
    (seen.shown.ans, seen.byte, seen.status, beside)
}

fn assert_given(cases: &[(&str, Given)]) {
    for (text, expected) in cases {
        assert_eq!(given(&last_seen(text)), *expected, "{text}");
    }
}

/// The service after a list.
fn after(text: &str) -> Service {
    let mut service = Service::unlocked();
    for input in inputs(text) {
        service.input(&input);
    }
    service
}

#[test]
fn a_new_controller_has_nothing_to_read_and_awaits_nothing() {
    assert_given(&[
        ("r64", (0x00, 0x14, 0x14, Nothing)),
        ("r60", (0x00, 0x00, 0x14, Nothing)),
        ("w60=00", (0x90, 0x00, 0x14, Nothing)),
        ("w64=20 r60", (0x00, 0x01, 0x1C, Nothing)),
        ("K1E", (0x01, 0x00, 0x14, Nothing)),
    ]);
    let new = Controller::new();
    assert_eq!(new.buffer(), Empty);
    assert_eq!((new.command_byte(), new.last_byte()), (0x01, 0x00));
    assert!(!new.awaits_command_byte());
}

// Bytes from the keyboard.

#[test]
fn a_key_fills_the_buffer() {
    assert_given(&[
        ("key=1E", (0x00, 0x00, 0x15, Interrupt)),
        ("key=1E r64", (0x00, 0x15, 0x15, Nothing)),
        ("key=00", (0x00, 0x00, 0x15, Interrupt)),
        ("w64=AE key=1E", (0x00, 0x00, 0x1D, Interrupt)),
    ]);
    assert_shown(&[
        ("key=1E", (0x00, 0x0000, 0x00000000, 0)),
        ("key=1E C00", (0x09, 0x0000, 0x00000000, 0)),
    ]);
}

#[test]
fn a_key_raises_the_interrupt_if_bit_0_is_on_then() {
    assert_given(&[
        ("w64=60 w60=00 key=1E", (0x00, 0x00, 0x15, Nothing)),
        ("w64=60 w60=FE w64=AE key=1E", (0, 0, 0x1D, Nothing)),
        ("w64=60 w60=EF key=1E", (0x00, 0x00, 0x15, Interrupt)),
        (
            "w64=60 w60=00 w64=60 w60=01 key=1E",
            (0, 0, 0x15, Interrupt),
        ),
        ("w64=60 w60=00 key=1E w64=60 w60=01", (0, 0, 0x15, Nothing)),
        ("key=1E w64=60 w60=01", (0x00, 0x00, 0x15, Nothing)),
        ("key=1E r60 r60", (0x00, 0x1E, 0x14, Nothing)),
        ("key=1E r60 key=1E", (0x00, 0x00, 0x15, Interrupt)),
    ]);
}

#[test]
fn a_key_is_refused_while_the_buffer_is_full() {
    assert_given(&[
        ("key=1E key=30", (0x8E, 0x00, 0x15, Nothing)),
        ("key=1E key=1E key=30", (0x8E, 0x00, 0x15, Nothing)),
        ("w64=AA key=30", (0x8E, 0x00, 0x1D, Nothing)),
        ("w64=20 key=30", (0x8E, 0x00, 0x1D, Nothing)),
        // What was there is read, and nothing of the refused one.
        ("key=1E key=30 r60", (0x01, 0x1E, 0x14, Fed)),
        ("key=1E key=30 r60 r60", (0x00, 0x1E, 0x14, Nothing)),
        ("w64=AA key=30 r60", (0x00, 0x55, 0x1C, Nothing)),
        ("w64=AA key=30 r60 key=30", (0x00, 0x00, 0x1D, Interrupt)),
    ]);
}

#[test]
fn a_key_is_refused_while_bit_4_is_on() {
    assert_given(&[
        ("w64=AD key=1E", (0x8E, 0x00, 0x1C, Nothing)),
        ("w64=AD key=1E r60", (0x00, 0x00, 0x1C, Nothing)),
        ("w64=AD w64=AD key=1E", (0x8E, 0x00, 0x1C, Nothing)),
        ("w64=60 w60=10 key=1E", (0x8E, 0x00, 0x14, Nothing)),
        ("w64=60 w60=FF key=1E", (0x8E, 0x00, 0x14, Nothing)),
        ("key=1E w64=AD key=30", (0x8E, 0x00, 0x1D, Nothing)),
        ("key=1E r60 w64=AD key=30", (0x8E, 0x00, 0x1C, Nothing)),
        ("w64=AD w64=AE key=1E", (0x00, 0x00, 0x1D, Interrupt)),
        ("w64=AD w64=60 w60=01 key=1E", (0, 0, 0x15, Interrupt)),
        ("w64=60 w60=11 w64=AE key=1E", (0, 0, 0x1D, Interrupt)),
    ]);
}

// Reads of port 60.

#[test]
fn a_key_is_read_and_fed() {
    assert_given(&[
        ("key=1E r60", (0x01, 0x1E, 0x14, Fed)),
        ("key=2A r60", (0x00, 0x2A, 0x14, Fed)),
        ("key=FF r60", (0x05, 0xFF, 0x14, Fed)),
        ("w64=AE key=1E r60", (0x01, 0x1E, 0x1C, Fed)),
        ("key=2A r60 key=1E r60", (0x01, 0x1E, 0x14, Fed)),
    ]);
    assert_shown(&[
        ("key=1E r60", (0x01, 0x1E61, 0x00000000, 0)),
        ("key=2A r60 key=1E r60", (0x01, 0x1E41, 0x02000000, 0)),
        ("key=1E r60 C00", (0x08, 0x1E61, 0x00000000, 0)),
        ("key=E1 r60 key=1D r60 key=45 r60", (0, 0, 0x00080000, 0)),
    ]);
}

/// A keyboard replies through the port, too.
#[test]
fn the_line_is_answered_through_port_60() {
    assert_shown(&[
        ("P key=FA r60", (0x06, 0x0000, 0x00000050, 1)),
        ("P key=FA r60 P", (0x0C, 0x0000, 0x00000040, 2)),
        ("P key=FA r60 P key=FA r60", (0x06, 0x0000, 0x00000010, 2)),
        ("P key=FE r60 P T P key=FE r60", (0x0E, 0, 0x000000A0, 3)),
        ("key=FA r60", (0x07, 0x0000, 0x00000000, 0)),
    ]);
}

#[test]
fn an_answer_is_read_and_not_fed() {
    assert_given(&[
        ("w64=AA", (0x00, 0x00, 0x1D, Nothing)),
        ("w64=AA r60", (0x00, 0x55, 0x1C, Nothing)),
        ("w64=20", (0x00, 0x00, 0x1D, Nothing)),
        ("w64=60 w60=2A w64=20 r60", (0, 0x2A, 0x1C, Nothing)),
    ]);
    // 2A and 55 would be seen: left Shift, and a code that closes the prefix.
    assert_shown(&[
        ("w64=60 w60=2A w64=20 r60", (0x00, 0x0000, 0x00000000, 0)),
        ("KE0 w64=AA r60 K48", (0x01, 0x48E0, 0x00000000, 0)),
    ]);
}

#[test]
fn an_empty_buffer_repeats_the_last_byte_and_feeds_nothing() {
    assert_given(&[
        ("key=1E r60 r60", (0x00, 0x1E, 0x14, Nothing)),
        ("key=1E r60 r60 r60", (0x00, 0x1E, 0x14, Nothing)),
        ("key=1E r60 key=30 r60 r60", (0x00, 0x30, 0x14, Nothing)),
        ("w64=AA r60 r60", (0x00, 0x55, 0x1C, Nothing)),
        ("key=1E r60 w64=AA r60 r60", (0x00, 0x55, 0x1C, Nothing)),
        ("w64=AA r60 key=1E r60 r60", (0x00, 0x1E, 0x1C, Nothing)),
    ]);
    assert_shown(&[
        ("key=1E r60 r60", (0x00, 0x0000, 0x00000000, 0)),
        ("key=1E r60 r60 C00 C00", (0x09, 0x0000, 0x00000000, 0)),
    ]);
}

// Reads of port 64.

#[test]
fn the_status_has_a_bit_for_the_buffer_and_one_for_the_last_write() {
    assert_given(&[
        ("w64=60 w60=01 r64", (0x00, 0x14, 0x14, Nothing)),
        ("w64=60 w60=01 key=1E r64", (0x00, 0x15, 0x15, Nothing)),
        ("w64=AE r64", (0x00, 0x1C, 0x1C, Nothing)),
        ("w64=AA r64", (0x00, 0x1D, 0x1D, Nothing)),
        ("w64=AA w64=60 w60=01 r64", (0x00, 0x15, 0x15, Nothing)),
        ("w64=60 w60=01 w64=AE r64", (0x00, 0x1C, 0x1C, Nothing)),
    ]);
}

#[test]
fn reading_the_status_changes_nothing() {
    for text in ["", "key=1E", "w64=AA", "w64=60", "w64=AD", "key=1E r60"] {
        let read = format!("{text} r64");
        assert_eq!(after(text), after(&read), "{text}");
        let twice = format!("{text} r64 r64");
        assert_eq!(last_seen(&read), last_seen(&twice), "{text}");
    }
}

// Writes to port 60.

#[test]
fn a_write_to_60_is_refused_if_none_is_awaited() {
    assert_given(&[
        ("w60=01", (0x90, 0x00, 0x14, Nothing)),
        ("w64=60 w60=45 w60=00", (0x90, 0x00, 0x14, Nothing)),
        ("w64=60 w60=45 w60=00 w64=20 r60", (0, 0x45, 0x1C, Nothing)),
        ("w64=AE w60=01", (0x90, 0x00, 0x1C, Nothing)),
        ("key=1E w60=01", (0x90, 0x00, 0x15, Nothing)),
        ("key=1E r60 w60=01", (0x90, 0x00, 0x14, Nothing)),
        ("key=1E w60=01 r60", (0x01, 0x1E, 0x14, Fed)),
    ]);
}

#[test]
fn the_write_that_is_awaited_is_the_command_byte() {
    assert_given(&[
        ("w64=60", (0x00, 0x00, 0x1C, Nothing)),
        ("w64=60 w60=45", (0x00, 0x00, 0x14, Nothing)),
        ("w64=60 w60=45 w64=20 r60", (0, 0x45, 0x1C, Nothing)),
        ("w64=60 key=1E r60 r64 w60=45", (0, 0x00, 0x14, Nothing)),
        ("key=1E w64=60 w60=45 r60", (0x01, 0x1E, 0x14, Fed)),
    ]);
}

// Writes to port 64.

#[test]
fn five_commands_are_listed() {
    for command in 0..=255 {
        let mut service = Service::unlocked();
        let seen = service.port_event(&Write64(command));
        let expected = match command {
            0x20 | 0xAA => (0x00, 0x00, 0x1D, Nothing),
            0x60 | 0xAD | 0xAE => (0x00, 0x00, 0x1C, Nothing),
            _ => (0x8F, 0x00, 0x14, Nothing),
        };
        assert_eq!(given(&seen), expected, "{command:02X}");
    }
}

#[test]
fn an_answer_replaces_what_the_buffer_held() {
    assert_given(&[
        ("key=1E w64=20", (0x00, 0x00, 0x1D, Nothing)),
        ("key=1E w64=AA", (0x00, 0x00, 0x1D, Nothing)),
        ("w64=AA w64=20 r60", (0x00, 0x01, 0x1C, Nothing)),
        ("w64=20 w64=AA r60", (0x00, 0x55, 0x1C, Nothing)),
        ("w64=AA w64=20 r60 r60", (0x00, 0x01, 0x1C, Nothing)),
    ]);
}

#[test]
fn a_key_under_an_answer_is_lost() {
    assert_given(&[
        ("key=1E w64=20 r60", (0x00, 0x01, 0x1C, Nothing)),
        ("key=1E w64=20 r60 r60", (0x00, 0x01, 0x1C, Nothing)),
        ("key=1E w64=AA r60", (0x00, 0x55, 0x1C, Nothing)),
        ("key=1E w64=AA r60 r60", (0x00, 0x55, 0x1C, Nothing)),
        ("key=1E w64=AA r60 key=30 r60", (0x01, 0x30, 0x1C, Fed)),
    ]);
    assert_shown(&[("key=1E w64=AA r60 r60 C00", (0x09, 0x0000, 0, 0))]);
}

/// What 20 put does not change with the command byte.
#[test]
fn the_command_byte_is_answered_as_it_was() {
    assert_given(&[
        ("w64=20 w64=AD r60", (0x00, 0x01, 0x1C, Nothing)),
        ("w64=AD w64=20 w64=AE r60", (0x00, 0x11, 0x1C, Nothing)),
        ("w64=20 w64=60 w60=45 r60", (0x00, 0x01, 0x14, Nothing)),
        ("w64=20 w64=60 w60=45 w64=20 r60", (0, 0x45, 0x1C, Nothing)),
    ]);
}

#[test]
fn every_accepted_command_ends_a_wait_and_60_begins_one() {
    assert_given(&[
        ("w64=60 w64=20 w60=00", (0x90, 0x00, 0x1D, Nothing)),
        ("w64=60 w64=AA w60=00", (0x90, 0x00, 0x1D, Nothing)),
        ("w64=60 w64=AD w60=00", (0x90, 0x00, 0x1C, Nothing)),
        ("w64=60 w64=AE w60=00", (0x90, 0x00, 0x1C, Nothing)),
        ("w64=60 w64=60 w60=00", (0x00, 0x00, 0x14, Nothing)),
        ("w64=60 w64=60 w60=00 w60=00", (0x90, 0x00, 0x14, Nothing)),
        ("w64=60 w64=AE w60=00 w64=20 r60", (0, 0x01, 0x1C, Nothing)),
    ]);
}

#[test]
fn a_refused_write_leaves_the_wait_and_bit_3() {
    assert_given(&[
        ("w64=60 w64=FF w60=00", (0x00, 0x00, 0x14, Nothing)),
        ("w64=60 w64=FF w60=45 w64=20 r60", (0, 0x45, 0x1C, Nothing)),
        ("w64=60 w64=FF r64", (0x00, 0x1C, 0x1C, Nothing)),
        ("w64=FF r64", (0x00, 0x14, 0x14, Nothing)),
        ("w64=60 w60=01 w64=FF", (0x8F, 0x00, 0x14, Nothing)),
        ("w64=60 w60=01 w64=FF r64", (0x00, 0x14, 0x14, Nothing)),
        ("w64=AE w60=01 r64", (0x00, 0x1C, 0x1C, Nothing)),
    ]);
}

// The command byte.

/// Each is kept whole, and two of its bits do something.
#[test]
fn bits_0_and_4_of_the_command_byte_count_alone() {
    for byte in 0..=255 {
        let mut service = Service::unlocked();
        service.port_event(&Write64(0x60));
        service.port_event(&Write60(byte));
        let expected = match (byte & 0x10, byte & 0x01) {
            (0x10, _) => (0x8E, 0x00, 0x14, Nothing),
            (_, 0x01) => (0x00, 0x00, 0x15, Interrupt),
            _ => (0x00, 0x00, 0x15, Nothing),
        };
        let seen = service.clone().port_event(&FromKeyboard(0x1E));
        assert_eq!(given(&seen), expected, "{byte:02X}");
        service.port_event(&Write64(0x20));
        let seen = service.port_event(&Read60);
        assert_eq!(given(&seen), (0x00, byte, 0x1C, Nothing), "{byte:02X}");
    }
}

#[test]
fn ad_and_ae_set_and_clear_bit_4() {
    assert_given(&[
        ("w64=AD w64=20 r60", (0x00, 0x11, 0x1C, Nothing)),
        ("w64=AD w64=AD w64=20 r60", (0x00, 0x11, 0x1C, Nothing)),
        ("w64=AD w64=AE w64=20 r60", (0x00, 0x01, 0x1C, Nothing)),
        ("w64=AE w64=20 r60", (0x00, 0x01, 0x1C, Nothing)),
        ("w64=60 w60=EE w64=AD w64=20 r60", (0, 0xFE, 0x1C, Nothing)),
        ("w64=60 w60=FF w64=AE w64=20 r60", (0, 0xEF, 0x1C, Nothing)),
    ]);
}

#[test]
fn a_disabled_keyboard_leaves_all_else() {
    assert_given(&[
        ("key=1E w64=AD r60", (0x01, 0x1E, 0x1C, Fed)),
        ("key=1E w64=AD r60 r60", (0x00, 0x1E, 0x1C, Nothing)),
        ("w64=AD w64=AA r60", (0x00, 0x55, 0x1C, Nothing)),
        ("w64=AD w64=60 w60=10", (0x00, 0x00, 0x14, Nothing)),
        ("w64=AD r64", (0x00, 0x1C, 0x1C, Nothing)),
    ]);
    assert_shown(&[
        ("key=1E w64=AD r60", (0x01, 0x1E61, 0x00000000, 0)),
        ("w64=AD K1E", (0x01, 0x1E61, 0x00000000, 0)),
        ("w64=AD frame=63C", (0x01, 0x1E61, 0x00000000, 0)),
        ("w64=AD S1E", (0x01, 0x1E61, 0x00000000, 0)),
    ]);
}

// The controller beside the rest of the service.

/// By the set in force when it is read.
#[test]
fn bytes_of_set_2_are_read_as_sent_and_translated_as_fed() {
    assert_given(&[
        ("set=2 key=1C r60", (0x01, 0x1C, 0x14, Fed)),
        ("set=2 key=F0 r60", (0x00, 0xF0, 0x14, Fed)),
        ("set=2 key=F0 r60 key=12 r60", (0x00, 0x12, 0x14, Fed)),
        ("set=2 key=1C r60 r60", (0x00, 0x1C, 0x14, Nothing)),
        ("set=2 w64=60 w60=1C w64=20 r60", (0, 0x1C, 0x1C, Nothing)),
        ("set=2 key=00 r60", (0x05, 0x00, 0x14, Fed)),
    ]);
    assert_shown(&[
        ("set=2 key=1C r60", (0x01, 0x1E61, 0x00000000, 0)),
        ("set=2 key=12 r60", (0x00, 0x0000, 0x02000000, 0)),
        ("set=2 K12 key=F0 r60 key=12 r60", (0, 0, 0x00000000, 0)),
        ("set=2 K12 key=F0 r60 r60 K12", (0, 0, 0x00000000, 0)),
        ("key=1C set=2 r60", (0x01, 0x1E61, 0x00000000, 0)),
        ("set=2 key=1C set=1 r60", (0x01, 0x1C0D, 0x00000000, 0)),
        // An answer closes no mark.
        ("set=2 K12 KF0 w64=AA r60 K12", (0, 0, 0x00000000, 0)),
    ]);
}

#[test]
fn port_events_show_what_stands() {
    for event in [
        "key=1E", "r60", "r64", "w64=20", "w64=60", "w60=00", "w64=FF",
    ] {
        let ans = match event {
            "w60=00" => 0x90,
            "w64=FF" => 0x8F,
            _ => 0x00,
        };
        let text = format!("K2A K3A KE0 P {event}");
        assert_shown(&[(&text, (ans, 0x0000, 0x42400240, 1))]);
    }
    assert_shown(&[
        ("K2A K3A P w64=AD key=1E", (0x8E, 0x0000, 0x42400040, 1)),
        ("K2A K3A P w64=60 w60=00", (0x00, 0x0000, 0x42400040, 1)),
        ("K2A K3A P w64=AA r60", (0x00, 0x0000, 0x42400040, 1)),
    ]);
}

/// Lists that bring a controller into use, with what then shows it.
const USES: [(&str, &str, Given); 9] = [
    ("key=1E", "r64", (0x00, 0x15, 0x15, Nothing)),
    ("key=9E", "r60", (0x00, 0x9E, 0x14, Fed)),
    ("key=9E r60", "r60", (0x00, 0x9E, 0x14, Nothing)),
    ("w64=AA", "r60", (0x00, 0x55, 0x1C, Nothing)),
    ("w64=AE", "r64", (0x00, 0x1C, 0x1C, Nothing)),
    ("w64=60", "w60=00", (0x00, 0x00, 0x14, Nothing)),
    ("w64=AD", "key=1E", (0x8E, 0x00, 0x1C, Nothing)),
    ("w64=60 w60=00", "key=1E", (0x00, 0x00, 0x15, Nothing)),
    ("w64=60 w60=10", "key=1E", (0x8E, 0x00, 0x14, Nothing)),
];

#[test]
fn no_event_but_a_restart_touches_the_controller() {
    let others = "K2A KAA S1E C00 C05 P T E K1E KFA frame=000 frame=63C set=2 set=1 E";
    for (used, telling, expected) in USES {
        let controller = *after(used).controller();
        let beside = after(&format!("{used} {others}"));
        assert_eq!(*beside.controller(), controller, "{used}");
        for other in others.split_whitespace() {
            let text = format!("{used} {other} {telling}");
            assert_eq!(given(&last_seen(&text)), expected, "{text}");
        }
    }
}

#[test]
fn a_restart_makes_the_controller_new() {
    for (used, telling, expected) in USES {
        let restarted = after(&format!("{used} R"));
        assert_eq!(*restarted.controller(), Controller::new(), "{used}");
        let told = |text: &str| given(&last_seen(&format!("{text} {telling}")));
        assert_eq!(told(&format!("{used} R")), told("R"), "{used}");
        assert_ne!(told("R"), expected, "{used}");
    }
    assert_given(&[
        ("w64=AA R", (0x0B, 0x00, 0x14, Nothing)),
        ("key=1E R", (0x0B, 0x00, 0x14, Nothing)),
    ]);
}

#[test]
fn a_restart_leaves_prefix_and_mark_from_port_60() {
    assert_shown(&[
        ("key=E0 r60 R key=48 r60", (0x01, 0x48E0, 0x00000000, 0)),
        ("set=2 K12 key=F0 r60 R key=12 r60", (0, 0, 0x00000000, 0)),
    ]);
}

/// What a K event shows is not changed by a key that waits, which is read after it.
#[test]
fn events_pass_the_buffer() {
    assert_given(&[
        ("key=1E K2A", (0x00, 0x00, 0x15, Nothing)),
        ("key=1E K2A r60", (0x01, 0x1E, 0x14, Fed)),
        ("key=1E KFF K30 r60", (0x01, 0x1E, 0x14, Fed)),
    ]);
    assert_shown(&[
        ("key=1E K2A", (0x00, 0x0000, 0x02000000, 0)),
        ("key=1E K2A r60", (0x01, 0x1E41, 0x02000000, 0)),
        ("key=48 KE0 r60", (0x01, 0x48E0, 0x00000000, 0)),
    ]);
}

/// Calls that are refused at the ports, with what they were refused for, can be made again at once.
#[test]
fn a_refused_port_event_changes_nothing() {
    let refused = [
        ("key=1E", Input::Port(FromKeyboard(0x30))),
        ("w64=AA", Input::Port(FromKeyboard(0x30))),
        ("w64=AD", Input::Port(FromKeyboard(0x30))),
        ("key=1E w64=60", Input::Port(Write64(0x61))),
        ("w64=60 w60=45", Input::Port(Write64(0x61))),
        ("key=1E w64=AE", Input::Port(Write60(0x00))),
        ("w64=60 w60=45", Input::Port(Write60(0x00))),
    ];
    for (used, input) in refused {
        let mut service = after(used);
        let seen = service.input(&input);
        assert!(seen.is_refused(), "{used}, {input:X?}");
        assert_eq!(service, after(used), "{used}, {input:X?}");
        assert_eq!(service.input(&input), seen, "{used}, {input:X?}");
    }
}
