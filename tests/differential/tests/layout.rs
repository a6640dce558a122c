//! Every number of a service stands where the header says, and every flag in its bit: events that
//! change few of them change the bytes at their places and no others. A flag is read from the bit
//! that it is written to, and the other bits of the flag bytes are not read. The same holds for the
//! numbers of the scanner's port and for the turn, of which the flag bytes show nothing. Those of the
//! controller have a file of their own.

use differential::codes::{SET_1, SET_2, SET_2_MARKED};
use differential::flag::*;
use differential::held::{CAPS, LEFT, NUM, RIGHT, SCROLL};
use differential::place::*;
use differential::prefix::{E0, E1, E1_1D, E1_9D, NONE};
use differential::{kind, prefix_and_codes, Image, IMAGE_LENGTH, SCANNER_LENGTH};
use reference::written::inputs;
use reference::Event::{self, Call, Empty, Key, Poll, Restart, Scan, TimeOut};
use reference::PortEvent::Write64;
use reference::{CodeSet, Input, CODE_SETS};

/// The bits of the flag bytes that have a meaning, and those of the scanner's numbers. A sum may have any.
const MEANT: [u8; 4] = [0xFF, 0xFF, 0x0F, 0xF7];
const MEANT_AT_THE_SCANNER: [u8; SCANNER_LENGTH] = [0x07, 0xFF, 0x03, 0x03, 0x03, 0x07, 0x01, 0x01];

/// Events on a new service with no lock on, and the numbers and flags that are not 0 after them.
type Change = (Vec<Event>, Vec<(usize, u8)>);

/// A prefix at its place: the lower half of a byte.
fn prefix(number: u8) -> (usize, u8) {
    (PREFIX_AND_CODES, prefix_and_codes(number, SET_1))
}

/// The codes that come at their place: the upper half of that byte.
fn codes(number: u8) -> (usize, u8) {
    (PREFIX_AND_CODES, prefix_and_codes(NONE, number))
}

fn keys(bytes: &[u8]) -> Vec<Event> {
    bytes.iter().map(|&byte| Key(byte)).collect()
}

fn scans(bytes: &[u8]) -> Vec<Event> {
    bytes.iter().map(|&byte| Scan(byte)).collect()
}

/// Each reply after a poll.
fn polled(replies: &[u8]) -> Vec<Event> {
    let reply = |&byte: &u8| [Poll, Key(byte)];
    replies.iter().flat_map(reply).collect()
}

/// Changes of keys, locks and prefixes.
fn changes_by_keys() -> Vec<Change> {
    vec![
        (keys(&[0xE1, 0x1D, 0x45]), vec![PAUSED]),
        (keys(&[0x46]), vec![SCROLL_LOCK, SCROLL_HELD]),
        (keys(&[0x46, 0xC6]), vec![SCROLL_LOCK]),
        (keys(&[0x46, 0xC6, 0x46]), vec![SCROLL_HELD]),
        (keys(&[0x45]), vec![NUM_LOCK, NUM_HELD]),
        (keys(&[0x45, 0xC5]), vec![NUM_LOCK]),
        (keys(&[0x45, 0xC5, 0x45]), vec![NUM_HELD]),
        (keys(&[0x3A]), vec![CAPS_LOCK, CAPS_HELD]),
        (keys(&[0x3A, 0xBA]), vec![CAPS_LOCK]),
        (keys(&[0x3A, 0xBA, 0x3A]), vec![CAPS_HELD]),
        (
            [keys(&[0x52]), vec![Empty]].concat(),
            vec![INSERT, INSERT_HELD],
        ),
        ([keys(&[0x52, 0xD2]), vec![Empty]].concat(), vec![INSERT]),
        (
            [keys(&[0x52, 0xD2, 0x52]), vec![Empty]].concat(),
            vec![INSERT_HELD],
        ),
        (keys(&[0x54]), vec![SYSREQ_HELD]),
        (keys(&[0x2A]), vec![LEFT_SHIFT]),
        (keys(&[0x36]), vec![RIGHT_SHIFT]),
        (keys(&[0x1D]), vec![LEFT_CTRL, CTRL]),
        (keys(&[0xE0, 0x1D]), vec![RIGHT_CTRL, CTRL]),
        (keys(&[0x38]), vec![LEFT_ALT, ALT]),
        (keys(&[0xE0, 0x38]), vec![RIGHT_ALT, ALT]),
        (keys(&[0xE0]), vec![prefix(E0), E0_OPEN]),
        (keys(&[0xE1]), vec![prefix(E1), E1_OPEN]),
        (keys(&[0xE1, 0x1D]), vec![prefix(E1_1D), E1_OPEN]),
        (keys(&[0xE1, 0x9D]), vec![prefix(E1_9D), E1_OPEN]),
        (keys(&[0x38, 0x4B]), vec![LEFT_ALT, ALT, (ALT_SUM, 4)]),
    ]
}

/// Changes of the scanner's port, and the pause that it sets.
fn changes_by_scans() -> Vec<Change> {
    vec![
        (scans(&[0xE0]), vec![(SCANNER_PREFIX, E0)]),
        (scans(&[0xE1]), vec![(SCANNER_PREFIX, E1)]),
        (scans(&[0xE1, 0x1D]), vec![(SCANNER_PREFIX, E1_1D)]),
        (scans(&[0xE1, 0x9D]), vec![(SCANNER_PREFIX, E1_9D)]),
        (scans(&[0xE1, 0x1D, 0x45]), vec![PAUSED]),
        (scans(&[0x36]), vec![(SCANNER_SHIFT, RIGHT)]),
        (scans(&[0x2A]), vec![(SCANNER_SHIFT, LEFT)]),
        (scans(&[0xE0, 0x1D]), vec![(SCANNER_CTRL, RIGHT)]),
        (scans(&[0x1D]), vec![(SCANNER_CTRL, LEFT)]),
        (scans(&[0xE0, 0x38]), vec![(SCANNER_ALT, RIGHT)]),
        (scans(&[0x38]), vec![(SCANNER_ALT, LEFT)]),
        (
            scans(&[0x38, 0x50, 0x4C, 0x4C]),
            vec![(SCANNER_ALT, LEFT), (SCANNER_SUM, 255)],
        ),
        (scans(&[0x54]), vec![(SCANNER_SYSREQ, 1)]),
    ]
}

/// Changes of the locks by the scanner, which holds their keys by itself.
fn changes_by_scanned_locks() -> Vec<Change> {
    let and_empty = |bytes: &[u8]| [scans(bytes), vec![Empty]].concat();
    let (held, insert) = (SCANNER_LOCKS, (SCANNER_INSERT, 1));
    vec![
        (scans(&[0x46]), vec![SCROLL_LOCK, (held, SCROLL)]),
        (scans(&[0x46, 0xC6]), vec![SCROLL_LOCK]),
        (scans(&[0x46, 0xC6, 0x46]), vec![(held, SCROLL)]),
        (scans(&[0x45]), vec![NUM_LOCK, (held, NUM)]),
        (scans(&[0x45, 0xC5]), vec![NUM_LOCK]),
        (scans(&[0x45, 0xC5, 0x45]), vec![(held, NUM)]),
        (scans(&[0x3A]), vec![CAPS_LOCK, (held, CAPS)]),
        (scans(&[0x3A, 0xBA]), vec![CAPS_LOCK]),
        (scans(&[0x3A, 0xBA, 0x3A]), vec![(held, CAPS)]),
        (and_empty(&[0x52]), vec![INSERT, insert]),
        (and_empty(&[0x52, 0xD2]), vec![INSERT]),
        (and_empty(&[0x52, 0xD2, 0x52]), vec![insert]),
    ]
}

/// The same key at both ports, which each keeps by itself.
fn changes_at_both() -> Vec<Change> {
    let at_both = |byte: u8| vec![Key(byte), Scan(byte)];
    vec![
        (at_both(0x2A), vec![LEFT_SHIFT, (SCANNER_SHIFT, LEFT)]),
        (at_both(0x3A), vec![CAPS_HELD, (SCANNER_LOCKS, CAPS)]),
        (
            at_both(0xE1),
            vec![prefix(E1), E1_OPEN, (SCANNER_PREFIX, E1)],
        ),
    ]
}

/// A lock key down and up, and what comes behind it.
fn locked(key: u8, rest: Vec<Event>) -> Vec<Event> {
    [keys(&[key, key + 0x80]), rest].concat()
}

/// The kind where it is that of a rate command that runs, or on an idle line where the rate goes first.
const RATE_KIND: (usize, u8) = (KIND, kind::RATE);

/// Changes of the line by a LED command that runs. Its kind is 0.
fn changes_by_running_led_commands() -> Vec<Change> {
    let capital = |rest: Vec<Event>| locked(0x3A, rest);
    let running =
        |rest: &[(usize, u8)]| [&[CAPS_LOCK, LED_COMMAND_RUNS, (VALUE, 4)], rest].concat();
    vec![
        (
            capital(vec![Poll]),
            running(&[(PHASE, 1), (SENDS, 1), (SENT, 1)]),
        ),
        (
            capital(polled(&[0xFE])),
            running(&[(PHASE, 2), (SENDS, 1), (SENT, 1), RESEND]),
        ),
        (
            capital(polled(&[0xFE, 0xFA])),
            running(&[(PHASE, 2), (OPERAND, 1), (SENT, 2), ACKNOWLEDGED]),
        ),
        (
            capital([polled(&[0xFE, 0xFA]), vec![Poll]].concat()),
            running(&[(PHASE, 1), (OPERAND, 1), (SENDS, 1), (SENT, 3)]),
        ),
    ]
}

/// Changes of the line by a LED command that is over. However it ended, it leaves the turn of the rate, and a
/// poll that starts nothing leaves that too.
fn changes_by_ended_led_commands() -> Vec<Change> {
    let handled = |value: u8, rest: &[(usize, u8)]| [&led_handled(value), rest].concat();
    vec![
        (
            locked(0x46, polled(&[0xFA, 0xFA])),
            handled(1, &[SCROLL_LOCK, SCROLL_DONE, ACKNOWLEDGED]),
        ),
        (
            locked(0x45, polled(&[0xFA, 0xFA])),
            handled(2, &[NUM_LOCK, NUM_DONE, ACKNOWLEDGED]),
        ),
        (
            locked(0x3A, polled(&[0xFA, 0xFA])),
            handled(4, &[CAPS_LOCK, CAPS_DONE, ACKNOWLEDGED]),
        ),
        (
            locked(0x3A, polled(&[0xFE, 0xFE, 0xFE])),
            handled(4, &[CAPS_LOCK, GIVEN_UP, RESEND]),
        ),
        (
            locked(0x3A, [Poll, TimeOut].repeat(3)),
            handled(4, &[CAPS_LOCK, GIVEN_UP]),
        ),
        (
            locked(0x3A, [polled(&[0xFA, 0xFA]), vec![Poll]].concat()),
            handled(4, &[CAPS_LOCK, CAPS_DONE, ACKNOWLEDGED]),
        ),
    ]
}

/// What a LED command that is over leaves beside flags.
fn led_handled(value: u8) -> [(usize, u8); 3] {
    [(HANDLED_KNOWN, 1), (HANDLED, value), RATE_KIND]
}

/// Changes of the line by rates. One that waits leaves the turn; a command that is over, however it ended,
/// leaves that of the LED value.
fn changes_by_rates() -> Vec<Change> {
    let call = Call(0x03, 2, 5);
    let waiting = [(RATE_KNOWN, 1), (RATE, 69)];
    let led_done = polled(&[0xFA, 0xFA]);
    let behind_led = |rest: Vec<Event>| [led_done.clone(), vec![call], rest].concat();
    let running = [(HANDLED_KNOWN, 1), RATE_KIND, (VALUE, 69), (SENT, 1)];
    vec![
        (vec![call], waiting.to_vec()),
        (
            behind_led(vec![]),
            [&led_handled(0)[..], &waiting, &[ACKNOWLEDGED]].concat(),
        ),
        (
            behind_led(vec![Poll]),
            [&running[..], &[(PHASE, 1), (SENDS, 1)]].concat(),
        ),
        (
            behind_led(polled(&[0xFA])),
            [&running[..], &[(PHASE, 2), (OPERAND, 1), ACKNOWLEDGED]].concat(),
        ),
        (
            behind_led(led_done.clone()),
            vec![(HANDLED_KNOWN, 1), ACKNOWLEDGED],
        ),
        (
            behind_led(polled(&[0xFE, 0xFE, 0xFE])),
            vec![(HANDLED_KNOWN, 1), GIVEN_UP, RESEND],
        ),
        (
            behind_led([led_done.clone(), locked(0x3A, led_done.clone())].concat()),
            [&led_handled(4)[..], &[CAPS_LOCK, CAPS_DONE, ACKNOWLEDGED]].concat(),
        ),
        (behind_led(vec![Restart]), vec![]),
        (vec![Poll, Restart], vec![]),
    ]
}

/// Changes of the queue.
fn changes_by_words() -> Vec<Change> {
    vec![
        (
            vec![Call(0x05, 0x1E, 0x61), Call(0x05, 0x30, 0x62)],
            vec![
                (WORDS, 0x1E),
                (WORDS + 1, 0x61),
                (WORDS + 2, 0x30),
                (WORDS + 3, 0x62),
                (COUNT, 2),
            ],
        ),
        (
            vec![Call(0x05, 0x1E, 0x61), Call(0x00, 0, 0)],
            vec![(WORDS, 0x1E), (WORDS + 1, 0x61), (HEAD, 1)],
        ),
    ]
}

/// The bytes with these numbers and flags; a byte may have more than one flag.
fn bytes_with(numbers: &[(usize, u8)]) -> [u8; IMAGE_LENGTH] {
    let mut bytes = [0; IMAGE_LENGTH];
    for &(place, number) in numbers {
        bytes[place] |= number;
    }
    bytes
}

/// The bytes that are not 0, by their places.
fn standing(bytes: &[u8]) -> Vec<(usize, u8)> {
    let bytes = bytes.iter().copied().enumerate();
    bytes.filter(|&(_, byte)| byte != 0).collect()
}

#[test]
fn each_number_stands_at_its_place() {
    let mut seen = [0; IMAGE_LENGTH];
    let changes = [
        changes_by_keys(),
        changes_by_scans(),
        changes_by_scanned_locks(),
        changes_at_both(),
        changes_by_running_led_commands(),
        changes_by_ended_led_commands(),
        changes_by_rates(),
        changes_by_words(),
    ];
    for (events, expected) in changes.concat() {
        let mut image = Image::new(0).unwrap();
        for event in &events {
            image.event(event);
        }
        let expected = standing(&bytes_with(&expected));
        assert_eq!(standing(&image.bytes), expected, "after {events:?}");
        for (seen, byte) in seen.iter_mut().zip(image.bytes) {
            *seen |= byte;
        }
    }
    let seen = Image { bytes: seen };
    assert_eq!(
        seen.first_bytes(),
        MEANT,
        "each flag was on after some events"
    );
    assert_eq!(seen.scanner(), MEANT_AT_THE_SCANNER);
}

/// Made on a set, or changed to it, whether a mark is open or not.
#[test]
fn the_set_stands_at_its_place() {
    for (set, number) in [(CodeSet::One, SET_1), (CodeSet::Two, SET_2)] {
        let made = Image::new_on(set, 0).unwrap();
        assert_eq!(made.bytes, bytes_with(&[codes(number)]));
        for former in CODE_SETS {
            let mut changed = Image::new_on(former, 0).unwrap();
            changed.change(set);
            assert_eq!(changed, made);
            changed.key(0xF0);
            changed.change(set);
            assert_eq!(changed, made);
        }
    }
}

/// Bytes of a set 2 keyboard one after the other, and the numbers that are not 0 after each.
#[test]
fn the_mark_stands_with_the_set() {
    let locks = [SCROLL_LOCK, INSERT];
    let mut image = Image::new_on(CodeSet::Two, 9).unwrap();
    let steps = [
        (0xF0, vec![codes(SET_2_MARKED)]),
        (0xF0, vec![codes(SET_2_MARKED)]),
        (0x12, vec![codes(SET_2)]),
        (0xE0, vec![codes(SET_2), prefix(E0), E0_OPEN]),
        (0xF0, vec![codes(SET_2_MARKED), prefix(E0), E0_OPEN]),
        (0xE1, vec![codes(SET_2), prefix(E1), E1_OPEN]),
        (0x14, vec![codes(SET_2), prefix(E1_1D), E1_OPEN]),
        (0xF0, vec![codes(SET_2_MARKED), prefix(E1_1D), E1_OPEN]),
        (0xFA, vec![codes(SET_2_MARKED), prefix(E1_1D), E1_OPEN]),
        (0x00, vec![codes(SET_2)]),
        (0xF0, vec![codes(SET_2_MARKED)]),
        (0x47, vec![codes(SET_2), prefix(E0), E0_OPEN]),
        (0x14, vec![codes(SET_2), RIGHT_CTRL, CTRL]),
    ];
    for (byte, expected) in steps {
        image.key(byte);
        let expected = bytes_with(&[expected.as_slice(), &locks].concat());
        assert_eq!(standing(&image.bytes), standing(&expected), "{byte:02X}");
    }
}

/// One bit of the flag bytes among zeros: one that is read is that flag, and shown with what follows
/// from it; one that is not read is none.
#[test]
fn each_flag_is_read_from_its_bit() {
    let following = [
        (LEFT_CTRL, CTRL),
        (RIGHT_CTRL, CTRL),
        (LEFT_ALT, ALT),
        (RIGHT_ALT, ALT),
    ];
    for (place, read) in READ.into_iter().enumerate() {
        for bit in (0..8).map(|number| 1 << number) {
            let mut image = Image::new(0).unwrap();
            image.bytes[place] = bit;
            let mut expected = vec![(place, bit & read)];
            for (flag, follower) in following {
                if flag == (place, bit) {
                    expected.push(follower);
                }
            }
            let expected = bytes_with(&expected);
            assert_eq!(
                image.flag_bytes(),
                expected[..4],
                "bit {bit:02X} at {place}"
            );
            // A status call writes what was read.
            image.call(0x02, 0, 0);
            assert_eq!(standing(&image.bytes), standing(&expected));
        }
    }
}

/// One bit of the scanner's numbers among zeros, likewise; no flag byte shows it.
#[test]
fn each_number_of_the_scanner_is_read_from_its_place() {
    for (number, meant) in MEANT_AT_THE_SCANNER.into_iter().enumerate() {
        let place = SCANNER_PREFIX + number;
        for bit in (0..8).map(|number| 1 << number) {
            let mut image = Image::new(0).unwrap();
            image.bytes[place] = bit;
            assert_eq!(image.flag_bytes(), [0; 4], "bit {bit:02X} at {place}");
            image.call(0x02, 0, 0);
            let expected = match place {
                // Any number but 0 is held.
                SCANNER_INSERT | SCANNER_SYSREQ => 1,
                _ => bit & meant,
            };
            let expected = bytes_with(&[(place, expected)]);
            assert_eq!(standing(&image.bytes), standing(&expected));
        }
    }
}

/// Inputs that are not refused where a command byte is awaited, so that each writes the service anew.
const WRITING: &str =
    "C02 C030205 C051E61 K1E S1E T E P R frame=63C set=1 set=2 key=1E r60 r64 w60=00 w64=20";

/// Both a LED value and a rate are due on an idle line, and a command byte is awaited.
fn ready() -> Image {
    let mut image = Image::new(0).unwrap();
    image.call(0x03, 1, 2);
    image.port(Write64(0x60));
    image
}

/// The same with this turn, by the number that the library writes.
fn ready_with(turn: u8) -> Image {
    let mut image = ready();
    image.put_turn(turn);
    image
}

/// The input shows and leaves the same as with the plain numbers, by its report too. No flag byte shows
/// more of the one than of the other.
fn check_alike(image: &Image, plain: &Image, input: &Input) {
    let (mut done, mut expected, mut reported) = (image.clone(), plain.clone(), image.clone());
    assert_eq!(image.flag_bytes(), plain.flag_bytes());
    let seen = expected.input(input);
    assert!(!seen.is_refused());
    assert_eq!(done.input(input), seen, "{:?}", standing(&image.bytes));
    assert_eq!(done, expected, "{:?}", standing(&image.bytes));
    reported.report_of(input);
    assert_eq!(reported, expected, "{:?}", standing(&image.bytes));
}

/// In any phase of an idle line, any number is the turn of the rate, or of the LED value where it is 0. Each
/// call writes it as 0 or 1, and but for R leaves it: a poll starts the command of that kind.
#[test]
fn the_turn_is_read_from_the_kind_of_an_idle_line() {
    for input in inputs(WRITING) {
        let plain = [kind::LED, kind::RATE].map(ready_with);
        for (phase, number) in idle_turns() {
            let turn = u8::from(number > 0);
            let mut image = ready();
            image.bytes[PHASE] = phase;
            image.put_turn(number);
            check_alike(&image, &plain[usize::from(turn)], &input);
            image.input(&input);
            let is_restart = input == Input::Event(Restart);
            let left = [turn, kind::LED][usize::from(is_restart)];
            assert_eq!(image.bytes[KIND], left, "{number} in phase {phase}");
        }
    }
}

/// Each phase of an idle line with each number of a turn.
fn idle_turns() -> impl Iterator<Item = (u8, u8)> {
    let phases = (0..=255).filter(|phase| !matches!(phase, 1 | 2));
    phases.flat_map(|phase| (0..=255).map(move |number| (phase, number)))
}

/// The rest of the command on an idle line, and the spare bytes: none is read, whosever turn it is, and each
/// call writes zeros.
#[test]
fn what_stands_behind_the_turn_is_not_read() {
    for input in inputs(WRITING) {
        for plain in [kind::LED, kind::RATE].map(ready_with) {
            for (place, number) in unread_numbers() {
                let mut image = plain.clone();
                image.bytes[place] = number;
                check_alike(&image, &plain, &input);
            }
        }
    }
}

/// Each number at each place that is not read on an idle line.
fn unread_numbers() -> impl Iterator<Item = (usize, u8)> {
    let places = (VALUE..=SENT).chain(SPARE..IMAGE_LENGTH);
    places.flat_map(|place| (0..=255).map(move |number| (place, number)))
}

/// The fifteenth place is followed by the first, and the sixteenth is never used.
#[test]
fn words_go_round_fifteen_places() {
    let mut image = Image::new(0).unwrap();
    for number in 1..=40 {
        image.event(&Call(0x05, number, number));
        if number >= 15 {
            image.event(&Call(0x00, 0, 0));
        }
        assert_eq!(image.bytes[WORDS + 30..WORDS + 32], [0, 0]);
        assert!(image.bytes[HEAD] < 15);
        assert_eq!(image.bytes[HEAD + 1..COUNT], [0; 7]);
        let place = WORDS + 2 * (usize::from(number) - 1) % 30;
        assert_eq!(image.bytes[place..place + 2], [number, number]);
    }
}
