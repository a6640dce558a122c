//! Set 2: the table, marks and changes of set one by one, and that a set 2 keyboard is read as one of
//! set 1 that has the same keys pressed.

mod shown;

use reference::generator::{
    all_up_run, in_turn, random_events, random_lists, typed_on, with_scanner, Random,
};
use reference::translation::translated;
use reference::vectors::from_hex;
use reference::Translation::{self, SetOne, SetTwo, SetTwoMarked};
use reference::{CodeSet, Event, Input, Seen, Service, CODE_SETS};
use shown::{assert_shown, Shown};

const LISTS: usize = 2_000;
const LONGEST: usize = 200;

/// The codes of set 2 in the order of their set 1 codes, as a keyboard's keys have them: digits in the
/// first line, letters in the second and third, and so on. The first, 00, is no key.
const CODES: [u8; 128] = [
    0x00, 0x76, 0x16, 0x1E, 0x26, 0x25, 0x2E, 0x36, 0x3D, 0x3E, 0x46, 0x45, 0x4E, 0x55, 0x66, 0x0D,
    0x15, 0x1D, 0x24, 0x2D, 0x2C, 0x35, 0x3C, 0x43, 0x44, 0x4D, 0x54, 0x5B, 0x5A, 0x14, 0x1C, 0x1B,
    0x23, 0x2B, 0x34, 0x33, 0x3B, 0x42, 0x4B, 0x4C, 0x52, 0x0E, 0x12, 0x5D, 0x1A, 0x22, 0x21, 0x2A,
    0x32, 0x31, 0x3A, 0x41, 0x49, 0x4A, 0x59, 0x7C, 0x11, 0x29, 0x58, 0x05, 0x06, 0x04, 0x0C, 0x03,
    0x0B, 0x02, 0x0A, 0x01, 0x09, 0x77, 0x7E, 0x6C, 0x75, 0x7D, 0x7B, 0x6B, 0x73, 0x74, 0x79, 0x69,
    0x72, 0x7A, 0x70, 0x71, 0x7F, 0x60, 0x61, 0x78, 0x07, 0x0F, 0x17, 0x1F, 0x27, 0x2F, 0x37, 0x3F,
    0x47, 0x4F, 0x56, 0x5E, 0x08, 0x10, 0x18, 0x20, 0x28, 0x30, 0x38, 0x40, 0x48, 0x50, 0x57, 0x6F,
    0x13, 0x19, 0x39, 0x51, 0x53, 0x5C, 0x5F, 0x62, 0x63, 0x64, 0x65, 0x67, 0x68, 0x6A, 0x6D, 0x6E,
];

/// A byte after each kind of byte before it: what is read, and what is open then.
const READ: [(Translation, u8, Option<u8>, Translation); 31] = [
    (SetOne, 0xF0, Some(0xF0), SetOne),
    (SetOne, 0x00, Some(0x00), SetOne),
    (SetOne, 0x12, Some(0x12), SetOne),
    (SetTwo, 0xF0, None, SetTwoMarked),
    (SetTwo, 0xFA, Some(0xFA), SetTwo),
    (SetTwo, 0xFE, Some(0xFE), SetTwo),
    (SetTwo, 0xE0, Some(0xE0), SetTwo),
    (SetTwo, 0xE1, Some(0xE1), SetTwo),
    (SetTwo, 0x00, Some(0xFF), SetTwo),
    (SetTwo, 0xFF, Some(0xFF), SetTwo),
    (SetTwo, 0x12, Some(0x2A), SetTwo),
    (SetTwo, 0x83, Some(0x41), SetTwo),
    (SetTwo, 0x84, Some(0x54), SetTwo),
    (SetTwo, 0xB9, Some(0xB9), SetTwo),
    (SetTwoMarked, 0xF0, None, SetTwoMarked),
    (SetTwoMarked, 0xFA, Some(0xFA), SetTwoMarked),
    (SetTwoMarked, 0xFE, Some(0xFE), SetTwoMarked),
    (SetTwoMarked, 0xE0, Some(0xE0), SetTwo),
    (SetTwoMarked, 0xE1, Some(0xE1), SetTwo),
    (SetTwoMarked, 0x00, Some(0xFF), SetTwo),
    (SetTwoMarked, 0xFF, Some(0xFF), SetTwo),
    (SetTwoMarked, 0x12, Some(0xAA), SetTwo),
    (SetTwoMarked, 0x83, Some(0xC1), SetTwo),
    (SetTwoMarked, 0x84, Some(0xD4), SetTwo),
    (SetTwoMarked, 0xB9, Some(0xB9), SetTwo),
    (SetTwoMarked, 0x65, Some(0xFA), SetTwo),
    (SetTwoMarked, 0x6D, Some(0xFE), SetTwo),
    (SetTwoMarked, 0x47, Some(0xE0), SetTwo),
    (SetTwoMarked, 0x4F, Some(0xE1), SetTwo),
    (SetTwoMarked, 0x6E, Some(0xFF), SetTwo),
    (SetTwoMarked, 0x13, Some(0xF0), SetTwo),
];

/// Inputs from locks 0 on set 1, and what the last one shows.
const SHOWN: [(&str, Shown); 61] = [
    // Keys, alone and with a modifier.
    ("set=2 K1C", (0x01, 0x1E61, 0x00000000, 0)),
    ("set=2 K12 K1C", (0x01, 0x1E41, 0x02000000, 0)),
    ("set=2 K14 K21", (0x01, 0x2E03, 0x04010000, 0)),
    ("set=2 KE0 K6C", (0x01, 0x47E0, 0x00000000, 0)),
    ("set=2 KE0 K7E", (0x03, 0x0000, 0x00000000, 0)),
    ("set=2 K11 K7A K70 K70 KF0 K11", (0x01, 0x002C, 0, 0)),
    ("set=1 K1C", (0x01, 0x1C0D, 0x00000000, 0)),
    ("K1C", (0x01, 0x1C0D, 0x00000000, 0)),
    // The two codes above 7F that are translated, and one that is not.
    ("set=2 K83", (0x01, 0x4100, 0x00000000, 0)),
    ("set=2 K02", (0x01, 0x4100, 0x00000000, 0)),
    ("set=2 KF0 K83", (0x00, 0x0000, 0x00000000, 0)),
    ("set=2 KF0 K83 K83", (0x01, 0x4100, 0x00000000, 0)),
    ("set=2 K84", (0x00, 0x0000, 0x00040000, 0)),
    ("set=2 K84 KF0 K84", (0x00, 0x0000, 0x00000000, 0)),
    ("set=2 K84 KF0 K7F", (0x00, 0x0000, 0x00000000, 0)),
    ("set=2 K14 K9D", (0x00, 0x0000, 0x00000000, 0)),
    // A mark makes the next code a break, and two are one.
    ("set=2 K12", (0x00, 0x0000, 0x02000000, 0)),
    ("set=2 K12 KF0", (0x00, 0x0000, 0x02000000, 0)),
    ("set=2 K12 KF0 K12", (0x00, 0x0000, 0x00000000, 0)),
    ("set=2 K12 KF0 KF0 K12", (0x00, 0x0000, 0x00000000, 0)),
    ("set=2 K12 KF0 KF0 K12 K59", (0x00, 0x0000, 0x01000000, 0)),
    ("set=2 K12 frame=7E0 frame=624", (0x00, 0x0000, 0, 0)),
    // Replies leave the mark, and so does what is no byte of the keyboard.
    ("set=2 K12 KF0 KFA", (0x07, 0x0000, 0x02000000, 0)),
    ("set=2 K12 KF0 KFA K12", (0x00, 0x0000, 0x00000000, 0)),
    ("set=2 K12 P KF0 KFA", (0x06, 0x0000, 0x02000050, 1)),
    ("set=2 K12 P KF0 KFA K12", (0x00, 0x0000, 0x00000050, 1)),
    ("set=2 K12 P KF0 KFE", (0x06, 0x0000, 0x02000060, 1)),
    ("set=2 K12 P KF0 KFE K12", (0x00, 0x0000, 0x00000060, 1)),
    ("set=2 K12 KF0 frame=000 K12", (0x00, 0x0000, 0, 0)),
    ("set=2 K12 KF0 T E R K12", (0x00, 0x0000, 0x00000000, 0)),
    // Prefixes and overruns close it.
    ("set=2 KF0 KE0 K14", (0x00, 0x0000, 0x04000400, 0)),
    ("set=2 KF0 KE1 K14 K77", (0x00, 0x0000, 0x00080000, 0)),
    ("set=2 KF0 K00", (0x05, 0x0000, 0x00000000, 0)),
    ("set=2 KF0 K00 K12", (0x00, 0x0000, 0x02000000, 0)),
    ("set=2 KF0 KFF", (0x05, 0x0000, 0x00000000, 0)),
    ("set=2 KF0 KFF K12", (0x00, 0x0000, 0x02000000, 0)),
    ("set=2 KE0 K00", (0x05, 0x0000, 0x00000000, 0)),
    // What comes out is read as any byte of set 1 is.
    ("set=2 P KF0 K65", (0x06, 0x0000, 0x00000050, 1)),
    ("set=2 P KF0 K65 K12", (0x00, 0x0000, 0x02000050, 1)),
    ("set=2 P KF0 K6D K12", (0x00, 0x0000, 0x02000060, 1)),
    ("set=2 KF0 K47", (0x00, 0x0000, 0x00000200, 0)),
    ("set=2 KF0 K47 K14", (0x00, 0x0000, 0x04000400, 0)),
    ("set=2 KF0 K4F", (0x00, 0x0000, 0x00000100, 0)),
    ("set=2 KF0 K4F K14 K77", (0x00, 0x0000, 0x00080000, 0)),
    ("set=2 KE0 KF0 K6E", (0x05, 0x0000, 0x00000000, 0)),
    ("set=2 KF0 K13 K12", (0x00, 0x0000, 0x02000000, 0)),
    // A mark leaves the prefix; on set 1 the same byte is a code, which closes it.
    ("set=2 KE0 KF0", (0x00, 0x0000, 0x00000200, 0)),
    ("set=2 KE0 K14 KE0 KF0 K14", (0x00, 0x0000, 0, 0)),
    ("set=2 KE1 K14 K77", (0x00, 0x0000, 0x00080000, 0)),
    ("set=2 K77 KE1 KF0 K14 KF0 K77", (0, 0, 0x20200000, 0)),
    ("KE0 KF0", (0x00, 0x0000, 0x00000000, 0)),
    // A change closes the mark, leaves the prefix, and shows what stands.
    ("set=2 KF0 set=2 K12", (0x00, 0x0000, 0x02000000, 0)),
    ("set=2 KF0 set=1 K2A", (0x00, 0x0000, 0x02000000, 0)),
    ("set=2 KF0 set=1 set=2 K12", (0x00, 0x0000, 0x02000000, 0)),
    ("KE0 set=2", (0x00, 0x0000, 0x00000200, 0)),
    ("KE0 set=2 K14", (0x00, 0x0000, 0x04000400, 0)),
    ("KE1 K1D set=2 K77", (0x00, 0x0000, 0x00080000, 0)),
    ("KE1 set=2 K14 set=1 K45", (0x00, 0x0000, 0x00080000, 0)),
    ("K2A K3A P set=1", (0x00, 0x0000, 0x42400040, 1)),
    ("K2A K3A P set=2", (0x00, 0x0000, 0x42400040, 1)),
    ("P KFE P KFA P set=2 set=2", (0x00, 0x0000, 0x00000040, 3)),
];

/// Runs the lists and shows each step: the service before, the input, what is seen of it and the service
/// after.
fn each_step(mut check: impl FnMut(&Service, &Input, &Seen, &Service)) {
    for (set, locks, inputs) in random_lists(0x5E7, LISTS, LONGEST) {
        let mut service = Service::on_set(set, locks).unwrap();
        for input in &inputs {
            let before = service.clone();
            let seen = service.input(input);
            check(&before, input, &seen, &service);
        }
    }
}

#[test]
fn each_key_has_its_set_1_code() {
    for (place, code) in CODES.into_iter().enumerate().skip(1) {
        assert_eq!(usize::from(translated(code)), place, "{code:02X}");
    }
}

#[test]
fn codes_01_to_7f_come_out_as_01_to_7f_each_once() {
    let mut come_out: Vec<u8> = (0x01..=0x7F).map(translated).collect();
    come_out.sort();
    let expected: Vec<u8> = (0x01..=0x7F).collect();
    assert_eq!(come_out, expected);
    assert_eq!(translated(0x00), 0xFF);
}

#[test]
fn two_codes_above_7f_are_translated() {
    let changed = |&(code, come_out): &(u8, u8)| code != come_out;
    let come_out = (0x80..=0xFF).map(|code| (code, translated(code)));
    let changed: Vec<(u8, u8)> = come_out.filter(changed).collect();
    assert_eq!(changed, [(0x83, 0x41), (0x84, 0x54)]);
}

#[test]
fn each_kind_of_byte_is_read_as_worked_out() {
    for (before, byte, read, after) in READ {
        let mut translation = before;
        assert_eq!(translation.read(byte), read, "{before:?}, {byte:02X}");
        assert_eq!(translation, after, "{before:?}, {byte:02X}");
    }
}

/// Set 1 passes every byte. On set 2 the codes are all bytes but five; a mark sets the highest bit of
/// what they come out as, and is closed by them.
#[test]
fn every_byte_is_read() {
    for byte in 0..=255 {
        let (mut one, mut two, mut marked) = (SetOne, SetTwo, SetTwoMarked);
        assert_eq!((one.read(byte), one), (Some(byte), SetOne));
        if ![0xE0, 0xE1, 0xF0, 0xFA, 0xFE].contains(&byte) {
            let code = translated(byte);
            assert_eq!((two.read(byte), two), (Some(code), SetTwo));
            assert_eq!((marked.read(byte), marked), (Some(code | 0x80), SetTwo));
        }
    }
}

#[test]
fn inputs_show_what_was_worked_out() {
    assert_shown(&SHOWN);
}

#[test]
fn a_service_made_on_a_set_is_one_changed_to_it() {
    for locks in 0..16 {
        for set in CODE_SETS {
            let made = Service::on_set(set, locks).unwrap();
            let mut changed = Service::new(locks).unwrap();
            changed.change(set);
            assert_eq!(made.translation(), Translation::new(set));
            assert_eq!(made, changed);
        }
    }
}

/// Changed back, and marked again if it was, a service is what it was.
#[test]
fn a_change_closes_the_mark_and_changes_nothing_else() {
    each_step(|_, _, _, service| {
        let standing = service.clone().event(&Event::Call(0x02, 0, 0));
        for set in CODE_SETS {
            let mut changed = service.clone();
            let shown = changed.change(set);
            assert_eq!((shown.ans, shown.word), (0x00, 0x0000));
            assert_eq!((shown.flags, shown.sent), (standing.flags, standing.sent));
            assert_eq!(changed.translation(), Translation::new(set));
            changed.change(service.set());
            if service.translation() == SetTwoMarked {
                changed.event(&Event::Key(0xF0));
            }
            assert_eq!(changed, *service);
        }
    });
}

#[test]
fn only_keyboard_bytes_and_changes_touch_the_mark() {
    each_step(|before, input, seen, after| {
        let from_the_keyboard = matches!(input.ran(seen), Some(Event::Key(_)));
        if !from_the_keyboard && !matches!(input, Input::Change(_)) {
            assert_eq!(before.translation(), after.translation(), "{input:X?}");
        }
    });
}

/// A mark shows what stands, and the byte behind it what set 1's one byte shows. What the scanner sends is
/// the same on both.
#[test]
fn typing_shows_the_same_on_either_set() {
    let mut random = Random::new(0x2E7);
    let mut marks = 0;
    for list in 0..LISTS {
        let (flavour, _, locks) = in_turn(list);
        let mut one = Service::new(locks).unwrap();
        let mut two = Service::on_set(CodeSet::Two, locks).unwrap();
        let events = random_events(&mut random, flavour, LONGEST);
        for event in with_scanner(&mut random, &events) {
            let typed = typed_on(&mut random, CodeSet::Two, event);
            let (last, before) = typed.split_last().unwrap();
            for mark in before {
                let standing = one.clone().change(CodeSet::One);
                assert_eq!(*mark, Event::Key(0xF0));
                assert_eq!(two.event(mark), standing);
            }
            marks += before.len();
            assert_eq!(two.event(last), one.event(&event), "{event:X?}, {typed:X?}");
        }
        two.change(CodeSet::One);
        assert_eq!(one, two, "list {list}");
    }
    println!("{marks} marks among {LISTS} lists of {LONGEST} events");
    assert!(marks > LISTS * LONGEST / 20, "there are breaks");
}

#[test]
fn run_of_set_2_comes_out_as_that_of_set_1() {
    let run = from_hex("F029F012F059F014E0F014F011E0F011F058F077F07EF070F08429F029");
    assert_eq!(all_up_run(CodeSet::Two), run);
    for mut translation in [SetTwo, SetTwoMarked] {
        let read = run.iter().filter_map(|&byte| translation.read(byte));
        assert_eq!(read.collect::<Vec<u8>>(), all_up_run(CodeSet::One));
        assert_eq!(translation, SetTwo);
    }
}
