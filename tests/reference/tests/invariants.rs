//! What holds after every event, over random lists.

use reference::generator::{random_events, typed_on, with_scanner, Random, FLAVOURS};
use reference::queue::{as_an_old_program_sees, is_enhanced};
use reference::{report, Device, Event, Outcome, Service, CODE_SETS, DEVICES, REPORT_LENGTH};

const EVENTS: usize = 200_000;

/// Runs long random lists, typed on either set and with a scanner beside, and shows each step: the service
/// before, the event, its outcome and the service after.
fn each_step(mut check: impl FnMut(&Service, &Event, &Outcome, &Service)) {
    let mut random = Random::new(16);
    for (place, flavour) in FLAVOURS.into_iter().enumerate() {
        for set in CODE_SETS {
            let mut service = Service::on_set(set, (5 * place % 16) as u8).unwrap();
            let events = random_events(&mut random, flavour, EVENTS);
            let events = with_scanner(&mut random, &events);
            let typed = |event| typed_on(&mut random, set, event);
            for event in events.into_iter().flat_map(typed) {
                let before = service.clone();
                let outcome = service.event(&event);
                check(&before, &event, &outcome, &service);
            }
        }
    }
}

#[test]
fn sum_is_zero_without_alt_of_the_same_port() {
    let mut sums = [0; DEVICES.len()];
    each_step(|_, _, _, service| {
        for (sums, device) in sums.iter_mut().zip(DEVICES) {
            let (port, other) = (service.port(device), service.port(device.other()));
            assert!(port.keys().alt() || port.alt_sum() == 0);
            *sums += usize::from(port.alt_sum() > 0 && !other.keys().alt());
        }
    });
    for sums in sums {
        assert!(sums > 1_000, "the lists hold sums beside no Alt: {sums}");
    }
}

#[test]
fn flag_bytes_are_consistent() {
    each_step(|_, _, outcome, service| {
        let [byte_17, byte_18, byte_96, byte_97] = outcome.flags;
        assert_eq!(outcome.flags, service.flag_bytes());
        assert_eq!(
            byte_17 & 0x04 != 0,
            byte_18 & 0x01 != 0 || byte_96 & 0x04 != 0
        );
        assert_eq!(
            byte_17 & 0x08 != 0,
            byte_18 & 0x02 != 0 || byte_96 & 0x08 != 0
        );
        assert_ne!(byte_96 & 0x03, 0x03, "one prefix at a time");
        assert_eq!(byte_96 & 0xF0, 0);
        assert_eq!(byte_97 & 0x08, 0);
    });
}

/// Locks and pause may change. All other bits belong to the keyboard, or to the line.
#[test]
fn other_flags_stay_at_a_byte_of_the_scanner() {
    let mut changes = 0;
    each_step(|before, event, outcome, _| {
        if let Event::Scan(_) = event {
            let [byte_17, byte_18, byte_96, byte_97] = before.flag_bytes();
            let [locks, pause] = [outcome.flags[0] & 0xF0, outcome.flags[1] & 0x08];
            let expected = [
                byte_17 & 0x0F | locks,
                byte_18 & 0xF7 | pause,
                byte_96,
                byte_97,
            ];
            assert_eq!(outcome.flags, expected);
            changes += usize::from(outcome.flags != before.flag_bytes());
        }
    });
    assert!(changes > 10_000, "the scanner turns locks: {changes}");
}

#[test]
fn bytes_sent_stay_in_bounds() {
    let mut most = 0;
    each_step(|_, event, outcome, _| {
        most = most.max(outcome.sent);
        assert!(outcome.sent <= 6);
        assert!(outcome.sent > 0 || outcome.ans != 0x0C);
        assert!(outcome.sent == 0 || *event != Event::Restart);
    });
    assert_eq!(most, 6, "the lists reach the most sends");
}

#[test]
fn refused_call_changes_nothing() {
    let mut seen = [0; 4];
    each_step(|before, _, outcome, after| {
        if outcome.ans >= 0x80 {
            assert_eq!(before, after);
            assert_eq!(outcome.word, 0);
            seen[usize::from(outcome.ans - 0x82)] += 1;
        }
    });
    assert!(seen.iter().all(|&count| count > 0), "each refusal is met");
}

/// The stored word is what counts: one that is not enhanced may be returned as one, 85E0 as 8500.
#[test]
fn old_functions_return_no_enhanced_word() {
    let mut passed_over = 0;
    each_step(|before, event, outcome, _| {
        if let Event::Call(0x00 | 0x01, ..) = event {
            let mut looked = before.clone();
            let oldest = looked.event(&Event::Call(0x11, 0, 0)).word;
            looked.event(&Event::Call(0x01, 0, 0));
            let next = looked.event(&Event::Call(0x11, 0, 0)).word;
            assert!(!is_enhanced(next));
            assert!(is_enhanced(oldest) || next == oldest);
            assert_eq!(outcome.word, as_an_old_program_sees(next));
            passed_over += usize::from(is_enhanced(oldest));
        }
    });
    assert!(passed_over > 10_000, "the lists hold enhanced words");
}

#[test]
fn every_answer_is_met() {
    let mut seen = [false; 256];
    each_step(|_, _, outcome, _| seen[usize::from(outcome.ans)] = true);
    let expected = |ans: usize| ans <= 0x0E || (0x82..=0x85).contains(&ans);
    assert!((0..256).all(|ans| seen[ans] == expected(ans)));
}

/// Those of a key, and that a reply is ignored: none is taken from a scanner, and none gives up.
#[test]
fn the_scanner_has_seven_answers() {
    let mut seen = [false; 256];
    each_step(|_, event, outcome, _| {
        let from_the_scanner = matches!(event.incoming(), Some((Device::Scanner, _)));
        seen[usize::from(outcome.ans)] |= from_the_scanner;
    });
    let expected = |ans: usize| ans <= 0x05 || ans == 0x07;
    assert!((0..256).all(|ans| seen[ans] == expected(ans)));
}

#[test]
fn only_fifteen_locks_are_made() {
    for locks in 0..=255 {
        let flags = Service::new(locks).map(|service| service.flag_bytes());
        let expected = if locks > 15 {
            Err(1)
        } else {
            Ok([locks << 4, 0, 0, 0])
        };
        assert_eq!(flags, expected);
        for set in CODE_SETS {
            let made = Service::on_set(set, locks);
            let shown = made.map(|service| (service.set(), service.flag_bytes()));
            assert_eq!(shown, expected.map(|flags| (set, flags)));
        }
    }
}

const EVENTS_TO_REPORT: [Event; 4] = [
    Event::Poll,
    Event::Call(0xFF, 0, 0),
    Event::Key(0x2A),
    Event::Scan(0x2A),
];

#[test]
fn short_buffer_is_refused_before_all_else() {
    let mut service = Service::unlocked();
    for event in EVENTS_TO_REPORT {
        let mut buffer = [0xA5; REPORT_LENGTH - 1];
        assert_eq!(service.reported_event(&event, &mut buffer), Err(9));
        assert_eq!(buffer, [0xA5; REPORT_LENGTH - 1]);
        assert_eq!(service, Service::unlocked());
    }
}

#[test]
fn long_buffer_keeps_its_tail() {
    for event in EVENTS_TO_REPORT {
        let mut buffer = [0xA5; REPORT_LENGTH + 3];
        let outcome = Service::unlocked().reported_event(&event, &mut buffer);
        let (text, tail) = buffer.split_at(REPORT_LENGTH);
        assert_eq!(text, report(&event, &outcome.unwrap()));
        assert_eq!(tail, [0xA5; 3]);
    }
}
