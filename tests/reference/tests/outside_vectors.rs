//! The reference against outcomes that are written down.

use reference::vectors::{
    from_hex, Vector, BENCH_CASES, ENHANCED_WORDS, EXAMPLE_PACK, EXAMPLE_TEXT, GREY_KEYS, READINGS,
    REFUSED_CALLS, SCANNER, TURNS,
};
use reference::{read_event, trace, Event, Outcome, Service};

/// What each event of a pack shows, up to its end or refusal.
fn outcomes(pack: &[u8]) -> Vec<Outcome> {
    let mut service = Service::unlocked();
    let mut outcomes = Vec::new();
    let mut start = 0;
    while let Ok(Some((event, next))) = read_event(pack, start) {
        outcomes.push(service.event(&event));
        start = next;
    }
    outcomes
}

fn check_last(vectors: &[Vector]) {
    for vector in vectors {
        let outcomes = outcomes(&vector.bytes());
        assert_eq!(outcomes.last(), vector.last.as_ref(), "{}", vector.name);
    }
}

/// What the last of these keys shows to a service made with these locks.
fn last_key(locks: u8, keys: &[u8]) -> Outcome {
    let mut service = Service::new(locks).unwrap();
    let outcomes = keys.iter().map(|&byte| service.event(&Event::Key(byte)));
    outcomes.last().unwrap()
}

#[test]
fn readings_hold() {
    check_last(&READINGS);
}

#[test]
fn bench_cases_hold() {
    check_last(&BENCH_CASES);
}

#[test]
fn refused_calls_hold() {
    check_last(&REFUSED_CALLS);
}

#[test]
fn enhanced_words_hold() {
    check_last(&ENHANCED_WORDS);
}

#[test]
fn grey_keys_hold() {
    check_last(&GREY_KEYS);
}

#[test]
fn scanner_vectors_hold() {
    check_last(&SCANNER);
}

#[test]
fn turns_hold() {
    check_last(&TURNS);
}

#[test]
fn bench_cases_hold_with_locks_made_on() {
    assert_eq!(last_key(4, &[0x2A, 0x1E]).word, 0x1E61);
    assert_eq!(last_key(2, &[0x47]).word, 0x4737);
    assert_eq!(last_key(2, &[0xE0, 0x47]).word, 0x47E0);
}

#[test]
fn fifteen_words_fit() {
    let outcomes = outcomes(&b"K\x39".repeat(16));
    assert!(outcomes[..15].iter().all(|outcome| outcome.ans == 0x01));
    assert_eq!(outcomes[15].ans, 0x02);
}

#[test]
fn three_resends_give_up() {
    let outcomes = outcomes(&b"PK\xFE".repeat(3));
    let answers: Vec<u8> = outcomes.iter().map(|outcome| outcome.ans).collect();
    let sent: Vec<u8> = outcomes.iter().map(|outcome| outcome.sent).collect();
    assert_eq!(answers, [0x0C, 0x06, 0x0C, 0x06, 0x0C, 0x0E]);
    assert_eq!(sent, [1, 1, 2, 2, 3, 3]);
}

#[test]
fn given_up_value_does_not_start_again() {
    let outcomes = outcomes(&[b"PK\xFE".repeat(3), b"P".to_vec()].concat());
    assert_eq!(outcomes[6].ans, 0x0D);
}

#[test]
fn full_queue_shows_the_dropped_alt_word() {
    let pack = from_hex(&["4B39".repeat(15), "4B384B4F4BB8".to_string()].concat());
    let last = outcomes(&pack).pop().unwrap();
    assert_eq!((last.ans, last.word), (0x02, 0x0001));
}

#[test]
fn cut_pack_reports_what_came_before() {
    let text = trace(&from_hex("4B1E4B"));
    assert!(text.starts_with(b"ev=K\nans=01\nword=1E61\n"));
    assert!(text.ends_with(b"end=0002\nrefused=7\n"));
}

#[test]
fn cut_event_of_the_scanner_reports_what_came_before() {
    let text = trace(&from_hex("531E53"));
    assert!(text.starts_with(b"ev=S\nans=01\nword=1E61\n"));
    assert!(text.ends_with(b"end=0002\nrefused=7\n"));
}

#[test]
fn call_has_its_length_from_its_tag_alone() {
    let text = trace(&from_hex("430000"));
    assert_eq!(text, b"end=0000\nrefused=7\n");
}

#[test]
fn refused_call_does_not_refuse_the_pack() {
    let text = trace(&from_hex("43FF000050"));
    assert!(text.starts_with(b"ev=C\nans=82\nword=0000\n"));
    assert!(text.ends_with(b"end=0005\nrefused=0\n"));
}

#[test]
fn printed_example_holds() {
    let text = String::from_utf8(trace(&from_hex(EXAMPLE_PACK))).unwrap();
    assert_eq!(text, EXAMPLE_TEXT);
}
