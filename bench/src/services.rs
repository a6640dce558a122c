//! Events a second and instructions an event: the library's calls, and the reference's on the same list.

use crate::instructions::shown;
use crate::rounds::take_turns;
use crate::{instructions, waits};
use differential::Image;
use reference::generator::{random_events, Flavour, Random};
use reference::{Event, Outcome, Service, REPORT_LENGTH};
use std::ffi::{OsStr, OsString};
use std::hint::black_box;
use std::process::Stdio;
use std::time::Duration;

const ROUNDS: usize = 25;
const EVENTS: usize = 400_000;
/// Fewer events are enough to count instructions, which takes long, and loads, which takes longer.
const COUNTED_EVENTS: usize = 40_000;
const TRACED_EVENTS: usize = 2_000;

/// One call on a list of events, as both sides have it.
struct Row {
    name: &'static str,
    events: fn(usize) -> Vec<Event>,
    agree: fn(&[Event]) -> bool,
    proved: fn(&[Event]),
    reference: fn(&[Event]),
}

const ROWS: [Row; 3] = [
    Row {
        name: "event",
        events: of_measured_flavours,
        agree: |events| agree(events, event_proved, Service::event),
        proved: |events| run_proved(events, event_proved),
        reference: |events| run_reference(events, Service::event),
    },
    Row {
        name: "report",
        events: of_measured_flavours,
        agree: |events| agree(events, report_proved, report_reference),
        proved: |events| run_proved(events, report_proved),
        reference: |events| run_reference(events, report_reference),
    },
    Row {
        name: "event, panel",
        events: of_a_panel,
        agree: |events| agree(events, event_proved, Service::event),
        proved: |events| run_proved(events, event_proved),
        reference: |events| run_reference(events, Service::event),
    },
];

/// `program` is this program: it counts its own instructions by running rounds of a row under callgrind.
pub fn measure(program: &OsStr) {
    println!(
        "\nServices: one new service and {EVENTS} random events, as many of each measured flavour, or for a panel \
         keyboard bytes with functions 01 and 00 at every eighth; medians of {ROUNDS} rounds"
    );
    println!("  call             proved M/s   reference M/s   ratio   instructions an event: proved   reference   loads that wait: proved   reference");
    let instructions = |words: &[OsString]| instructions::count(program, words, Stdio::null());
    let waits = |words: &[OsString]| waits::count(program, words);
    for (number, row) in ROWS.iter().enumerate() {
        let events = (row.events)(EVENTS);
        assert!((row.agree)(&events), "both sides show the same");
        let medians = take_turns(
            ROUNDS,
            || (row.proved)(&events),
            || (row.reference)(&events),
        );
        let millions = |time: Duration| events.len() as f64 / time.as_secs_f64() / 1e6;
        println!(
            "  {:15} {:>11.1} {:>15.1} {:>7.2} {:>31} {:>11} {:>25} {:>11}",
            row.name,
            millions(medians.proved),
            millions(medians.reference),
            medians.ratio(),
            shown(an_event(number, "proved", COUNTED_EVENTS, instructions), 1),
            shown(
                an_event(number, "reference", COUNTED_EVENTS, instructions),
                1
            ),
            shown(an_event(number, "proved", TRACED_EVENTS, waits), 3),
            shown(an_event(number, "reference", TRACED_EVENTS, waits), 3),
        );
    }
}

/// What a second round adds to a count, for each event of the list.
fn an_event(
    row: usize,
    side: &str,
    events: usize,
    count: impl Fn(&[OsString]) -> Option<u64>,
) -> Option<f64> {
    let counted = |rounds: usize| {
        let words = [
            "rounds".into(),
            row.to_string(),
            side.into(),
            rounds.to_string(),
            events.to_string(),
        ];
        count(&words.map(OsString::from))
    };
    let events = (ROWS[row].events)(events).len();
    Some((counted(2)? - counted(1)?) as f64 / events as f64)
}

/// Runs rounds of a row on one side, and nothing else: what valgrind counts.
pub fn run_rounds(row: usize, side: &str, rounds: usize, events: usize) {
    let row = &ROWS[row];
    let run = if side == "proved" {
        row.proved
    } else {
        row.reference
    };
    let events = (row.events)(events);
    for _ in 0..rounds {
        run(&events);
    }
}

/// Fixed, so that figures taken before and after a change are of the same events.
const MEASURED: [Flavour; 4] = [
    Flavour::Keys,
    Flavour::Line,
    Flavour::Queue,
    Flavour::Everything,
];

fn of_measured_flavours(count: usize) -> Vec<Event> {
    let mut random = Random::new(7);
    let of_flavour = |flavour| random_events(&mut random, flavour, count / MEASURED.len());
    MEASURED.into_iter().flat_map(of_flavour).collect()
}

/// What a panel does: bytes come from the keyboard, and now and then a program looks for a word and takes it.
fn of_a_panel(count: usize) -> Vec<Event> {
    let mut random = Random::new(8);
    let mut events = Vec::new();
    for number in 0..count {
        if number % 8 == 0 {
            events.push(Event::Call(0x01, 0, 0));
            events.push(Event::Call(0x00, 0, 0));
        }
        events.push(Event::Key(random.byte()));
    }
    events
}

fn event_proved(image: &mut Image, event: &Event) -> Outcome {
    image.event(event)
}

fn report_proved(image: &mut Image, event: &Event) -> [u8; REPORT_LENGTH] {
    let mut buffer = [0; REPORT_LENGTH];
    image.report(event, &mut buffer);
    buffer
}

fn report_reference(service: &mut Service, event: &Event) -> [u8; REPORT_LENGTH] {
    let mut buffer = [0; REPORT_LENGTH];
    let outcome = service.reported_event(event, &mut buffer);
    outcome.expect("the buffer is long enough");
    buffer
}

fn new_image() -> Image {
    Image::new(0).expect("no lock is on")
}

fn agree<Shown: PartialEq>(
    events: &[Event],
    proved: impl Fn(&mut Image, &Event) -> Shown,
    reference: impl Fn(&mut Service, &Event) -> Shown,
) -> bool {
    let (mut image, mut service) = (new_image(), Service::unlocked());
    events
        .iter()
        .all(|event| proved(&mut image, event) == reference(&mut service, event))
}

fn run_proved<Shown>(events: &[Event], call: impl Fn(&mut Image, &Event) -> Shown) {
    let mut image = new_image();
    for event in events {
        black_box(call(&mut image, black_box(event)));
    }
}

fn run_reference<Shown>(events: &[Event], call: impl Fn(&mut Service, &Event) -> Shown) {
    let mut service = Service::unlocked();
    for event in events {
        black_box(call(&mut service, black_box(event)));
    }
}
