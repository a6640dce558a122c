//! Lamps and rates take turns on the line, through the library. Over random lists of all that a list can
//! hold, neither waits for more than eleven bytes and no command sends more than six, told from what the
//! library shows alone; every length of a wait is met. The library agrees with the reference on lists in
//! which both wait, and from every kind of line at every event. A command that ends leaves the turn of the
//! other kind, and any number of a turn means what the header says: the command whose turn it is starts first.

use differential::place::*;
use differential::{kind, Image, Pair};
use reference::generator::random_lists;
use reference::waits::{self, Lengths, Look, LAWS, LONGEST_COMMAND};
use reference::written::inputs;
use reference::{CodeSet, Event, Input, Service, CODE_SETS};
use std::collections::{BTreeMap, BTreeSet, HashSet};

const LISTS: usize = 3_000;
const LONGEST: usize = 300;
const LEAST_INPUTS: usize = 1_000_000;

/// Numbers that are tried as a kind, and phases of an idle line.
const NUMBERS: [u8; 6] = [kind::LED, kind::RATE, 2, 127, 128, 255];
const IDLE_PHASES: [u8; 3] = [0, 3, 255];

/// What leads from line to line on either set: locks by the scanner, two rates, and all that is of the line.
const MOVES: [&str; 9] = [
    "S3A SBA", "S45 SC5", "C030102", "C03031F", "P", "KFA", "KFE", "T", "R",
];

/// Tells all that a line holds: the rest of a command, and both that may wait behind it.
const TELLING: &str = "P KFA P KFA P KFA P KFA P KFA P KFA P";

/// Inputs that are no events: sound frames of 1E, FA and FE, a spoiled one, changes of set, and port events.
const NO_EVENTS: &str =
    "frame=63C frame=7F4 frame=5FC frame=001 set=1 set=2 key=1E r60 r64 w60=00 w64=20 w64=AD";

/// Delays and rates up to the first that is refused.
const DELAYS: u8 = 5;
const RATES: u8 = 33;

const ACKNOWLEDGE: Event = Event::Key(0xFA);

/// What ends a command at last, each time after a poll.
const ENDINGS: [Event; 3] = [ACKNOWLEDGE, Event::Key(0xFE), Event::TimeOut];

#[test]
fn the_library_keeps_the_laws_of_turns() {
    let mut lengths = Lengths::default();
    let mut count = 0;
    for (set, locks, inputs) in random_lists(0x2080, LISTS, LONGEST) {
        let mut image = Image::new_on(set, locks).unwrap();
        let mut look = Look::default();
        for input in &inputs {
            let seen = image.input(input);
            assert!(seen.shown.sent <= LONGEST_COMMAND, "{inputs:X?}");
            look = look.next(input, &seen);
            LAWS.iter().for_each(|law| law(&look));
            lengths.keep(&look);
        }
        count += inputs.len();
    }
    println!("{count} inputs keep the laws of turns");
    assert!(count > LEAST_INPUTS);
    lengths.assert_all();
}

/// Whether a command runs on the reference's line: one that runs has sent a byte.
fn runs(service: &Service) -> bool {
    service.clone().event(&Event::Call(0x02, 0, 0)).sent > 0
}

/// The kind that is due in the image after what was shown: that of the command that runs, else the other than
/// that of the command that started last, and LED where none has since the line was new.
fn kind_due(look: &Look, runs: bool) -> u8 {
    let started = look.after.started.map(|(first, _)| first);
    match (started, runs) {
        (Some(waits::RATE), true) | (Some(waits::LAMPS), false) => kind::RATE,
        _ => kind::LED,
    }
}

/// Input by input, and the image tells whose turn it is, or what runs.
#[test]
fn random_lists_agree_and_pass_the_turn() {
    let mut count = 0;
    for (set, locks, inputs) in random_lists(0x2081, LISTS, LONGEST) {
        let mut pair = Pair::new_on(set, locks);
        let mut look = Look::default();
        for input in &inputs {
            let seen = pair.input(input);
            look = look.next(input, &seen);
            let runs = runs(&pair.service);
            assert_eq!(pair.image.is_idle(), !runs, "{look:?}");
            assert_eq!(pair.image.bytes[KIND], kind_due(&look, runs), "{look:?}");
        }
        count += inputs.len();
    }
    println!("{count} inputs agree and pass the turn");
    assert!(count > LEAST_INPUTS);
}

/// The bytes that are the line's alone: what waits, what was handled, and the command or the turn.
fn line(image: &Image) -> &[u8] {
    &image.bytes[RATE_KNOWN..=SENT]
}

/// The value that the locks have for the lamps.
fn lamps(image: &Image) -> u8 {
    image.bytes[BYTE_17] >> 4 & 0x07
}

fn is_due(image: &Image) -> bool {
    image.bytes[HANDLED_KNOWN] == 0 || image.bytes[HANDLED] != lamps(image)
}

/// Lines of one kind differ only in values and in what byte 97 tells of replies.
#[derive(Clone, Copy, Debug, PartialEq, Eq, PartialOrd, Ord)]
struct Kind {
    phase: u8,
    /// A rate command runs, or the rate goes first.
    is_of_rate: bool,
    /// Whether the operand is under way, its sends or those of the first byte, and the bytes sent.
    progress: [u8; 3],
    /// The command has the value of the locks.
    sends_lamps: bool,
    rate_waits: bool,
    was_handled: bool,
    is_due: bool,
}

impl Kind {
    fn of(image: &Image) -> Kind {
        let bytes = &image.bytes;
        let is_of_rate = bytes[KIND] == kind::RATE;
        Kind {
            phase: bytes[PHASE],
            is_of_rate,
            progress: [OPERAND, SENDS, SENT].map(|place| bytes[place]),
            sends_lamps: bytes[PHASE] > 0 && !is_of_rate && bytes[VALUE] == lamps(image),
            rate_waits: bytes[RATE_KNOWN] == 1,
            was_handled: bytes[HANDLED_KNOWN] == 1,
            is_due: is_due(image),
        }
    }

    fn is_idle(&self) -> bool {
        self.phase == 0
    }

    /// The next poll has to choose.
    fn is_contested(&self) -> bool {
        self.is_idle() && self.rate_waits && self.is_due
    }
}

/// Goes along the moves to every line that they lead to, with agreement all the way. Gives a service of
/// each kind.
fn kinds(set: CodeSet) -> BTreeMap<Kind, Pair> {
    let moves = MOVES.map(inputs);
    let mut kinds = BTreeMap::new();
    let mut known = HashSet::new();
    let mut left = vec![Pair::new_on(set, 0)];
    while let Some(pair) = left.pop() {
        for inputs in &moves {
            let mut next = pair.clone();
            next.inputs(inputs);
            if known.insert(next.image.bytes) {
                left.push(next);
            }
        }
        kinds.insert(Kind::of(&pair.image), pair);
    }
    kinds
}

/// The service after the command that runs was brought to its end by this, as often as need be.
fn ended(pair: &Pair, ending: Event) -> Pair {
    let mut pair = pair.clone();
    for _byte in 0..LONGEST_COMMAND {
        if !pair.image.is_idle() {
            pair.events(&[Event::Poll, ending]);
        }
    }
    pair
}

/// Done or given up, at either byte, by a reply or a time-out.
#[test]
fn a_command_that_ends_leaves_the_turn_of_the_other_kind() {
    let kinds = kinds(CodeSet::One);
    for (kind, pair) in kinds.iter().filter(|(kind, _)| !kind.is_idle()) {
        let other = [kind::RATE, kind::LED][usize::from(kind.is_of_rate)];
        for ending in ENDINGS {
            let turn = ended(pair, ending).image.turn();
            assert_eq!(turn, Some(other), "{ending:X?} at {kind:?}");
        }
    }
    let contested = kinds.keys().filter(|kind| kind.is_contested());
    let turns: BTreeSet<bool> = contested.map(|kind| kind.is_of_rate).collect();
    assert_eq!(turns, BTreeSet::from([false, true]));
}

/// Every byte at either port, every function and every rate, and what is no event.
fn all_inputs() -> Vec<Input> {
    let bytes = (0..=255).flat_map(|byte| [Event::Key(byte), Event::Scan(byte)]);
    let functions = (0..=255).map(|function| Event::Call(function, 0, 0));
    let rates =
        (0..DELAYS).flat_map(|delay| (0..RATES).map(move |rate| Event::Call(0x03, delay, rate)));
    let others = [Event::Poll, Event::TimeOut, Event::Empty, Event::Restart];
    let events = bytes.chain(functions).chain(rates).chain(others);
    events.map(Input::Event).chain(inputs(NO_EVENTS)).collect()
}

fn is_of_the_line(event: Event) -> bool {
    match event {
        Event::Key(byte) => matches!(byte, 0xFA | 0xFE),
        Event::Call(function, ..) => function == 0x03,
        Event::Poll | Event::TimeOut | Event::Restart => true,
        Event::Scan(_) | Event::Empty => false,
    }
}

/// Both sides show the same. What is not of the line leaves every byte of it, and after what is, both lines
/// tell the same. Gives how many inputs were compared.
fn check(pair: &Pair, input: &Input, telling: &[Input]) -> usize {
    let mut after = pair.clone();
    after.input(input);
    if input.fed().is_some_and(is_of_the_line) {
        after.inputs(telling);
        return 1 + telling.len();
    }
    assert_eq!(line(&after.image), line(&pair.image), "{input:X?}");
    1
}

#[test]
fn every_kind_of_line_agrees_at_every_input() {
    let (all_inputs, telling) = (all_inputs(), inputs(TELLING));
    for set in CODE_SETS {
        let (kinds, mut count) = (kinds(set), 0);
        for pair in kinds.values() {
            let checked = all_inputs.iter().map(|input| check(pair, input, &telling));
            count += checked.sum::<usize>();
        }
        println!("{count} inputs agree from {} kinds of line", kinds.len());
    }
}

/// The bytes that go out until a poll finds none, each acknowledged; not more than three commands.
fn sent(image: &mut Image) -> Vec<u8> {
    let send = |_| {
        let polled = image.event(&Event::Poll);
        image.event(&ACKNOWLEDGE);
        (polled.ans == 0x0C).then_some(polled.word as u8)
    };
    (0..6).map_while(send).collect()
}

/// The commands that are to be sent from an idle line with this turn.
fn commands_due(image: &Image, turn: u8) -> Vec<[u8; 2]> {
    let led = is_due(image).then_some([waits::LAMPS, lamps(image)]);
    let rate = (image.bytes[RATE_KNOWN] == 1).then_some([waits::RATE, image.bytes[RATE]]);
    let in_turn = match turn {
        kind::LED => [led, rate],
        _ => [rate, led],
    };
    in_turn.into_iter().flatten().collect()
}

/// The turn that these commands leave one after the other, from this one on.
fn turn_left(due: &[[u8; 2]], number: u8) -> u8 {
    match due.last() {
        Some([waits::LAMPS, _]) => kind::RATE,
        Some(_) => kind::LED,
        None => u8::from(number > 0),
    }
}

/// Also where no list leads to: a turn beside what cannot wait with it.
#[test]
fn any_number_of_a_turn_starts_the_command_that_it_names() {
    let kinds = kinds(CodeSet::One);
    for (kind, pair) in kinds.iter().filter(|(kind, _)| kind.is_idle()) {
        for (number, phase) in numbers_and_phases() {
            let mut image = pair.image.clone();
            image.bytes[PHASE] = phase;
            image.put_turn(number);
            assert_eq!(image.flag_bytes(), pair.image.flag_bytes());
            let due = commands_due(&image, number);
            assert_eq!(sent(&mut image), due.concat(), "{number} at {kind:?}");
            let left = Some(turn_left(&due, number));
            assert_eq!(image.turn(), left, "{number} at {kind:?}");
        }
    }
}

fn numbers_and_phases() -> impl Iterator<Item = (u8, u8)> {
    let numbers = NUMBERS.into_iter();
    numbers.flat_map(|number| IDLE_PHASES.map(|phase| (number, phase)))
}

/// A number that means the kind that stands changes nothing, whether it is that of a turn or of a command.
#[test]
fn numbers_of_the_same_kind_agree() {
    let telling = inputs(TELLING);
    for (kind, pair) in kinds(CodeSet::One) {
        let is_same = |number: &u8| (*number > 0) == kind.is_of_rate;
        for number in NUMBERS.into_iter().filter(is_same) {
            let mut other = pair.clone();
            other.image.bytes[KIND] = number;
            other.inputs(&telling);
        }
    }
}
