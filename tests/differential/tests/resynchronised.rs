//! Demand 3, run for real: after any first list, the all-up run at both ports, E and R, a service cannot
//! be told from one newly made on the code set in force with the locks that stand. Its image is that
//! of the new one byte for byte, and on a random further list both show the same, input by input, also the
//! byte read at the controller's ports, the status and the interrupts. The one call for it leaves the same
//! image. The keyboard's run is that of its set, the scanner's that of set 1, and either comes first.
//!
//! Calls that are turned away by refusal 9 stand before any event: of the first lists, of the all-up
//! runs, before and after their E and R, and of the further lists of either service. So do refused frames.
//! Keyboard bytes come as frames, by themselves or through port 60, those of the run too. First lists start
//! on either set. They and the further lists hold bytes of the scanner, changes of set and port events;
//! between the first byte of the runs and their R is no change, and behind R is no port event before the
//! further list.

use differential::place::{AWAITING, BUFFER, COMMAND_BYTE};
use differential::{buffer, codes, command, kind, Image, CONTROLLER_LENGTH, SCANNER_LENGTH};
use reference::generator::{all_up_inputs, in_turn, random_inputs, Random, DONE_AT_PORTS};
use reference::written::inputs;
use reference::{set_after, CodeSet, Event, Input, Seen, CODE_SETS, REPORT_LENGTH};

const FIRST_LISTS: usize = 24_000;
const LONGEST_FIRST: usize = 150;
const FURTHER_EVENTS: usize = 40;

/// Now and then asks for a report in too few bytes, of what comes next.
fn turned_away(image: &mut Image, random: &mut Random, next: &Input) {
    if random.below(8) == 0 {
        let event = next.fed().unwrap_or(Event::Poll);
        let mut buffer = vec![0x5A; random.below(REPORT_LENGTH)];
        assert_eq!(image.report(&event, &mut buffer), 9);
        assert!(buffer.iter().all(|&byte| byte == 0x5A));
    }
}

/// Runs a list, with reports turned away before its inputs and after them; gives each event that reached
/// the service with what was seen of its input.
fn run(image: &mut Image, random: &mut Random, inputs: &[Input]) -> Vec<(Event, Seen)> {
    let mut ran = Vec::new();
    for input in inputs {
        turned_away(image, random, input);
        let seen = image.input(input);
        ran.extend(input.ran(&seen).map(|event| (event, seen)));
    }
    turned_away(image, random, &Input::Event(Event::Poll));
    ran
}

fn assert_same_from_now_on(mut used: Image, mut new: Image, random: &mut Random, inputs: &[Input]) {
    for (place, input) in inputs.iter().enumerate() {
        turned_away(&mut used, random, input);
        turned_away(&mut new, random, input);
        assert_eq!(used.seen(input), new.seen(input), "{:?}", &inputs[..=place]);
        assert_eq!(used.flag_bytes(), new.flag_bytes());
    }
    assert_eq!(used, new);
}

/// How many first lists left what is to be forgotten, or a set that the keyboard's run is to be of.
#[derive(Debug, Default)]
struct Left {
    something: usize,
    something_at_the_scanner: usize,
    a_used_controller: usize,
    a_key_in_the_buffer: usize,
    an_answer_in_the_buffer: usize,
    a_command_byte_awaited: usize,
    a_disabled_keyboard: usize,
    the_turn_of_a_rate: usize,
    set_2: usize,
    another_set: usize,
    a_mark: usize,
}

impl Left {
    fn count(&mut self, used: &Image, made_on: CodeSet) {
        let bytes = &used.bytes;
        let is_disabled = bytes[COMMAND_BYTE] & command::DISABLED != 0;
        self.something += usize::from(*used != used.new_like());
        self.something_at_the_scanner += usize::from(used.scanner() != [0; SCANNER_LENGTH]);
        self.a_used_controller += usize::from(used.controller() != [0; CONTROLLER_LENGTH]);
        self.a_key_in_the_buffer += usize::from(bytes[BUFFER] == buffer::KEY);
        self.an_answer_in_the_buffer += usize::from(bytes[BUFFER] == buffer::ANSWER);
        self.a_command_byte_awaited += usize::from(bytes[AWAITING] == 1);
        self.a_disabled_keyboard += usize::from(is_disabled);
        self.the_turn_of_a_rate += usize::from(used.turn() == Some(kind::RATE));
        self.set_2 += usize::from(used.set() == CodeSet::Two);
        self.another_set += usize::from(used.set() != made_on);
        self.a_mark += usize::from(used.codes() == codes::SET_2_MARKED);
    }

    fn assert_enough(&self) {
        assert!(self.something > FIRST_LISTS / 2);
        assert!(self.something_at_the_scanner > FIRST_LISTS / 2);
        assert!(self.a_used_controller > FIRST_LISTS / 2);
        assert!(self.a_key_in_the_buffer > FIRST_LISTS / 20);
        assert!(self.an_answer_in_the_buffer > FIRST_LISTS / 20);
        assert!(self.a_command_byte_awaited > FIRST_LISTS / 20);
        assert!(self.a_disabled_keyboard > FIRST_LISTS / 20);
        assert!(self.the_turn_of_a_rate > FIRST_LISTS / 20);
        assert!(self.set_2 > FIRST_LISTS / 4);
        assert!(self.another_set > FIRST_LISTS / 8);
        assert!(self.a_mark > FIRST_LISTS / 40);
    }
}

#[test]
fn any_first_list_is_forgotten() {
    let mut random = Random::new(3);
    let mut left = Left::default();
    let mut read_at_60 = 0;
    for list in 0..FIRST_LISTS {
        let (flavour, made_on, locks) = in_turn(list);
        let mut used = Image::new_on(made_on, locks).unwrap();
        let length = random.below(LONGEST_FIRST + 1);
        let first = random_inputs(&mut random, flavour, made_on, length);
        let set = set_after(made_on, &first);
        run(&mut used, &mut random, &first);
        assert_eq!(used.set(), set, "after {first:?}");
        left.count(&used, made_on);

        let mut at_once = used.clone();
        let shown = at_once.resynchronise();
        let all_up = all_up_inputs(&mut random, set);
        let ran = run(&mut used, &mut random, &all_up);
        let (last, seen) = ran.last().expect("the run ends with R");
        assert_eq!((*last, seen.shown), (Event::Restart, shown));
        read_at_60 += ran.iter().filter(|(_, seen)| seen.fed).count();
        assert_eq!(used, at_once, "one call does what the runs, E and R do");
        assert_eq!(used.set(), set, "after {first:?}");
        let new = used.new_like();
        assert_eq!(used, new, "after {first:?}");
        let further = random_inputs(&mut random, flavour, set, FURTHER_EVENTS);
        assert_same_from_now_on(used, new, &mut random, &further);
    }
    println!(
        "{FIRST_LISTS} first lists are forgotten, of which so many left {left:?}; {read_at_60} bytes of \
         the runs were read at port 60"
    );
    left.assert_enough();
    assert!(read_at_60 > 4 * FIRST_LISTS);
}

/// Whether a list shows the same as on a service newly made.
fn is_as_new(used: &Image, inputs: &[Input]) -> bool {
    let (mut used, mut new) = (used.clone(), used.new_like());
    inputs
        .iter()
        .all(|input| used.input(input) == new.input(input))
}

/// What is done at the ports before R is forgotten, by the one call too; what is done behind it is not.
#[test]
fn behind_r_the_ports_are_left_alone() {
    for set in CODE_SETS {
        for (done, telling) in DONE_AT_PORTS {
            let telling = inputs(telling);
            let mut used = Image::new_on(set, 0).unwrap();
            for input in inputs(done) {
                used.input(&input);
            }
            assert!(!is_as_new(&used, &telling), "{done}");
            let mut at_once = used.clone();
            at_once.resynchronise();
            assert!(is_as_new(&at_once, &telling), "{done}");
            used.event(&Event::Restart);
            assert!(is_as_new(&used, &telling), "{done}");
        }
    }
}
