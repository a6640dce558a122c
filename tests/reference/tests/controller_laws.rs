//! What holds at the controller's ports whatever came before, over random lists.

use reference::generator::{
    in_turn, random_events, random_inputs, random_lists, typed_at_ports, typed_on, with_scanner,
    Random,
};
use reference::OutputBuffer::{self, Answer, Empty, Key};
use reference::PortEvent::{self, FromKeyboard, Read60, Read64, Write60, Write64};
use reference::{CodeSet, Controller, Event, Input, Seen, Service, CODE_SETS};

const LISTS: usize = 2_000;
const LONGEST: usize = 200;
const FURTHER: usize = 80;

const KEYBOARD_DISABLED: u8 = 0x10;

/// One input of a list, with the service before it and after it.
struct Step {
    before: Service,
    input: Input,
    seen: Seen,
    after: Service,
}

impl Step {
    fn port_event(&self) -> Option<PortEvent> {
        match self.input {
            Input::Port(event) => Some(event),
            _ => None,
        }
    }
}

fn each_step(seed: u64, mut check: impl FnMut(&Step)) {
    for (set, locks, inputs) in random_lists(seed, LISTS, LONGEST) {
        let mut service = Service::on_set(set, locks).unwrap();
        for input in inputs {
            let before = service.clone();
            let seen = service.input(&input);
            let after = service.clone();
            check(&Step {
                before,
                input,
                seen,
                after,
            });
        }
    }
}

/// Services after random lists, each with the number of its list.
fn used(seed: u64) -> impl Iterator<Item = (usize, Service)> {
    let lists = random_lists(seed, LISTS, LONGEST).enumerate();
    lists.map(|(number, (set, locks, inputs))| {
        let mut service = Service::on_set(set, locks).unwrap();
        for input in &inputs {
            service.input(input);
        }
        (number, service)
    })
}

/// What an input must show that does nothing to keys, queue and line, and is answered so.
fn standing(service: &Service, ans: u8) -> Seen {
    let mut seen = service
        .clone()
        .input(&Input::Event(Event::Call(0x02, 0, 0)));
    seen.shown.ans = ans;
    seen.shown.word = 0x0000;
    seen
}

/// Full where something is to be read.
#[test]
fn the_status_is_one_of_four() {
    each_step(0x71, |step| {
        let full = step.after.controller().buffer() != Empty;
        assert!(matches!(step.seen.status, 0x14 | 0x15 | 0x1C | 0x1D));
        assert_eq!(step.seen.status & 0x01 != 0, full);
        let read = step.after.clone().port_event(&Read64);
        assert_eq!(
            (read.byte, read.status),
            (step.seen.status, step.seen.status)
        );
    });
}

/// Bit 3 of the status follows the writes that are accepted, and nothing else but a restart.
#[test]
fn bit_3_says_where_the_last_accepted_write_went() {
    let mut refused = 0;
    each_step(0x72, |step| {
        let is_accepted = !step.seen.is_refused();
        let before = step.before.controller().status() & 0x08;
        let expected = match (step.input, is_accepted) {
            (Input::Port(Write64(_)), true) => 0x08,
            (Input::Port(Write60(_)), true) => 0x00,
            (Input::Event(Event::Restart), _) => 0x00,
            _ => before,
        };
        assert_eq!(step.seen.status & 0x08, expected, "{:X?}", step.input);
        let is_write = matches!(step.port_event(), Some(Write60(_) | Write64(_)));
        refused += usize::from(is_write && !is_accepted);
    });
    assert!(refused > LISTS, "writes are refused: {refused}");
}

/// A wait lasts from a command 60 to the next write that is accepted, and no longer than to a restart.
/// Without one, and only then, a write to 60 is refused.
#[test]
fn a_wait_ends_with_the_next_accepted_write() {
    let mut refused_in_waits = 0;
    each_step(0x7E, |step| {
        let is_accepted = !step.seen.is_refused();
        let awaits = step.before.controller().awaits_command_byte();
        let expected = match (step.input, is_accepted) {
            (Input::Port(Write64(command)), true) => command == 0x60,
            (Input::Port(Write60(_)), true) => false,
            (Input::Event(Event::Restart), _) => false,
            _ => awaits,
        };
        let still_awaits = step.after.controller().awaits_command_byte();
        assert_eq!(still_awaits, expected, "{:X?}", step.input);
        if let Some(Write60(_)) = step.port_event() {
            assert_eq!(is_accepted, awaits);
        }
        refused_in_waits += usize::from(awaits && !is_accepted);
    });
    assert!(refused_in_waits > LISTS, "{refused_in_waits}");
}

#[test]
fn only_its_write_ad_ae_and_a_restart_move_the_command_byte() {
    each_step(0x7F, |step| {
        let before = step.before.controller().command_byte();
        let expected = match step.input {
            Input::Port(Write60(byte)) if !step.seen.is_refused() => byte,
            Input::Port(Write64(0xAD)) => before | KEYBOARD_DISABLED,
            Input::Port(Write64(0xAE)) => before & !KEYBOARD_DISABLED,
            Input::Event(Event::Restart) => 0x01,
            _ => before,
        };
        let after = step.after.controller().command_byte();
        assert_eq!(after, expected, "{:X?}", step.input);
    });
}

#[test]
fn other_inputs_leave_the_controller_and_a_restart_makes_it_new() {
    let mut renewed = 0;
    each_step(0x73, |step| {
        if step.port_event().is_some() {
            return;
        }
        let Seen {
            byte,
            interrupt,
            fed,
            ..
        } = step.seen;
        assert_eq!((byte, interrupt, fed), (0x00, false, false));
        let expected = match step.input {
            Input::Event(Event::Restart) => Controller::new(),
            _ => *step.before.controller(),
        };
        assert_eq!(*step.after.controller(), expected, "{:X?}", step.input);
        renewed += usize::from(step.before.controller() != step.after.controller());
    });
    assert!(
        renewed > LISTS / 2,
        "there is something to renew: {renewed}"
    );
}

/// Where no key is fed, keys, queue and line stay as they are, and what is shown stands.
#[test]
fn port_events_touch_the_controller_alone_or_feed_a_key() {
    let mut fed = [0; CODE_SETS.len()];
    each_step(0x74, |step| {
        if step.port_event().is_none() {
            return;
        }
        let controller = *step.after.controller();
        let mut expected = step.before.clone();
        if step.seen.fed {
            let shown = expected.event(&Event::Key(step.seen.byte));
            assert_eq!(step.seen.shown, shown);
            fed[step.before.set() as usize] += 1;
        } else {
            let stands = standing(&step.before, step.seen.shown.ans);
            assert_eq!(step.seen.shown, stands.shown);
            assert!(matches!(stands.shown.ans, 0x00 | 0x8E..=0x90));
        }
        assert_eq!(step.after, expected.with_controller(controller));
    });
    println!("keys fed on either set: {fed:?}");
    assert!(fed.into_iter().all(|count| count > LISTS));
}

/// What port 60 gives next, and whether that is a key to be fed, as it is known from outside.
#[derive(Default)]
struct Next {
    byte: u8,
    is_key: bool,
}

impl Next {
    fn follow(&mut self, command_byte: u8, input: &Input, is_refused: bool) {
        let (byte, is_key) = match *input {
            Input::Port(Read60) => (self.byte, false),
            Input::Port(FromKeyboard(byte)) if !is_refused => (byte, true),
            Input::Port(Write64(0x20)) => (command_byte, false),
            Input::Port(Write64(0xAA)) => (0x55, false),
            Input::Event(Event::Restart) => (0x00, false),
            _ => return,
        };
        *self = Next { byte, is_key };
    }
}

/// A key that was taken is fed by the next read, unless an answer or a restart came before; nothing else is
/// fed. What was put last is read, once and again.
#[test]
fn keys_are_fed_once_or_lost() {
    let (mut fed, mut lost) = (0, 0);
    for (set, locks, inputs) in random_lists(0x75, LISTS, LONGEST) {
        let mut service = Service::on_set(set, locks).unwrap();
        let mut next = Next::default();
        for input in inputs {
            let command_byte = service.controller().command_byte();
            let seen = service.input(&input);
            let is_read = input == Input::Port(Read60);
            assert_eq!(seen.fed, is_read && next.is_key, "{input:X?}");
            assert!(!is_read || seen.byte == next.byte, "{seen:X?}");
            let was_key = next.is_key;
            next.follow(command_byte, &input, seen.is_refused());
            fed += usize::from(seen.fed);
            lost += usize::from(was_key && !next.is_key && !seen.fed);
        }
    }
    println!("{fed} keys are fed, {lost} lost");
    assert!(fed > 10 * LISTS && lost > LISTS / 2);
}

#[test]
fn interrupts_are_raised_by_keys_that_are_taken_alone() {
    let mut counts = [0; 2];
    each_step(0x70, |step| {
        let is_key = matches!(step.port_event(), Some(FromKeyboard(_)));
        let is_taken = is_key && !step.seen.is_refused();
        let is_on = step.before.controller().command_byte() & 0x01 != 0;
        assert_eq!(step.seen.interrupt, is_taken && is_on, "{:X?}", step.input);
        counts[usize::from(is_on)] += usize::from(is_taken);
    });
    println!("keys taken without interrupt and with it: {counts:?}");
    assert!(counts.into_iter().all(|count| count > LISTS));
}

#[test]
fn refused_port_events_can_be_taken_out() {
    let mut refusals = [0; 3];
    for (set, locks, inputs) in random_lists(0x76, LISTS, LONGEST) {
        let mut whole = Service::on_set(set, locks).unwrap();
        let mut without = whole.clone();
        for input in &inputs {
            let seen = whole.input(input);
            if matches!(input, Input::Port(_)) && seen.is_refused() {
                assert_eq!(seen, standing(&without, seen.shown.ans), "{inputs:X?}");
                refusals[usize::from(seen.shown.ans - 0x8E)] += 1;
            } else {
                assert_eq!(seen, without.input(input), "{inputs:X?}");
            }
        }
        assert_eq!(whole, without, "{inputs:X?}");
    }
    println!("refusals 14, 15 and 16: {refusals:?}");
    assert!(refusals.into_iter().all(|count| count > LISTS));
}

/// In any state, on either set and behind a mark. It is refused exactly while the buffer is full or the
/// keyboard disabled.
#[test]
fn a_byte_taken_and_read_at_once_shows_what_its_event_shows() {
    let mut random = Random::new(0x207);
    let mut taken = [0; CODE_SETS.len()];
    each_step(0x77, |step| {
        let (byte, controller) = (random.byte(), step.after.controller());
        let mut service = step.after.clone();
        let at_port = service.port_event(&FromKeyboard(byte));
        let is_disabled = controller.command_byte() & KEYBOARD_DISABLED != 0;
        let is_due = controller.buffer() != Empty || is_disabled;
        assert_eq!(at_port.is_refused(), is_due);
        if is_due {
            return;
        }
        assert_eq!(at_port.interrupt, controller.command_byte() & 0x01 != 0);
        let read = service.port_event(&Read60);
        let mut by_event = step.after.clone();
        let event = by_event.input(&Input::Event(Event::Key(byte)));
        let expected = Seen {
            byte,
            fed: true,
            ..event
        };
        assert_eq!(read, expected, "{byte:02X}");
        let controller = *service.controller();
        assert_eq!(service, by_event.with_controller(controller), "{byte:02X}");
        taken[step.after.set() as usize] += 1;
    });
    println!("bytes taken on either set: {taken:?}");
    assert!(taken.into_iter().all(|count| count > 10 * LISTS));
}

/// What a read of port 60 gives is given again until something else comes.
#[test]
fn the_byte_read_is_repeated() {
    let mut reads = 0;
    each_step(0x78, |step| {
        if step.port_event() == Some(Read60) {
            let mut service = step.after.clone();
            let again = service.port_event(&Read60);
            let expected = Seen {
                byte: step.seen.byte,
                ..standing(&step.after, 0x00)
            };
            assert_eq!(again, expected);
            assert_eq!(service, step.after);
            reads += 1;
        }
    });
    assert!(reads > 10 * LISTS);
}

/// And of the rest only what every accepted write to 64 does: it ends a wait, and shows in bit 3.
#[test]
fn ad_and_ae_move_bit_4_of_the_command_byte_alone() {
    let mut ended = 0;
    each_step(0x79, |step| {
        let before = step.after.controller();
        let with = before.command_byte() | KEYBOARD_DISABLED;
        let without = before.command_byte() & !KEYBOARD_DISABLED;
        for (command, command_byte) in [(0xAD, with), (0xAE, without)] {
            let mut service = step.after.clone();
            let seen = service.port_event(&Write64(command));
            let status = before.status() | 0x08;
            assert_eq!(
                seen,
                Seen {
                    status,
                    ..standing(&step.after, 0x00)
                }
            );
            let after = *service.controller();
            assert_eq!(after.command_byte(), command_byte);
            assert_eq!(after.buffer(), before.buffer());
            assert_eq!(after.last_byte(), before.last_byte());
            assert!(!after.awaits_command_byte());
            assert_eq!(service.with_controller(*before), step.after);
        }
        ended += usize::from(before.awaits_command_byte());
    });
    assert!(ended > LISTS, "waits are ended: {ended}");
}

/// Each answer is due at once, whatever was there.
#[test]
fn answers_are_read_and_not_fed() {
    let mut replaced = [0; 3];
    each_step(0x7A, |step| {
        let before = step.after.controller();
        for (command, answer) in [(0x20, before.command_byte()), (0xAA, 0x55)] {
            let mut service = step.after.clone();
            let written = service.port_event(&Write64(command));
            let expected = Seen {
                status: 0x1D,
                ..standing(&step.after, 0x00)
            };
            assert_eq!(written, expected);
            let read = service.port_event(&Read60);
            let expected = Seen {
                status: 0x1C,
                byte: answer,
                ..expected
            };
            assert_eq!(read, expected);
            assert_eq!(service.controller().command_byte(), before.command_byte());
            assert_eq!(service.with_controller(*before), step.after);
        }
        replaced[place_of(before.buffer())] += 1;
    });
    println!("nothing, a key and an answer replaced: {replaced:?}");
    assert!(replaced.into_iter().all(|count| count > LISTS));
}

fn place_of(buffer: OutputBuffer) -> usize {
    match buffer {
        Empty => 0,
        Key(_) => 1,
        Answer(_) => 2,
    }
}

/// Whatever the controller holds, all but port events show the same beside the status.
#[test]
fn nothing_else_depends_on_the_controller() {
    let mut random = Random::new(0x208);
    let mut differ = 0;
    for ((number, mut one), (_, with)) in used(0x7B).zip(used(0x7C)) {
        let mut other = one.clone().with_controller(*with.controller());
        differ += usize::from(one != other);
        let (flavour, ..) = in_turn(number);
        let inputs = random_inputs(&mut random, flavour, one.set(), FURTHER);
        let is_port_event = |input: &Input| matches!(input, Input::Port(_));
        for input in inputs.iter().filter(|input| !is_port_event(input)) {
            assert_eq!(one.input(input).shown, other.input(input).shown);
            let controller = *one.controller();
            assert_eq!(one, other.clone().with_controller(controller), "{input:X?}");
        }
    }
    println!("{differ} of {LISTS} pairs differ in the controller");
    assert!(differ > LISTS / 2);
}

/// On either set, a list typed through port 60 runs the events of the list, and each shows what it showed.
#[test]
fn typing_through_port_60_shows_what_events_show() {
    let mut random = Random::new(0x209);
    let (mut fed, mut port_events) = (0, 0);
    for (number, used) in used(0x7D) {
        let (flavour, ..) = in_turn(number);
        let events = random_events(&mut random, flavour, FURTHER);
        let events = with_scanner(&mut random, &events).into_iter();
        let typed = |event| typed_on(&mut random, used.set(), event);
        let events: Vec<Input> = events.flat_map(typed).map(Input::Event).collect();
        let inputs = typed_at_ports(&mut random, &events);
        port_events += inputs.len() - events.len();
        let (mut by_events, mut at_ports) = (used.clone(), used);
        let mut due = events.iter().map(|event| by_events.input(event).shown);
        for input in &inputs {
            let seen = at_ports.input(input);
            if input.ran(&seen).is_some() {
                assert_eq!(Some(seen.shown), due.next(), "{inputs:X?}");
            }
            fed += usize::from(seen.fed);
        }
        assert_eq!(due.next(), None, "{inputs:X?}");
        let controller = *at_ports.controller();
        assert_eq!(at_ports, by_events.with_controller(controller));
    }
    println!("{fed} keys fed, {port_events} port events beside");
    assert!(fed > 10 * LISTS && port_events > fed);
}

/// Sets are told apart where a byte is fed, not where it comes: a change between the two counts.
#[test]
fn a_waiting_byte_is_translated_by_the_set_at_its_read() {
    for byte in 0..=255 {
        for set in CODE_SETS {
            let mut service = Service::on_set(CodeSet::One, 0).unwrap();
            service.port_event(&FromKeyboard(byte));
            service.change(set);
            let read = service.port_event(&Read60);
            let mut by_event = Service::on_set(set, 0).unwrap();
            assert_eq!(read.byte, byte);
            assert_eq!(read.shown, by_event.event(&Event::Key(byte)), "{byte:02X}");
        }
    }
}
