//! After the all-up run on both ports, the keyboard's in the set in force, an emptying and a restart, a
//! service is as one newly made on that set with its locks. Bytes of the scanner and port events stand in
//! every list. Frames do too: sound ones for keyboard bytes, also of the run, and refused ones anywhere.
//! Changes of set stand in every list but that of the run. The keyboard's run may be typed through port
//! 60; behind the restart the ports are left alone.

use reference::generator::{
    all_up_events, all_up_inputs, in_turn, random_inputs, random_port_event, Random, DONE_AT_PORTS,
};
use reference::written::inputs;
use reference::PortEvent::{FromKeyboard, Read60, Write64};
use reference::{
    set_after, Controller, Event, Input, OutputBuffer, Port, Service, CODE_SETS, DEVICES,
};

const FIRST_LISTS: usize = 4_000;
const FURTHER: usize = 50;

fn resynchronise(service: &mut Service, random: &mut Random) {
    for input in all_up_inputs(random, service.set()) {
        assert!(!matches!(input, Input::Change(_)), "the run has one set");
        service.input(&input);
    }
}

/// A service newly made with the set and the locks that stand in this one.
fn new_like(service: &Service) -> Service {
    Service::on_set(service.set(), service.flag_bytes()[0] >> 4).unwrap()
}

/// Both see the same of a further list, input by input.
fn assert_same_from_now_on(used: &Service, further: &[Input]) {
    let (mut used, mut new) = (used.clone(), new_like(used));
    assert_eq!(used, new);
    for input in further {
        assert_eq!(used.input(input), new.input(input), "{further:X?}");
    }
}

/// How many first lists left what is to be forgotten.
#[derive(Debug, Default)]
struct Left {
    at_devices: [usize; DEVICES.len()],
    a_used_controller: usize,
    a_key_in_the_buffer: usize,
    an_answer_in_the_buffer: usize,
    a_command_byte_awaited: usize,
    a_disabled_keyboard: usize,
}

impl Left {
    fn count(&mut self, used: &Service) {
        for (left, device) in self.at_devices.iter_mut().zip(DEVICES) {
            *left += usize::from(*used.port(device) != Port::new());
        }
        let controller = used.controller();
        let (buffer, command_byte) = (controller.buffer(), controller.command_byte());
        self.a_used_controller += usize::from(*controller != Controller::new());
        self.a_key_in_the_buffer += usize::from(matches!(buffer, OutputBuffer::Key(_)));
        self.an_answer_in_the_buffer += usize::from(matches!(buffer, OutputBuffer::Answer(_)));
        self.a_command_byte_awaited += usize::from(controller.awaits_command_byte());
        self.a_disabled_keyboard += usize::from(command_byte & 0x10 != 0);
    }

    fn assert_enough(&self) {
        println!("of {FIRST_LISTS} first lists so many left {self:?}");
        let often = self.at_devices.into_iter().chain([self.a_used_controller]);
        for count in often {
            assert!(count > FIRST_LISTS / 2);
        }
        let now_and_then = [
            self.a_key_in_the_buffer,
            self.an_answer_in_the_buffer,
            self.a_command_byte_awaited,
            self.a_disabled_keyboard,
        ];
        for count in now_and_then {
            assert!(count > FIRST_LISTS / 20);
        }
    }
}

/// Runs a first list of every number and then what resynchronises; the service is then as new.
fn assert_forgotten(seed: u64, mut resynchronise: impl FnMut(&mut Service, &mut Random)) {
    let mut random = Random::new(seed);
    let mut left = Left::default();
    for list in 0..FIRST_LISTS {
        let (flavour, set, locks) = in_turn(list);
        let mut used = Service::on_set(set, locks).unwrap();
        let length = random.below(200);
        let first = random_inputs(&mut random, flavour, set, length);
        for input in &first {
            used.input(input);
        }
        let set = set_after(set, &first);
        assert_eq!(used.set(), set, "list {list}");
        left.count(&used);
        resynchronise(&mut used, &mut random);
        let further = random_inputs(&mut random, flavour, set, FURTHER);
        assert_same_from_now_on(&used, &further);
    }
    left.assert_enough();
}

#[test]
fn any_first_list_is_forgotten() {
    assert_forgotten(3, resynchronise);
}

/// The run as events alone, whatever waits in the controller: the restart forgets it.
#[test]
fn the_run_may_pass_the_ports() {
    assert_forgotten(5, |service, _| {
        let set = service.set();
        let runs = DEVICES.into_iter();
        let runs = runs.flat_map(|device| all_up_events(device, set));
        for event in runs.chain([Event::Empty, Event::Restart]) {
            service.event(&event);
        }
    });
}

/// Anything at the ports that feeds nothing.
fn meddle(service: &mut Service, random: &mut Random) {
    while random.below(3) > 0 {
        let event = random_port_event(random);
        if !service.clone().port_event(&event).fed {
            service.port_event(&event);
        }
    }
}

/// How often a keyboard may have to offer a byte.
const OFFERS: usize = 1_000;

/// The keyboard offers its byte until it is read. Where it is refused, or lost under an answer, the program
/// makes the controller ready for it, and what it reads for that is an answer.
fn type_at_port(service: &mut Service, random: &mut Random, byte: u8) {
    for _ in 0..OFFERS {
        meddle(service, random);
        let is_taken = !service.port_event(&FromKeyboard(byte)).is_refused();
        meddle(service, random);
        let is_there = service.controller().buffer() == OutputBuffer::Key(byte);
        if is_taken && is_there {
            let read = service.port_event(&Read60);
            assert_eq!((read.byte, read.fed), (byte, true));
            return;
        }
        for event in [Write64(0xAE), Write64(0xAA), Read60] {
            assert!(!service.port_event(&event).fed);
        }
    }
    panic!("{byte:02X} is not read in {OFFERS} offers");
}

/// A byte of the keyboard comes through port 60.
fn run_at_ports(service: &mut Service, random: &mut Random, event: Event) {
    if let Event::Key(byte) = event {
        return type_at_port(service, random, byte);
    }
    meddle(service, random);
    service.event(&event);
}

/// The bytes of the two runs come among each other, and anything at the ports among them.
#[test]
fn the_run_may_be_typed_through_port_60() {
    assert_forgotten(6, |service, random| {
        let mut runs = DEVICES.map(|device| all_up_events(device, service.set()).peekable());
        while runs.iter_mut().any(|run| run.peek().is_some()) {
            if let Some(event) = runs[random.below(DEVICES.len())].next() {
                run_at_ports(service, random, event);
            }
        }
        for event in [Event::Empty, Event::Restart] {
            run_at_ports(service, random, event);
        }
    });
}

#[test]
fn empty_first_list_is_forgotten() {
    let mut random = Random::new(4);
    for set in CODE_SETS {
        for locks in 0..16 {
            let mut service = Service::on_set(set, locks).unwrap();
            resynchronise(&mut service, &mut random);
            assert_eq!(service, Service::on_set(set, locks).unwrap());
        }
    }
}

/// What is done before the restart is forgotten, and what is done behind it is not.
#[test]
fn the_restart_must_come_behind_all_port_events() {
    for set in CODE_SETS {
        for (done, telling) in DONE_AT_PORTS {
            let telling = inputs(telling);
            let mut service = Service::on_set(set, 0).unwrap();
            for input in inputs(&format!("{done} R")) {
                service.input(&input);
            }
            assert_same_from_now_on(&service, &telling);
            let mut new = service.clone();
            for input in inputs(done) {
                service.input(&input);
            }
            let same = |input: &Input| service.input(input) == new.input(input);
            assert!(!telling.iter().all(same), "{done}");
        }
    }
}
