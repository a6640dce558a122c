//! What the tests hold the library to.

use crate::{buffer, codes, command, held, prefix, prefix_and_codes};
use crate::{Image, Ports, Reported, CONTROLLER_LENGTH, SCANNER_LENGTH};
use reference::generator::{in_turn, random_inputs, Flavour, Random};
use reference::prefix::Prefix;
use reference::{flags, report, OutputBuffer, Seen};
use reference::{CodeSet, Controller, Device, Event, Input, Outcome, Port, Service, Translation};

/// The numbers of the prefixes, each with the bytes of set 1 that open it.
pub const PREFIXES: [(u8, &[u8]); 5] = [
    (prefix::NONE, &[]),
    (prefix::E0, &[0xE0]),
    (prefix::E1, &[0xE1]),
    (prefix::E1_1D, &[0xE1, 0x1D]),
    (prefix::E1_9D, &[0xE1, 0x9D]),
];

/// The bit of the status that says that the last accepted write went to port 64.
const COMMANDED: u8 = 0x08;

/// One service, as the library and as the reference has it.
#[derive(Clone)]
pub struct Pair {
    pub image: Image,
    pub service: Service,
}

impl Pair {
    /// A new service on this set with these lock bits, of 0 to 15.
    pub fn new_on(set: CodeSet, locks: u8) -> Pair {
        Pair {
            image: Image::new_on(set, locks).unwrap(),
            service: Service::on_set(set, locks).unwrap(),
        }
    }

    /// After a list for a service newly made, with the set and the locks of that.
    pub fn after((set, locks, inputs): (CodeSet, u8, Vec<Input>)) -> Pair {
        let mut pair = Pair::new_on(set, locks);
        pair.inputs(&inputs);
        pair
    }

    /// After up to 59 random inputs.
    pub fn used(random: &mut Random, flavour: Flavour, set: CodeSet, locks: u8) -> Pair {
        let mut pair = Pair::new_on(set, locks);
        let length = random.below(60);
        for input in random_inputs(random, flavour, set, length) {
            pair.input(&input);
        }
        pair
    }

    /// So many services after random lists, each with the random numbers that go on.
    pub fn each_used(seed: u64, services: usize, mut check: impl FnMut(&Pair, &mut Random)) {
        let mut random = Random::new(seed);
        for service in 0..services {
            let (flavour, set, locks) = in_turn(service);
            let used = Pair::used(&mut random, flavour, set, locks);
            check(&used, &mut random);
        }
    }

    pub fn event(&mut self, event: &Event) {
        self.input(&Input::Event(*event));
    }

    pub fn events(&mut self, events: &[Event]) {
        events.iter().for_each(|event| self.event(event));
    }

    /// The same is seen of both, and both have the same ports, set, mark and controller after it.
    pub fn input(&mut self, input: &Input) -> Seen {
        let expected = self.service.input(input);
        assert_eq!(self.image.input(input), expected, "{input:X?}");
        let ports = self.image.ports();
        assert_eq!(ports, ports_due(&self.service), "{input:X?}");
        let due = controller_due(self.service.controller());
        assert_eq!(self.image.controller(), due, "{input:X?}");
        expected
    }

    pub fn inputs(&mut self, inputs: &[Input]) {
        for input in inputs {
            self.input(input);
        }
    }
}

/// The numbers that are to stand for the ports of the reference.
pub fn ports_due(service: &Service) -> Ports {
    let codes = match service.translation() {
        Translation::SetOne => codes::SET_1,
        Translation::SetTwo => codes::SET_2,
        Translation::SetTwoMarked => codes::SET_2_MARKED,
    };
    let keyboard = service.port(Device::Keyboard);
    Ports {
        prefix_and_codes: prefix_and_codes(prefix_due(keyboard.prefix()), codes),
        sum: keyboard.alt_sum(),
        scanner: scanner_due(service.port(Device::Scanner)),
    }
}

fn prefix_due(prefix: Prefix) -> u8 {
    match prefix {
        Prefix::Closed => prefix::NONE,
        Prefix::E0 => prefix::E0,
        Prefix::E1 => prefix::E1,
        Prefix::E1Then1D => prefix::E1_1D,
        Prefix::E1Then9D => prefix::E1_9D,
    }
}

/// The reference keeps the keys of either port where the flag bytes would show them.
fn scanner_due(port: &Port) -> [u8; SCANNER_LENGTH] {
    let [byte_17, byte_18, byte_96] = [
        port.keys().byte_17(),
        port.keys().byte_18(),
        port.keys().byte_96(),
    ];
    let moved = |byte: u8, from: u8, to: u8| if byte & from == 0 { 0 } else { to };
    let right = |byte: u8, bit: u8| moved(byte, bit, held::RIGHT);
    let left = |byte: u8, bit: u8| moved(byte, bit, held::LEFT);
    [
        prefix_due(port.prefix()),
        port.alt_sum(),
        right(byte_17, flags::RIGHT_SHIFT) | left(byte_17, flags::LEFT_SHIFT),
        right(byte_96, flags::RIGHT_CTRL) | left(byte_18, flags::LEFT_CTRL),
        right(byte_96, flags::RIGHT_ALT) | left(byte_18, flags::LEFT_ALT),
        moved(byte_18, flags::SCROLL, held::SCROLL)
            | moved(byte_18, flags::NUM, held::NUM)
            | moved(byte_18, flags::CAPS, held::CAPS),
        moved(byte_18, flags::INSERT, 1),
        moved(byte_18, flags::SYSREQ_HELD, 1),
    ]
}

/// The numbers that are to stand for a controller of the reference.
pub fn controller_due(controller: &Controller) -> [u8; CONTROLLER_LENGTH] {
    let (buffer, buffered) = match controller.buffer() {
        OutputBuffer::Empty => (buffer::EMPTY, controller.last_byte()),
        OutputBuffer::Key(byte) => (buffer::KEY, byte),
        OutputBuffer::Answer(byte) => (buffer::ANSWER, byte),
    };
    [
        buffer,
        buffered,
        controller.command_byte() ^ command::TURNED,
        u8::from(controller.awaits_command_byte()),
        u8::from(controller.status() & COMMANDED != 0),
        0,
        0,
        0,
    ]
}

/// The same service but for the keyboard's prefix and the codes that come, which are those of these
/// numbers.
pub fn with_prefix_and_codes(service: &Service, prefix: u8, codes: u8) -> Service {
    let mut other = service.clone();
    other.change(CodeSet::One);
    // An overrun closes any prefix, and does nothing else.
    other.event(&Event::Key(0xFF));
    let opening = PREFIXES.into_iter().find(|&(number, _)| number == prefix);
    let (_, bytes) = opening.unwrap_or_default();
    for &byte in bytes {
        other.event(&Event::Key(byte));
    }
    if matches!(codes, codes::SET_2 | codes::SET_2_MARKED) {
        other.change(CodeSet::Two);
    }
    if codes == codes::SET_2_MARKED {
        other.event(&Event::Key(0xF0));
    }
    other
}

/// What is to be reported of an input that showed this; nothing where it feeds no event.
pub fn report_due(input: &Input, outcome: &Outcome) -> Option<Reported> {
    let event = input.fed()?;
    Some(Reported {
        refusal: outcome.ans.saturating_sub(0x80),
        text: report(&event, outcome),
    })
}
