//! Any numbers at the controller's place mean what the header says: the service does from there on what
//! one of the reference does whose controller was led to the same. A refused input leaves them as they
//! stand, and every other writes them in their range.

use differential::place::*;
use differential::{buffer, command, controller_due, ports_due, Image, Pair, CONTROLLER_LENGTH};
use reference::generator::{in_turn, random_inputs, Random};
use reference::written::inputs;
use reference::PortEvent::{FromKeyboard, Read60, Read64, Write60, Write64};
use reference::{Controller, Input};

/// Services that are tried with every number at each place, and with so many random controllers.
const SERVICES: usize = 28;
const RANDOM_CONTROLLERS: usize = 600;
const INPUTS: usize = 10;

/// Each by itself is tried first. Of these each tells something else, and some are refused.
const TELLING: &str =
    "r60 r64 key=1E key=FA w60=00 w60=10 w64=20 w64=60 w64=AA w64=AD w64=AE w64=FF \
                       K1E S1E C02 C04 frame=001 set=2 P T E R";

/// The controller of these numbers. Where a command byte is awaited, the last accepted write went to 64.
fn controller_meant(numbers: [u8; CONTROLLER_LENGTH]) -> Controller {
    let [kind, byte, command, awaiting, commanded, ..] = numbers;
    let command = command ^ command::TURNED;
    let mut events = match kind {
        buffer::KEY => vec![FromKeyboard(byte)],
        buffer::ANSWER => vec![Write64(0x60), Write60(byte), Write64(0x20)],
        _ => vec![FromKeyboard(byte), Read60],
    };
    events.extend([Write64(0x60), Write60(command)]);
    if awaiting > 0 {
        events.push(Write64(0x60));
    } else if commanded > 0 {
        let disabled = command & command::DISABLED != 0;
        events.push(Write64([0xAE, 0xAD][usize::from(disabled)]));
    }
    let mut controller = Controller::new();
    for event in events {
        let done = controller.port_event(event);
        done.expect("a controller can be led to this");
    }
    controller
}

/// Both show the same. What is refused leaves every byte; what is not leaves the numbers in range.
fn check_input(pair: &mut Pair, input: &Input) {
    let before = pair.image.clone();
    let seen = pair.image.input(input);
    assert_eq!(seen, pair.service.input(input), "{input:X?}");
    if seen.is_refused() {
        assert_eq!(pair.image, before, "{input:X?}");
        return;
    }
    let due = controller_due(pair.service.controller());
    assert_eq!(pair.image.controller(), due, "{input:X?}");
    assert_eq!(pair.image.ports(), ports_due(&pair.service), "{input:X?}");
}

fn check(used: &Pair, numbers: [u8; CONTROLLER_LENGTH], telling: &[Input], random: &mut Random) {
    let Pair { mut image, service } = used.clone();
    image.put_controller(numbers);
    let service = service.with_controller(controller_meant(numbers));
    let mut pair = Pair { image, service };
    assert_eq!(pair.image.flag_bytes(), used.image.flag_bytes());
    for input in telling {
        check_input(&mut pair.clone(), input);
    }
    let (flavour, ..) = in_turn(random.below(SERVICES));
    for input in random_inputs(random, flavour, pair.image.set(), INPUTS) {
        check_input(&mut pair, &input);
    }
}

/// At the place of what the buffer holds both with an empty one and with a full one.
#[test]
fn any_number_stands_at_each_place() {
    let telling = inputs(TELLING);
    Pair::each_used(0xC0, SERVICES, |used, random| {
        for place in BUFFER..BUFFER + CONTROLLER_LENGTH {
            for number in 0..=255 {
                let mut image = used.image.clone();
                if place == BUFFERED {
                    image.bytes[BUFFER] = random.below(4) as u8;
                }
                image.bytes[place] = number;
                if image.bytes[AWAITING] > 0 {
                    image.bytes[COMMANDED] = 1;
                }
                check(used, image.controller(), &telling, random);
            }
        }
    });
}

#[test]
fn any_numbers_stand_together() {
    let telling = inputs(TELLING);
    Pair::each_used(0xC0, SERVICES, |used, random| {
        for _ in 0..RANDOM_CONTROLLERS {
            let largest = random.pick(&[1, 2, 3, 255]);
            let mut image = used.image.clone();
            image.put_controller([0; CONTROLLER_LENGTH].map(|_| random.between(0, largest) as u8));
            if image.bytes[AWAITING] > 0 {
                image.bytes[COMMANDED] |= 1;
            }
            check(used, image.controller(), &telling, random);
        }
    });
}

/// No list leaves a command byte awaited while the status says that the last write went to 60, so the
/// reference has no such controller. It is read as it stands: the wait is one, and goes on or ends as any.
#[test]
fn a_wait_need_not_follow_a_command() {
    for number in 1..=255 {
        let mut image = Image::new(0).unwrap();
        image.bytes[AWAITING] = number;
        let lent = image.clone();
        assert_eq!(image.port(Write64(0xFF)).shown.ans, 0x8F);
        assert_eq!(image, lent);
        assert_eq!(image.port(Read64).byte, 0x14);
        assert_eq!(image.controller(), [0, 0, 0, 1, 0, 0, 0, 0]);
        let written = image.port(Write60(number));
        assert_eq!((written.shown.ans, written.status), (0x00, 0x14));
        let command = number ^ command::TURNED;
        assert_eq!(image.controller(), [0, 0, command, 0, 0, 0, 0, 0]);
        for command in [0x20, 0x60, 0xAA, 0xAD, 0xAE] {
            let (mut image, mut new) = (lent.clone(), Image::new(0).unwrap());
            assert_eq!(image.port(Write64(command)), new.port(Write64(command)));
            assert_eq!(image, new);
        }
    }
}
