//! The controller and the rest of a service have nothing to do with each other but where a key is read at
//! port 60, and where R makes the controller new. Whatever numbers stand for the one, the other shows and
//! leaves the same; port events that are refused could as well not have come.

use differential::place::BUFFER;
use differential::{Image, CONTROLLER_LENGTH, IMAGE_LENGTH};
use reference::generator::{in_turn, random_inputs, random_lists, random_port_event, Random};
use reference::{CodeSet, Event, Input, PortEvent, Seen};

const LISTS: usize = 3_000;
const LONGEST: usize = 200;
const FURTHER: usize = 60;

const RESTART: Input = Input::Event(Event::Restart);

fn after((set, locks, inputs): (CodeSet, u8, Vec<Input>)) -> Image {
    let mut image = Image::new_on(set, locks).unwrap();
    for input in &inputs {
        image.input(input);
    }
    image
}

/// Services after random lists, each with the number of its list.
fn used(seed: u64) -> impl Iterator<Item = (usize, Image)> {
    let lists = random_lists(seed, LISTS, LONGEST);
    lists.map(after).enumerate()
}

fn any_controller(random: &mut Random) -> [u8; CONTROLLER_LENGTH] {
    let largest = random.pick(&[2, 255]);
    [0; CONTROLLER_LENGTH].map(|_| random.between(0, largest) as u8)
}

/// The same controller in a service of any bytes.
fn with_any_service(random: &mut Random, image: &Image) -> Image {
    let mut bytes = [0; IMAGE_LENGTH];
    bytes.fill_with(|| random.byte());
    let mut other = Image { bytes };
    other.put_controller(image.controller());
    other
}

/// All bytes but the controller's.
fn beside(image: &Image) -> &[u8] {
    &image.bytes[..BUFFER]
}

/// What a controller means, as the library writes it: a read of 64 changes nothing else.
fn controller_meant(image: &Image) -> [u8; CONTROLLER_LENGTH] {
    let mut image = image.clone();
    image.port(PortEvent::Read64);
    image.controller()
}

/// What an input that is no port event leaves of the controller, and a port event of the rest.
fn check_apart(image: &mut Image, input: &Input) {
    let before = image.clone();
    let seen = image.input(input);
    match input {
        Input::Port(_) if seen.fed => {
            let mut fed = before.clone();
            assert_eq!(seen.shown, fed.key(seen.byte), "{input:X?}");
            assert_eq!(beside(image), beside(&fed), "{input:X?}");
        }
        Input::Port(_) => assert_eq!(beside(image), beside(&before), "{input:X?}"),
        _ if *input == RESTART => assert_eq!(image.controller(), [0; CONTROLLER_LENGTH]),
        _ => assert_eq!(
            controller_meant(image),
            controller_meant(&before),
            "{input:X?}"
        ),
    }
}

#[test]
fn each_leaves_the_other() {
    let mut random = Random::new(0x2070);
    let mut count = 0;
    for (number, mut image) in used(0x207) {
        let (flavour, ..) = in_turn(number);
        let inputs = random_inputs(&mut random, flavour, image.set(), FURTHER);
        for input in &inputs {
            check_apart(&mut image, input);
        }
        count += inputs.len();
    }
    println!("{count} inputs leave what is not theirs");
}

/// Whatever numbers stand there, R and the one call that stands for it leave zeros.
#[test]
fn r_makes_any_controller_new() {
    let mut random = Random::new(0x2071);
    for (_, image) in used(0x208) {
        let mut restarted = image.clone();
        restarted.event(&Event::Restart);
        let mut resynchronised = image.clone();
        resynchronised.resynchronise();
        for _ in 0..8 {
            let mut other = image.clone();
            other.put_controller(any_controller(&mut random));
            let mut other_resynchronised = other.clone();
            other.event(&Event::Restart);
            other_resynchronised.resynchronise();
            assert_eq!(other, restarted);
            assert_eq!(other_resynchronised, resynchronised);
        }
        assert_eq!(restarted.controller(), [0; CONTROLLER_LENGTH]);
        assert_eq!(resynchronised.controller(), [0; CONTROLLER_LENGTH]);
    }
}

/// Whatever stands for the controller, all that is no port event shows and leaves the same, the status
/// aside.
#[test]
fn nothing_else_depends_on_the_controller() {
    let mut random = Random::new(0x2072);
    let mut count = 0;
    for (number, mut one) in used(0x209) {
        let (flavour, ..) = in_turn(number);
        let mut other = one.clone();
        other.put_controller(any_controller(&mut random));
        let inputs = random_inputs(&mut random, flavour, one.set(), FURTHER);
        for input in &inputs {
            if matches!(input, Input::Port(_)) {
                continue;
            }
            let seen = one.input(input);
            assert_eq!(seen.shown, other.input(input).shown, "{input:X?}");
            assert_eq!(beside(&one), beside(&other), "{input:X?}");
            count += 1;
        }
    }
    println!("{count} inputs show and leave the same beside any controller");
    assert!(count > LISTS * FURTHER / 2);
}

/// What the controller has a part in. Where a key is fed, the answer is the rest's.
fn of_the_controller(seen: Seen) -> (Option<u8>, u8, u8, bool, bool) {
    let ans = (!seen.fed).then_some(seen.shown.ans);
    (ans, seen.byte, seen.status, seen.interrupt, seen.fed)
}

/// Whatever stands for the rest, ports 60 and 64 show the same and the controller is left the same.
#[test]
fn the_controller_depends_on_nothing_else() {
    let mut random = Random::new(0x2073);
    for (_, mut one) in used(0x20A) {
        one.put_controller(any_controller(&mut random));
        let mut other = with_any_service(&mut random, &one);
        for _ in 0..FURTHER {
            let event = random_port_event(&mut random);
            let seen = [one.port(event), other.port(event)].map(of_the_controller);
            assert_eq!(seen[0], seen[1], "{event:X?}");
            assert_eq!(one.controller(), other.controller(), "{event:X?}");
        }
    }
}

#[test]
fn refused_port_events_can_be_taken_out() {
    let mut taken_out = 0;
    for (set, locks, inputs) in random_lists(0x20B, LISTS, LONGEST) {
        let mut whole = Image::new_on(set, locks).unwrap();
        let mut without = whole.clone();
        for input in &inputs {
            let seen = whole.input(input);
            if seen.is_refused() && matches!(input, Input::Port(_)) {
                taken_out += 1;
            } else {
                assert_eq!(seen, without.input(input), "{inputs:X?}");
            }
        }
        assert_eq!(whole, without, "{inputs:X?}");
    }
    println!("{taken_out} refused port events are taken out of {LISTS} lists");
    assert!(taken_out > 10 * LISTS);
}
