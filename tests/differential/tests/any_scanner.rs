//! Any numbers at the scanner's port mean what the header says: the service does from there on what one
//! of the reference does whose scanner has typed all of it. Its flag bytes show none of it, and each call
//! that is not refused writes the numbers in their range.

use differential::place::*;
use differential::{held, Image, Pair, PREFIXES, SCANNER_LENGTH};
use reference::generator::{random_inputs, Flavour, Random};
use reference::{CodeSet, Device, Event, Input, Port, Service};

/// Services that are tried with every number at each place, and with so many random ports.
const SERVICES: usize = 56;
const RANDOM_PORTS: usize = 600;
const INPUTS: usize = 10;

/// Keypad keys of the digits from 0 on.
const DIGITS: [u8; 10] = [0x52, 0x4F, 0x50, 0x51, 0x4B, 0x4C, 0x4D, 0x47, 0x48, 0x49];

/// Bytes that soon tell how a port stands: those that go on with E1, a reply, breaks and makes.
const TELLING: [u8; 16] = [
    0x1D, 0x9D, 0x45, 0xC5, 0xFA, 0xB8, 0xAA, 0xB6, 0x1E, 0x2E, 0x47, 0x52, 0x53, 0x3A, 0x46, 0x54,
];

/// Inputs that are never refused and none of the scanner's, so that each only writes its numbers anew.
const ACCEPTED: [Input; 8] = [
    Input::Change(CodeSet::One),
    Input::Change(CodeSet::Two),
    Input::Event(Event::Key(0x12)),
    Input::Event(Event::Call(0x12, 0, 0)),
    Input::Event(Event::Poll),
    Input::Event(Event::TimeOut),
    Input::Event(Event::Empty),
    Input::Event(Event::Restart),
];

fn is_down(number: u8, sides: u8) -> bool {
    number & sides != 0
}

/// The port of a scanner that typed what these numbers mean. Without Alt it types no sum.
fn port_meant(numbers: [u8; SCANNER_LENGTH]) -> Port {
    let [prefix, sum, shift, ctrl, alt, locks, insert, sysreq] = numbers;
    let digits = [sum / 100, sum / 10 % 10, sum % 10].map(|digit| DIGITS[usize::from(digit)]);
    let opening = PREFIXES.into_iter().find(|&(number, _)| number == prefix);
    let (_, opening) = opening.unwrap_or_default();
    // Insert is held where its key puts its word, so it comes before Num Lock and the modifiers.
    let typed: [(bool, &[u8]); 13] = [
        (insert > 0, &[0x52]),
        (sysreq > 0, &[0x54]),
        (is_down(locks, held::SCROLL), &[0x46]),
        (is_down(locks, held::NUM), &[0x45]),
        (is_down(locks, held::CAPS), &[0x3A]),
        (is_down(shift, held::RIGHT), &[0x36]),
        (is_down(shift, held::LEFT), &[0x2A]),
        (is_down(ctrl, held::RIGHT), &[0xE0, 0x1D]),
        (is_down(ctrl, held::LEFT), &[0x1D]),
        (is_down(alt, held::RIGHT), &[0xE0, 0x38]),
        (is_down(alt, held::LEFT), &[0x38]),
        (is_down(alt, held::RIGHT | held::LEFT), &digits),
        (true, opening),
    ];
    let mut service = Service::unlocked();
    for (_, bytes) in typed.into_iter().filter(|(is_typed, _)| *is_typed) {
        for &byte in bytes {
            service.event(&Event::Scan(byte));
        }
    }
    *service.port(Device::Scanner)
}

/// The same service with another port of the scanner, on both sides.
fn with_port(used: &Pair, numbers: [u8; SCANNER_LENGTH]) -> Pair {
    let Pair { mut image, service } = used.clone();
    image.put_scanner(numbers);
    let service = service.with_port(Device::Scanner, port_meant(numbers));
    Pair { image, service }
}

fn check(used: &Pair, numbers: [u8; SCANNER_LENGTH], random: &mut Random) {
    let mut pair = with_port(used, numbers);
    assert_eq!(pair.image.flag_bytes(), used.image.flag_bytes());
    let mut refused = pair.image.clone();
    assert_eq!(refused.call(0x04, 0, 0).ans, 0x82);
    assert_eq!(refused, pair.image);
    for input in ACCEPTED {
        pair.clone().input(&input);
    }
    pair.event(&Event::Scan(random.pick(&TELLING)));
    let set = pair.image.set();
    for input in random_inputs(random, Flavour::Scanner, set, INPUTS) {
        pair.input(&input);
    }
}

/// At the place of the sum with Alt down, and at that of Alt with no sum: no event leaves a sum without
/// Alt, so the reference has no such port.
#[test]
fn any_number_stands_at_each_place() {
    Pair::each_used(0x5CA, SERVICES, |used, random| {
        for place in SCANNER_PREFIX..=SCANNER_SYSREQ {
            for number in 0..=255 {
                let mut image = used.image.clone();
                match place {
                    SCANNER_SUM => {
                        image.bytes[SCANNER_ALT] = random.pick(&[held::RIGHT, held::LEFT])
                    }
                    SCANNER_ALT => image.bytes[SCANNER_SUM] = 0,
                    _ => {}
                }
                image.bytes[place] = number;
                check(used, image.scanner(), random);
            }
        }
    });
}

#[test]
fn any_numbers_stand_together() {
    Pair::each_used(0x5CA, SERVICES, |used, random| {
        for _ in 0..RANDOM_PORTS {
            let largest = random.pick(&[1, 4, 7, 255]);
            let mut image = used.image.clone();
            image.put_scanner([0; SCANNER_LENGTH].map(|_| random.between(0, largest) as u8));
            if !is_down(image.bytes[SCANNER_ALT], held::RIGHT | held::LEFT) {
                image.bytes[SCANNER_SUM] = 0;
            }
            check(used, image.scanner(), random);
        }
    });
}

/// The last byte of a list of the scanner, on a service with this sum and no key down.
fn shown_with_sum(sum: u8, bytes: &[u8]) -> (u8, u16, Image) {
    let mut image = Image::new(0).unwrap();
    image.bytes[SCANNER_SUM] = sum;
    let shown = bytes.iter().map(|&byte| image.scan(byte)).last().unwrap();
    (shown.ans, shown.word, image)
}

/// A break of Alt puts it like any other, and a make with a row ends it.
#[test]
fn a_sum_without_alt_is_a_sum() {
    for sum in 0..=255 {
        let put = [0x00, 0x01][usize::from(sum > 0)];
        for bytes in [&[0xB8][..], &[0xE0, 0xB8], &[0x38, 0xB8]] {
            let (ans, word, image) = shown_with_sum(sum, bytes);
            assert_eq!((ans, word), (put, u16::from(sum)));
            assert_eq!(image.scanner(), [0; SCANNER_LENGTH]);
        }
        let (ans, word, image) = shown_with_sum(sum, &[0x1E]);
        assert_eq!((ans, word), (0x01, 0x1E61));
        assert_eq!(image.scanner(), [0; SCANNER_LENGTH]);
        let (ans, _, image) = shown_with_sum(sum, &[0x38, 0x4F]);
        assert_eq!(ans, 0x00);
        assert_eq!(
            image.bytes[SCANNER_SUM],
            sum.wrapping_mul(10).wrapping_add(1)
        );
    }
}
