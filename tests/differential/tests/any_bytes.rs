//! Any 80 bytes are a service: no image makes a call fail, or answer otherwise a second time. What a
//! call leaves is in the one form that the library writes, with every number in its range, and shows
//! the same as what was lent; its first four bytes are the flag bytes that the call showed. Bits that
//! the header says are not read change nothing. A refused call or frame leaves every bit as it was lent.

use differential::place::*;
use differential::{
    buffer, codes, flag, held, prefix, prefix_and_codes, report_due, with_prefix_and_codes,
};
use differential::{Image, Pair, IMAGE_LENGTH};
use reference::generator::{in_turn, random_inputs, Random, FLAVOURS};
use reference::{CodeSet, Event, Input, CODE_SETS};

const IMAGES: usize = 200_000;
const EVENTS: usize = 7;
/// Services that have every number put at the place of prefix and codes.
const SERVICES: usize = 320;

/// The most that numbers of one byte are read as; words, the Alt sums and the controller's bytes may be
/// anything.
const MOST: [(usize, u8); 10] = [
    (RATE_KNOWN, 1),
    (HANDLED_KNOWN, 1),
    (KIND, 1),
    (OPERAND, 1),
    (SENDS, 3),
    (SENT, 6),
    (SCANNER_INSERT, 1),
    (SCANNER_SYSREQ, 1),
    (AWAITING, 1),
    (COMMANDED, 1),
];
/// The most that the number of queued words is read as.
const MOST_COUNT: u64 = 15;

/// The most that a number may be; a larger one is read as 0.
const LARGEST_PREFIX: u8 = prefix::E1_9D;
const LARGEST_CODES: u8 = codes::SET_2_MARKED;
const LARGEST_PHASE: u8 = 2;
const LARGEST_BUFFER: u8 = buffer::ANSWER;
const LARGEST_HEAD: u64 = 14;

/// Numbers of eight bytes: some in range, some just out of it, and some with a bit far above.
const LONG_NUMBERS: [u64; 14] = [
    0,
    1,
    7,
    14,
    15,
    16,
    0x7F,
    0x80,
    0xFF,
    0x10E,
    1 << 32,
    u64::MAX >> 1,
    1 << 63,
    u64::MAX,
];

/// Bytes that soon tell what was open: those that go on with E1 on either set, a mark, a reply and others.
const TELLING: [u8; 12] = [
    0x12, 0x14, 0x1C, 0x1D, 0x45, 0x77, 0x9D, 0xAA, 0xC5, 0xE0, 0xF0, 0xFA,
];

/// Inputs that are never refused, so that each writes the service anew. None is a byte of the keyboard, so
/// that the prefix stays.
const ACCEPTED: [Input; 7] = [
    Input::Change(CodeSet::One),
    Input::Change(CodeSet::Two),
    Input::Event(Event::Call(0x02, 0, 0)),
    Input::Event(Event::Poll),
    Input::Event(Event::TimeOut),
    Input::Event(Event::Empty),
    Input::Event(Event::Restart),
];

fn any_image(random: &mut Random) -> Image {
    let set = random.pick(&CODE_SETS);
    let mut image = Image::new_on(set, random.below(16) as u8).unwrap();
    match random.below(4) {
        0 => image.bytes.fill_with(|| random.byte()),
        // Small numbers, which more often stand for a prefix or a phase.
        1 => image.bytes.fill_with(|| random.below(5) as u8),
        // The largest numbers and their neighbours.
        2 => image
            .bytes
            .fill_with(|| random.pick(&[0x00, 0x0E, 0x0F, 0x10, 0x7F, 0x80, 0xFF])),
        _ => {
            let flavour = random.pick(&FLAVOURS);
            for input in random_inputs(random, flavour, set, 30) {
                image.input(&input);
            }
            for _ in 0..random.between(1, 8) {
                image.bytes[random.below(IMAGE_LENGTH)] = random.byte();
            }
        }
    }
    // Few of the numbers above stand for set 2, or for a place in the queue and a count.
    if random.below(2) == 0 {
        image.put_codes(random.pick(&[codes::SET_2, codes::SET_2_MARKED]));
    }
    if random.below(2) == 0 {
        put_number(&mut image.bytes, HEAD, random.pick(&LONG_NUMBERS));
        put_number(&mut image.bytes, COUNT, random.pick(&LONG_NUMBERS));
    }
    image
}

/// The bits that the header says are not read of these bytes.
fn unread(bytes: &[u8; IMAGE_LENGTH]) -> [u8; IMAGE_LENGTH] {
    let mut bits = [0; IMAGE_LENGTH];
    for (place, read) in flag::READ.into_iter().enumerate() {
        bits[place] = !read;
    }
    bits[RATE] = [0x80, 0xFF][usize::from(bytes[RATE_KNOWN] == 0)];
    bits[HANDLED] = [0xF8, 0xFF][usize::from(bytes[HANDLED_KNOWN] == 0)];
    match bytes[PHASE] {
        1 | 2 => bits[VALUE] = [0x80, 0xF8][usize::from(bytes[KIND] == 0)],
        // The kind is that of the turn.
        _ => bits[VALUE..=SENT].fill(0xFF),
    }
    bits[SCANNER_SHIFT..=SCANNER_ALT].fill(!(held::RIGHT | held::LEFT));
    bits[SCANNER_LOCKS] = !(held::SCROLL | held::NUM | held::CAPS);
    bits[SPARE..].fill(0xFF);
    bits
}

/// The flags that follow from the other numbers, where these are in range.
fn following(image: &Image) -> [((usize, u8), bool); 5] {
    let (bytes, prefix) = (&image.bytes, image.prefix());
    let on = |(place, bit): (usize, u8)| bytes[place] & bit != 0;
    [
        (flag::CTRL, on(flag::LEFT_CTRL) || on(flag::RIGHT_CTRL)),
        (flag::ALT, on(flag::LEFT_ALT) || on(flag::RIGHT_ALT)),
        (flag::E0_OPEN, prefix == prefix::E0),
        (flag::E1_OPEN, prefix >= prefix::E1),
        (flag::LED_COMMAND_RUNS, bytes[PHASE] > 0 && bytes[KIND] == 0),
    ]
}

/// A number of eight bytes, the lowest first.
fn number_at(bytes: &[u8; IMAGE_LENGTH], start: usize) -> u64 {
    u64::from_le_bytes(bytes[start..start + 8].try_into().unwrap())
}

fn put_number(bytes: &mut [u8; IMAGE_LENGTH], start: usize, number: u64) {
    bytes[start..start + 8].copy_from_slice(&number.to_le_bytes());
}

/// What a number is read as where those above the largest are read as 0.
fn in_range<Number: PartialOrd + Default>(number: Number, largest: Number) -> Number {
    if number > largest {
        Number::default()
    } else {
        number
    }
}

/// What the header says that these bytes mean, in the form that the library writes.
fn meant(image: &Image) -> Image {
    let mut meant = image.clone();
    let bytes = &mut meant.bytes;
    for (byte, bits) in bytes.iter_mut().zip(unread(&image.bytes)) {
        *byte &= !bits;
    }
    for (place, most) in MOST {
        bytes[place] = bytes[place].min(most);
    }
    let prefix = in_range(image.prefix(), LARGEST_PREFIX);
    let codes = in_range(image.codes(), LARGEST_CODES);
    bytes[PREFIX_AND_CODES] = prefix_and_codes(prefix, codes);
    bytes[SCANNER_PREFIX] = in_range(bytes[SCANNER_PREFIX], LARGEST_PREFIX);
    bytes[PHASE] = in_range(bytes[PHASE], LARGEST_PHASE);
    bytes[BUFFER] = in_range(bytes[BUFFER], LARGEST_BUFFER);
    let head = in_range(number_at(bytes, HEAD), LARGEST_HEAD);
    put_number(bytes, HEAD, head);
    let count = number_at(bytes, COUNT).min(MOST_COUNT);
    put_number(bytes, COUNT, count);
    for ((place, bit), on) in following(&meant) {
        if on {
            meant.bytes[place] |= bit;
        }
    }
    meant
}

/// The same service in the library's form: a status call changes nothing else.
fn in_form(mut image: Image) -> Image {
    assert_eq!(image.call(0x02, 0, 0).ans, 0x0A);
    image
}

/// The same image but for bits that are not read.
fn with_other_unread_bits(image: &Image, random: &mut Random) -> Image {
    let mut other = image.clone();
    for (byte, bits) in other.bytes.iter_mut().zip(unread(&image.bytes)) {
        *byte ^= random.byte() & bits;
    }
    other
}

fn check_input(image: &mut Image, input: &Input, random: &mut Random) {
    let before = image.clone();
    let (mut again, mut formed, mut reported) =
        (before.clone(), in_form(before.clone()), before.clone());
    let lent = with_other_unread_bits(&before, random);
    let mut other = lent.clone();
    assert_eq!(formed, meant(&before));
    // Read twice, it is what it was read as once.
    assert_eq!(in_form(formed.clone()), formed);
    assert_eq!(before.flag_bytes(), formed.first_bytes());
    assert_eq!(formed.flag_bytes(), formed.first_bytes());
    assert_eq!(other.flag_bytes(), formed.first_bytes());

    let seen = image.input(input);
    let outcome = seen.shown;
    assert_eq!(again.input(input), seen);
    assert_eq!(again, *image);
    assert_eq!(image.flag_bytes(), outcome.flags);
    assert_eq!(image.status(), seen.status);
    assert_eq!(formed.input(input), seen);
    assert_eq!(formed.first_bytes(), outcome.flags);
    assert_eq!(other.input(input), seen);
    if !seen.is_refused() {
        assert_eq!(*image, meant(image));
        assert_eq!(image.first_bytes(), outcome.flags);
        assert_eq!(formed, *image);
        assert_eq!(other, *image);
    } else {
        assert_eq!(before, *image);
        assert_eq!(lent, other);
    }

    assert_eq!(reported.report_of(input), report_due(input, &outcome));
    assert_eq!(reported, *image);
    assert!(outcome.sent <= 6);
}

#[test]
fn any_bytes_are_a_service() {
    let mut random = Random::new(0xA4B);
    for number in 0..IMAGES {
        let mut image = any_image(&mut random);
        let (lent, set) = (image.clone(), image.set());
        let (flavour, ..) = in_turn(number);
        for input in random_inputs(&mut random, flavour, set, EVENTS) {
            check_input(&mut image, &input, &mut random);
        }
        let mut settled = lent.clone();
        let locks = settled.flag_bytes()[0] >> 4;
        assert_eq!(settled.resynchronise().flags, [locks << 4, 0, 0, 0]);
        assert_eq!(Ok(settled), Image::new_on(set, locks));
        for set in CODE_SETS {
            let mut made = lent.clone();
            assert_eq!(made.make_on(set, 5), 0);
            assert_eq!(Ok(made), Image::new_on(set, 5));
        }
    }
}

/// Refused calls of three kinds leave every bit, and accepted inputs show and leave what is due.
fn check_calls(pair: &Pair) {
    let mut image = pair.image.clone();
    assert_eq!(image.call(0x04, 0, 0).ans, 0x82);
    assert_eq!(image.frame(0x0001).ans, 0x8B);
    assert_eq!(image.make_on(CodeSet::Two, 16), 1);
    assert_eq!(image, pair.image);
    for input in ACCEPTED {
        pair.clone().input(&input);
    }
}

/// Each half of the byte is read as the header says, the lower as a prefix and the upper as the codes that
/// come; from there on a service does what the reference does, and has the byte in range.
#[test]
fn any_number_stands_for_a_prefix_and_codes() {
    let mut random = Random::new(0x5E6);
    for service in 0..SERVICES {
        let (flavour, set, locks) = in_turn(service);
        let used = Pair::used(&mut random, flavour, set, locks);
        for number in 0..=255 {
            let mut pair = used.clone();
            pair.image.bytes[PREFIX_AND_CODES] = number;
            let (prefix, codes) = (pair.image.prefix(), pair.image.codes());
            pair.service = with_prefix_and_codes(&used.service, prefix, codes);
            let set = pair.image.set();
            assert_eq!(set, pair.service.set());
            assert_eq!(pair.image.flag_bytes(), pair.service.flag_bytes());
            check_calls(&pair);
            // First a byte, which is never refused, so that the number is written anew.
            pair.event(&Event::Key(random.pick(&TELLING)));
            for input in random_inputs(&mut random, flavour, set, EVENTS) {
                pair.input(&input);
            }
        }
    }
}

#[test]
fn zeros_are_a_new_service_with_no_lock_on() {
    let bytes = [0; IMAGE_LENGTH];
    assert_eq!(Image::new(0), Ok(Image { bytes }));
}
