//! A scanner beside the keyboard, through the library. At every place of every prefix of both ports each
//! byte shows what the reference shows. After the all-up runs of both ports in any order, E and R a service
//! is as new, and after that of one port alone it need not be. Whatever numbers are a port's own, they have
//! no part in what is not.

use differential::place::{ALT_SUM, BUFFER, PREFIX_AND_CODES, RATE_KNOWN, SCANNER_PREFIX};
use differential::{flag, Image, Pair, IMAGE_LENGTH, PREFIXES, SCANNER_LENGTH};
use reference::generator::{
    all_up_events, all_up_run, in_turn, random_inputs, random_lists, typed_on, Random,
};
use reference::written::events;
use reference::Event::{self, Call, Empty, Key, Restart, Scan};
use reference::{CodeSet, Device, Input, Seen, CODE_SETS, DEVICES};

const LISTS: usize = 3_000;
const LONGEST: usize = 200;
const FURTHER: usize = 50;

/// What both ports did before, in the codes of set 1.
const BEFORE: [&str; 3] = [
    "",
    // Num and Alt are down at both, and each has begun a sum.
    "K45 S45 K38 S38 K4F S50",
    // A reply is awaited; Ctrl is down at one port and Alt at the other, which holds Shift and Caps too.
    "P K1D S38 S2A S3A",
];

/// Bytes of which each list does something else behind some prefix than behind the others.
const SHOWING: [&[u8]; 4] = [
    &[0x45, 0x1E],
    &[0xC5, 0x45],
    &[0x1D, 0x45, 0x53],
    &[0x47, 0xB8],
];

/// The same list where the keyboard sends codes of this set.
fn on_set(set: CodeSet, events: &[Event]) -> Vec<Event> {
    let mut random = Random::new(2);
    let typed = |&event: &Event| typed_on(&mut random, set, event);
    events.iter().flat_map(typed).collect()
}

/// Bytes of set 1, or what comes for them from a keyboard of this set.
fn typed(device: Device, set: CodeSet, bytes: &[u8]) -> Vec<Event> {
    let events: Vec<Event> = bytes.iter().map(|&byte| device.event(byte)).collect();
    on_set(set, &events)
}

/// Two lists as one, an event of each in turn.
fn in_turns(one: &[Event], other: &[Event]) -> Vec<Event> {
    let places = 0..one.len().max(other.len());
    let both = places.flat_map(|place| [one.get(place), other.get(place)]);
    both.flatten().copied().collect()
}

/// Two lists as one, in random order.
fn shuffled(random: &mut Random, lists: [&[Event]; 2]) -> Vec<Event> {
    let mut rest = lists.map(|list| list.iter());
    let mut events = Vec::new();
    while rest.iter().any(|rest| rest.len() > 0) {
        events.extend(rest[random.below(lists.len())].next());
    }
    events
}

/// A service with these prefixes open, opened in turns, whichever port comes first.
fn opened(set: CodeSet, before: &[Event], [keyboard, scanner]: [&[u8]; 2]) -> Pair {
    let keyboard = typed(Device::Keyboard, set, keyboard);
    let scanner = typed(Device::Scanner, set, scanner);
    let mut pair = Pair::new_on(set, 0);
    pair.events(before);
    let mut other = pair.clone();
    pair.events(&in_turns(&keyboard, &scanner));
    other.events(&in_turns(&scanner, &keyboard));
    assert_eq!(pair.image, other.image);
    pair
}

/// Services with each prefix open at one port and each at the other, on set 2 without and with a mark.
fn all_opened(set: CodeSet, before: &[Event]) -> Vec<Pair> {
    let mut pairs = Vec::new();
    for (keyboard, opening) in PREFIXES {
        for (scanner, opening_scanner) in PREFIXES {
            let pair = opened(set, before, [opening, opening_scanner]);
            let open = (pair.image.prefix(), pair.image.scanner()[0]);
            assert_eq!(open, (keyboard, scanner));
            if set == CodeSet::Two {
                let mut marked = pair.clone();
                marked.event(&Key(0xF0));
                pairs.push(marked);
            }
            pairs.push(pair);
        }
    }
    pairs
}

/// Each byte at either port, then at both what shows the open prefixes; counts the bytes.
fn check_every_byte(pair: &Pair, showing: &[Vec<Event>]) -> usize {
    let mut count = 0;
    for device in DEVICES {
        for byte in 0..=255 {
            let mut after = pair.clone();
            after.event(&device.event(byte));
            count += 1;
            for events in showing {
                after.clone().events(events);
                count += events.len();
            }
        }
    }
    count
}

#[test]
fn every_byte_agrees_at_every_place_of_every_prefix() {
    let mut count = 0;
    for set in CODE_SETS {
        let showing = SHOWING.map(|bytes| {
            let [keyboard, scanner] = DEVICES.map(|device| typed(device, set, bytes));
            in_turns(&keyboard, &scanner)
        });
        for before in BEFORE {
            for pair in all_opened(set, &on_set(set, &events(before))) {
                count += check_every_byte(&pair, &showing);
            }
        }
    }
    println!("{count} bytes at open prefixes agree");
}

/// Services after random lists, which agree, each with the number of its list.
fn used_pairs(seed: u64) -> impl Iterator<Item = (usize, Pair)> {
    let lists = random_lists(seed, LISTS, LONGEST);
    lists.map(Pair::after).enumerate()
}

/// The library's alone.
fn used_images(seed: u64) -> impl Iterator<Item = (usize, Image)> {
    let lists = random_lists(seed, LISTS, LONGEST).enumerate();
    lists.map(|(number, (set, locks, inputs))| {
        let mut image = Image::new_on(set, locks).unwrap();
        for input in &inputs {
            image.input(input);
        }
        (number, image)
    })
}

/// A list that may come after one of this number.
fn further(random: &mut Random, number: usize, image: &Image) -> Vec<Input> {
    let (flavour, ..) = in_turn(number);
    random_inputs(random, flavour, image.set(), FURTHER)
}

fn is_scan(input: &Input) -> bool {
    matches!(input, Input::Event(Scan(_)))
}

/// The runs of both ports: either of them first, in turns and in random order.
fn runs_of_both(random: &mut Random, set: CodeSet) -> [Vec<Event>; 4] {
    let runs = DEVICES.map(|device| all_up_events(device, set).collect::<Vec<Event>>());
    let [keyboard, scanner] = [&runs[0][..], &runs[1]];
    [
        [keyboard, scanner].concat(),
        [scanner, keyboard].concat(),
        in_turns(keyboard, scanner),
        shuffled(random, [keyboard, scanner]),
    ]
}

/// Both show the same, reports included, as the reference does; in the end they are the same.
fn assert_same_from_now_on(mut used: Pair, mut new: Pair, inputs: &[Input]) {
    for input in inputs {
        let [of_used, of_new] = [&used, &new].map(|pair| pair.image.clone().seen(input));
        assert_eq!(of_used, of_new, "{inputs:X?}");
        used.input(input);
        new.input(input);
    }
    assert_eq!(used.image, new.image);
}

#[test]
fn runs_at_both_ports_in_any_order_make_it_as_new() {
    let mut random = Random::new(0x20E);
    let (mut count, mut scans, mut on_set_2) = (0, 0, 0);
    for (number, used) in used_pairs(0x205) {
        let set = used.image.set();
        let mut at_once = used.image.clone();
        let shown = at_once.resynchronise();
        let inputs = further(&mut random, number, &used.image);
        for run in runs_of_both(&mut random, set) {
            let mut pair = used.clone();
            pair.events(&run);
            pair.event(&Empty);
            assert_eq!(pair.clone().image.event(&Restart), shown);
            pair.event(&Restart);
            let new = Pair::new_on(set, shown.flags[0] >> 4);
            assert_eq!(pair.image, new.image);
            assert_eq!(at_once, new.image);
            assert_same_from_now_on(pair, new, &inputs);
            count += run.len() + 2 + inputs.len();
        }
        scans += inputs.iter().filter(|input| is_scan(input)).count();
        on_set_2 += usize::from(set == CodeSet::Two);
    }
    println!("{count} inputs of runs and further lists agree, as new behind the runs");
    assert!(scans > LISTS && on_set_2 > LISTS / 4);
}

/// What a port may be left with, in the bytes of set 1, and bytes of the same port that tell.
const LEFT: [(&[u8], &[u8]); 14] = [
    (&[0xE0], &[0x47]),
    (&[0xE1], &[0x1D, 0x45]),
    (&[0xE1, 0x1D], &[0x45]),
    (&[0x45, 0xE1, 0x9D], &[0xC5, 0x45]),
    (&[0x36], &[0x02]),
    (&[0x2A], &[0x02]),
    (&[0xE0, 0x1D], &[0x1E]),
    (&[0x1D], &[0x1E]),
    (&[0xE0, 0x38], &[0x1E]),
    (&[0x38, 0x4F, 0x50], &[0xB8]),
    (&[0x46], &[0x46]),
    (&[0x45], &[0x45]),
    (&[0x3A], &[0x3A]),
    (&[0x52], &[0x52]),
];

/// Whether after the runs of these ports, E and R a list shows the same as on a service newly made.
fn is_as_new_after(devices: &[Device], used: &Pair, events: &[Event]) -> bool {
    let mut pair = used.clone();
    let set = used.image.set();
    for &device in devices {
        pair.events(&all_up_events(device, set).collect::<Vec<Event>>());
    }
    pair.events(&[Empty, Restart]);
    let mut new = pair.image.new_like();
    let same = |event: &Event| pair.image.event(event) == new.event(event);
    events.iter().all(same)
}

#[test]
fn the_run_at_one_port_is_not_enough() {
    for device in DEVICES {
        for set in CODE_SETS {
            for (left, telling) in LEFT {
                let mut used = Pair::new_on(set, 0);
                used.events(&typed(device, set, left));
                let telling = typed(device, set, telling);
                let is_as_new = |devices: &[Device]| is_as_new_after(devices, &used, &telling);
                assert!(!is_as_new(&[device.other()]), "{left:X?} at {device:?}");
                assert!(is_as_new(&[device]), "{left:X?} at {device:?}");
                assert!(is_as_new(&DEVICES), "{left:X?} at {device:?}");
            }
        }
    }
}

/// The scanner's run is of set 1 on either set: that of set 2 leaves its Shift down.
#[test]
fn the_run_of_set_2_is_none_for_a_scanner() {
    for set in CODE_SETS {
        let mut pair = Pair::new_on(set, 0);
        pair.event(&Scan(0x2A));
        let run = all_up_run(CodeSet::Two).iter();
        pair.events(&run.map(|&byte| Scan(byte)).collect::<Vec<Event>>());
        assert!(!is_as_new_after(&[Device::Keyboard], &pair, &[Scan(0x02)]));
    }
}

/// The same service in the form that the library writes: a status call changes nothing else.
fn in_form(image: &Image) -> Image {
    let mut image = image.clone();
    image.call(0x02, 0, 0);
    image
}

/// Whatever stands for the scanner's port, all that does not come from it shows and leaves the same.
#[test]
fn nothing_else_depends_on_the_scanner() {
    let mut random = Random::new(0x20A);
    let mut count = 0;
    for (number, mut one) in used_images(0x201) {
        let inputs = further(&mut random, number, &one);
        let mut other = one.clone();
        other.put_scanner([0; SCANNER_LENGTH].map(|_| random.byte()));
        let scanner = in_form(&other).scanner();
        for input in inputs.iter().filter(|input| !is_scan(input)) {
            assert_eq!(one.flag_bytes(), other.flag_bytes());
            assert_eq!(one.seen(input), other.seen(input), "{input:X?}");
            for beside in [0..SCANNER_PREFIX, BUFFER..IMAGE_LENGTH] {
                assert_eq!(one.bytes[beside.clone()], other.bytes[beside], "{input:X?}");
            }
            assert_eq!(in_form(&other).scanner(), scanner, "{input:X?}");
            count += 1;
        }
    }
    println!("{count} inputs show and leave the same beside any numbers of the scanner");
    assert!(count > LISTS * FURTHER / 2);
}

/// The same service but for all that is the keyboard's own, also its code set.
fn with_any_keyboard(random: &mut Random, image: &Image) -> Image {
    let mut other = image.clone();
    for (byte, shared) in other.bytes.iter_mut().zip(flag::SHARED) {
        *byte = *byte & shared | random.byte() & !shared;
    }
    other.bytes[PREFIX_AND_CODES] = random.byte();
    other.bytes[ALT_SUM] = random.byte();
    other
}

/// Whether an input feeds a key of the keyboard to this service, or says of which set they are. A reply is
/// for the line.
fn is_of_the_keyboard(input: &Input, image: &Image) -> bool {
    match input.ran(&image.clone().input(input)) {
        Some(Key(byte)) => !matches!(byte, 0xFA | 0xFE),
        _ => matches!(input, Input::Change(_)),
    }
}

/// What is seen of an input beside the keyboard's own bits. A status is made of these and of the locks.
fn beside_the_keyboard(input: &Input, mut seen: Seen) -> Seen {
    for (byte, shared) in seen.shown.flags.iter_mut().zip(flag::SHARED) {
        *byte &= shared;
    }
    if let Some(Call(0x02 | 0x12, ..)) = input.fed() {
        seen.shown.word &= u16::from(flag::SHARED[0]);
    }
    seen
}

/// What is the keyboard's own, in the form that the library writes.
fn keyboard_of(image: &Image) -> ([u8; 4], u8, u8) {
    let image = in_form(image);
    let mut flags = image.first_bytes();
    for (byte, shared) in flags.iter_mut().zip(flag::SHARED) {
        *byte &= !shared;
    }
    (flags, image.bytes[PREFIX_AND_CODES], image.bytes[ALT_SUM])
}

/// Whatever stands for the keyboard's port and its set, all that is not its own shows and leaves the same.
#[test]
fn nothing_else_depends_on_the_keyboard() {
    let mut random = Random::new(0x20B);
    let mut count = 0;
    for (number, mut one) in used_images(0x203) {
        let inputs = further(&mut random, number, &one);
        let mut other = with_any_keyboard(&mut random, &one);
        let keyboard = keyboard_of(&other);
        for input in &inputs {
            if is_of_the_keyboard(input, &one) {
                continue;
            }
            let seen = [one.input(input), other.input(input)];
            let [of_one, of_other] = seen.map(|seen| beside_the_keyboard(input, seen));
            assert_eq!(of_one, of_other, "{input:X?}");
            assert_eq!(one.bytes[RATE_KNOWN..], other.bytes[RATE_KNOWN..]);
            assert_eq!(keyboard_of(&other), keyboard, "{input:X?}");
            count += 1;
        }
    }
    println!("{count} inputs show and leave the same beside any numbers of the keyboard");
    assert!(count > LISTS * FURTHER / 4);
}
