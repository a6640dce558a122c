//! A scanner beside the keyboard: its bytes one by one, that each port leaves the other alone, and what
//! it takes to have both as new.

mod shown;

use reference::generator::{
    all_up_events, all_up_run, in_turn, random_events, random_inputs, random_lists, with_scanner,
    Random,
};
use reference::prefix::Prefix;
use reference::{CodeSet, Device, Event, Input, Outcome, Port, Seen, Service, CODE_SETS, DEVICES};
use shown::{assert_shown, Shown};

const LISTS: usize = 2_000;
const LONGEST: usize = 300;
const FURTHER: usize = 80;

/// Bits of flag bytes 17 and 18 that both ports share: the locks and the pause.
const LOCKS: u8 = 0xF0;
const PAUSED: u8 = 0x08;

/// Inputs from locks 0 on set 1, and what the last one shows.
const SHOWN: [(&str, Shown); 38] = [
    // What a set 2 keyboard has of its own: its codes, its mark and its changes of set.
    ("set=2 S1E", (0x01, 0x1E61, 0x00000000, 0)),
    ("set=2 S12", (0x01, 0x1265, 0x00000000, 0)),
    ("set=2 S83", (0x00, 0x0000, 0x00000000, 0)),
    ("set=2 S54 S84", (0x00, 0x0000, 0x00000000, 0)),
    ("set=2 SF0 K12", (0x00, 0x0000, 0x02000000, 0)),
    ("set=2 K12 KF0 S12", (0x01, 0x1265, 0x02000000, 0)),
    ("set=2 K12 KF0 S12 K12", (0x00, 0x0000, 0x00000000, 0)),
    ("set=2 K12 KF0 SE0 S00 K12", (0x00, 0x0000, 0x00000000, 0)),
    ("set=2 KF0 SFA", (0x07, 0x0000, 0x00000000, 0)),
    ("set=2 KF0 S1E set=2 K12", (0x00, 0x0000, 0x02000000, 0)),
    ("SE0 set=2 S48", (0x01, 0x48E0, 0x00000000, 0)),
    ("SE1 S1D set=2 set=1 S45", (0x00, 0x0000, 0x00080000, 0)),
    ("S2A set=2 S1E", (0x01, 0x1E41, 0x00000000, 0)),
    ("set=2 S1D K21", (0x01, 0x2E63, 0x00000000, 0)),
    ("set=2 K14 S2E", (0x01, 0x2E63, 0x04010000, 0)),
    // Frames come from the keyboard.
    ("SE0 frame=690", (0x01, 0x4800, 0x00000000, 0)),
    ("SE0 frame=690 S48", (0x01, 0x48E0, 0x00000000, 0)),
    ("SE0 frame=000 S48", (0x01, 0x48E0, 0x00000000, 0)),
    // No other event touches the scanner's prefix, modifiers or sum.
    ("SE0 P T E R C02 S48", (0x01, 0x48E0, 0x00000000, 0)),
    ("S2A P T E R C12 S1E", (0x01, 0x1E41, 0x00000000, 0)),
    ("S38 S4F E R SB8", (0x01, 0x0001, 0x00000000, 0)),
    // The pause is one, whoever sets and ends it.
    ("KE1 K1D K45 SE0 S37", (0x00, 0x0000, 0x00000000, 0)),
    ("KE1 K1D K45 S38 S4F", (0x00, 0x0000, 0x00000000, 0)),
    ("KE1 K1D K45 S38 S4F SB8", (0x00, 0x0000, 0x00000000, 0)),
    ("KE1 K1D K45 S1D S38 S53", (0x04, 0x0000, 0x00080000, 0)),
    ("KE1 K1D K45 S3A", (0x00, 0x0000, 0x40080000, 0)),
    ("S38 S4F KE1 K1D K45 SB8", (0x01, 0x0001, 0x00080000, 0)),
    ("KE1 K1D K45 SE1 S1D S45 K1E K1E", (0x01, 0x1E61, 0, 0)),
    // Rows of the scanner set its own sum to 0, and end no sum of the keyboard.
    ("S38 S4F S1E SB8", (0x00, 0x0000, 0x00000000, 0)),
    ("S38 S4F K1E SB8", (0x01, 0x0001, 0x00000000, 0)),
    ("S38 SE0 S38 S4F SB8", (0x00, 0x0000, 0x00000000, 0)),
    ("S38 SE0 S38 S4F SB8 SE0 SB8", (0x01, 0x0001, 0, 0)),
    // No flag, and neither status, shows a key of the scanner.
    ("S2A S36 S1D S38 SE0 S1D SE0 S38 S54", (0, 0, 0, 0)),
    ("S2A S36 S1D S38 SE0 S1D SE0 S38 S54 C02", (0x0A, 0, 0, 0)),
    ("S2A S36 S1D S38 SE0 S1D SE0 S38 S54 C12", (0x0A, 0, 0, 0)),
    ("S3A S45 S46 C12", (0x0A, 0x0070, 0x70000000, 0)),
    ("K2A S1D C12", (0x0A, 0x0002, 0x02000000, 0)),
    ("SE1 S9D C12", (0x0A, 0x0000, 0x00000000, 0)),
];

/// Services after random lists, each with the number of its list.
fn used(seed: u64) -> impl Iterator<Item = (usize, Service)> {
    let lists = random_lists(seed, LISTS, LONGEST).enumerate();
    lists.map(|(number, (set, locks, inputs))| {
        let mut service = Service::on_set(set, locks).unwrap();
        for input in &inputs {
            service.input(input);
        }
        (number, service)
    })
}

/// A list that may come after one of this number.
fn further(random: &mut Random, number: usize, service: &Service) -> Vec<Input> {
    let (flavour, ..) = in_turn(number);
    random_inputs(random, flavour, service.set(), FURTHER)
}

/// Runs the lists and shows each step: the service before, the input, what is seen of it and the service
/// after.
fn each_step(mut check: impl FnMut(&Service, &Input, &Seen, &Service)) {
    for (set, locks, inputs) in random_lists(0x5CA, LISTS, LONGEST) {
        let mut service = Service::on_set(set, locks).unwrap();
        for input in &inputs {
            let before = service.clone();
            let seen = service.input(input);
            check(&before, input, &seen, &service);
        }
    }
}

/// The device whose byte an input fed, sound frames and reads of port 60 among them.
fn device_of(input: &Input, seen: &Seen) -> Option<Device> {
    let (device, _) = input.ran(seen)?.incoming()?;
    Some(device)
}

/// Whether an input comes from the keyboard's keys, or says of which set they are.
fn is_of_the_keyboard(service: &Service, input: &Input) -> bool {
    let seen = service.clone().input(input);
    device_of(input, &seen) == Some(Device::Keyboard) || matches!(input, Input::Change(_))
}

fn is_scan(input: &Input) -> bool {
    matches!(input, Input::Event(Event::Scan(_)))
}

/// What an input must show if it does nothing else than to be answered so.
fn standing(service: &Service, ans: u8) -> Outcome {
    let stands = service.clone().event(&Event::Call(0x02, 0, 0));
    Outcome {
        ans,
        word: 0x0000,
        ..stands
    }
}

/// What is seen of an input beside the keyboard's own bits. A status is these bits.
fn beside_keyboard(input: &Input, mut seen: Seen) -> Seen {
    if let Some(Event::Call(0x02 | 0x12, ..)) = input.fed() {
        seen.shown.word &= u16::from(LOCKS);
    }
    let shared = [LOCKS, PAUSED, 0x00, 0xFF];
    for (byte, shared) in seen.shown.flags.iter_mut().zip(shared) {
        *byte &= shared;
    }
    seen
}

#[test]
fn inputs_show_what_was_worked_out() {
    assert_shown(&SHOWN);
}

#[test]
fn bytes_touch_the_port_of_their_device_alone() {
    let mut touched = [0; DEVICES.len()];
    each_step(|before, input, seen, after| {
        let from = device_of(input, seen);
        for (touched, device) in touched.iter_mut().zip(DEVICES) {
            let same = before.port(device) == after.port(device);
            assert!(same || from == Some(device), "{input:X?}");
            *touched += usize::from(!same);
        }
        let is_change = matches!(input, Input::Change(_));
        if from != Some(Device::Keyboard) && !is_change {
            assert_eq!(before.translation(), after.translation(), "{input:X?}");
        }
    });
    println!("bytes that touched the keyboard's port and the scanner's: {touched:?}");
    assert!(touched.into_iter().all(|count| count > 10 * LISTS));
}

/// Whatever the scanner's port holds, all that does not come from the scanner shows the same.
#[test]
fn nothing_else_depends_on_the_scanner() {
    let mut random = Random::new(0x20A);
    let mut differ = 0;
    for ((number, mut one), (_, with)) in used(0x201).zip(used(0x202)) {
        let scanner = *with.port(Device::Scanner);
        let mut other = one.clone().with_port(Device::Scanner, scanner);
        differ += usize::from(one != other);
        let inputs = further(&mut random, number, &one).into_iter();
        for input in inputs.filter(|input| !is_scan(input)) {
            assert_eq!(one.input(&input), other.input(&input), "{input:X?}");
            assert_eq!(*other.port(Device::Scanner), scanner);
            assert_eq!(one.clone().with_port(Device::Scanner, scanner), other);
        }
    }
    println!("{differ} of {LISTS} pairs differ in the scanner's port");
    assert!(differ > LISTS / 2);
}

/// Whatever the keyboard's port holds, and whatever set it has, all that does not come from the keyboard
/// shows the same but for the keyboard's own bits.
#[test]
fn nothing_else_depends_on_the_keyboard() {
    let mut random = Random::new(0x20B);
    let mut differ = 0;
    for ((number, mut one), (_, with)) in used(0x203).zip(used(0x204)) {
        let keyboard = *with.port(Device::Keyboard);
        let mut other = one.clone().with_port(Device::Keyboard, keyboard);
        other.change(with.set());
        differ += usize::from(one.port(Device::Keyboard) != &keyboard);
        let inputs = further(&mut random, number, &one).into_iter();
        for input in inputs {
            if is_of_the_keyboard(&one, &input) {
                continue;
            }
            let seen = [one.input(&input), other.input(&input)];
            let [of_one, of_other] = seen.map(|seen| beside_keyboard(&input, seen));
            assert_eq!(of_one, of_other, "{input:X?}");
            assert_eq!(*other.port(Device::Keyboard), keyboard);
            assert_eq!(one.port(Device::Scanner), other.port(Device::Scanner));
        }
    }
    println!("{differ} of {LISTS} pairs differ in the keyboard's port");
    assert!(differ > LISTS / 2);
}

/// Bytes that can do nothing but to their own port: no 45 to end the string of a pause, no digit to make a
/// sum, no make of a lock or with a row.
const QUIET: [u8; 19] = [
    0xE0, 0xE1, 0x1D, 0x9D, 0x2A, 0xAA, 0x36, 0xB6, 0x38, 0xB8, 0x54, 0xD4, 0xBA, 0xC5, 0xC6, 0xD2,
    0x00, 0xFF, 0x9E,
];

/// Random lists in which all bytes from this device are quiet, and more of them than before.
fn lists_with_quiet(device: Device) -> impl Iterator<Item = (u8, Vec<Event>)> {
    let mut random = Random::new(0x20C);
    (0..LISTS).map(move |list| {
        let (flavour, _, locks) = in_turn(list);
        let mut events = Vec::new();
        for event in random_events(&mut random, flavour, FURTHER) {
            if let Some((_, byte)) = event.incoming() {
                events.push(device.other().event(byte));
            } else {
                events.push(event);
            }
            while random.below(2) == 0 {
                events.push(device.event(random.pick(&QUIET)));
            }
        }
        (locks, events)
    })
}

/// Seen from outside: such bytes of the scanner can be taken out of a list, and nothing else changes.
#[test]
fn quiet_bytes_of_the_scanner_can_be_taken_out() {
    for (locks, events) in lists_with_quiet(Device::Scanner) {
        let mut whole = Service::new(locks).unwrap();
        let mut without = whole.clone();
        for event in events {
            let shown = whole.event(&event);
            if let Event::Scan(byte) = event {
                let ans = if matches!(byte, 0x00 | 0xFF) {
                    0x05
                } else {
                    0x00
                };
                assert_eq!(shown, standing(&without, ans), "{event:X?}");
            } else {
                assert_eq!(shown, without.event(&event), "{event:X?}");
            }
        }
    }
}

/// And such bytes of the keyboard, if its own bits are not looked at.
#[test]
fn quiet_bytes_of_the_keyboard_can_be_taken_out() {
    for (locks, events) in lists_with_quiet(Device::Keyboard) {
        let mut whole = Service::new(locks).unwrap();
        let mut without = whole.clone();
        for event in events.into_iter().map(Input::Event) {
            let seen = whole.input(&event);
            if device_of(&event, &seen) != Some(Device::Keyboard) {
                let expected = beside_keyboard(&event, without.input(&event));
                assert_eq!(beside_keyboard(&event, seen), expected);
            }
        }
    }
}

/// With the devices exchanged in a list for a set 1 keyboard, but for replies, the ports are exchanged, and
/// what both share is the same.
#[test]
fn both_ports_read_bytes_alike() {
    let exchanged = |event: Event| match event.incoming() {
        Some((_, 0xFA | 0xFE)) | None => event,
        Some((device, byte)) => device.other().event(byte),
    };
    let mut random = Random::new(0x20D);
    for list in 0..LISTS {
        let (flavour, _, locks) = in_turn(list);
        let mut one = Service::new(locks).unwrap();
        let mut other = one.clone();
        let events = random_events(&mut random, flavour, LONGEST);
        for event in with_scanner(&mut random, &events) {
            let inputs = [event, exchanged(event)].map(Input::Event);
            let of_one = beside_keyboard(&inputs[0], one.input(&inputs[0]));
            let of_other = beside_keyboard(&inputs[1], other.input(&inputs[1]));
            assert_eq!(of_one, of_other, "{event:X?}");
            for device in DEVICES {
                assert_eq!(one.port(device), other.port(device.other()), "{event:X?}");
            }
        }
    }
}

#[test]
fn replies_of_the_scanner_do_nothing() {
    let (mut in_prefix, mut awaited) = (0, 0);
    each_step(|_, _, _, service| {
        for byte in [0xFA, 0xFE] {
            let mut after = service.clone();
            let shown = after.event(&Event::Scan(byte));
            assert_eq!(shown, standing(service, 0x07));
            assert_eq!(after, *service);
        }
        let reply = service.clone().event(&Event::Key(0xFA));
        awaited += usize::from(reply.ans == 0x06);
        in_prefix += usize::from(service.port(Device::Scanner).prefix() != Prefix::Closed);
    });
    println!("a reply was awaited {awaited} times, a prefix open {in_prefix} times");
    assert!(awaited > 10 * LISTS && in_prefix > 10 * LISTS);
}

#[test]
fn overruns_of_the_scanner_close_its_prefix_alone() {
    let mut closed = 0;
    each_step(|_, _, _, service| {
        let port = service.port(Device::Scanner);
        closed += usize::from(port.prefix() != Prefix::Closed);
        for byte in [0x00, 0xFF] {
            let mut after = service.clone();
            let shown = after.event(&Event::Scan(byte));
            assert_eq!(shown, standing(service, 0x05));
            let left = *after.port(Device::Scanner);
            assert_eq!(left.prefix(), Prefix::Closed);
            assert_eq!(left.keys(), port.keys());
            assert_eq!(left.alt_sum(), port.alt_sum());
            assert_eq!(after.with_port(Device::Scanner, *port), *service);
        }
    });
    assert!(closed > 10 * LISTS, "there were prefixes to close");
}

/// The runs of these devices, one after the other, an emptying and a restart.
fn resynchronise(service: &mut Service, devices: &[Device]) {
    let set = service.set();
    let runs = devices
        .iter()
        .flat_map(|&device| all_up_events(device, set));
    for event in runs.chain([Event::Empty, Event::Restart]) {
        service.event(&event);
    }
}

/// A service newly made with the set and the locks that stand in this one.
fn new_like(service: &Service) -> Service {
    Service::on_set(service.set(), service.flag_bytes()[0] >> 4).unwrap()
}

/// Whether a list shows the same to both, input by input.
fn shows_the_same(one: &Service, other: &Service, inputs: &[Input]) -> bool {
    let (mut one, mut other) = (one.clone(), other.clone());
    let same = |input: &Input| one.input(input) == other.input(input);
    inputs.iter().all(same)
}

#[test]
fn runs_on_both_ports_in_either_order_make_it_as_new() {
    let mut random = Random::new(0x20E);
    let mut on_set_2 = 0;
    for (number, used) in used(0x205) {
        on_set_2 += usize::from(used.set() == CodeSet::Two);
        let inputs = further(&mut random, number, &used);
        for first in DEVICES {
            let mut service = used.clone();
            resynchronise(&mut service, &[first, first.other()]);
            let new = new_like(&service);
            assert_eq!(service, new);
            assert!(shows_the_same(&service, &new, &inputs), "{inputs:X?}");
        }
    }
    assert!(on_set_2 > LISTS / 4, "runs of set 2 were tried");
}

/// The two runs may also come with their bytes among each other.
#[test]
fn runs_among_each_other_make_it_as_new() {
    let mut random = Random::new(0x20F);
    for (_, mut service) in used(0x206) {
        let mut runs = DEVICES.map(|device| all_up_events(device, service.set()).peekable());
        while runs.iter_mut().any(|run| run.peek().is_some()) {
            let run = &mut runs[random.below(DEVICES.len())];
            run.next().map(|event| service.event(&event));
        }
        resynchronise(&mut service, &[]);
        assert_eq!(service, new_like(&service));
    }
}

/// Bytes that leave something on their port, and bytes of the same port that then tell.
const LEFT: [(&[u8], &[u8]); 16] = [
    (&[0xE0], &[0x48]),
    (&[0xE1], &[0x1D, 0x45]),
    (&[0xE1, 0x1D], &[0x45]),
    (&[0x45, 0xE1, 0x9D], &[0xC5, 0x45]),
    (&[0x2A], &[0x1E]),
    (&[0x36], &[0x1E]),
    (&[0x1D], &[0x2E]),
    (&[0xE0, 0x1D], &[0x2E]),
    (&[0x38], &[0x1E]),
    (&[0xE0, 0x38], &[0x1E]),
    (&[0x38, 0x4F], &[0xB8]),
    (&[0x3A], &[0x3A]),
    (&[0x45], &[0x45]),
    (&[0x46], &[0x46]),
    (&[0x52], &[0x52]),
    (&[0xE0, 0x52], &[0x52]),
];

/// On a panel of either set for what the scanner left, on one of set 1 for what the keyboard left.
#[test]
fn the_run_on_one_port_is_not_enough() {
    let panels = [
        (Device::Scanner, CodeSet::One),
        (Device::Scanner, CodeSet::Two),
        (Device::Keyboard, CodeSet::One),
    ];
    for (device, set) in panels {
        for (left, telling) in LEFT {
            let mut service = Service::on_set(set, 0).unwrap();
            for &byte in left {
                service.event(&device.event(byte));
            }
            let telling: Vec<Input> = telling
                .iter()
                .map(|&byte| Input::Event(device.event(byte)))
                .collect();
            let is_as_new = |devices: &[Device]| {
                let mut service = service.clone();
                resynchronise(&mut service, devices);
                shows_the_same(&service, &new_like(&service), &telling)
            };
            assert!(!is_as_new(&[device.other()]), "{left:X?} at {device:?}");
            assert!(is_as_new(&[device]), "{left:X?} at {device:?}");
        }
    }
}

/// Behind many lists it is soon seen that one port was forgotten.
#[test]
fn the_run_on_one_port_is_often_not_enough() {
    let mut random = Random::new(0x210);
    let mut told = [0; DEVICES.len()];
    for (number, used) in used(0x207) {
        let inputs = further(&mut random, number, &used);
        for (told, device) in told.iter_mut().zip(DEVICES) {
            let mut service = used.clone();
            resynchronise(&mut service, &[device]);
            assert_eq!(*service.port(device), Port::new());
            *told += usize::from(!shows_the_same(&service, &new_like(&service), &inputs));
        }
    }
    println!("told after the keyboard's run and after the scanner's: {told:?} of {LISTS}");
    assert!(told.into_iter().all(|told| told > LISTS / 5));
}

/// A set 2 keyboard's run says nothing to a scanner.
#[test]
fn the_run_of_set_2_at_the_scanner_leaves_its_shift_down() {
    for set in CODE_SETS {
        let mut service = Service::on_set(set, 0).unwrap();
        service.event(&Event::Scan(0x2A));
        for &byte in all_up_run(CodeSet::Two) {
            service.event(&Event::Scan(byte));
        }
        resynchronise(&mut service, &[Device::Keyboard]);
        assert_eq!(service.event(&Event::Scan(0x1E)).word, 0x1E41);
    }
}
