//! No call takes more stack than the header says. Each is made on a stack of its own, painted before, with
//! services in use, on every prefix and mark, and with queues that are full.
//!
//! Counted are the bytes from the stack pointer at the call down to the lowest one written. The return
//! address counts, and so does what the innermost function keeps below its stack pointer.

use differential::{Image, PREFIXES};
use reference::generator::random_lists;
use reference::{write_frame, CodeSet, Event, Input, PortEvent, MAXIMUM_PACK, REPORT_LENGTH};
use std::arch::asm;
use std::collections::BTreeMap;

const HEADER: &str = include_str!("../../../include/xiquepazo.h");

/// Bytes of a painted stack, several times what a call takes.
const ROOM: usize = 8_192;
/// A byte that is written may look like one paint, but not like both.
const PAINTS: [u8; 2] = [0x5A, 0xA5];

const LISTS: usize = 60;
const LONGEST: usize = 80;
const QUEUE: usize = 15;

const SELF_TEST: PortEvent = PortEvent::Write64(0xAA);
const AWAIT: PortEvent = PortEvent::Write64(0x60);

/// Leaves the output buffer empty, the keyboard enabled and on set 1, with no prefix open.
const PREPARE: [Input; 4] = [
    Input::Port(PortEvent::Write64(0xAE)),
    Input::Port(PortEvent::Read60),
    Input::Change(CodeSet::One),
    Input::Event(Event::Key(0xFF)),
];

/// What leads from set 1 to the codes that may come, a mark behind them.
const TO_CODES: [&[Input]; 3] = [
    &[],
    &[Input::Change(CodeSet::Two)],
    &[Input::Change(CodeSet::Two), Input::Event(Event::Key(0xF0))],
];

type Call = unsafe extern "C" fn();

/// Declares the calls for their addresses alone; `taken_by` hands their parameters over.
macro_rules! calls {
    ($($name:ident)*) => {
        extern "C" { $(fn $name();)* }
        const CALLS: &[(&str, Call)] = &[$((stringify!($name), $name)),*];
    };
}

calls! {
    xiquepazo_make xiquepazo_make_set_2 xiquepazo_to_set_1 xiquepazo_to_set_2 xiquepazo_event
    xiquepazo_report xiquepazo_resynchronise xiquepazo_flags xiquepazo_read xiquepazo_frame
    xiquepazo_frame_of xiquepazo_from_keyboard xiquepazo_read_60 xiquepazo_read_64
    xiquepazo_write_60 xiquepazo_write_64
}

#[repr(C, align(16))]
struct Stack {
    bytes: [u8; ROOM],
}

/// The bytes of stack that a call takes. Every call has its parameters, four at the most, and what it
/// returns in registers.
fn taken_by(call: Call, [rdi, rsi, rdx, rcx]: [usize; 4], paint: u8) -> usize {
    let bytes = [paint; ROOM];
    let mut stack = Stack { bytes };
    unsafe {
        asm!(
            "xchg rsp, r12",
            "call r13",
            "mov rsp, r12",
            inout("r12") stack.bytes.as_mut_ptr_range().end => _,
            in("r13") call,
            in("rdi") rdi,
            in("rsi") rsi,
            in("rdx") rdx,
            in("rcx") rcx,
            clobber_abi("C"),
        );
    }
    let untouched = stack.bytes.iter().take_while(|&&byte| byte == paint);
    ROOM - untouched.count()
}

/// The most bytes that each call took.
#[derive(Default)]
struct Most(BTreeMap<&'static str, usize>);

impl Most {
    fn call(&mut self, name: &str, arguments: [usize; 4], paint: u8) {
        let found = CALLS.iter().find(|(known, _)| *known == name);
        let &(name, call) = found.expect("it is declared above");
        let most = self.0.entry(name).or_default();
        *most = taken_by(call, arguments, paint).max(*most);
    }

    /// A call that is lent a service.
    fn lent(&mut self, name: &str, image: &Image, [second, third, fourth]: [usize; 3]) {
        for paint in PAINTS {
            let mut copy = image.clone();
            let first = &raw mut copy as usize;
            self.call(name, [first, second, third, fourth], paint);
        }
    }

    fn events(&mut self, image: &Image) {
        let mut text = [0; REPORT_LENGTH];
        let buffer = text.as_mut_ptr() as usize;
        for event in events() {
            let event = u32::from_le_bytes(event) as usize;
            self.lent("xiquepazo_event", image, [event, 0, 0]);
            for length in [REPORT_LENGTH, REPORT_LENGTH - 1] {
                self.lent("xiquepazo_report", image, [event, buffer, length]);
            }
        }
    }

    /// What takes a byte, or finds it in the output buffer.
    fn bytes(&mut self, image: &Image) {
        for byte in 0..=0xFF {
            let of_byte = [byte.into(), 0, 0];
            self.lent("xiquepazo_make", image, of_byte);
            self.lent("xiquepazo_make_set_2", image, of_byte);
            self.lent("xiquepazo_frame", image, [write_frame(byte).into(), 0, 0]);
            for before in [PortEvent::FromKeyboard(byte), SELF_TEST, AWAIT] {
                let mut image = image.clone();
                image.port(before);
                self.lent("xiquepazo_from_keyboard", &image, of_byte);
                self.lent("xiquepazo_read_60", &image, [0; 3]);
                self.lent("xiquepazo_write_60", &image, of_byte);
                self.lent("xiquepazo_write_64", &image, of_byte);
            }
        }
    }

    /// Frames that 11, 12 and 13 refuse, and calls that take the service alone.
    fn others(&mut self, image: &Image) {
        for frame in [0x7FF, 0x62C, 0x23C] {
            self.lent("xiquepazo_frame", image, [frame, 0, 0]);
        }
        for name in ["to_set_1", "to_set_2", "resynchronise", "flags", "read_64"] {
            self.lent(&format!("xiquepazo_{name}"), image, [0; 3]);
        }
    }

    fn without_a_service(&mut self) {
        let mut pack = b"K\x1ES\x1EC\x05\x1E\x61PTERX".to_vec();
        pack.resize(MAXIMUM_PACK + 1, b'C');
        let first = pack.as_ptr() as usize;
        for paint in PAINTS {
            self.call("xiquepazo_frame_of", [0x1E, 0, 0, 0], paint);
            self.call("xiquepazo_read", [first, pack.len(), 0, 0], paint);
            // Every event, the end, refusals 6, 7 and 10.
            for place in 0..16 * 16 {
                let (length, start) = (place / 16, place % 16);
                self.call("xiquepazo_read", [first, length, start, 0], paint);
            }
        }
    }
}

/// Events as C hands them over: every byte at either port, every function with what it accepts and
/// refuses, the other tags, and one that names no event.
fn events() -> impl Iterator<Item = [u8; 4]> {
    let bytes = (0..=0xFF).flat_map(|byte| [[b'K', byte, 0, 0], [b'S', byte, 0, 0]]);
    let operands = [(0, 0), (3, 31), (4, 0), (0, 32)];
    let calls = (0..=0x13).flat_map(move |function| operands.map(|(a, b)| [b'C', function, a, b]));
    bytes.chain(calls).chain(b"PTERX".map(|tag| [tag, 0, 0, 0]))
}

/// Services in use, each prefix open on either set and with a mark, half of the queues full.
fn services() -> impl Iterator<Item = Image> {
    let lists = random_lists(0x57AC, LISTS, LONGEST).enumerate();
    lists.map(|(number, (set, locks, mut inputs))| {
        let (_, prefix) = PREFIXES[number % PREFIXES.len()];
        let round = number / PREFIXES.len();
        let put = Input::Event(Event::Call(0x05, 0x1E, 0x61));
        inputs.extend(PREPARE);
        inputs.extend(prefix.iter().map(|&byte| Input::Event(Event::Key(byte))));
        inputs.extend(TO_CODES[round % TO_CODES.len()]);
        inputs.extend([put; QUEUE].iter().filter(|_| round % 2 == 1));
        let mut image = Image::new_on(set, locks).unwrap();
        for input in &inputs {
            image.input(input);
        }
        image
    })
}

/// The number that the header defines by this name.
fn defined(name: &str) -> usize {
    let start = format!("#define {name} ");
    let number = HEADER.lines().find_map(|line| line.strip_prefix(&start));
    number.unwrap().parse().unwrap()
}

/// The calls that the header declares, each in a line of its own.
fn declared() -> Vec<&'static str> {
    let is_declaration = |line: &&str| !line.starts_with(' ') && line.ends_with(");");
    let mut names = Vec::new();
    for line in HEADER.lines().filter(is_declaration) {
        let (head, _) = line.split_once('(').unwrap();
        names.extend(head.split(' ').next_back());
    }
    names.sort_unstable();
    names
}

#[test]
fn no_call_takes_more_than_the_header_says() {
    let mut most = Most::default();
    for image in services() {
        most.events(&image);
        most.bytes(&image);
        most.others(&image);
    }
    most.without_a_service();
    println!("bytes of stack: {:#?}", most.0);
    assert_eq!(most.0.keys().copied().collect::<Vec<_>>(), declared());
    let limit = defined("XIQUEPAZO_STACK");
    let above: Vec<_> = most.0.iter().filter(|(_, &bytes)| bytes > limit).collect();
    assert!(above.is_empty(), "above {limit}: {above:?}");
}
