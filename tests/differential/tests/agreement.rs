//! Every input through the library shows what the reference shows: answer, word, flag bytes, bytes
//! sent, refusal and the 44 bytes of its report, and at the controller's ports the byte read, the status,
//! the interrupt and whether a key was fed. It leaves the reference's ports, code set, mark and controller.
//! Run alone or with its report, an event leaves the same image, whether it came by itself or as a frame; a
//! refused frame leaves the image it found. The first four bytes of the image are the flag bytes.
//!
//! The lists are random, of every flavour, from either code set and from every setting of the locks, with
//! bytes of the scanner, frames, changes of set and port events among their events, and then those of the
//! reference's generator, which try each rule. Where the two sides differ, the list is cut down to inputs
//! that are all needed to see it.

use differential::{
    controller_due, ports_due, report_due, Image, Pair, Ports, Reported, CONTROLLER_LENGTH,
};
use reference::generator::{packs, random_inputs, Flavour, Random, FLAVOURS};
use reference::vectors::to_hex;
use reference::{read_event, CodeSet, Event, Input, Seen, Service, CODE_SETS};
use std::{fmt, thread};

/// Random lists of each flavour from each setting of the locks, on either set in turn: how many, and
/// their lengths.
const LISTS: [(usize, usize, usize); 3] = [(256, 1, 60), (22, 100, 600), (1, 20_000, 20_000)];
const LEAST_INPUTS: usize = 2_000_000;

/// What is compared at one input.
#[derive(PartialEq, Eq)]
struct Compared {
    seen: Seen,
    flags: [u8; 4],
    ports: Ports,
    controller: [u8; CONTROLLER_LENGTH],
    reported: Option<Reported>,
}

impl fmt::Display for Compared {
    fn fmt(&self, formatter: &mut fmt::Formatter) -> fmt::Result {
        write!(
            formatter,
            "{:X?}, then flags {:X?}, {:X?}, controller {:X?}; ",
            self.seen, self.flags, self.ports, self.controller
        )?;
        match &self.reported {
            None => write!(formatter, "no report"),
            Some(Reported { refusal, text }) => {
                let text = String::from_utf8_lossy(text);
                write!(formatter, "refusal {refusal}; {text:?}")
            }
        }
    }
}

fn of_reference(service: &mut Service, input: &Input) -> Compared {
    let seen = service.input(input);
    Compared {
        seen,
        flags: service.flag_bytes(),
        ports: ports_due(service),
        controller: controller_due(service.controller()),
        reported: report_due(input, &seen.shown),
    }
}

/// Runs the input by both calls that can, from the same image, and holds them to each other.
fn of_library(image: &mut Image, input: &Input) -> Result<Compared, String> {
    let mut with_report = image.clone();
    let seen = image.input(input);
    let reported = with_report.report_of(input);
    if with_report != *image {
        return Err("leaves another image than `report` of what it feeds".to_string());
    }
    if image.first_bytes() != image.flag_bytes() {
        return Err("the image does not begin with its flag bytes".to_string());
    }
    Ok(Compared {
        seen,
        flags: image.flag_bytes(),
        ports: image.ports(),
        controller: image.controller(),
        reported,
    })
}

/// The code set and the locks that a list starts from.
type Start = (CodeSet, u8);

/// The place of the first input on which the two sides differ, and how.
fn difference((set, locks): Start, inputs: &[Input]) -> Option<(usize, String)> {
    let Pair {
        mut image,
        mut service,
    } = Pair::new_on(set, locks);
    for (place, input) in inputs.iter().enumerate() {
        let reference = of_reference(&mut service, input);
        match of_library(&mut image, input) {
            Ok(library) if library == reference => {}
            Ok(library) => {
                let how = format!("library:   {library}\nreference: {reference}");
                return Some((place, how));
            }
            Err(how) => return Some((place, how)),
        }
    }
    None
}

/// Leaves out input after input, as long as the rest still differs.
fn cut_down(start: Start, inputs: &[Input]) -> Vec<Input> {
    let mut inputs = inputs.to_vec();
    let mut place = 0;
    while place < inputs.len() {
        let mut fewer = inputs.clone();
        fewer.remove(place);
        match difference(start, &fewer) {
            Some((last, _)) => inputs = fewer[..=last].to_vec(),
            None => place += 1,
        }
    }
    inputs
}

fn assert_agrees(start: Start, inputs: &[Input]) {
    let Some((last, _)) = difference(start, inputs) else {
        return;
    };
    let inputs = cut_down(start, &inputs[..=last]);
    let how = difference(start, &inputs).map(|(_, how)| how);
    let pack = to_hex(&pack_fed(start, &inputs));
    let (set, locks) = start;
    panic!(
        "from set {set:?} and locks {locks}, the list {inputs:X?}, which but for changes of set and \
         other port events feeds the pack {pack}, ends in a difference\n{}",
        how.unwrap_or_default()
    );
}

/// The events that reach the reference, also those that are read at port 60.
fn pack_fed((set, locks): Start, inputs: &[Input]) -> Vec<u8> {
    let Pair { mut service, .. } = Pair::new_on(set, locks);
    let ran = |input: &Input| input.ran(&service.input(input));
    let mut pack = Vec::new();
    let events = inputs.iter().filter_map(ran);
    events.for_each(|event| event.write(&mut pack));
    pack
}

/// How many inputs were compared, and how many of them were bytes of the scanner and port events.
#[derive(Debug, Default)]
struct Counts {
    inputs: usize,
    scans: usize,
    port_events: usize,
}

impl Counts {
    fn add(&mut self, inputs: &[Input]) {
        self.inputs += inputs.len();
        for input in inputs {
            self.scans += usize::from(matches!(input, Input::Event(Event::Scan(_))));
            self.port_events += usize::from(matches!(input, Input::Port(_)));
        }
    }
}

/// Compares random lists of one flavour.
fn compare_random_lists(flavour: Flavour) -> Counts {
    let mut random = Random::new(0x0D1F + flavour as u64);
    let mut counts = Counts::default();
    for locks in 0..16 {
        for (lists, shortest, longest) in LISTS {
            for list in 0..lists {
                let set = CODE_SETS[(list + usize::from(locks)) % CODE_SETS.len()];
                let length = random.between(shortest, longest);
                let inputs = random_inputs(&mut random, flavour, set, length);
                assert_agrees((set, locks), &inputs);
                counts.add(&inputs);
            }
        }
    }
    counts
}

#[test]
fn random_lists_agree() {
    let counts = thread::scope(|scope| {
        let start = |flavour| scope.spawn(move || compare_random_lists(flavour));
        FLAVOURS.map(start).map(|thread| thread.join().unwrap())
    });
    let sum = |part: fn(&Counts) -> usize| -> usize { counts.iter().map(part).sum() };
    let inputs = sum(|counts| counts.inputs);
    let scans = sum(|counts| counts.scans);
    let port_events = sum(|counts| counts.port_events);
    println!(
        "{inputs} inputs of random lists agree, {scans} bytes of the scanner and {port_events} port \
         events among them"
    );
    assert!(inputs >= LEAST_INPUTS);
    assert!(scans > inputs / 20, "the scanner types in many places");
    assert!(port_events > inputs / 10, "the ports are much used");
}

/// The events of a pack, up to its end or refusal.
fn inputs_of(pack: &[u8]) -> Vec<Input> {
    let mut inputs = Vec::new();
    let mut start = 0;
    while let Ok(Some((event, next))) = read_event(pack, start) {
        inputs.push(Input::Event(event));
        start = next;
    }
    inputs
}

#[test]
fn generated_packs_agree() {
    let mut count = 0;
    for pack in packs() {
        let inputs = inputs_of(&pack.bytes);
        assert_agrees((CodeSet::One, 0), &inputs);
        count += inputs.len();
    }
    println!("{count} events of generated packs agree");
}
