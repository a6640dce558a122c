//! Grey keys: the words they put, what each function returns for them, and that a program which calls
//! only 00 and 01 is shown what it was shown before these keys had words of their own.

use reference::generator::{in_turn, random_events, random_lists, with_scanner, Random};
use reference::prefix::Prefix;
use reference::queue::is_enhanced;
use reference::{Event, Input, Outcome, Port, Service};
use std::collections::VecDeque;

const LISTS: usize = 2_000;
const LONGEST: usize = 200;

/// Words of a key, alone and with Ctrl; 0000 for none.
type Words = [u16; 2];

/// Codes behind E0, the words that their keys put, and the words that they put before.
const GREY_KEYS: [(u8, Words, Words); 12] = [
    (0x1C, [0xE00D, 0xE00A], [0x1C0D, 0x1C0A]),
    (0x35, [0xE02F, 0x0000], [0x352F, 0x0000]),
    (0x47, [0x47E0, 0x77E0], [0x4700, 0x7700]),
    (0x48, [0x48E0, 0x0000], [0x4800, 0x0000]),
    (0x49, [0x49E0, 0x84E0], [0x4900, 0x8400]),
    (0x4B, [0x4BE0, 0x73E0], [0x4B00, 0x7300]),
    (0x4D, [0x4DE0, 0x74E0], [0x4D00, 0x7400]),
    (0x4F, [0x4FE0, 0x75E0], [0x4F00, 0x7500]),
    (0x50, [0x50E0, 0x0000], [0x5000, 0x0000]),
    (0x51, [0x51E0, 0x76E0], [0x5100, 0x7600]),
    (0x52, [0x52E0, 0x0000], [0x5200, 0x0000]),
    (0x53, [0x53E0, 0x0000], [0x5300, 0x0000]),
];

/// Makes of the modifiers.
const MODIFIERS: [&[u8]; 6] = [
    &[0x2A],
    &[0x36],
    &[0x1D],
    &[0x38],
    &[0xE0, 0x1D],
    &[0xE0, 0x38],
];

/// Bits of flag byte 17; the last is that of Ins held in byte 18 too.
const CTRL: u8 = 0x04;
const ALT: u8 = 0x08;
const NUM: u8 = 0x20;
const INSERT: u8 = 0x80;

/// What 00 and 01 return for a stored word, by its two bytes.
fn converted(word: u16) -> u16 {
    match word.to_be_bytes() {
        [0xE0, 0x0D] => 0x1C0D,
        [0xE0, 0x0A] => 0x1C0A,
        [0xE0, 0x2F] => 0x352F,
        [high @ 0x01..=0xFF, 0xE0] => u16::from_be_bytes([high, 0x00]),
        _ => word,
    }
}

fn is_converted(word: u16) -> bool {
    converted(word) != word
}

fn is_of_grey_key(word: u16) -> bool {
    word != 0 && GREY_KEYS.iter().any(|(_, words, _)| words.contains(&word))
}

/// An event, what it showed, and the service before it.
struct Step {
    before: Service,
    event: Event,
    shown: Outcome,
}

impl Step {
    /// The function that reads the queue, if one does.
    fn reader(&self) -> Option<u8> {
        match self.event {
            Event::Call(function @ (0x00 | 0x01 | 0x10 | 0x11), ..) => Some(function),
            _ => None,
        }
    }

    /// The word that the program puts, refused or not.
    fn word_of_program(&self) -> Option<u16> {
        match self.event {
            Event::Call(0x05, a, b) => Some(u16::from_be_bytes([a, b])),
            _ => None,
        }
    }

    /// The port that a byte came to, as it stood before.
    fn port(&self) -> Option<&Port> {
        let (device, _) = self.event.incoming()?;
        Some(self.before.port(device))
    }

    /// Whether Ctrl is down on the port that a byte came to.
    fn has_ctrl(&self) -> bool {
        self.port().is_some_and(|port| port.keys().ctrl())
    }

    /// The word that a byte of either port puts, dropped or not.
    fn word_of_key(&self) -> Option<u16> {
        let yields = self.port().is_some() && matches!(self.shown.ans, 0x01 | 0x02);
        yields.then_some(self.shown.word)
    }

    /// The same where grey keys have the words that they had before.
    fn word_before(&self) -> Option<u16> {
        let word = self.word_of_key()?;
        let (_, byte) = self.event.incoming()?;
        let is_extended = self.port()?.prefix() == Prefix::E0;
        let is_pressed = |code: u8| is_extended && byte == code;
        let key = GREY_KEYS.iter().find(|(code, ..)| is_pressed(*code));
        let column = usize::from(self.has_ctrl());
        Some(key.map_or(word, |(_, _, words)| words[column]))
    }

    /// The stored word that a function returns, as it stands or converted.
    fn stored(&self) -> Option<u16> {
        let mut service = self.before.clone();
        if let 0x00 | 0x01 = self.reader()? {
            service.event(&Event::Call(0x01, 0, 0));
        }
        let shown = service.event(&Event::Call(0x11, 0, 0));
        (shown.ans == 0x08).then_some(shown.word)
    }

    /// Whether Ins is held on the port that a byte came to, before it and after it.
    fn holds_insert(&self) -> Option<(bool, bool)> {
        let (device, _) = self.event.incoming()?;
        let mut after = self.before.clone();
        after.event(&self.event);
        let holds = |service: &Service| service.port(device).keys().byte_18() & INSERT != 0;
        Some((holds(&self.before), holds(&after)))
    }

    fn toggles_insert(&self) -> bool {
        (self.before.flag_bytes()[0] ^ self.shown.flags[0]) & INSERT != 0
    }
}

fn run(mut service: Service, inputs: &[Input], mut look: impl FnMut(&Step)) {
    for input in inputs {
        let before = service.clone();
        let seen = service.input(input);
        if let Some(event) = input.ran(&seen) {
            look(&Step {
                before,
                event,
                shown: seen.shown,
            });
        }
    }
}

/// Runs lists of every flavour, without the events that are not wanted, and shows each step to what
/// follows its list.
fn follow_lists<Follower: Default>(
    wanted: fn(&Event) -> bool,
    follow: fn(&mut Follower, &Step),
) -> Vec<Follower> {
    let mut random = Random::new(0x205);
    let followed = |list| {
        let (flavour, _, locks) = in_turn(list);
        let events = random_events(&mut random, flavour, LONGEST);
        let events = with_scanner(&mut random, &events);
        let events = events.into_iter().filter(wanted);
        let inputs: Vec<Input> = events.map(Input::Event).collect();
        let mut follower = Follower::default();
        run(Service::new(locks).unwrap(), &inputs, |step| {
            follow(&mut follower, step)
        });
        follower
    };
    (0..LISTS).map(followed).collect()
}

/// The words that wait, as a list.
#[derive(Default)]
struct Waiting {
    words: VecDeque<u16>,
}

impl Waiting {
    /// Follows an event that reads nothing; a key puts this word.
    fn follow(&mut self, step: &Step, of_key: Option<u16>) {
        match (step.event, step.shown.ans) {
            (Event::Key(_) | Event::Scan(_), 0x01) => self.words.extend(of_key),
            (Event::Call(0x05, ..), 0x0B) => self.words.extend(step.word_of_program()),
            (_, 0x03) => self.words = VecDeque::from([0x0000]),
            (Event::Empty, _) => self.words.clear(),
            _ => {}
        }
    }

    /// The word that a function comes to, and takes or leaves.
    fn read(&mut self, function: u8) -> Option<u16> {
        let passes = |word: &u16| matches!(function, 0x00 | 0x01) && is_enhanced(*word);
        while self.words.front().is_some_and(passes) {
            self.words.pop_front();
        }
        match function {
            0x00 | 0x10 => self.words.pop_front(),
            _ => self.words.front().copied(),
        }
    }
}

fn assert_returned(shown: &Outcome, word: Option<u16>) {
    let expected = word.map_or((0x09, 0x0000), |word| (0x08, word));
    assert_eq!((shown.ans, shown.word), expected);
}

/// Each key in every state of locks and modifiers, read by every function.
#[test]
fn each_key_has_its_words() {
    for locks in 0..16 {
        for down in 0..64 {
            let service = service_with(locks, down);
            for (code, words, before) in GREY_KEYS {
                check_key(service.clone(), code, words, before);
            }
        }
    }
}

fn service_with(locks: u8, down: u8) -> Service {
    let mut service = Service::new(locks).unwrap();
    let is_down = |place: &usize| down >> place & 1 == 1;
    for place in (0..MODIFIERS.len()).filter(is_down) {
        for &byte in MODIFIERS[place] {
            service.event(&Event::Key(byte));
        }
    }
    service
}

fn check_key(mut service: Service, code: u8, words: Words, before: Words) {
    let byte_17 = service.flag_bytes()[0];
    let (ctrl, alt) = (byte_17 & CTRL != 0, byte_17 & ALT != 0);
    let in_column = |words: Words| Some(words[usize::from(ctrl)]).filter(|&word| word != 0 && !alt);
    let (word, old_word) = (in_column(words), in_column(before));
    let answer = match word {
        Some(_) => 0x01,
        None if code == 0x53 && ctrl && alt => 0x04,
        None => 0x00,
    };
    service.event(&Event::Key(0xE0));
    let shown = service.event(&Event::Key(code));
    assert_eq!((shown.ans, shown.word), (answer, word.unwrap_or(0)));
    let looks = [(0x11, word), (0x01, old_word), (0x11, word)];
    for (function, expected) in looks {
        assert_returned(&service.event(&Event::Call(function, 0, 0)), expected);
    }
    for (function, expected) in [(0x00, old_word), (0x10, word)] {
        let shown = service.clone().event(&Event::Call(function, 0, 0));
        assert_returned(&shown, expected);
    }
}

/// Words stay as they were put until they go, also behind a look by 01: 10 and 11 return them so, 00
/// and 01 converted.
#[test]
fn words_wait_as_they_were_put() {
    let followed = follow_lists(
        |_| true,
        |(waiting, conversions): &mut (Waiting, usize), step| {
            let Some(function) = step.reader() else {
                return waiting.follow(step, step.word_of_key());
            };
            let word = waiting.read(function);
            let due = match function {
                0x00 | 0x01 => word.map(converted),
                _ => word,
            };
            assert_returned(&step.shown, due);
            *conversions += usize::from(due != word);
        },
    );
    let conversions: usize = followed.iter().map(|(_, conversions)| conversions).sum();
    println!("{conversions} words are converted in {LISTS} lists");
    assert!(conversions > 2 * LISTS);
}

/// Of words that the program puts, those are left out that 00 and 01 returned otherwise before.
#[test]
fn keys_are_shown_by_00_and_01_as_before() {
    let wanted = |event: &Event| match *event {
        Event::Call(0x05, a, b) => !is_converted(u16::from_be_bytes([a, b])),
        _ => true,
    };
    let followed = follow_lists(
        wanted,
        |(now, before, differences): &mut (Waiting, Waiting, usize), step| {
            let Some(function) = step.reader() else {
                now.follow(step, step.word_of_key());
                return before.follow(step, step.word_before());
            };
            let (word_now, word_before) = (now.read(function), before.read(function));
            if let 0x00 | 0x01 = function {
                assert_returned(&step.shown, word_before);
                *differences += usize::from(word_now != word_before);
            }
        },
    );
    let differences: usize = followed.iter().map(|(_, _, differences)| differences).sum();
    println!("{differences} words of grey keys are shown as before in {LISTS} lists");
    assert!(differences > LISTS);
}

#[test]
fn insert_toggles_at_5200_and_52e0_alone() {
    let followed = follow_lists(
        |_| true,
        |toggles: &mut [usize; 2], step| {
            let named = matches!(step.word_of_key(), Some(0x5200 | 0x52E0));
            let (held, holds) = step.holds_insert().unwrap_or_default();
            assert_eq!(step.toggles_insert(), named && !held);
            assert!(!named || holds);
            toggles[usize::from(step.shown.word == 0x52E0)] += usize::from(step.toggles_insert());
        },
    );
    for word in [0, 1] {
        let toggles: usize = followed.iter().map(|toggles| toggles[word]).sum();
        assert!(
            toggles > LISTS / 10,
            "the lists toggle Insert by either key"
        );
    }
}

/// What the random lists are to meet.
const MET: [(&str, fn(&Step) -> bool); 13] = [
    ("a grey key's word put", |step| {
        step.shown.ans == 0x01 && step.word_of_key().is_some_and(is_of_grey_key)
    }),
    ("a grey key's word with Ctrl", |step| {
        step.has_ctrl() && step.word_of_key().is_some_and(is_of_grey_key)
    }),
    ("a grey key's word dropped", |step| {
        step.shown.ans == 0x02 && step.word_of_key().is_some_and(is_of_grey_key)
    }),
    ("a grey key's word returned by 00", |step| {
        step.reader() == Some(0x00) && step.stored().is_some_and(is_of_grey_key)
    }),
    ("a grey key's word returned by 01", |step| {
        step.reader() == Some(0x01) && step.stored().is_some_and(is_of_grey_key)
    }),
    ("a grey key's word returned by 10", |step| {
        step.reader() == Some(0x10) && step.stored().is_some_and(is_of_grey_key)
    }),
    ("a grey key's word returned by 11", |step| {
        step.reader() == Some(0x11) && step.stored().is_some_and(is_of_grey_key)
    }),
    ("a word put by function 05 that is converted", |step| {
        step.shown.ans == 0x0B && step.word_of_program().is_some_and(is_converted)
    }),
    ("another converted word than a grey key's", |step| {
        let word = step.stored().filter(|&word| !is_of_grey_key(word));
        word.is_some_and(|word| step.shown.word != word)
    }),
    ("a word returned as an enhanced one", |step| {
        matches!(step.reader(), Some(0x00 | 0x01)) && is_enhanced(step.shown.word)
    }),
    ("00E0 returned by 00 or 01", |step| {
        matches!(step.reader(), Some(0x00 | 0x01)) && step.shown.word == 0x00E0
    }),
    ("Insert toggled by 52E0 with Num on", |step| {
        step.shown.flags[0] & NUM != 0 && step.shown.word == 0x52E0 && step.toggles_insert()
    }),
    ("Insert toggled by 52E0 on a full queue", |step| {
        step.shown.ans == 0x02 && step.shown.word == 0x52E0 && step.toggles_insert()
    }),
];

#[test]
fn random_lists_meet_grey_keys() {
    let mut counts = [0; MET.len()];
    for (set, locks, inputs) in random_lists(0x6E1, LISTS, LONGEST) {
        let mut met = [0; MET.len()];
        run(Service::on_set(set, locks).unwrap(), &inputs, |step| {
            for (met, (_, rule)) in met.iter_mut().zip(MET) {
                *met |= usize::from(rule(step));
            }
        });
        for (count, met) in counts.iter_mut().zip(met) {
            *count += met;
        }
    }
    for (count, (name, _)) in counts.into_iter().zip(MET) {
        println!("{name}: {count} of {LISTS} lists");
        assert!(count > LISTS / 20, "{name}");
    }
}
