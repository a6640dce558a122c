//! What a BIOS and a kernel did at ports 60 and 64 of a real machine, through the library, line by line.
//! The bytes read, the status, the interrupts, the words and the flag bytes are those of that machine, but
//! where a rule says that and why they are not. How often each rule is used is counted here; nothing else
//! differs. The reference is held to the same.

mod captured;

use captured::Difference::*;
use captured::{Counts, Difference, Replay};
use reference::Event;

const BIOS: &str = include_str!("../ports/seabios.ports");
const KERNEL: &str = include_str!("../ports/linux.ports");

/// What the BIOS does at its start, and so before the kernel too.
const AT_THE_START: [(Difference, usize); 5] = [
    (StatusBit2, 5),
    (StatusOfTheLineTest, 1),
    (AnswerOfTheLineTest, 1),
    (Command(0xA7), 1),
    (Command(0xAB), 1),
];

const OF_THE_BIOS: [(Difference, usize); 13] = [
    (StatusBit3, 74),
    (StartsTheKeyboard, 5),
    (SetsLamps, 12),
    (ReplyFed, 18),
    (NoFunction03, 1),
    (EnhancedKeyboard, 63),
    (Acknowledged, 45),
    (OldProgramSeesF11, 1),
    (OneCtrlForBoth, 7),
    (NoSystemRequest, 1),
    (NoInsert, 3),
    (NoPause, 3),
    (NoAltNumber, 1),
];

const OF_THE_KERNEL: [(Difference, usize); 19] = [
    (StatusBit3, 154),
    (StatusOfTheMouse, 11),
    (Command(0xA7), 1),
    (Command(0xA8), 1),
    (Command(0xD3), 5),
    (Command(0xD4), 1),
    (StartsTheKeyboard, 7),
    (SetsLamps, 10),
    (SetsRate, 2),
    (AsksWhoItIs, 1),
    (ForTheMouse, 6),
    (ByteBehindD3, 5),
    (ReplyOfTheMouse, 2),
    (CommandByteBehindA8, 1),
    (InterruptAtAnAnswer, 2),
    (ReplyFed, 23),
    (WordOfAReply, 1),
    (TerminalString, 4),
    (TerminalPrint, 1),
];

fn sum(parts: &[(Difference, usize)]) -> Counts {
    let mut counts = Counts::new();
    for &(difference, count) in AT_THE_START.iter().chain(parts) {
        *counts.entry(difference).or_default() += count;
    }
    counts
}

#[test]
fn a_bios_differs_in_what_is_listed_alone() {
    let replay = Replay::of(BIOS, &[]);
    assert_eq!(replay.differences, sum(&OF_THE_BIOS));
    assert_eq!((replay.accepted, replay.refused), (246, 54));
}

/// It sets the shortest delay and the fastest rate, as function 03 does where the service is asked to.
#[test]
fn a_kernel_differs_in_what_is_listed_alone() {
    let replay = Replay::of(KERNEL, &[Event::Call(0x03, 0, 0)]);
    assert_eq!(replay.differences, sum(&OF_THE_KERNEL));
    assert_eq!((replay.accepted, replay.refused), (85, 25));
}
