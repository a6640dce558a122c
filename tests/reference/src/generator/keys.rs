//! Packs for codes, modifiers, locks, pause and the Alt sum.

use super::writer::{
    all_codes, Writer, LEFT_ALT, LEFT_CTRL, LEFT_SHIFT, LOCK_KEYS, MODIFIERS, PAUSE, RIGHT_ALT,
    RIGHT_CTRL,
};
use super::{add_joined, choices, Pack};

/// Keypad keys of the digits 0 to 9.
pub const DIGITS: [u8; 10] = [0x52, 0x4F, 0x50, 0x51, 0x4B, 0x4C, 0x4D, 0x47, 0x48, 0x49];

pub fn add(packs: &mut Vec<Pack>) {
    add_rows(packs);
    add_pauses(packs);
    add_sums(packs);
    add_joined(packs, "cut-sum", cut_sums());
    add_joined(packs, "lock", lock_orders());
    add_joined(packs, "insert", insert_orders());
    add_joined(packs, "modifier", modifier_orders());
}

/// Every code under every set of modifiers and of locks.
fn add_rows(packs: &mut Vec<Pack>) {
    for locks in 0..16 {
        for modifiers in 0..64 {
            let mut pack = Writer::new();
            pack.toggle_locks(locks).modifiers(modifiers);
            type_every_code(&mut pack, modifiers);
            pack.call(0x12, 0, 0).all_up();
            packs.push(Pack {
                kind: "row",
                bytes: pack.into_bytes(),
            });
        }
    }
}

/// Types every code where these modifiers are down, and takes its word.
pub fn type_every_code(pack: &mut Writer, modifiers: u8) {
    for code in all_codes() {
        pack.code(code).take();
        undo(pack, code, modifiers);
    }
}

/// Takes back what a code did to the modifiers and locks.
fn undo(pack: &mut Writer, code: u16, modifiers: u8) {
    if MODIFIERS.contains(&(code & !0x80)) {
        pack.modifiers(modifiers);
    }
    if LOCK_KEYS[..3].iter().any(|&make| u16::from(make) == code) {
        let make = code as u8;
        pack.keys(&[make | 0x80, make, make | 0x80]);
    }
}

/// Every code while paused, then a letter, under some sets of modifiers.
fn add_pauses(packs: &mut Vec<Pack>) {
    let sets = [
        0,
        LEFT_SHIFT,
        LEFT_CTRL,
        LEFT_ALT,
        RIGHT_CTRL | RIGHT_ALT,
        LEFT_CTRL | LEFT_ALT,
    ];
    for modifiers in sets {
        let cases = all_codes().map(|code| {
            let mut case = Writer::new();
            case.modifiers(modifiers).keys(&DIGITS[1..3]).keys(&PAUSE);
            case.code(code).keys(&[0x1E, 0x1E]).modifiers(0).take();
            case.all_up();
            case
        });
        add_joined(packs, "pause", cases);
    }
}

/// Every number of three digits under the left, the right and both Alt keys.
fn add_sums(packs: &mut Vec<Pack>) {
    for modifiers in [LEFT_ALT, RIGHT_ALT, LEFT_ALT | RIGHT_ALT] {
        let cases = choices(10, 3).map(|digits| {
            let mut case = Writer::new();
            case.modifiers(modifiers);
            for digit in digits {
                case.keys(&[DIGITS[digit], DIGITS[digit] | 0x80]);
            }
            case.modifiers(0).take();
            case
        });
        add_joined(packs, "sum", cases);
    }
}

/// Every code between two digits of a sum, with Alt alone and with Ctrl.
fn cut_sums() -> impl Iterator<Item = Writer> {
    let sets = [LEFT_ALT, RIGHT_ALT, LEFT_ALT | LEFT_CTRL];
    sets.into_iter().flat_map(|modifiers| {
        all_codes().map(move |code| {
            let mut case = Writer::new();
            case.modifiers(modifiers).key(DIGITS[2]).code(code);
            case.key(DIGITS[5]).modifiers(0).take().take().all_up();
            case
        })
    })
}

/// Makes and breaks of each lock key in every order, also after E0 and with another lock between.
fn lock_orders() -> impl Iterator<Item = Writer> {
    LOCK_KEYS[..3].iter().flat_map(|&make| {
        let make = u16::from(make);
        let codes = [make, make | 0x80, make | 0xE000, make | 0xE080, 0x3A, 0xBA];
        choices(codes.len(), 4).map(move |order| in_order(&codes, &order))
    })
}

/// Insert with and without E0, Shift, Ctrl and Num.
fn insert_orders() -> impl Iterator<Item = Writer> {
    let codes = [0x52, 0xD2, 0xE052, 0xE0D2, 0x2A, 0xAA, 0x45, 0xC5, 0x1D];
    choices(codes.len(), 4).map(move |order| in_order(&codes, &order))
}

/// Makes and breaks of the modifiers in every order of three, then a letter and the status.
fn modifier_orders() -> impl Iterator<Item = Writer> {
    let codes: Vec<u16> = MODIFIERS
        .iter()
        .flat_map(|&make| [make, make | 0x80])
        .collect();
    choices(codes.len(), 3).map(move |order| {
        let mut case = Writer::new();
        order.iter().for_each(|&place| {
            case.code(codes[place]);
        });
        case.key(0x1E).call(0x12, 0, 0).call(0x02, 0, 0).all_up();
        case
    })
}

fn in_order(codes: &[u16], order: &[usize]) -> Writer {
    let mut case = Writer::new();
    for &place in order {
        case.code(codes[place]);
    }
    case.call(0x12, 0, 0).all_up();
    case
}
