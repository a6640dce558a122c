//! Frames: a byte on the keyboard's wire, between the bits that guard it.

use crate::answer::{BAD_PARITY_BIT, BAD_START_BIT, BAD_STOP_BIT};

/// Places in the order of the wire; eight data bits stand between start and parity bit.
pub const START_BIT: usize = 0;
pub const FIRST_DATA_BIT: usize = 1;
pub const PARITY_BIT: usize = 9;
pub const STOP_BIT: usize = 10;
const BITS_OF_A_FRAME: usize = STOP_BIT + 1;

/// The byte that a frame carries, or the number of the refusal for its first fault.
pub fn read_frame(frame: u16) -> Result<u8, u8> {
    let [start, data @ .., parity, stop] = bits::<BITS_OF_A_FRAME>(frame);
    if frame >= 1 << BITS_OF_A_FRAME || start {
        return Err(BAD_START_BIT);
    }
    if parity != parity_of(data) {
        return Err(BAD_PARITY_BIT);
    }
    if !stop {
        return Err(BAD_STOP_BIT);
    }
    Ok(number(&data) as u8)
}

pub fn write_frame(byte: u8) -> u16 {
    let (start, data, stop) = (false, bits(byte.into()), true);
    number(&[&[start], data.as_slice(), &[parity_of(data), stop]].concat())
}

/// Without ones in the data the parity bit is the one that makes them odd; each one turns it over.
fn parity_of(data: [bool; 8]) -> bool {
    data.into_iter().fold(true, |parity, bit| parity != bit)
}

/// The lowest bits of a number, in the order of the wire.
fn bits<const COUNT: usize>(number: u16) -> [bool; COUNT] {
    std::array::from_fn(|place| number >> place & 1 == 1)
}

/// The number that has these bits, the lowest first.
fn number(bits: &[bool]) -> u16 {
    let highest_first = bits.iter().rev();
    highest_first.fold(0, |number, &bit| 2 * number + u16::from(bit))
}
