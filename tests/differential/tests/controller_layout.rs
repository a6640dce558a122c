//! Every number of the controller stands where the header says: port events change the bytes at their
//! places and no others, and each number is read from where it is written.

use differential::buffer::{ANSWER, EMPTY, KEY};
use differential::place::{AWAITING, BUFFER, COMMANDED};
use differential::{Image, CONTROLLER_LENGTH};
use reference::written::inputs;

/// The numbers of a controller but for the last three, which mean nothing and are 0.
type Numbers = [u8; 5];

/// Port events on a new service with no lock on, and what they leave: the buffer, what it holds or, where it is
/// empty, the byte read last, the command byte with bit 0 turned over, the wait, and whether 64 was written to last.
const CHANGES: [(&str, Numbers); 20] = [
    ("key=1E", [KEY, 0x1E, 0x00, 0, 0]),
    ("key=00", [KEY, 0x00, 0x00, 0, 0]),
    ("key=FF", [KEY, 0xFF, 0x00, 0, 0]),
    ("key=9E r60", [EMPTY, 0x9E, 0x00, 0, 0]),
    ("key=FF r60", [EMPTY, 0xFF, 0x00, 0, 0]),
    ("key=9E r60 key=AA", [KEY, 0xAA, 0x00, 0, 0]),
    ("w64=20", [ANSWER, 0x01, 0x00, 0, 1]),
    ("w64=AA", [ANSWER, 0x55, 0x00, 0, 1]),
    ("w64=AA r60", [EMPTY, 0x55, 0x00, 0, 1]),
    ("key=AA w64=20", [ANSWER, 0x01, 0x00, 0, 1]),
    ("w64=60", [EMPTY, 0x00, 0x00, 1, 1]),
    ("w64=60 w60=01", [EMPTY, 0x00, 0x00, 0, 0]),
    ("w64=60 w60=00", [EMPTY, 0x00, 0x01, 0, 0]),
    ("w64=60 w60=03", [EMPTY, 0x00, 0x02, 0, 0]),
    ("w64=60 w60=FE", [EMPTY, 0x00, 0xFF, 0, 0]),
    ("w64=60 w64=AE", [EMPTY, 0x00, 0x00, 0, 1]),
    ("w64=AD", [EMPTY, 0x00, 0x10, 0, 1]),
    ("w64=AD w64=AE", [EMPTY, 0x00, 0x00, 0, 1]),
    ("w64=60 w60=EE w64=AD", [EMPTY, 0x00, 0xFF, 0, 1]),
    ("w64=AD w64=60 w64=AA R", [EMPTY, 0x00, 0x00, 0, 0]),
];

/// The bits that have a meaning.
const MEANT: [u8; CONTROLLER_LENGTH] = [0x03, 0xFF, 0xFF, 0x01, 0x01, 0x00, 0x00, 0x00];

/// A new service but for these numbers of its controller.
fn image_with(numbers: &[u8]) -> Image {
    let mut image = Image::new(0).unwrap();
    image.bytes[BUFFER..BUFFER + numbers.len()].copy_from_slice(numbers);
    image
}

#[test]
fn each_number_stands_at_its_place() {
    let mut seen = [0; CONTROLLER_LENGTH];
    for (list, expected) in CHANGES {
        let mut image = Image::new(0).unwrap();
        for input in inputs(list) {
            image.input(&input);
        }
        assert_eq!(image, image_with(&expected), "after {list}");
        for (seen, byte) in seen.iter_mut().zip(image.controller()) {
            *seen |= byte;
        }
    }
    assert_eq!(seen, MEANT, "each bit was on after some list");
}

/// One bit among zeros, and once more where the buffer holds a key: a status call writes what was read.
#[test]
fn each_number_is_read_from_its_place() {
    for (number, meant) in MEANT.into_iter().enumerate() {
        let place = BUFFER + number;
        for bit in (0..8).map(|number| 1 << number) {
            for buffer in [EMPTY, KEY] {
                let mut image = image_with(&[buffer]);
                let mut expected = image.clone();
                image.bytes[place] = bit;
                image.call(0x02, 0, 0);
                expected.bytes[place] = match place {
                    // Any number but 0 is one.
                    AWAITING | COMMANDED => 1,
                    _ => bit & meant,
                };
                assert_eq!(image, expected, "bit {bit:02X} at {place}");
            }
        }
    }
}
