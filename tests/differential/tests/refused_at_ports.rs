//! A port event that is refused by 14, 15 or 16 leaves every byte that was lent, whether some calls left
//! them or nobody did. Nothing is read, raised or fed, and flag bytes, `sent` and status are shown as they
//! stand. What is not refused so is done.

use differential::place::{AWAITING, BUFFER, COMMAND_BYTE};
use differential::{buffer, command, Image, Pair, IMAGE_LENGTH};
use reference::generator::{random_lists, Random};
use reference::PortEvent::{self, FromKeyboard, Write60, Write64};
use reference::Seen;

/// Services in use, and as many images of any bytes.
const SERVICES: usize = 256;

/// The commands to port 64 that are not refused by 15.
const COMMANDS: [u8; 5] = [0x20, 0x60, 0xAA, 0xAD, 0xAE];

fn images() -> Vec<Image> {
    let mut random = Random::new(48);
    let mut images: Vec<Image> = random_lists(14, SERVICES, 149)
        .map(|list| Pair::after(list).image)
        .collect();
    for _ in 0..SERVICES {
        let mut bytes = [0; IMAGE_LENGTH];
        bytes.fill_with(|| random.byte());
        images.push(Image { bytes });
    }
    images
}

/// The same image with another number at one place.
fn with(image: &Image, place: usize, number: u8) -> Image {
    let mut image = image.clone();
    image.bytes[place] = number;
    image
}

fn assert_refused(image: &Image, events: impl Iterator<Item = PortEvent>, refusal: u8) {
    let expected = Seen {
        shown: image.standing(0x80 + refusal),
        status: image.status(),
        byte: 0,
        interrupt: false,
        fed: false,
    };
    let mut lent = image.clone();
    for event in events {
        assert_eq!(lent.port(event), expected, "{event:X?}");
        assert_eq!(lent, *image, "{event:X?}");
    }
}

fn assert_done(image: &Image, event: PortEvent) {
    let seen = image.clone().port(event);
    assert_eq!(seen.shown, image.standing(0x00), "{event:X?}");
}

#[test]
fn refusal_14_keeps_every_byte() {
    for image in images() {
        let command_byte = image.bytes[COMMAND_BYTE];
        let disabled = with(&image, COMMAND_BYTE, command_byte | command::DISABLED);
        assert_refused(&disabled, (0..=255).map(FromKeyboard), 14);
        let enabled = with(&image, COMMAND_BYTE, command_byte & !command::DISABLED);
        for full in [buffer::KEY, buffer::ANSWER] {
            let full = with(&enabled, BUFFER, full);
            assert_refused(&full, (0..=255).map(FromKeyboard), 14);
        }
        for byte in 0..=255 {
            assert_done(&with(&enabled, BUFFER, buffer::EMPTY), FromKeyboard(byte));
        }
    }
}

#[test]
fn refusal_15_keeps_every_byte() {
    for image in images() {
        let others = (0..=255).filter(|byte| !COMMANDS.contains(byte));
        assert_refused(&image, others.map(Write64), 15);
        for command in COMMANDS {
            assert_done(&image, Write64(command));
        }
    }
}

#[test]
fn refusal_16_keeps_every_byte() {
    for image in images() {
        assert_refused(&with(&image, AWAITING, 0), (0..=255).map(Write60), 16);
        for byte in 0..=255 {
            assert_done(&with(&image, AWAITING, 1), Write60(byte));
        }
    }
}
