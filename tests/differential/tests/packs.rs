//! Packs as C reads them: at every start the library finds what the reference finds, and says where
//! the next event begins.

use differential::{read, Reading, Tagged};
use reference::generator::{packs, Random};
use reference::read_event;

const RANDOM_PACKS: usize = 2_000;
/// The most bytes that a pack may have.
const LIMIT: usize = 32_768;

fn expected(pack: &[u8], start: usize) -> Reading {
    let none = |refusal| Reading {
        next: start,
        event: Tagged {
            tag: 0,
            operands: [0; 3],
        },
        refusal,
    };
    match read_event(pack, start) {
        Ok(Some((event, next))) => Reading {
            next,
            event: Tagged::from(&event),
            refusal: 0,
        },
        Ok(None) => none(0),
        Err(refusal) => none(refusal),
    }
}

fn assert_read(pack: &[u8], start: usize) {
    let found = read(pack, start);
    assert_eq!(found, expected(pack, start), "at {start} of {pack:X?}");
}

#[test]
fn every_start_is_read() {
    let mut random = Random::new(0x9AC);
    let tags = *b"KCPTERSX";
    for _ in 0..RANDOM_PACKS {
        let length = random.below(40);
        let byte = |random: &mut Random| match random.below(3) {
            0 => random.byte(),
            _ => random.pick(&tags),
        };
        let pack: Vec<u8> = (0..length).map(|_| byte(&mut random)).collect();
        (0..length + 3).for_each(|start| assert_read(&pack, start));
        assert_read(&pack, usize::MAX);
    }
}

#[test]
fn generated_packs_are_walked() {
    for pack in packs() {
        let mut start = 0;
        loop {
            assert_read(&pack.bytes, start);
            let reading = read(&pack.bytes, start);
            if reading.event.tag == 0 {
                break;
            }
            start = reading.next;
        }
    }
}

#[test]
fn a_pack_over_the_limit_is_refused_first() {
    for length in [LIMIT, LIMIT + 1, 2 * LIMIT] {
        let pack = vec![b'P'; length];
        for start in [0, 1, LIMIT, length, length + 1] {
            assert_read(&pack, start);
        }
    }
}
