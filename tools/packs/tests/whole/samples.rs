//! Each sample is four files that say the same: events as text, pack, trace and explanation.

use crate::files::{bytes, samples, text};
use packs::{explain, write};

#[test]
fn texts_write_the_packs() {
    for name in samples() {
        let pack = write(&text(&format!("samples/{name}.events")));
        let expected = bytes(&format!("samples/{name}.pack"));
        assert!(pack == Ok(expected), "{name}.events is not {name}.pack");
    }
}

#[test]
fn traces_have_their_explanations() {
    for name in samples() {
        let pack = bytes(&format!("samples/{name}.pack"));
        let explained = explain(&pack, &text(&format!("samples/{name}.txt"))).unwrap();
        let expected = text(&format!("samples/{name}.explained"));
        assert_eq!(explained, expected, "{name}");
    }
}
