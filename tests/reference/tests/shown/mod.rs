//! Written lists, held to what their last input must show.

use reference::written::inputs;
use reference::{Outcome, Service};

/// Answer, word, flag bytes and bytes sent.
pub type Shown = (u8, u16, u32, u8);

/// Runs each list from locks 0 on set 1.
pub fn assert_shown(cases: &[(&str, Shown)]) {
    for &(text, (ans, word, flags, sent)) in cases {
        let mut service = Service::unlocked();
        let seen = inputs(text).iter().map(|input| service.input(input)).last();
        let expected = Outcome {
            ans,
            word,
            flags: flags.to_be_bytes(),
            sent,
        };
        assert_eq!(seen.map(|seen| seen.shown), Some(expected), "{text}");
    }
}
