//! Rounds of two sides that take turns.

use std::time::{Duration, Instant};

/// The median time of a round on either side.
pub struct Medians {
    pub proved: Duration,
    pub reference: Duration,
}

impl Medians {
    pub fn ratio(&self) -> f64 {
        self.proved.as_secs_f64() / self.reference.as_secs_f64()
    }
}

/// One round of each side is run before the measured ones.
pub fn take_turns(rounds: usize, mut proved: impl FnMut(), mut reference: impl FnMut()) -> Medians {
    let (mut of_proved, mut of_reference) = (Vec::new(), Vec::new());
    for _ in 0..=rounds {
        of_proved.push(time(&mut proved));
        of_reference.push(time(&mut reference));
    }
    Medians {
        proved: median(&mut of_proved[1..]),
        reference: median(&mut of_reference[1..]),
    }
}

fn time(round: &mut impl FnMut()) -> Duration {
    let start = Instant::now();
    round();
    start.elapsed()
}

fn median(times: &mut [Duration]) -> Duration {
    times.sort_unstable();
    times[times.len() / 2]
}
