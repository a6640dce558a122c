//! Random lists, step by step, and in how many of them something is met.

use reference::generator::random_lists;
use reference::{Event, Input, Seen, Service};

pub const LISTS: usize = 2_000;
const LONGEST: usize = 300;

/// What a test has to know of earlier inputs.
pub trait Memory: Default {
    /// An input more, with the service before it and what is seen of it.
    fn keep(&mut self, before: &Service, input: &Input, seen: &Seen);
}

/// One input of a list, and the service before and after it.
pub struct Step<'a, Kept> {
    pub before: &'a Service,
    pub input: &'a Input,
    pub seen: Seen,
    pub after: &'a Service,
    /// Of the inputs so far, this one too.
    pub kept: &'a Kept,
}

impl<Kept> Step<'_, Kept> {
    /// The event that reached the service.
    pub fn event(&self) -> Option<Event> {
        self.input.ran(&self.seen)
    }
}

/// Shows each step of random lists, with the number of its list.
pub fn each_step<Kept: Memory>(seed: u64, mut look: impl FnMut(usize, &Step<Kept>)) {
    for (list, (set, locks, inputs)) in random_lists(seed, LISTS, LONGEST).enumerate() {
        let mut service = Service::on_set(set, locks).unwrap();
        let mut kept = Kept::default();
        for input in &inputs {
            let before = service.clone();
            let seen = service.input(input);
            kept.keep(&before, input, &seen);
            let step = Step {
                before: &before,
                input,
                seen,
                after: &service,
                kept: &kept,
            };
            look(list, &step);
        }
    }
}

/// In how many lists each of these is met.
pub fn lists_that_meet<Kept: Memory, Rule: Fn(&Step<Kept>) -> bool>(
    seed: u64,
    rules: &[Rule],
) -> Vec<usize> {
    let mut met = vec![[false; LISTS]; rules.len()];
    each_step(seed, |list, step| {
        for (met, rule) in met.iter_mut().zip(rules) {
            met[list] |= rule(step);
        }
    });
    let count = |met: &[bool; LISTS]| met.iter().filter(|&&met| met).count();
    met.iter().map(count).collect()
}
