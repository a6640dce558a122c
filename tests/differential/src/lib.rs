//! The proved service as a Rust program meets it: through the C interface of its static library.
//!
//! The proof covers the library's functions. It does not cover the compiler's back end, the
//! passing of structs and slices between C and Rattle, or whether the definitions say what the
//! description says; the tests of this package try all three. They compare every event with the
//! independent reference, and look at every byte that was lent.

mod image;
mod pair;

pub use image::{
    buffer, codes, command, flag, frame_of, held, kind, place, prefix, prefix_and_codes, read,
    Image, Ports, Reading, Reported, Tagged, CONTROLLER_LENGTH, IMAGE_LENGTH, SCANNER_LENGTH,
};
pub use pair::{controller_due, ports_due, report_due, with_prefix_and_codes, Pair, PREFIXES};
