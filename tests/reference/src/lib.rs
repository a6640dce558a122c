//! Reference of the aisle panel's keyboard service, written from its description alone, to be
//! compared with the delivered program. It shares nothing with the delivered code.
//!
//! Programs: `reference-trace` prints the trace of the pack on standard input; `compare PROGRAM`
//! runs a program on every generated pack and shows the first difference; `store FOLDER` writes the
//! kept packs with their names and texts.

pub mod answer;
pub mod controller;
pub mod flags;
pub mod frame;
pub mod generator;
pub mod input;
pub mod line;
pub mod pack;
pub mod port;
pub mod prefix;
pub mod queue;
pub mod report;
pub mod rows;
pub mod service;
pub mod shared;
pub mod stored;
pub mod translation;
pub mod vectors;
pub mod waits;
pub mod written;

pub use controller::{Controller, OutputBuffer, PortEvent};
pub use frame::{read_frame, write_frame};
pub use input::{set_after, Input, Seen};
pub use pack::{read_event, Device, Event, DEVICES, MAXIMUM_PACK};
pub use port::Port;
pub use report::{report, trace, REPORT_LENGTH};
pub use service::{Outcome, Service};
pub use translation::{CodeSet, Translation, CODE_SETS};
