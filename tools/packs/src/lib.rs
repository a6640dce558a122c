//! Packs at the bench: written from lines of text, and their traces explained event by event.
//!
//! Nothing here runs a service. What happened is read from a trace, and a pack only says where its
//! events stand.

pub mod answer;
pub mod arguments;
pub mod explain;
pub mod fit;
pub mod flags;
pub mod form;
pub mod layout;
pub mod line;
pub mod lines;
pub mod text;
pub mod trace;
pub mod tracer;

pub use explain::explain;
pub use text::write;
