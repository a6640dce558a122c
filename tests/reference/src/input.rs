//! What can stand in a list of calls, the events of a pack and what no pack holds, and what is seen of it.

use crate::answer::REFUSED;
use crate::controller::PortEvent;
use crate::frame::read_frame;
use crate::pack::Event;
use crate::service::Outcome;
use crate::translation::CodeSet;

#[derive(Clone, Copy, Debug, PartialEq, Eq)]
pub enum Input {
    Event(Event),
    /// A frame, sound or not.
    Frame(u16),
    /// From here on the keyboard sends codes of this set, perhaps as it did before.
    Change(CodeSet),
    /// Something at the controller's ports.
    Port(PortEvent),
}

/// What is seen of an input. Of one that is no port event, nothing is read, raised or fed at the ports.
#[derive(Clone, Copy, Debug, PartialEq, Eq)]
pub struct Seen {
    /// As of any event. Where a read of port 60 fed a key, this is what the key's event showed.
    pub shown: Outcome,
    /// The controller's status after the input.
    pub status: u8,
    /// The byte read at a port; 0 where none is.
    pub byte: u8,
    /// Interrupt 1 was raised.
    pub interrupt: bool,
    /// The byte read was fed as a key.
    pub fed: bool,
}

impl Seen {
    pub fn is_refused(&self) -> bool {
        self.shown.ans >= REFUSED
    }
}

impl Input {
    /// The event that it is or carries; none in a refused frame or a change of set. What a port event feeds
    /// is not in itself: it lies in the controller.
    pub fn fed(&self) -> Option<Event> {
        match *self {
            Input::Event(event) => Some(event),
            Input::Frame(frame) => read_frame(frame).ok().map(Event::Key),
            Input::Change(_) | Input::Port(_) => None,
        }
    }

    /// The event that reached the service, by what was seen of the input.
    pub fn ran(&self, seen: &Seen) -> Option<Event> {
        let key = seen.fed.then_some(Event::Key(seen.byte));
        self.fed().or(key)
    }

    /// Whether it does nothing at all, so that it could as well not stand in its list.
    pub fn is_refused_frame(&self) -> bool {
        matches!(*self, Input::Frame(frame) if read_frame(frame).is_err())
    }
}

/// The set in force after a list that started on this one.
pub fn set_after(set: CodeSet, inputs: &[Input]) -> CodeSet {
    let changed_to = |input: &Input| match *input {
        Input::Change(set) => Some(set),
        Input::Event(_) | Input::Frame(_) | Input::Port(_) => None,
    };
    inputs.iter().rev().find_map(changed_to).unwrap_or(set)
}
