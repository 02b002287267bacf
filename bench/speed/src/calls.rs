//! The calls that a row makes, and what is to be told of each.
//! A round of a row is all its calls, one behind the other, and leaves the table as it was.

use twin::reader::{Address, Refusal};
use twin::table::BUFFER_OCTETS;

use crate::announcement::Announcement;
use crate::tables::Held;

#[derive(Clone, Copy)]
pub enum Call {
    Read(&'static [u8]),
    Write(&'static Announcement),
    Start,
    Frame { port: usize, frame: &'static [u8] },
    Seconds(u16),
    Lost { port: usize },
    HowMany { port: usize },
    WhoSees { address: Address, start: usize },
}

/// A call, and its refusal or how the octets of its answer begin (X4).
pub struct Step {
    pub call: Call,
    pub due: Result<Vec<u8>, Refusal>,
}

/// What a call through the archive does with the table's slices (X3).
#[derive(Clone, Copy, PartialEq, Eq)]
pub enum Crossing {
    /// It takes none.
    None,
    /// They become a table, which is only looked at.
    In,
    /// They become a table and are then written again.
    InAndOut,
}

pub struct Row {
    pub name: String,
    pub crossing: Crossing,
    pub held: Held,
    pub steps: Vec<Step>,
    /// The call changes the table for good, so that it is put back outside the clock.
    pub put_back: bool,
}

impl Row {
    /// The buffer is too short: the call is refused when the slices have become a table (R1).
    pub fn is_crossing_alone(&self) -> bool {
        self.held.buffer.len() != BUFFER_OCTETS
    }
}
