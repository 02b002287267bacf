//! The maker gathers captures of the order of octets that is its turn.
//! A case that is added can still be changed by who added it.

use super::blocks::{capture, Order, Record};
use super::{Case, NEVER, ROOM};
use crate::capture::ALL;

/// The port of most cases.
pub const PORT: usize = 3;

pub struct Maker {
    pub order: Order,
    pub cases: Vec<Case>,
}

impl Maker {
    pub fn new() -> Self {
        Maker { order: Order::High, cases: Vec::new() }
    }

    /// A file on a newly started table, with a limit that takes all; nobody writes to the table.
    pub fn file(&mut self, octets: Vec<u8>) -> &mut Case {
        self.cases.push(Case {
            order: self.order,
            go_on: false,
            port: PORT,
            limit: ALL,
            spoil: NEVER,
            room: ROOM,
            octets,
        });
        self.cases.last_mut().expect("it was just added")
    }

    pub fn records(&mut self, records: &[Record]) -> &mut Case {
        let octets = capture(self.order, records);
        self.file(octets)
    }

    /// Records over the table that the case before left.
    pub fn records_over(&mut self, records: &[Record]) -> &mut Case {
        let case = self.records(records);
        case.go_on = true;
        case
    }

    /// A file over the table that the case before left.
    pub fn file_over(&mut self, octets: Vec<u8>) -> &mut Case {
        let case = self.file(octets);
        case.go_on = true;
        case
    }
}
