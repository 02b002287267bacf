//! A table with its buffer, where records are written to places without asking anybody.
//! The tests of the replay and of the changes show and compare such tables.

use twin::table::{Table, BUFFER_OCTETS};

#[derive(Clone, PartialEq)]
pub struct Watch {
    pub table: Table,
    pub buffer: Vec<u8>,
}

impl Watch {
    pub fn started() -> Watch {
        Watch { table: Table::default(), buffer: vec![0; BUFFER_OCTETS] }
    }

    /// Writes a record over a place: port, seconds left, sender, LLDPDU.
    pub fn write(&mut self, place: usize, (port, left, sender): (u8, u16, [u8; 6]), lldpdu: &[u8]) {
        self.table.port[place] = port;
        self.table.seconds[place] = left;
        self.table.length[place] = lldpdu.len() as u16;
        self.table.sender[place] = sender;
        self.buffer[1_500 * place..][..lldpdu.len()].copy_from_slice(lldpdu);
    }
}
