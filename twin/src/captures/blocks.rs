//! Building blocks of captures: file headers, records and whole files, in both orders of octets.
//! A record may state lengths that are not true, and a file may be cut or changed anywhere.

use crate::events::maker::Agent;
use crate::frames::blocks::*;

pub const FILE_HEADER: usize = 24;
pub const RECORD_HEADER: usize = 16;

/// Where the fields of the file header begin (C1).
pub const VERSION: usize = 4;
pub const ZONE: usize = 8;
pub const ACCURACY: usize = 12;
pub const SNAP: usize = 16;
pub const LINK_TYPE: usize = 20;

/// Which octet of a number comes first (C1).
#[derive(Clone, Copy, Debug, PartialEq, Eq)]
pub enum Order {
    High,
    Low,
}

impl Order {
    pub const BOTH: [Order; 2] = [Order::High, Order::Low];

    pub fn number(self, number: u32) -> [u8; 4] {
        match self {
            Order::High => number.to_be_bytes(),
            Order::Low => number.to_le_bytes(),
        }
    }

    /// The two numbers of the version have two octets each.
    fn short(self, number: u16) -> [u8; 2] {
        match self {
            Order::High => number.to_be_bytes(),
            Order::Low => number.to_le_bytes(),
        }
    }

    pub fn file_header(self, snap: u32) -> Vec<u8> {
        let version = [self.short(2), self.short(4)].concat();
        let [magic, none, snap, link_type] =
            [0xA1B2_C3D4, 0, snap, 1].map(|number| self.number(number));
        [&magic, &version[..], &none, &none, &snap, &link_type].concat()
    }
}

/// A record, with what its header states and the octets that follow.
#[derive(Clone, Debug, PartialEq, Eq)]
pub struct Record {
    pub stamp: u32,
    pub microseconds: u32,
    pub captured: u32,
    pub original: u32,
    pub octets: Vec<u8>,
}

impl Record {
    /// These octets of a frame that had so many on the wire.
    pub fn of(stamp: u32, octets: Vec<u8>, original: u32) -> Record {
        Record { stamp, microseconds: 0, captured: octets.len() as u32, original, octets }
    }

    /// All octets of the frame, so that it is handed over (C5).
    pub fn whole(stamp: u32, frame: Vec<u8>) -> Record {
        let original = frame.len() as u32;
        Record::of(stamp, frame, original)
    }

    /// The frame had one octet more, so that the record is skipped (C5).
    pub fn skipped(stamp: u32, octets: Vec<u8>) -> Record {
        let original = octets.len() as u32 + 1;
        Record::of(stamp, octets, original)
    }

    /// The same with another captured length than it has octets.
    pub fn claiming(self, captured: u32) -> Record {
        Record { captured, ..self }
    }

    pub fn at(self, microseconds: u32) -> Record {
        Record { microseconds, ..self }
    }

    fn octets(&self, order: Order) -> Vec<u8> {
        let Record { stamp, microseconds, captured, original, ref octets } = *self;
        let header = [stamp, microseconds, captured, original].map(|number| order.number(number));
        [&header.concat(), &octets[..]].concat()
    }
}

/// A file with these records. The snap length is tcpdump's.
pub fn capture(order: Order, records: &[Record]) -> Vec<u8> {
    capture_snapped(order, 262_144, records)
}

/// The same with another snap length.
pub fn capture_snapped(order: Order, snap: u32, records: &[Record]) -> Vec<u8> {
    let mut file = order.file_header(snap);
    file.extend(records.iter().flat_map(|record| record.octets(order)));
    file
}

/// The octets with others written over them from a place on.
pub fn written_over(mut octets: Vec<u8>, at: usize, others: &[u8]) -> Vec<u8> {
    octets[at..][..others.len()].copy_from_slice(others);
    octets
}

/// The first so many octets.
pub fn cut(mut octets: Vec<u8>, length: usize) -> Vec<u8> {
    octets.truncate(length);
    octets
}

/// The frame of a neighbour that is to be known for so many seconds; with 0 it is its goodbye.
pub fn heard(number: u8, seconds: u16) -> Vec<u8> {
    one_of(number, 1, seconds)
}

/// The same from one of several that share a chassis (N2).
pub fn one_of(chassis: u8, number: usize, seconds: u16) -> Vec<u8> {
    let agent = Agent::numbered(address(&[2, 0, 0, 0, 0x60, chassis]), number);
    headed(EVERYONE, [2, 0, 0, 0, 0x70, chassis], LLDP, &agent.announcement(seconds, &[]))
}

/// Frame A with other seconds.
pub fn frame_a(seconds: u16) -> Vec<u8> {
    let first = address(&[2, 0, 0, 0, 0, 1]);
    let inside = Agent::of(first).announcement(seconds, &[category(), model_number()]);
    headed(EVERYONE, [2, 0, 0, 0, 0, 1], LLDP, &inside)
}

/// A short time to live, a skipped record, and one more frame.
pub fn small_records() -> [Record; 3] {
    [
        Record::whole(1_000, frame_a(20)),
        Record::of(1_010, vec![0x5A; 20], 60),
        Record::whole(1_015, heard(2, 30)),
    ]
}

pub fn small(order: Order) -> Vec<u8> {
    capture(order, &small_records())
}

/// Where the file header, each record header and each record end.
pub fn edges(records: &[Record]) -> Vec<usize> {
    let mut edges = vec![FILE_HEADER];
    for record in records {
        let behind_header = edges[edges.len() - 1] + RECORD_HEADER;
        edges.extend([behind_header, behind_header + record.octets.len()]);
    }
    edges
}
