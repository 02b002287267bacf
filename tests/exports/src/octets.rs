//! The twin's answers and its table as octets, and the table that octets mean (X3 to X5).
//! Numbers stand with the high octet first.

use twin::reader::{Counted, Reading};
use twin::table::{Reply, Sighting, Table, PLACES};

use crate::described::to_octets;
use crate::parts;
use crate::sizes::SIGHT_OCTETS;

/// The table that the slices mean (X3). They have their right lengths.
pub fn table_of(slices: &[Vec<u8>]) -> Table {
    let two = |octets: &[u8], i: usize| number(&octets[2 * i..]);
    let mut table = Table::default();
    for i in 0..PLACES {
        table.port[i] = slices[0][i];
        table.seconds[i] = two(&slices[1], i);
        table.length[i] = two(&slices[2], i);
        table.sender[i].copy_from_slice(&slices[3][6 * i..6 * i + 6]);
    }
    table
}

/// The slices that mean the table, without the buffer (X3).
pub fn octets_of(table: &Table) -> [Vec<u8>; 4] {
    [
        table.port.to_vec(),
        table.seconds.iter().flat_map(|number| number.to_be_bytes()).collect(),
        table.length.iter().flat_map(|number| number.to_be_bytes()).collect(),
        table.sender.concat(),
    ]
}

pub fn described(lldpdu: &[u8], reading: &Reading) -> Vec<u8> {
    to_octets(&parts::description(lldpdu, reading))
}

/// The length of the LLDPDU, and the verdict (X4).
pub fn verdict(reading: &Reading) -> [u8; 3] {
    let [high, low] = two(reading.outline.length);
    [high, low, u8::from(reading.htip)]
}

pub fn two(number: usize) -> [u8; 2] {
    u16::try_from(number).expect("no case has a longer LLDPDU").to_be_bytes()
}

/// The number that the first two octets are.
pub fn number(octets: &[u8]) -> u16 {
    u16::from_be_bytes([octets[0], octets[1]])
}

pub fn reply_octet(reply: Reply) -> u8 {
    match reply {
        Reply::Recorded => 1,
        Reply::Refreshed => 2,
        Reply::Gone => 3,
        Reply::UnknownGoodbye => 4,
    }
}

/// Nobody is 0 throughout (X4).
pub fn sight(sighting: Option<Sighting>) -> Vec<u8> {
    let Some(Sighting { place, naming }) = sighting else {
        return vec![0; SIGHT_OCTETS];
    };
    [&[1], &two(place)[..], &counted(naming.interface), &counted(naming.number)].concat()
}

fn counted(number: Counted) -> [u8; 5] {
    let [a, b, c, d] = number.value.to_be_bytes();
    [number.count as u8, a, b, c, d]
}
