//! Changes of frame A, and what the page says of it as it stands.
//! The tests of the reader hold the answers on what they changed against this.

use crate::page::*;
use twin::reader::*;

/// Where the TLVs of frame A begin.
pub const FIRST: usize = 14;
pub const SECOND: usize = 23;
pub const THIRD: usize = 27;
pub const CATEGORY: usize = 31;
pub const MODEL_NUMBER: usize = 40;
pub const END: usize = 49;

/// Frame A with the octets from one place to another replaced.
pub fn replaced(from: usize, to: usize, by: &[u8]) -> Vec<u8> {
    [&FRAME_A[..from], by, &FRAME_A[to..]].concat()
}

/// Frame A with octets put before its End.
pub fn before_end(octets: &[u8]) -> Vec<u8> {
    replaced(END, END, octets)
}

/// What the page says of frame A (B1).
pub fn reading_of_a() -> Reading {
    Reading {
        outline: Outline {
            length: 37,
            chassis: id(4, &[0x02, 0x00, 0x00, 0x00, 0x00, 0x01]),
            port: id(7, &[0x31]),
            seconds: 120,
        },
        htip: true,
        description: vec![],
        category: vec![0x41],
        manufacturer: vec![],
        model_name: vec![],
        model_number: vec![0x37],
        link: None,
        extension: None,
        list: None,
        system_name: vec![],
        system_description: vec![],
        capabilities: None,
        management: vec![],
    }
}

pub fn reading(frame: &[u8]) -> Reading {
    read_frame(frame).expect("the frame is valid")
}
