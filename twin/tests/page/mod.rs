//! Frame A of the rules page, typed by hand once for all test files.
//! They change it, and hold what is written and kept against it.

use twin::id::Id;

/// Frame A, 51 octets.
pub const FRAME_A: [u8; 51] = [
    0xFF, 0xFF, 0xFF, 0xFF, 0xFF, 0xFF, 0x02, 0x00, 0x00, 0x00, 0x00, 0x01, 0x88,
    0xCC, // header
    0x02, 0x07, 0x04, 0x02, 0x00, 0x00, 0x00, 0x00, 0x01, // chassis
    0x04, 0x02, 0x07, 0x31, // port ID
    0x06, 0x02, 0x00, 0x78, // seconds
    0xFE, 0x07, 0xE0, 0x27, 0x1A, 0x01, 0x01, 0x01, 0x41, // category
    0xFE, 0x07, 0xE0, 0x27, 0x1A, 0x01, 0x04, 0x01, 0x37, // model number
    0x00, 0x00, // End
];

/// The header of frame A.
pub const HEADER: [u8; 14] = *FRAME_A.first_chunk().unwrap();

/// The LLDPDU of frame A, 37 octets.
pub const A: [u8; 37] = *FRAME_A.last_chunk().unwrap();

/// A chassis ID or a port ID.
pub fn id(subtype: u8, octets: &[u8]) -> Id {
    Id { subtype, octets: octets.to_vec() }
}

/// The chassis ID as a TLV of which L is under 256: type 1, L, subtype, octets.
pub fn first_tlv(subtype: u8, octets: &[u8]) -> Vec<u8> {
    [&[0x02, 1 + octets.len() as u8, subtype], octets].concat()
}

/// Chassis that are as L3 says. The octets of all but the first two are characters.
pub fn right_chassis() -> [Id; 9] {
    [
        id(4, &[0x02, 0x00, 0x00, 0x00, 0x00, 0x01]),
        id(4, &[0x02, 0x00, 0x00, 0xFF, 0xFE, 0x00, 0x00, 0x01]),
        id(4, b"ABCDEF"),
        id(4, b"ABCDEF01"),
        id(7, b"AF"),
        id(7, b"ABCDEF"),
        id(7, b"ABCDEF01"),
        id(7, b"0123456789ABCDEF"),
        id(7, &[0x30; 64]),
    ]
}

/// Chassis that are not as L3 says: by their number of octets, their subtype, or a character.
pub fn wrong_chassis() -> Vec<Id> {
    let mut wrong = Vec::new();
    for count in [0, 1, 2, 3, 4, 5, 7, 9, 10, 12, 16, 64, 254] {
        wrong.push(id(4, &vec![0x30; count]));
    }
    for count in [0, 1, 3, 5, 7, 61, 63, 65, 66, 67, 68, 128, 254] {
        wrong.push(id(7, &vec![0x30; count]));
    }
    for subtype in [0, 1, 2, 3, 5, 6, 8, 9, 0x84, 255] {
        for octets in [&b"AF"[..], b"ABCDEF", b"ABCDEF01"] {
            wrong.push(id(subtype, octets));
        }
    }
    let words = "aF Fa /0 0/ :9 9: @A A@ GF FG `f af g0 ABcDEF ABCDEG 02-00-";
    for characters in words.split(' ') {
        wrong.push(id(7, characters.as_bytes()));
    }
    wrong.extend([id(7, b"A "), id(7, b"0\x00"), id(7, b"\xC1F")]);
    for place in [0, 31, 32, 63] {
        let mut characters = [0x30; 64];
        characters[place] = 0x61;
        wrong.push(id(7, &characters));
    }
    wrong
}
