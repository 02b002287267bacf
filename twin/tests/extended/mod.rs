//! Extension link information of the rules page, typed by hand.
//! The tests change it, and hold what is read, written and seen against it.

/// What stands behind the subtype in B21: 26 octets.
pub const B21: [u8; 26] = [
    0x01, 0x47, 0x01, 0x00, // interface type and port number
    0x06, 0x01, 0x02, // p, k, c
    0x02, 0x00, 0x00, 0x00, 0x00, 0x09, 0x01, 0x32, 0x00, // an address, its two items
    0x01, 0x01, // d, q
    0x02, 0x00, 0x00, 0x00, 0x00, 0x0A, // a pairing address
    0x01, 0x07, // an item of the port
];

/// The address of B21, and its pairing address.
pub const NINE: [u8; 6] = [0x02, 0x00, 0x00, 0x00, 0x00, 0x09];
pub const TEN: [u8; 6] = [0x02, 0x00, 0x00, 0x00, 0x00, 0x0A];

/// Places of the counts of B21.
pub const P: usize = 4;
pub const K: usize = 5;
pub const C: usize = 6;
pub const D: usize = 16;
pub const Q: usize = 17;

/// B21 with some of its octets changed.
pub fn b21_with(changes: &[(usize, u8)]) -> Vec<u8> {
    let mut octets = B21.to_vec();
    for &(at, octet) in changes {
        octets[at] = octet;
    }
    octets
}

/// A field of subtype 4 with these octets behind the subtype.
pub fn field(octets: &[u8]) -> Vec<u8> {
    field_of(4, octets)
}

/// The same with another subtype.
pub fn field_of(subtype: u8, octets: &[u8]) -> Vec<u8> {
    let [high, low] = (octets.len() as u16 + 4).to_be_bytes();
    [&[0xFE | high, low, 0xE0, 0x27, 0x1A, subtype], octets].concat()
}

/// Octets that are not well formed as T11 says, each in one thing alone.
pub fn malformed() -> Vec<Vec<u8>> {
    let mut octets = vec![
        // Nothing, and n alone.
        vec![],
        vec![0x01],
        // n or m is 0 or 5, and as many octets stand there.
        [&[0x00], &B21[2..]].concat(),
        [&[0x05, 0, 0, 0, 0x47, 0x47], &B21[2..]].concat(),
        [&B21[..2], &[0x00], &B21[4..]].concat(),
        [&B21[..2], &[0x05, 0, 0, 0, 0, 0], &B21[4..]].concat(),
        // An octet behind the last item, and an item that is not counted.
        [&B21[..], &[0x00]].concat(),
        [&B21[..], &[0x01, 0x07]].concat(),
        // The last item is too long by one, or too short by one.
        b21_with(&[(24, 0x02)]),
        b21_with(&[(24, 0x00)]),
        b21_with(&[(24, 0xFF)]),
        // An item of the address is too long: what follows it is not as it must be.
        b21_with(&[(13, 0x02)]),
        b21_with(&[(13, 0xFF)]),
        b21_with(&[(15, 0x0B)]),
        // Each count is one too large, one too small, or far too large.
        b21_with(&[(P, 0x05)]),
        b21_with(&[(P, 0x07)]),
        b21_with(&[(P, 0xFF)]),
        b21_with(&[(K, 0x00)]),
        b21_with(&[(K, 0x02)]),
        b21_with(&[(K, 0xFF)]),
        b21_with(&[(C, 0x01)]),
        b21_with(&[(C, 0x03)]),
        b21_with(&[(C, 0xFF)]),
        b21_with(&[(D, 0x00)]),
        b21_with(&[(D, 0x02)]),
        b21_with(&[(D, 0xFF)]),
        b21_with(&[(Q, 0x00)]),
        b21_with(&[(Q, 0x02)]),
        b21_with(&[(Q, 0xFF)]),
        // Addresses of no octets: one, a pairing address, and both.
        vec![0x01, 0x47, 0x01, 0x00, 0x00, 0x01, 0x00, 0x00, 0x00],
        vec![0x01, 0x47, 0x01, 0x00, 0x00, 0x00, 0x00, 0x00, 0x01],
        vec![0x01, 0x47, 0x01, 0x00, 0x00, 0x01, 0x00, 0x00, 0x01],
        vec![0x01, 0x47, 0x01, 0x00, 0x00, 0xFF, 0x00, 0x00, 0xFF],
    ];
    // It ends too soon, anywhere.
    octets.extend((0..26).map(|length| B21[..length].to_vec()));
    octets
}

/// A small well-formed one: its addresses have two octets, and k, c, d and q are all different.
///
/// Addresses `AB`, `CD` and `EF` have the item `i`, no item data, and the item `jk`. The pairing
/// addresses are `GH` and `IJ`. The port has four items: `l`, none, `mno` and `p`.
pub const SMALL: &[u8] = b"\x02\x00\x06\x01\x05\
    \x02\x03\x01\
    AB\x01iCD\x00EF\x02jk\
    \x04\x02\
    GHIJ\
    \x01l\x00\x03mno\x01p";
