//! Agents of a cell: few chassis and port IDs, so that they are known, new, loud and gone by turns.
//! Their frames are right, or damaged, or from a group address, and some fill a whole place.

use twin::reader::Address;
use twin::rng::Rng;

use crate::damage::{self, filler, tlv};

/// The addresses that link information names, and that are asked for (N11). Each octet decides
/// somewhere: all but the last two differ from the first in one octet alone.
const NAMED: [Address; 9] = [
    [0x02, 0, 0, 0, 0, 0x09],
    [0x03, 0, 0, 0, 0, 0x09],
    [0x02, 1, 0, 0, 0, 0x09],
    [0x02, 0, 1, 0, 0, 0x09],
    [0x02, 0, 0, 1, 0, 0x09],
    [0x02, 0, 0, 0, 1, 0x09],
    [0x02, 0, 0, 0, 0, 0x0A],
    [0; 6],
    [0xFF; 6],
];

/// The most octets of an LLDPDU that a frame can have (F1).
const LONGEST: usize = 1_500;

const SECONDS: [u16; 8] = [1, 2, 119, 120, 121, 3_000, 65_534, 65_535];

/// Of each kind (L3); the first two begin alike, and the third has the same octets as a local one.
const CHASSIS: [(u8, &[u8]); 8] = [
    (4, &[0x30, 0x31, 0x32, 0x33, 0x34, 0x35]),
    (4, &[0x30, 0x31, 0x32, 0x33, 0x34, 0x35, 0x00, 0x00]),
    (4, b"ABCDEF"),
    (7, b"ABCDEF"),
    (7, b"ABCD"),
    (4, &[0x03, 0xFF, 0, 0, 0, 1]),
    (7, b"0123456789ABCDEF0123456789ABCDEF0123456789ABCDEF0123456789ABCDEF"),
    (4, &[0x02, 0, 0, 0, 0, 2]),
];

const PORT_IDS: [(u8, &[u8]); 6] =
    [(7, b"1"), (7, b"2"), (7, b"12"), (5, b"1"), (3, &[2, 0, 0, 0, 0, 1]), (1, &[0; 40])];

pub fn address(rng: &mut Rng) -> Address {
    if rng.once_in(5) {
        return rng.address();
    }
    rng.pick(&NAMED)
}

/// A right frame of one of the agents, with these seconds.
pub fn frame(rng: &mut Rng, chassis: usize, port_id: usize, seconds: u16) -> Vec<u8> {
    let (subtype, octets) = CHASSIS[chassis % CHASSIS.len()];
    let chassis = tlv(1, &[&[subtype], octets].concat());
    let (subtype, octets) = PORT_IDS[port_id % PORT_IDS.len()];
    let port_id = tlv(2, &[&[subtype], octets].concat());
    let mut lldpdu = [chassis, port_id, tlv(3, &seconds.to_be_bytes())].concat();
    for _ in 0..rng.pick(&[0, 0, 1, 2, 3]) {
        lldpdu.extend(later(rng));
    }
    if rng.once_in(12) {
        // The End fills its place to the last octet.
        lldpdu.extend(filler(LONGEST - 2 - lldpdu.len()));
    }
    lldpdu.extend([0, 0]);
    lldpdu.extend(padding(rng, LONGEST - lldpdu.len()));
    [header(rng), lldpdu].concat()
}

/// What stands behind the End is not kept (L8, N3).
fn padding(rng: &mut Rng, room: usize) -> Vec<u8> {
    let octets = rng.pick(&[0, 0, 1, 26, 1_500]).min(room);
    rng.octets(octets)
}

fn header(rng: &mut Rng) -> Vec<u8> {
    let destination = rng.pick(&[[0xFF; 6], [0x01, 0x80, 0xC2, 0x00, 0x00, 0x0E]]);
    let mut source = rng.pick(&[[0x02, 1, 1, 1, 1, 0], [0x04, 0, 0, 0, 1, 0], [0; 6]]);
    source[5] = rng.octet();
    [&destination, &source, &[0x88, 0xCC][..]].concat()
}

/// What makes an LLDPDU HTIP, or link information of either kind, or another TLV.
fn later(rng: &mut Rng) -> Vec<u8> {
    let ttc = |subtype: u8, body: &[u8]| tlv(127, &[&[0xE0, 0x27, 0x1A, subtype], body].concat());
    let (n, m) = (rng.between(1, 4), rng.between(1, 4));
    let (interface, number) = (rng.octets(n), rng.octets(m));
    let link = [&[n as u8], &interface[..], &[m as u8], &number].concat();
    let k = rng.pick(&[0, 1, 1, 2, 3, 5, 9]);
    let addresses = rng.picks(&NAMED, k);
    match rng.below(6) {
        0 => [ttc(1, &[1, 1, b'A']), ttc(1, &[4, 1, b'7'])].concat(),
        1 | 2 => ttc(2, &[&link[..], &[k as u8], addresses.as_flattened()].concat()),
        3 | 4 => ttc(4, &[link, extension(rng, &addresses)].concat()),
        _ => tlv(rng.between(4, 126) as u8, &interface),
    }
}

/// Addresses with their items, and of the port some items and pairing addresses, which name nothing
/// (T11, A4). Mostly addresses have six octets, else one more or one fewer.
fn extension(rng: &mut Rng, addresses: &[Address]) -> Vec<u8> {
    let p = rng.pick(&[6, 6, 6, 5, 7]);
    let [c, d, q] = [0, 0, 0].map(|_: usize| rng.pick(&[0, 1, 2]));
    let items = |rng: &mut Rng, count: usize| -> Vec<u8> {
        let item = |_| {
            let length = rng.pick(&[0, 1, 1, 5]);
            [vec![length as u8], rng.octets(length)].concat()
        };
        (0..count).flat_map(item).collect()
    };
    let padded = |address: &Address| [&address[..], &[0]].concat()[..p].to_vec();
    let mut body = [p, addresses.len(), c].map(|number| number as u8).to_vec();
    for address in addresses {
        body.extend(padded(address));
        body.extend(items(rng, c));
    }
    body.extend([d as u8, q as u8]);
    for _ in 0..q {
        body.extend(padded(&rng.pick(&NAMED)));
    }
    body.extend(items(rng, d));
    body
}

/// Any frame of a cell: of an agent, with seconds above 0 or a goodbye, and sometimes not right.
pub fn any_frame(rng: &mut Rng, stock: &[Vec<u8>]) -> Vec<u8> {
    let seconds = if rng.once_in(6) { 0 } else { rng.pick(&SECONDS) };
    // Mostly few agents, so that many are known.
    let (chassis, port_ids) = rng.pick(&[(2, 3), (2, 3), (3, 2), (CHASSIS.len(), PORT_IDS.len())]);
    let (chassis, port_id) = (rng.below(chassis), rng.below(port_ids));
    let mut frame = frame(rng, chassis, port_id, seconds);
    match rng.below(24) {
        0 => damage::header(rng, &mut frame),
        1 | 2 => {
            let mut lldpdu = frame.split_off(14);
            damage::structure(rng, &mut lldpdu, stock);
            frame.extend(lldpdu);
        }
        3 => damage::octet(rng, &mut frame),
        _ => {}
    }
    frame
}
