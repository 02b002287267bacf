//! Building blocks of the cases: headers, TLVs and LLDPDUs, right and wrong ones.
//! Blocks whose names end in "claiming" may state a length or a count that is not true.

use crate::id::Id;
use crate::reader::Address;
use crate::rng::Rng;

pub const EVERYONE: Address = [0xFF; 6];
pub const NEAREST: Address = [0x01, 0x80, 0xC2, 0x00, 0x00, 0x0E];
pub const LLDP: [u8; 2] = [0x88, 0xCC];
pub const HEADER: usize = 14;

/// Where the source begins in a frame (F1).
const SOURCE: usize = 6;

/// The address that is asked for where a group of cases does not choose another one.
pub const SOUGHT: Address = [0x02, 0x00, 0x00, 0x00, 0x10, 0x51];

/// A group address: no station owns it, and so it is no source (F4).
pub const NO_STATION: Address = [0x03, 0x00, 0x00, 0x00, 0x00, 0x01];

/// That one and other group addresses, of which one has no other bit.
pub const GROUPS: [Address; 4] = [NO_STATION, [0x01, 0, 0, 0, 0, 0], NEAREST, EVERYONE];

pub const TTC: [u8; 3] = [0xE0, 0x27, 0x1A];

/// The octets that a TTC field has room for behind its subtype, since L is at most 511 (L1).
pub const LONGEST_BODY: usize = 511 - 4;

/// The characters of a port description (T10), typed once more and apart from the reader.
pub const CHARACTERS: &[u8] =
    b" ABCDEFGHIJKLMNOPQRSTUVWXYZabcdefghijklmnopqrstuvwxyz0123456789-'()+,./:=?;!*#@$_%";

/// The characters of a local chassis (L3), typed once more too.
pub const HEX: &[u8] = b"0123456789ABCDEF";

pub type Tlv = Vec<u8>;

pub fn tlv(kind: u8, value: &[u8]) -> Tlv {
    tlv_claiming(kind, value.len(), value)
}

/// A TLV whose header states `length`, whatever the value has.
pub fn tlv_claiming(kind: u8, length: usize, value: &[u8]) -> Tlv {
    assert!(kind < 128 && length < 512);
    let header = (u16::from(kind) << 9) | length as u16;
    [&header.to_be_bytes(), value].concat()
}

pub fn end() -> Tlv {
    vec![0, 0]
}

/// A chassis that is an address, of six or eight octets where it is right (L3).
pub fn address(octets: &[u8]) -> Id {
    Id { subtype: 4, octets: octets.to_vec() }
}

/// A chassis of local characters (L3).
pub fn local(characters: &[u8]) -> Id {
    Id { subtype: 7, octets: characters.to_vec() }
}

/// So many characters of a local chassis. The first two are the last digit and the first letter.
pub fn characters(count: usize) -> Vec<u8> {
    HEX.iter().copied().cycle().skip(9).take(count).collect()
}

/// Any chassis (L3). The shortest and the longest local ones come often.
pub fn random_chassis(rng: &mut Rng) -> Id {
    match rng.below(3) {
        0 => address(&rng.octets(6)),
        1 => address(&rng.octets(8)),
        _ => {
            let pairs = match rng.below(8) {
                0 => 1,
                1 => 32,
                _ => rng.between(1, 9),
            };
            local(&rng.picks(HEX, 2 * pairs))
        }
    }
}

/// Chassis of each kind at its limits (L3). The octets of all but the last four are characters, so
/// that subtype and number alone make the difference.
pub fn right_chassis() -> Vec<Id> {
    let mut right: Vec<Id> = [6, 8].map(|count| address(&characters(count))).to_vec();
    right.extend([2, 4, 6, 8, 10, 12, 16, 62, 64].map(|count| local(&characters(count))));
    right.extend([&[0x00; 6][..], &[0xFF; 8], b"@G`f/:", b"abcdef\x80\x00"].map(address));
    right
}

/// Chassis that break L3 in one thing alone.
pub fn wrong_chassis() -> Vec<Id> {
    [miscounted_chassis(), mistyped_chassis(), misspelled_chassis()].concat()
}

/// The number of octets is wrong. The last ones look right in eight bits only.
fn miscounted_chassis() -> Vec<Id> {
    let of_address = [0, 1, 2, 3, 4, 5, 7, 9, 10, 12, 14, 16, 64, 262, 264];
    let of_local = [0, 1, 3, 5, 7, 9, 11, 61, 63, 65, 66, 67, 68, 128, 258, 320];
    let addresses = of_address.map(|count| address(&characters(count)));
    addresses.into_iter().chain(of_local.map(|count| local(&characters(count)))).collect()
}

/// The subtype is wrong; the octets would suit 4 and 7, or 7.
fn mistyped_chassis() -> Vec<Id> {
    let mut mistyped = Vec::new();
    for subtype in [0, 1, 2, 3, 5, 6, 8, 0x84, 0x87, 255] {
        for count in [6, 8, 2] {
            mistyped.push(Id { subtype, octets: characters(count) });
        }
    }
    mistyped
}

/// A character is wrong: the first, the last, or one in the middle.
fn misspelled_chassis() -> Vec<Id> {
    let mut misspelled = Vec::new();
    // The neighbours of digits and letters, small letters, and `0` with another bit.
    for (foreign, i) in b"/:@G`afg\xB0".iter().zip(0..) {
        let far = [0, 32, 63][i % 3];
        for (count, place) in [(2, 0), (2, 1), (12, 0), (12, 7), (12, 11), (64, far)] {
            let mut octets = characters(count);
            octets[place] = *foreign;
            misspelled.push(local(&octets));
        }
    }
    misspelled
}

/// The TLV of an ID: type 1 for a chassis, 2 for a port ID.
pub fn id_tlv(kind: u8, id: &Id) -> Tlv {
    tlv(kind, &[&[id.subtype], id.octets.as_slice()].concat())
}

pub fn chassis() -> Tlv {
    tlv(1, &[4, 0x02, 0x00, 0x00, 0x00, 0x00, 0x01])
}

pub fn port() -> Tlv {
    tlv(2, &[7, 0x31])
}

pub fn seconds() -> Tlv {
    tlv(3, &[0x00, 0x78])
}

pub fn leading() -> [Tlv; 3] {
    [chassis(), port(), seconds()]
}

pub fn leading_of(chassis: &Id, port: &Id, seconds: u16) -> [Tlv; 3] {
    [id_tlv(1, chassis), id_tlv(2, port), tlv(3, &seconds.to_be_bytes())]
}

/// The first three of frame A with another chassis.
pub fn leading_with(chassis: &Id) -> [Tlv; 3] {
    [id_tlv(1, chassis), port(), seconds()]
}

pub fn ttc(subtype: u8, body: &[u8]) -> Tlv {
    let [a, b, c] = TTC;
    tlv(127, &[&[a, b, c, subtype], body].concat())
}

/// The part of a TTC field behind its subtype (T1).
pub fn body_of(field: Tlv) -> Vec<u8> {
    field[6..].to_vec()
}

pub fn device(id: u8, string: &[u8]) -> Tlv {
    device_claiming(id, string.len(), string)
}

/// Device information that states the string length `s`; the header tells the true L.
pub fn device_claiming(id: u8, s: usize, string: &[u8]) -> Tlv {
    assert!(s < 256);
    ttc(1, &[&[id, s as u8], string].concat())
}

pub fn category() -> Tlv {
    device(1, b"A")
}

pub fn model_number() -> Tlv {
    device(4, b"7")
}

/// Category and model number, without the one that has this ID.
pub fn others_than(id: u8) -> Vec<Tlv> {
    match id {
        1 => vec![model_number()],
        4 => vec![category()],
        _ => vec![category(), model_number()],
    }
}

pub fn link(interface: &[u8], number: &[u8], addresses: &[Address]) -> Tlv {
    link_claiming(interface, number, addresses.len(), &addresses.concat())
}

/// Link information that states the count `k`, whatever octets follow it.
pub fn link_claiming(interface: &[u8], number: &[u8], k: usize, octets: &[u8]) -> Tlv {
    ttc(2, &link_body(interface, number, k, octets))
}

pub fn link_body(interface: &[u8], number: &[u8], k: usize, octets: &[u8]) -> Vec<u8> {
    assert!(k < 256);
    let n = [interface.len() as u8];
    let m = [number.len() as u8];
    [&n, interface, &m, number, &[k as u8], octets].concat()
}

pub fn list(addresses: &[Address]) -> Tlv {
    list_claiming(addresses.len(), &addresses.concat())
}

pub fn list_claiming(k: usize, octets: &[u8]) -> Tlv {
    assert!(k < 256);
    ttc(3, &[&[k as u8], octets].concat())
}

pub fn description(text: &[u8]) -> Tlv {
    tlv(4, text)
}

/// A system field of type 5 to 8 and of a right length (S1 to S3). With another tag it has other
/// octets.
pub fn system_field(kind: u8, tag: u8) -> Tlv {
    let length = match kind {
        7 => 4,
        8 => 9,
        _ => 3,
    };
    system_field_of(kind, tag, length)
}

/// The same with a wrong length: one octet too many, or too few where it is a management address.
pub fn wrong_system_field(kind: u8, tag: u8) -> Tlv {
    let length = match kind {
        7 => 5,
        8 => 8,
        _ => 256,
    };
    system_field_of(kind, tag, length)
}

/// The tag, and then counted octets.
fn system_field_of(kind: u8, tag: u8, length: usize) -> Tlv {
    let value: Vec<u8> = (0..length).map(|i| if i == 0 { tag } else { i as u8 }).collect();
    tlv(kind, &value)
}

/// Each type of system field, the last of them twice.
pub fn every_system_field() -> [Tlv; 5] {
    [(5, 0x51), (6, 0x61), (7, 0x71), (8, 0x81), (8, 0x82)]
        .map(|(kind, tag)| system_field(kind, tag))
}

pub fn neighbour(number: u8) -> Address {
    [0x02, 0x00, 0x00, 0x00, 0x20, number]
}

/// The addresses that random tables name.
pub fn pool() -> Vec<Address> {
    (1..=6).map(neighbour).collect()
}

/// That many addresses, the last of them the one that is asked for.
pub fn crowd(count: usize) -> Vec<Address> {
    let mut addresses: Vec<Address> = (0..count as u8).map(neighbour).collect();
    if let Some(last) = addresses.last_mut() {
        *last = SOUGHT;
    }
    addresses
}

/// Addresses that may be a source: the lowest bit of the first octet alone decides (F4).
pub fn stations() -> Vec<Address> {
    // Every bit but that one, the lowest bits of the other octets, and no bit.
    let mut stations = vec![[0xFE, 0xFF, 0xFF, 0xFF, 0xFF, 0xFF], [2, 1, 1, 1, 1, 1], [0; 6]];
    // Each other bit of the first octet, and each other lowest bit, by itself.
    stations.extend((1..8).map(|bit| [1 << bit, 0, 0, 0, 0, 0]));
    stations.extend((1..6).map(|octet| std::array::from_fn(|i| u8::from(i == octet))));
    stations
}

pub fn headed(destination: Address, source: Address, kind: [u8; 2], lldpdu: &[u8]) -> Vec<u8> {
    [&destination, &source, &kind as &[u8], lldpdu].concat()
}

/// The frame with another source (F1).
pub fn sent_by(source: Address, mut frame: Vec<u8>) -> Vec<u8> {
    frame[SOURCE..][..source.len()].copy_from_slice(&source);
    frame
}

/// The frame with its source made a group address (F4).
pub fn from_a_group(mut frame: Vec<u8>) -> Vec<u8> {
    frame[SOURCE] |= 0x01;
    frame
}

/// The frame with its source made one that is no group address (F4).
pub fn from_a_station(mut frame: Vec<u8>) -> Vec<u8> {
    frame[SOURCE] &= 0xFE;
    frame
}

/// The octets cut or filled up with zeros to that length.
pub fn padded(octets: &[u8], length: usize) -> Vec<u8> {
    let mut octets = octets.to_vec();
    octets.resize(length, 0);
    octets
}

pub fn lldpdu(leading: &[Tlv], later: &[Tlv]) -> Vec<u8> {
    [leading.concat(), later.concat(), end()].concat()
}

/// Every field once, so that each prefix of it stops at a telling place.
pub fn typical() -> Vec<u8> {
    lldpdu(&leading(), &every_field())
}

pub fn every_field() -> [Tlv; 8] {
    [
        description(b"port-3"),
        device(1, b"TV"),
        device(2, b"0A1B2C"),
        device(3, b"Lamp"),
        device(4, b"X-9"),
        tlv(8, &[1, 2, 3]),
        link(&[6], &[0, 3], &[neighbour(1), SOUGHT]),
        list(&[neighbour(2)]),
    ]
}
