//! The 85 octets of a description (X5): the twin's description as octets, and octets as the twin's.
//! Numbers stand with the high octet first.

use twin::id::Id;
use twin::reader::Capabilities;
use twin::writer::{Description, LinkStrings, Management, Part};

use crate::sizes::DESCRIPTION_OCTETS;

/// Where the presences stand, and the number of management addresses.
pub const PRESENCES: [usize; 4] = [32, 45, 50, 63];
pub const MANAGEMENT_COUNT: usize = 68;

/// Where every part begins.
pub const PARTS: [usize; 18] =
    [1, 6, 12, 16, 20, 24, 28, 33, 37, 41, 46, 51, 55, 59, 69, 73, 77, 81];

/// A number that two octets cannot hold becomes the largest one, which is outside most texts.
fn two(number: u64) -> [u8; 2] {
    u16::try_from(number).unwrap_or(u16::MAX).to_be_bytes()
}

fn part(part: &Part) -> Vec<u8> {
    [two(part.start), two(part.len)].concat()
}

fn id(id: &Id<Part>) -> Vec<u8> {
    [vec![id.subtype], part(&id.octets)].concat()
}

/// The presence and what stands behind it, or as many zeros.
fn flagged(octets: Option<Vec<u8>>, width: usize) -> Vec<u8> {
    match octets {
        Some(octets) => [vec![1], octets].concat(),
        None => vec![0; 1 + width],
    }
}

pub fn to_octets(description: &Description) -> Vec<u8> {
    let link = description
        .link
        .as_ref()
        .map(|link| [part(&link.interface), part(&link.number), part(&link.addresses)].concat());
    let capabilities = description
        .capabilities
        .map(|Capabilities { can, enabled }| [can.to_be_bytes(), enabled.to_be_bytes()].concat());
    let count = u8::try_from(description.management.count).unwrap_or(u8::MAX);
    let octets = [
        id(&description.chassis),
        id(&description.port),
        description.seconds.to_be_bytes().to_vec(),
        part(&description.words),
        part(&description.category),
        part(&description.manufacturer),
        part(&description.model_name),
        part(&description.model_number),
        flagged(link, 12),
        flagged(description.extension.as_ref().map(part), 4),
        flagged(description.list.as_ref().map(part), 4),
        part(&description.system_name),
        part(&description.system_description),
        flagged(capabilities, 4),
        vec![count],
        description.management.slots.iter().flat_map(part).collect(),
    ]
    .concat();
    assert_eq!(octets.len(), DESCRIPTION_OCTETS);
    octets
}

/// None where a presence is neither 0 nor 1. What stands behind a 0 is not looked at.
pub fn from_octets(octets: &[u8]) -> Option<Description> {
    let number = |at: usize| u16::from_be_bytes([octets[at], octets[at + 1]]);
    let part = |at: usize| Part { start: number(at).into(), len: number(at + 2).into() };
    let id = |at: usize| Id { subtype: octets[at], octets: part(at + 1) };
    let present = |at: usize| match octets[at] {
        0 => Some(false),
        1 => Some(true),
        _ => None,
    };
    Some(Description {
        chassis: id(0),
        port: id(5),
        seconds: number(10),
        words: part(12),
        category: part(16),
        manufacturer: part(20),
        model_name: part(24),
        model_number: part(28),
        link: present(32)?.then(|| LinkStrings {
            interface: part(33),
            number: part(37),
            addresses: part(41),
        }),
        extension: present(45)?.then(|| part(46)),
        list: present(50)?.then(|| part(51)),
        system_name: part(55),
        system_description: part(59),
        capabilities: present(63)?.then(|| Capabilities { can: number(64), enabled: number(66) }),
        management: Management {
            count: octets[MANAGEMENT_COUNT].into(),
            slots: [part(69), part(73), part(77), part(81)],
        },
    })
}
