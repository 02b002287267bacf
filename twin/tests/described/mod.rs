//! What frame A says, as a description, and changes of it that are written.
//! The tests of the writer hold what was written against frame A.

use crate::page::*;
use twin::id::Id;
use twin::writer::*;

/// What frame A says, as parts of this text.
pub const TEXT_OF_A: &[u8] = b"1A7\x02\x00\x00\x00\x00\x01";

pub fn part(start: u64, len: u64) -> Part {
    Part { start, len }
}

pub fn description_of_a() -> Description {
    Description {
        chassis: Id { subtype: 4, octets: part(3, 6) },
        port: Id { subtype: 7, octets: part(0, 1) },
        seconds: 120,
        words: part(0, 0),
        category: part(1, 1),
        manufacturer: part(0, 0),
        model_name: part(0, 0),
        model_number: part(2, 1),
        link: None,
        list: None,
        system_name: part(0, 0),
        system_description: part(0, 0),
        capabilities: None,
        management: Management::default(),
        extension: None,
    }
}

/// Frame A's description and text, changed, with more room than anything needs.
pub fn written(change: impl FnOnce(&mut Description, &mut Vec<u8>)) -> Result<Vec<u8>, u8> {
    let mut description = description_of_a();
    let mut text = TEXT_OF_A.to_vec();
    change(&mut description, &mut text);
    write(&description, &text, 1600)
}

/// Puts octets at the end of the text.
pub fn put(text: &mut Vec<u8>, octets: &[u8]) -> Part {
    let start = text.len() as u64;
    text.extend(octets);
    part(start, octets.len() as u64)
}

pub fn put_id(text: &mut Vec<u8>, id: &Id) -> Id<Part> {
    Id { subtype: id.subtype, octets: put(text, &id.octets) }
}

/// Frame A's first three TLVs with seconds 0, and the End.
pub fn goodbye_of_a() -> Vec<u8> {
    [&A[..15], &[0x00, 0x00], &A[35..]].concat()
}

/// All but chassis and port ID absent, and then changed.
pub fn goodbye(change: impl FnOnce(&mut Description, &mut Vec<u8>)) -> Result<Vec<u8>, u8> {
    written(|description, text| {
        description.seconds = 0;
        description.category = part(0, 0);
        description.model_number = part(0, 0);
        change(description, text);
    })
}
