//! The writer: a description, its strings being parts of a text, becomes an LLDPDU or a refusal.
//! The LLDPDU is put together whole and only then held against the room, so that 9 comes before 10.

use std::ops::RangeInclusive;

use crate::extension::Extension;
use crate::id::Id;
use crate::numbers::*;
use crate::reader::{Capabilities, Refusal};

pub(crate) const BREAKS_A_RULE: Refusal = 9;
pub(crate) const NO_ROOM: Refusal = 10;

pub(crate) const LONGEST_LLDPDU: usize = 1500;
pub(crate) const LONGEST_VALUE: usize = 511;

/// What is to be written. Its strings are parts of a text, or octets of their own; an absent string
/// is empty (A2), but an absent table is not an empty one, nor are absent capabilities such with no
/// flag set (A3).
#[derive(Clone, Debug, PartialEq, Eq)]
pub struct Description<S = Part> {
    pub chassis: Id<S>,
    pub port: Id<S>,
    pub seconds: u16,
    /// The port description.
    pub words: S,
    pub category: S,
    pub manufacturer: S,
    pub model_name: S,
    pub model_number: S,
    pub link: Option<LinkStrings<S>>,
    /// All octets of the addresses, one address behind the other.
    pub list: Option<S>,
    pub system_name: S,
    pub system_description: S,
    pub capabilities: Option<Capabilities>,
    pub management: Management<S>,
    /// Extension link information: its octets behind the subtype (A6).
    pub extension: Option<S>,
}

#[derive(Clone, Debug, PartialEq, Eq)]
pub struct LinkStrings<S = Part> {
    pub interface: S,
    pub number: S,
    /// All octets of the addresses, one address behind the other.
    pub addresses: S,
}

/// Management addresses: how many there are, and slots for as many as there may be (S5). Any count
/// can be handed in. What the slots at or behind the count have is no part of the description.
#[derive(Clone, Debug, Default, PartialEq, Eq)]
pub struct Management<S = Part> {
    pub count: u64,
    pub slots: [S; MOST_MANAGEMENT],
}

impl<S> Management<S> {
    /// Those that are there. Where the count is too large, the slots have only some of them.
    pub fn given(&self) -> &[S] {
        let count = usize::try_from(self.count).unwrap_or(usize::MAX);
        &self.slots[..count.min(MOST_MANAGEMENT)]
    }

    /// As `Description::with`. The slots at or behind the count are not looked at.
    fn with<T: Default>(&self, turned: impl FnMut(&S) -> Option<T>) -> Option<Management<T>> {
        let turned: Option<Vec<T>> = self.given().iter().map(turned).collect();
        Some(Management { count: self.count, ..Management::of(turned?) })
    }
}

impl<S: Default> Management<S> {
    /// These, of which there are at most four.
    pub fn of(addresses: Vec<S>) -> Self {
        let mut management = Management::default();
        for (slot, address) in management.slots.iter_mut().zip(addresses) {
            *slot = address;
            management.count += 1;
        }
        management
    }
}

/// So many octets of the text, from `start` on. Any two numbers can be handed in.
#[derive(Clone, Copy, Debug, Default, PartialEq, Eq)]
pub struct Part {
    pub start: u64,
    pub len: u64,
}

impl Part {
    /// None if the part lies outside the text (W7). Start and length are never added up, so nothing
    /// wraps; an empty part may begin where the text ends.
    pub(crate) fn of(self, text: &[u8]) -> Option<&[u8]> {
        let start = usize::try_from(self.start).ok()?;
        let len = usize::try_from(self.len).ok()?;
        text.get(start..)?.get(..len)
    }
}

impl<S> Description<S> {
    /// The same with each string turned into something else, front to back; None if one cannot be.
    pub fn with<T: Default>(
        &self,
        mut turned: impl FnMut(&S) -> Option<T>,
    ) -> Option<Description<T>> {
        Some(Description {
            chassis: self.chassis.with(&mut turned)?,
            port: self.port.with(&mut turned)?,
            seconds: self.seconds,
            words: turned(&self.words)?,
            category: turned(&self.category)?,
            manufacturer: turned(&self.manufacturer)?,
            model_name: turned(&self.model_name)?,
            model_number: turned(&self.model_number)?,
            link: match &self.link {
                Some(link) => Some(LinkStrings {
                    interface: turned(&link.interface)?,
                    number: turned(&link.number)?,
                    addresses: turned(&link.addresses)?,
                }),
                None => None,
            },
            list: match &self.list {
                Some(addresses) => Some(turned(addresses)?),
                None => None,
            },
            system_name: turned(&self.system_name)?,
            system_description: turned(&self.system_description)?,
            capabilities: self.capabilities,
            management: self.management.with(&mut turned)?,
            extension: match &self.extension {
                Some(octets) => Some(turned(octets)?),
                None => None,
            },
        })
    }
}

/// The LLDPDU without a frame header, to stand at the front of an output buffer with that much room
/// (W4). A refusal is a number alone (Q2).
pub fn write(description: &Description, text: &[u8], room: usize) -> Result<Vec<u8>, Refusal> {
    // A part that is not written, being empty, has to lie in the text all the same (W7).
    let lldpdu = description
        .with(|part| part.of(text))
        .and_then(|description| lldpdu(&description))
        .ok_or(BREAKS_A_RULE)?;
    if lldpdu.len() <= room {
        Ok(lldpdu)
    } else {
        Err(NO_ROOM)
    }
}

/// The TLVs in their order (W1); None where a rule is broken (R9).
fn lldpdu(description: &Description<&[u8]>) -> Option<Vec<u8>> {
    let later = match description.seconds {
        0 => nothing_later(description)?,
        _ => later_tlvs(description)?,
    };
    let whole = [
        id_tlv(CHASSIS, &description.chassis)?,
        id_tlv(PORT, &description.port)?,
        tlv(SECONDS, &[&description.seconds.to_be_bytes()])?,
        later,
        tlv(END, &[])?,
    ]
    .concat();
    (whole.len() <= LONGEST_LLDPDU).then_some(whole)
}

/// With seconds 0 all but chassis and port ID is absent; a table without addresses is not, of
/// whichever kind, nor are capabilities with no flag set (W3).
fn nothing_later(description: &Description<&[u8]>) -> Option<Vec<u8>> {
    let strings = [
        description.words,
        description.system_name,
        description.system_description,
        description.category,
        description.manufacturer,
        description.model_name,
        description.model_number,
    ];
    let absent = strings.iter().all(|string| string.is_empty())
        && description.capabilities.is_none()
        && description.management.count == 0
        && description.link.is_none()
        && description.extension.is_none()
        && description.list.is_none();
    absent.then(Vec::new)
}

/// What stands between the third TLV and the End with seconds above 0 (W1). Category and model
/// number are always written, so that an empty one breaks T3 (W2).
fn later_tlvs(description: &Description<&[u8]>) -> Option<Vec<u8>> {
    let capabilities = match description.capabilities {
        Some(Capabilities { can, enabled }) => {
            tlv(CAPABILITIES, &[&can.to_be_bytes(), &enabled.to_be_bytes()])?
        }
        None => vec![],
    };
    let link = match &description.link {
        Some(link) => link_tlv(link)?,
        None => vec![],
    };
    let extension = match description.extension {
        Some(octets) => extension_tlv(octets)?,
        None => vec![],
    };
    let list = match description.list {
        Some(addresses) => ttc_tlv(LIST, &[&count_of(addresses)?, addresses])?,
        None => vec![],
    };
    let tlvs = [
        if_any(description.words, words_tlv)?,
        if_any(description.system_name, |text| bounded_tlv(SYSTEM_NAME, text, TEXT_LENGTHS))?,
        if_any(description.system_description, |text| {
            bounded_tlv(SYSTEM_DESCRIPTION, text, TEXT_LENGTHS)
        })?,
        capabilities,
        management_tlvs(&description.management)?,
        device_tlv(CATEGORY, description.category, 255)?,
        if_any(description.manufacturer, |string| device_tlv(MANUFACTURER, string, 6))?,
        if_any(description.model_name, |string| device_tlv(MODEL_NAME, string, 31))?,
        device_tlv(MODEL_NUMBER, description.model_number, 31)?,
        link,
        extension,
        list,
    ];
    Some(tlvs.concat())
}

/// An empty string is an absent one, and no TLV is written for it (W1).
fn if_any(string: &[u8], tlv: impl Fn(&[u8]) -> Option<Vec<u8>>) -> Option<Vec<u8>> {
    if string.is_empty() {
        Some(vec![])
    } else {
        tlv(string)
    }
}

/// A subtype, then octets, taken as they are (L3, L4).
fn id_tlv(kind: u8, id: &Id<&[u8]>) -> Option<Vec<u8>> {
    if !id.may_stand_in(kind) {
        return None;
    }
    tlv(kind, &[&[id.subtype], id.octets])
}

/// At most 255 octets, each of them one of the allowed characters (T10).
fn words_tlv(words: &[u8]) -> Option<Vec<u8>> {
    if !words.iter().all(|&octet| may_be_in_words(octet)) {
        return None;
    }
    bounded_tlv(DESCRIPTION, words, 0..=255)
}

fn may_be_in_words(octet: u8) -> bool {
    const SIGNS: [u8; 19] = *b"-'()+,./:=?;!*#@$_%";
    matches!(octet, b' ' | b'A'..=b'Z' | b'a'..=b'z' | b'0'..=b'9') || SIGNS.contains(&octet)
}

/// Each in the order given (W1). More than four break a rule, and so does one of a wrong length
/// (W7).
fn management_tlvs(management: &Management<&[u8]>) -> Option<Vec<u8>> {
    if management.count > MOST_MANAGEMENT as u64 {
        return None;
    }
    let tlvs: Option<Vec<_>> = management
        .given()
        .iter()
        .map(|address| bounded_tlv(MANAGEMENT, address, MANAGEMENT_LENGTHS))
        .collect();
    Some(tlvs?.concat())
}

/// ID, string length, string (T2). Only the length is limited, not the octets (T3).
fn device_tlv(id: u8, string: &[u8], longest: usize) -> Option<Vec<u8>> {
    let s = counted(string, 1, longest)?;
    ttc_tlv(DEVICE, &[&[id], &s, string])
}

/// n, interface type, m, port number, k, addresses (T7). That L is at most 511 limits the addresses
/// (W5).
fn link_tlv(link: &LinkStrings<&[u8]>) -> Option<Vec<u8>> {
    let n = counted(link.interface, 1, 4)?;
    let m = counted(link.number, 1, 4)?;
    let k = count_of(link.addresses)?;
    ttc_tlv(LINK, &[&n, link.interface, &m, link.number, &k, link.addresses])
}

/// Octets that are well formed (T11, W7). That L is at most 511 leaves room for 507 of them (W5).
fn extension_tlv(octets: &[u8]) -> Option<Vec<u8>> {
    Extension::of(octets)?;
    ttc_tlv(EXTENSION, &[octets])
}

/// The octet that states the length of a string, if the length lies within its bounds.
fn counted(string: &[u8], shortest: usize, longest: usize) -> Option<[u8; 1]> {
    let within = (shortest..=longest).contains(&string.len());
    Some([u8::try_from(string.len()).ok().filter(|_| within)?])
}

/// The octet that states how many addresses there are; a piece of one is too much (W7).
fn count_of(addresses: &[u8]) -> Option<[u8; 1]> {
    let whole = addresses.len().is_multiple_of(6);
    Some([u8::try_from(addresses.len() / 6).ok().filter(|_| whole)?])
}

/// A TLV of type 127 that belongs to TTC (T1).
fn ttc_tlv(subtype: u8, body: &[&[u8]]) -> Option<Vec<u8>> {
    tlv(ORGANIZATION, &[&TTC, &[subtype], &body.concat()])
}

/// A TLV of octets as they are, if their number is right.
fn bounded_tlv(kind: u8, octets: &[u8], lengths: RangeInclusive<usize>) -> Option<Vec<u8>> {
    if !lengths.contains(&octets.len()) {
        return None;
    }
    tlv(kind, &[octets])
}

/// Seven bits of type, nine of length, and then the information string (L1), which has at most 511
/// octets (W5).
fn tlv(kind: u8, value: &[&[u8]]) -> Option<Vec<u8>> {
    let value = value.concat();
    if value.len() > LONGEST_VALUE {
        return None;
    }
    let header = [kind << 1 | (value.len() >> 8) as u8, value.len() as u8];
    Some([&header, value.as_slice()].concat())
}
