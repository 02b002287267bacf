//! The writer: what a description needs is judged and counted first, and then written in one go.
//! So nothing has to be taken back where it is refused, and 9 comes before 10.

use std::ops::RangeInclusive;

use super::extension;
use super::octets::{are_hex_characters, are_words};
use super::walk::header;
use crate::id::Id;
use crate::numbers::*;
use crate::reader::{lengths_of, Capabilities, Refusal, LONGEST_DESCRIPTION};
use crate::writer::{
    Description, LinkStrings, Management, Part, BREAKS_A_RULE, LONGEST_LLDPDU, LONGEST_VALUE,
    NO_ROOM,
};

/// What stands in a TTC field before its body: the header, the code of TTC, the subtype (T1).
const TTC_OCTETS: usize = HEADER + IN_VALUE;
const HEADER: usize = 2;
const IN_VALUE: usize = 4;

/// Writes the LLDPDU into the first octets of the output, and answers how many they are (W1, W4).
pub fn write(description: &Description, text: &[u8], output: &mut [u8]) -> Result<usize, Refusal> {
    let octets = octets_of(description, text).ok_or(BREAKS_A_RULE)?;
    let rest = output.get_mut(..octets).ok_or(NO_ROOM)?;
    Pen { text, rest }.lldpdu(description);
    Ok(octets)
}

/// The octets of the LLDPDU; None where a rule is broken (R9).
#[inline(always)]
fn octets_of(description: &Description, text: &[u8]) -> Option<usize> {
    if end_of_parts(description) > text.len() as u64 {
        return None;
    }
    let Description { chassis, port, .. } = description;
    if !is_chassis(chassis, text) || !is_port_id(port) {
        return None;
    }
    let ids = octets_in(chassis.octets) + octets_in(port.octets);
    let leading = HEADER + 1 + HEADER + 1 + ids + HEADER + 2;
    let later = match description.seconds {
        0 => has_nothing_later(description).then_some(0)?,
        _ => octets_of_later(description, text)?,
    };
    let octets = leading + later + HEADER;
    (octets <= LONGEST_LLDPDU).then_some(octets)
}

/// Where the last part ends in the text, empty parts among them (W7). A sum that is too large for a
/// number ends behind any text.
#[inline(always)]
fn end_of_parts(description: &Description) -> u64 {
    let strings = [
        description.chassis.octets,
        description.port.octets,
        description.words,
        description.category,
        description.manufacturer,
        description.model_name,
        description.model_number,
        description.system_name,
        description.system_description,
    ];
    let end = |part: &Part| part.start.saturating_add(part.len);
    let mut last = strings.iter().map(end).fold(0, u64::max);
    if let Some(LinkStrings { interface, number, addresses }) = &description.link {
        last = last.max(end(interface)).max(end(number)).max(end(addresses));
    }
    let others = description.management.given().iter().chain(&description.list);
    others.chain(&description.extension).map(end).fold(last, u64::max)
}

/// The octets of a part that lies in the text.
#[inline(always)]
fn string_of(part: Part, text: &[u8]) -> &[u8] {
    part.of(text).unwrap_or_default()
}

#[inline(always)]
fn octets_in(part: Part) -> usize {
    part.len as usize
}

/// As L3 says.
#[inline(always)]
fn is_chassis(chassis: &Id<Part>, text: &[u8]) -> bool {
    match (chassis.subtype, chassis.octets.len) {
        (ADDRESS, 6 | 8) => true,
        (LOCAL, length @ 2..=64) => {
            length.is_multiple_of(2) && are_hex_characters(string_of(chassis.octets, text))
        }
        _ => false,
    }
}

/// As L4 says.
#[inline(always)]
fn is_port_id(port: &Id<Part>) -> bool {
    matches!((port.subtype, port.octets.len), (1..=7, 1..=255))
}

/// With seconds 0 all but chassis and port ID is absent (W3).
fn has_nothing_later(description: &Description) -> bool {
    let octets = description.words.len
        | description.system_name.len
        | description.system_description.len
        | description.category.len
        | description.manufacturer.len
        | description.model_name.len
        | description.model_number.len;
    octets == 0
        && description.capabilities.is_none()
        && description.management.count == 0
        && description.link.is_none()
        && description.extension.is_none()
        && description.list.is_none()
}

/// The octets between the third TLV and the End with seconds above 0 (W1, W2).
#[inline(always)]
fn octets_of_later(description: &Description, text: &[u8]) -> Option<usize> {
    let mut octets = if_any(description.words, 0..=LONGEST_DESCRIPTION)?
        + if_any(description.system_name, TEXT_LENGTHS)?
        + if_any(description.system_description, TEXT_LENGTHS)?
        + octets_of_management(&description.management)?
        + octets_of_device(CATEGORY, description.category)?
        + octets_of_device(MODEL_NUMBER, description.model_number)?;
    if description.words.len != 0 && !are_words(string_of(description.words, text)) {
        return None;
    }
    if description.manufacturer.len != 0 {
        octets += octets_of_device(MANUFACTURER, description.manufacturer)?;
    }
    if description.model_name.len != 0 {
        octets += octets_of_device(MODEL_NAME, description.model_name)?;
    }
    if description.capabilities.is_some() {
        octets += HEADER + 4;
    }
    if let Some(link) = &description.link {
        octets += octets_of_link(link)?;
    }
    if let Some(extension) = description.extension {
        let octets_of_it = octets_of_ttc(octets_in(extension))?;
        let is_right = extension::is_well_formed(string_of(extension, text));
        octets += is_right.then_some(octets_of_it)?;
    }
    if let Some(addresses) = description.list {
        octets += octets_of_ttc(1 + octets_of_addresses(addresses)?)?;
    }
    Some(octets)
}

/// An empty string is an absent one, and no TLV is written for it (W1).
#[inline(always)]
fn if_any(string: Part, lengths: RangeInclusive<usize>) -> Option<usize> {
    match octets_in(string) {
        0 => Some(0),
        octets => lengths.contains(&octets).then_some(HEADER + octets),
    }
}

/// None where there are more than four, or one of a wrong length (W7).
#[inline(always)]
fn octets_of_management(management: &Management) -> Option<usize> {
    if management.count > MOST_MANAGEMENT as u64 {
        return None;
    }
    management.given().iter().try_fold(0, |octets, &address| {
        let length = octets_in(address);
        MANAGEMENT_LENGTHS.contains(&length).then_some(octets + HEADER + length)
    })
}

/// ID, string length, string (T2, T3).
#[inline(always)]
fn octets_of_device(id: u8, string: Part) -> Option<usize> {
    let s = u8::try_from(string.len).ok()?;
    lengths_of(id).contains(&s).then_some(TTC_OCTETS + 2 + usize::from(s))
}

/// n, interface type, m, port number, k, addresses (T7).
#[inline(always)]
fn octets_of_link(link: &LinkStrings) -> Option<usize> {
    if !matches!((link.interface.len, link.number.len), (1..=4, 1..=4)) {
        return None;
    }
    let strings = octets_in(link.interface) + octets_in(link.number);
    octets_of_ttc(3 + strings + octets_of_addresses(link.addresses)?)
}

/// A piece of an address is too much (W7). How many there may be follows from L (W5).
#[inline(always)]
fn octets_of_addresses(addresses: Part) -> Option<usize> {
    addresses.len.is_multiple_of(6).then_some(octets_in(addresses))
}

/// A TTC field with so many octets behind its subtype; None where L is too small for them (W5).
#[inline(always)]
fn octets_of_ttc(body: usize) -> Option<usize> {
    (body <= LONGEST_VALUE - IN_VALUE).then_some(TTC_OCTETS + body)
}

#[inline(always)]
fn header_octets(kind: u8, length: usize) -> [u8; 2] {
    (header(kind, length) as u16).to_be_bytes()
}

/// The octet that states how many addresses there are (T7, T8).
#[inline(always)]
fn count_of(addresses: Part) -> [u8; 1] {
    [(addresses.len / 6) as u8]
}

/// Writes front to back into an output that has exactly the octets that are needed. All parts lie in
/// the text: that was judged before.
struct Pen<'t, 'o> {
    text: &'t [u8],
    rest: &'o mut [u8],
}

impl Pen<'_, '_> {
    /// The TLVs in their order (W1).
    #[inline(always)]
    fn lldpdu(&mut self, description: &Description) {
        self.id(CHASSIS, &description.chassis);
        self.id(PORT, &description.port);
        let [high, low] = description.seconds.to_be_bytes();
        let [a, b] = header_octets(SECONDS, 2);
        self.put([a, b, high, low]);
        if description.seconds != 0 {
            self.later(description);
        }
        self.put(header_octets(END, 0));
    }

    #[inline(always)]
    fn later(&mut self, description: &Description) {
        self.if_any(DESCRIPTION, description.words);
        self.if_any(SYSTEM_NAME, description.system_name);
        self.if_any(SYSTEM_DESCRIPTION, description.system_description);
        if let Some(Capabilities { can, enabled }) = description.capabilities {
            let [high, low] = header_octets(CAPABILITIES, 4);
            let ([a, b], [c, d]) = (can.to_be_bytes(), enabled.to_be_bytes());
            self.put([high, low, a, b, c, d]);
        }
        for address in description.management.given() {
            self.if_any(MANAGEMENT, *address);
        }
        self.device(CATEGORY, description.category);
        self.device(MANUFACTURER, description.manufacturer);
        self.device(MODEL_NAME, description.model_name);
        self.device(MODEL_NUMBER, description.model_number);
        if let Some(LinkStrings { interface, number, addresses }) = description.link {
            let body = 3 + octets_in(interface) + octets_in(number) + octets_in(addresses);
            self.ttc(LINK, body, [interface.len as u8]);
            self.copy(interface);
            self.put([number.len as u8]);
            self.copy(number);
            self.put(count_of(addresses));
            self.copy(addresses);
        }
        if let Some(extension) = description.extension {
            self.ttc(EXTENSION, octets_in(extension), []);
            self.copy(extension);
        }
        if let Some(addresses) = description.list {
            self.ttc(LIST, 1 + octets_in(addresses), count_of(addresses));
            self.copy(addresses);
        }
    }

    /// A subtype, then octets (L3, L4).
    #[inline(always)]
    fn id(&mut self, kind: u8, id: &Id<Part>) {
        let [high, low] = header_octets(kind, 1 + octets_in(id.octets));
        self.put([high, low, id.subtype]);
        self.copy(id.octets);
    }

    /// An empty string is an absent one (W1).
    #[inline(always)]
    fn if_any(&mut self, kind: u8, part: Part) {
        if part.len != 0 {
            self.put(header_octets(kind, octets_in(part)));
            self.copy(part);
        }
    }

    /// Device information, if its string is not empty (W1).
    #[inline(always)]
    fn device(&mut self, id: u8, string: Part) {
        if string.len != 0 {
            self.ttc(DEVICE, 2 + octets_in(string), [id, string.len as u8]);
            self.copy(string);
        }
    }

    /// The front of a TTC field with so many octets behind its subtype, and the first of these (T1).
    #[inline(always)]
    fn ttc<const N: usize>(&mut self, subtype: u8, body: usize, first: [u8; N]) {
        let [high, low] = header_octets(ORGANIZATION, IN_VALUE + body);
        let front = [high, low, TTC[0], TTC[1], TTC[2], subtype];
        let (here, rest) = std::mem::take(&mut self.rest).split_at_mut(TTC_OCTETS + N);
        here[..TTC_OCTETS].copy_from_slice(&front);
        here[TTC_OCTETS..].copy_from_slice(&first);
        self.rest = rest;
    }

    #[inline(always)]
    fn put<const N: usize>(&mut self, octets: [u8; N]) {
        let (here, rest) = std::mem::take(&mut self.rest).split_at_mut(N);
        here.copy_from_slice(&octets);
        self.rest = rest;
    }

    /// A short part is copied with what stands behind it where both sides have so much: what is too
    /// much is written over by what follows, and a copy of a fixed number of octets is no call.
    #[inline(always)]
    fn copy(&mut self, part: Part) {
        const FIXED: usize = 16;
        let octets = octets_in(part);
        let from = &self.text[part.start as usize..];
        match (from.first_chunk::<FIXED>(), self.rest.first_chunk_mut::<FIXED>()) {
            (Some(from), Some(to)) if octets <= FIXED => *to = *from,
            _ => self.rest[..octets].copy_from_slice(&from[..octets]),
        }
        self.rest = &mut std::mem::take(&mut self.rest)[octets..];
    }
}
