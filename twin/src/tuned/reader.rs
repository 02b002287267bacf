//! The reader: a frame or a bare LLDPDU becomes borrowed values, or a refusal number.
//! One walk finds the refusal and the values at once.

use super::extension;
use super::octets::are_words;
use super::walk::{end_of, header, header_at, length_of, stop, stops, Leading, HEADER};
use crate::id::Id;
use crate::numbers::*;
use crate::reader::{
    self, capabilities_of, lengths_of, open_frame, short_string, Address, Capabilities, Naming,
    Refusal, LONGEST_DESCRIPTION, RUNS_OUT,
};
use crate::writer;

/// At most four management addresses, as plain octets (S3, S5).
pub type Management<'a> = writer::Management<&'a [u8]>;

/// From this type on to 126 TLVs are skipped (L9).
const FIRST_SKIPPED: u8 = MANAGEMENT + 1;

const NO_MANAGEMENT: Management<'static> = Management { count: 0, slots: [&[]; MOST_MANAGEMENT] };

/// What every valid LLDPDU has (A1), borrowed from it.
#[derive(Clone, Debug, PartialEq, Eq)]
pub struct Outline<'a> {
    /// Octets of the LLDPDU through its End TLV; padding is not counted (L8).
    pub length: usize,
    pub chassis: Id<&'a [u8]>,
    pub port: Id<&'a [u8]>,
    pub seconds: u16,
}

/// All that the reader answers (A1), borrowed from the LLDPDU. What is absent is as in the plain
/// reading.
#[derive(Clone, Debug, PartialEq, Eq)]
pub struct Reading<'a> {
    pub outline: Outline<'a>,
    pub htip: bool,
    pub description: &'a [u8],
    pub category: &'a [u8],
    pub manufacturer: &'a [u8],
    pub model_name: &'a [u8],
    pub model_number: &'a [u8],
    pub link: Option<Link<'a>>,
    /// Extension link information: its octets behind the subtype (A6).
    pub extension: Option<&'a [u8]>,
    pub list: Option<&'a [Address]>,
    pub system_name: &'a [u8],
    pub system_description: &'a [u8],
    pub capabilities: Option<Capabilities>,
    pub management: Management<'a>,
}

/// Link information (T7).
#[derive(Clone, Debug, PartialEq, Eq)]
pub struct Link<'a> {
    pub interface: &'a [u8],
    pub number: &'a [u8],
    pub addresses: &'a [Address],
}

pub fn read_frame(frame: &[u8]) -> Result<Reading<'_>, Refusal> {
    let (_, behind) = open_frame(frame)?;
    read_lldpdu(behind)
}

pub fn outline_frame(frame: &[u8]) -> Result<Outline<'_>, Refusal> {
    let (_, behind) = open_frame(frame)?;
    outline_lldpdu(behind)
}

pub fn outline_lldpdu(lldpdu: &[u8]) -> Result<Outline<'_>, Refusal> {
    let leading = Leading::of(lldpdu)?;
    let length = end_of(lldpdu, leading.end(), |_| ())?;
    Ok(Outline { length, ..Outline::without_end(lldpdu, &leading) })
}

#[inline]
pub fn read_lldpdu(lldpdu: &[u8]) -> Result<Reading<'_>, Refusal> {
    let leading = Leading::of(lldpdu)?;
    let mut reading = Reading::of(Outline::without_end(lldpdu, &leading));
    let mut management = NO_MANAGEMENT;
    reading.outline.length = reading.read_later(lldpdu, leading.end(), &mut management)?;
    Ok(Reading { management, ..reading })
}

/// As the plain one (A4). The walk goes on behind the first that names the address, since a later
/// TLV may still be refused.
pub fn name_link(lldpdu: &[u8], address: Address) -> Result<Option<Naming>, Refusal> {
    let leading = Leading::of(lldpdu)?;
    let mut naming = None;
    end_of(lldpdu, leading.end(), |value| {
        if naming.is_none() {
            naming = naming_of(value, &address);
        }
    })?;
    Ok(naming)
}

/// Where the address is seen, by the information string of a TLV of type 127 (A4).
#[inline]
pub fn naming_of(value: &[u8], address: &Address) -> Option<Naming> {
    match ttc_field(value)? {
        (LINK, body) => {
            let link = Link::of(body)?;
            names(link.addresses, address).then(|| Naming::of(link.interface, link.number))
        }
        (EXTENSION, body) => extension::naming(body, address),
        _ => None,
    }
}

/// The last four octets go first, since they differ most often. Eight addresses are one step, so that
/// little but comparisons is left.
#[inline]
fn names(addresses: &[Address], address: &Address) -> bool {
    let last = last_four(address);
    let (eights, rest) = addresses.as_chunks::<8>();
    let may_be_in = |eight: &[Address; 8]| eight.iter().any(|found| last_four(found) == last);
    eights.iter().any(|eight| may_be_in(eight) && eight.contains(address)) || rest.contains(address)
}

#[inline(always)]
fn last_four(&[_, _, a, b, c, d]: &Address) -> u32 {
    u32::from_ne_bytes([a, b, c, d])
}

/// The subtype of a TTC field and what is behind it (T1).
#[inline(always)]
fn ttc_field(value: &[u8]) -> Option<(u8, &[u8])> {
    const CODE: u32 = u32::from_be_bytes([0, TTC[0], TTC[1], TTC[2]]);
    let (code, body) = value.split_first_chunk::<4>()?;
    let code = u32::from_be_bytes(*code);
    (code >> 8 == CODE).then_some((code as u8, body))
}

impl<'a> Outline<'a> {
    /// All but the length.
    #[inline(always)]
    fn without_end(lldpdu: &'a [u8], leading: &Leading) -> Outline<'a> {
        let id = |value: &'a [u8]| Id { subtype: value[0], octets: &value[1..] };
        Outline {
            length: 0,
            chassis: id(&lldpdu[HEADER..leading.chassis]),
            port: id(&lldpdu[leading.chassis + HEADER..leading.port]),
            seconds: leading.seconds,
        }
    }
}

impl<'a> Link<'a> {
    /// None where it is not well formed (T7).
    #[inline(always)]
    fn of(body: &'a [u8]) -> Option<Link<'a>> {
        let (interface, behind) = short_string(body)?;
        let (number, behind) = short_string(behind)?;
        Some(Link { interface, number, addresses: addresses_of(behind)? })
    }
}

/// A count k and then k addresses, ending exactly there (T7, T8).
#[inline(always)]
fn addresses_of(octets: &[u8]) -> Option<&[Address]> {
    let (&k, behind) = octets.split_first()?;
    (behind.len() == 6 * usize::from(k)).then_some(behind.as_chunks().0)
}

/// Types 4 to 7 of which a TLV that counts was met (A2, S4), one bit each.
#[derive(Default)]
struct Met(u8);

impl Met {
    /// Whether this is the first one; from now on it is not.
    fn first(&mut self, kind: u8) -> bool {
        let is_first = self.0 & 1 << kind == 0;
        self.0 |= 1 << kind;
        is_first
    }
}

/// Keeps a string of IDs 1 to 4. None of them is empty (T3), so that an empty one is not yet there.
#[inline(always)]
fn keep<'a>(known: &mut &'a [u8], string: &'a [u8]) -> bool {
    let is_first = known.is_empty();
    if is_first {
        *known = string;
    }
    is_first
}

/// The first four of a right length (S3, S5).
#[inline(always)]
fn read_management<'a>(management: &mut Management<'a>, value: &'a [u8]) {
    if let Some(slot) = management.slots.get_mut(management.count as usize) {
        if MANAGEMENT_LENGTHS.contains(&value.len()) {
            *slot = value;
            management.count += 1;
        }
    }
}

impl<'a> Reading<'a> {
    #[inline(always)]
    fn of(outline: Outline<'a>) -> Reading<'a> {
        Reading {
            outline,
            htip: false,
            description: &[],
            category: &[],
            manufacturer: &[],
            model_name: &[],
            model_number: &[],
            link: None,
            extension: None,
            list: None,
            system_name: &[],
            system_description: &[],
            capabilities: None,
            management: NO_MANAGEMENT,
        }
    }

    /// Reads the later TLVs, from here on, and answers where the LLDPDU ends. Management addresses are
    /// counted into a value of their own: whatever is found by a number cannot be kept in registers,
    /// and nothing beside it can.
    #[inline(always)]
    fn read_later(
        &mut self,
        lldpdu: &'a [u8],
        mut at: usize,
        management: &mut Management<'a>,
    ) -> Result<usize, Refusal> {
        let mut met = Met::default();
        let mut spoiled = false;
        loop {
            let found = header_at(lldpdu, at).ok_or(RUNS_OUT)?;
            let start = at + HEADER;
            at = start + length_of(found);
            if (header(FIRST_SKIPPED, 0)..header(ORGANIZATION, 0)).contains(&found) {
                continue;
            }
            if stops(found) {
                let end = stop(lldpdu, found, at)?;
                // A string of IDs 1 to 4 is never empty (T3), so an empty one is absent (H1).
                self.htip = !spoiled && !self.category.is_empty() && !self.model_number.is_empty();
                return Ok(end);
            }
            let value = lldpdu.get(start..at).ok_or(RUNS_OUT)?;
            if found >= header(ORGANIZATION, 0) {
                spoiled |= !self.read_organization(value);
            } else if found < header(SYSTEM_NAME, 0) {
                spoiled |= !self.read_description(value, &mut met);
            } else if found < header(MANAGEMENT, 0) {
                self.read_system_field((found >> 9) as u8, value, &mut met);
            } else {
                read_management(management, value);
            }
        }
    }

    /// False where it spoils the verdict (H1), as for all below.
    #[inline(always)]
    fn read_organization(&mut self, value: &'a [u8]) -> bool {
        match ttc_field(value) {
            Some((DEVICE, body)) => self.read_device(body),
            Some((LINK, body)) => match Link::of(body) {
                Some(link) => {
                    self.link.get_or_insert(link);
                    true
                }
                None => false,
            },
            Some((LIST, body)) => match addresses_of(body) {
                Some(addresses) => {
                    self.list.get_or_insert(addresses);
                    true
                }
                None => false,
            },
            Some((EXTENSION, body)) => {
                // Behind the first well-formed one no other is looked at: it spoils nothing (T11).
                if self.extension.is_none() && extension::is_well_formed(body) {
                    self.extension = Some(body);
                }
                true
            }
            _ => true,
        }
    }

    /// Device information (T2 to T6). A second one of IDs 1 to 4 spoils the verdict (H1).
    #[inline(always)]
    fn read_device(&mut self, body: &'a [u8]) -> bool {
        match body {
            [VENDOR, ..] => true,
            [id, s, string @ ..] if string.len() == usize::from(*s) => {
                if !lengths_of(*id).contains(s) {
                    return false;
                }
                match *id {
                    CATEGORY => keep(&mut self.category, string),
                    MANUFACTURER => keep(&mut self.manufacturer, string),
                    MODEL_NAME => keep(&mut self.model_name, string),
                    MODEL_NUMBER => keep(&mut self.model_number, string),
                    _ => true,
                }
            }
            _ => false,
        }
    }

    /// The port description (T10).
    #[inline(always)]
    fn read_description(&mut self, value: &'a [u8], met: &mut Met) -> bool {
        let is_well_formed = value.len() <= LONGEST_DESCRIPTION && are_words(value);
        if is_well_formed && met.first(DESCRIPTION) {
            self.description = value;
        }
        is_well_formed
    }

    /// The standard's own fields but the management addresses (S1, S2, S4).
    #[inline(always)]
    fn read_system_field(&mut self, kind: u8, value: &'a [u8], met: &mut Met) {
        if met.first(kind) {
            let text = if TEXT_LENGTHS.contains(&value.len()) { value } else { &[] };
            match kind {
                SYSTEM_NAME => self.system_name = text,
                SYSTEM_DESCRIPTION => self.system_description = text,
                _ => self.capabilities = capabilities_of(value),
            }
        }
    }

    /// The plain reading with the same values. It is for comparisons, and it allocates.
    pub fn owned(&self) -> reader::Reading {
        reader::Reading {
            outline: self.outline.owned(),
            htip: self.htip,
            description: self.description.to_vec(),
            category: self.category.to_vec(),
            manufacturer: self.manufacturer.to_vec(),
            model_name: self.model_name.to_vec(),
            model_number: self.model_number.to_vec(),
            link: self.link.as_ref().map(Link::owned),
            extension: self.extension.map(<[u8]>::to_vec),
            list: self.list.map(<[Address]>::to_vec),
            system_name: self.system_name.to_vec(),
            system_description: self.system_description.to_vec(),
            capabilities: self.capabilities,
            management: self.management.given().iter().map(|address| address.to_vec()).collect(),
        }
    }
}

impl Outline<'_> {
    /// The plain outline with the same values.
    pub fn owned(&self) -> reader::Outline {
        let id = |id: &Id<&[u8]>| Id { subtype: id.subtype, octets: id.octets.to_vec() };
        reader::Outline {
            length: self.length,
            chassis: id(&self.chassis),
            port: id(&self.port),
            seconds: self.seconds,
        }
    }
}

impl Link<'_> {
    fn owned(&self) -> reader::Link {
        reader::Link {
            interface: self.interface.to_vec(),
            number: self.number.to_vec(),
            addresses: self.addresses.to_vec(),
        }
    }
}
