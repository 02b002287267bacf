//! The reader: a frame or a bare LLDPDU becomes owned values, or a refusal number.
//! TLVs are taken off the front one by one, so that refusals come in the order of the octets.

use std::ops::RangeInclusive;

use crate::extension::Extension;
use crate::id::Id;
use crate::numbers::*;

/// A refusal number: 3 to 6 for a frame, 4 to 6 for a bare LLDPDU (A1). The table adds 1, 2, 7, 8
/// and 13, the writer 9 and 10, the replay 11 and 12.
pub type Refusal = u8;

pub type Address = [u8; 6];

const BAD_HEADER: Refusal = 3;
pub(crate) const BAD_LEADING_TLV: Refusal = 4;
pub(crate) const RUNS_OUT: Refusal = 5;
pub(crate) const BAD_LATER_TLV: Refusal = 6;

const LONGEST_FRAME: usize = 1514;
pub(crate) const LONGEST_DESCRIPTION: usize = 255;
const EVERYONE: Address = [0xFF; 6];
const NEAREST: Address = [0x01, 0x80, 0xC2, 0x00, 0x00, 0x0E];
const LLDP_TYPE: [u8; 2] = [0x88, 0xCC];

/// What every valid LLDPDU has (A1).
#[derive(Clone, Debug, PartialEq, Eq)]
pub struct Outline {
    /// Octets of the LLDPDU through its End TLV; padding is not counted (L8).
    pub length: usize,
    pub chassis: Id,
    pub port: Id,
    pub seconds: u16,
}

/// All that the reader answers (A1). An absent string is empty (A2); an absent table is not an
/// empty one, and absent capabilities are not capabilities with no flag set (A3).
#[derive(Clone, Debug, PartialEq, Eq)]
pub struct Reading {
    pub outline: Outline,
    pub htip: bool,
    pub description: Vec<u8>,
    pub category: Vec<u8>,
    pub manufacturer: Vec<u8>,
    pub model_name: Vec<u8>,
    pub model_number: Vec<u8>,
    pub link: Option<Link>,
    /// Extension link information: its octets behind the subtype, n to the last item (A6).
    pub extension: Option<Vec<u8>>,
    pub list: Option<Vec<Address>>,
    pub system_name: Vec<u8>,
    pub system_description: Vec<u8>,
    pub capabilities: Option<Capabilities>,
    /// Management addresses, at most four (S5), as plain octets (S3).
    pub management: Vec<Vec<u8>>,
}

/// Link information. Interface type and port number are kept as octets: 00 06 is not 06 (T7).
#[derive(Clone, Debug, PartialEq, Eq)]
pub struct Link {
    pub interface: Vec<u8>,
    pub number: Vec<u8>,
    pub addresses: Vec<Address>,
}

/// Two sets of sixteen flags: what the system can do, and what of it is enabled (S2).
#[derive(Clone, Copy, Debug, PartialEq, Eq)]
pub struct Capabilities {
    pub can: u16,
    pub enabled: u16,
}

/// A string of one to four octets as a number, together with its count of octets (A4).
#[derive(Clone, Copy, Debug, PartialEq, Eq)]
pub struct Counted {
    pub count: usize,
    pub value: u32,
}

/// Where a neighbour has seen an address.
#[derive(Clone, Copy, Debug, PartialEq, Eq)]
pub struct Naming {
    pub interface: Counted,
    pub number: Counted,
}

impl Naming {
    pub(crate) fn of(interface: &[u8], number: &[u8]) -> Naming {
        Naming { interface: counted(interface), number: counted(number) }
    }
}

pub fn read_frame(frame: &[u8]) -> Result<Reading, Refusal> {
    let (_, behind) = open_frame(frame)?;
    read_lldpdu(behind)
}

pub fn outline_frame(frame: &[u8]) -> Result<Outline, Refusal> {
    let (_, behind) = open_frame(frame)?;
    outline_lldpdu(behind)
}

pub fn outline_lldpdu(lldpdu: &[u8]) -> Result<Outline, Refusal> {
    Ok(Parts::of(lldpdu)?.outline)
}

pub fn read_lldpdu(lldpdu: &[u8]) -> Result<Reading, Refusal> {
    let Parts { outline, later } = Parts::of(lldpdu)?;
    let fields: Vec<Field> = later.iter().map(Field::of).collect();
    let strings = |id: u8| -> Vec<Vec<u8>> {
        let of_id = |field: &Field| match field {
            Field::Device(found, string) if *found == id => Some(string.clone()),
            _ => None,
        };
        fields.iter().filter_map(of_id).collect()
    };
    let categories = strings(CATEGORY);
    let manufacturers = strings(MANUFACTURER);
    let model_names = strings(MODEL_NAME);
    let model_numbers = strings(MODEL_NUMBER);

    // A malformed twin of IDs 1 to 4 is not counted here, but being malformed it spoils the verdict
    // all the same (H1).
    let htip = !fields.contains(&Field::Malformed)
        && categories.len() == 1
        && manufacturers.len() <= 1
        && model_names.len() <= 1
        && model_numbers.len() == 1;

    // The values are read even where the frame is not HTIP (H2); the first well-formed one counts
    // (A2).
    Ok(Reading {
        outline,
        htip,
        description: fields
            .iter()
            .find_map(|field| match field {
                Field::Description(text) => Some(text.clone()),
                _ => None,
            })
            .unwrap_or_default(),
        category: first_or_empty(categories),
        manufacturer: first_or_empty(manufacturers),
        model_name: first_or_empty(model_names),
        model_number: first_or_empty(model_numbers),
        link: fields.iter().find_map(|field| match field {
            Field::Link(link) => Some(link.clone()),
            _ => None,
        }),
        extension: fields.iter().find_map(|field| match field {
            Field::Extension(octets) => Some(octets.clone()),
            _ => None,
        }),
        list: fields.iter().find_map(|field| match field {
            Field::List(addresses) => Some(addresses.clone()),
            _ => None,
        }),
        system_name: text_of(&later, SYSTEM_NAME),
        system_description: text_of(&later, SYSTEM_DESCRIPTION),
        capabilities: first_of(&later, CAPABILITIES).and_then(capabilities_of),
        management: management_of(&later),
    })
}

/// The first TLV that is well-formed link information of either kind and names the address (A4),
/// whether the frame is HTIP or not.
pub fn name_link(lldpdu: &[u8], address: Address) -> Result<Option<Naming>, Refusal> {
    let parts = Parts::of(lldpdu)?;
    let naming = parts.later.iter().find_map(|tlv| match Field::of(tlv) {
        Field::Link(link) if link.addresses.contains(&address) => {
            Some(Naming::of(&link.interface, &link.number))
        }
        Field::Extension(octets) => Extension::of(&octets)
            .filter(|extension| extension.names(address))
            .map(|extension| Naming::of(&extension.interface, &extension.number)),
        _ => None,
    });
    Ok(naming)
}

/// A frame's source and the octets behind its header. Length, destination, type and then source (F1
/// to F4) are judged before any TLV.
pub fn open_frame(frame: &[u8]) -> Result<(Address, &[u8]), Refusal> {
    let (destination, rest) = frame.split_first_chunk::<6>().ok_or(BAD_HEADER)?;
    let (source, rest) = rest.split_first_chunk::<6>().ok_or(BAD_HEADER)?;
    let (kind, lldpdu) = rest.split_first_chunk::<2>().ok_or(BAD_HEADER)?;
    let right = frame.len() <= LONGEST_FRAME
        && [EVERYONE, NEAREST].contains(destination)
        && *kind == LLDP_TYPE
        && !is_group(source);
    right.then_some((*source, lldpdu)).ok_or(BAD_HEADER)
}

/// The lowest bit of the first octet is set: no station owns such an address (F4).
pub fn is_group(address: &Address) -> bool {
    address[0] & 0x01 != 0
}

/// A TLV with its own copy of its information string (L2): nothing behind it can be read by
/// mistake.
struct Tlv {
    kind: u8,
    value: Vec<u8>,
}

/// Takes one TLV off the front. Running out is judged before type and length are (Q1).
fn take_tlv(rest: &mut &[u8]) -> Result<Tlv, Refusal> {
    let (header, behind) = rest.split_first_chunk::<2>().ok_or(RUNS_OUT)?;
    let joined = u16::from_be_bytes(*header);
    let length = usize::from(joined % 512);
    let (value, behind) = behind.split_at_checked(length).ok_or(RUNS_OUT)?;
    *rest = behind;
    Ok(Tlv { kind: (joined / 512) as u8, value: value.to_vec() })
}

/// A valid LLDPDU: what it must have, and the TLVs between the third and the End.
struct Parts {
    outline: Outline,
    later: Vec<Tlv>,
}

impl Parts {
    fn of(lldpdu: &[u8]) -> Result<Parts, Refusal> {
        let mut rest = lldpdu;
        let chassis = id_of(CHASSIS, &take_tlv(&mut rest)?).ok_or(BAD_LEADING_TLV)?;
        let port = id_of(PORT, &take_tlv(&mut rest)?).ok_or(BAD_LEADING_TLV)?;
        let seconds = seconds_of(&take_tlv(&mut rest)?).ok_or(BAD_LEADING_TLV)?;
        let mut later = Vec::new();
        loop {
            let tlv = take_tlv(&mut rest)?;
            match (tlv.kind, tlv.value.len()) {
                (END, 0) => break,
                (END | CHASSIS | PORT | SECONDS, _) => return Err(BAD_LATER_TLV),
                (ORGANIZATION, 0..=3) => return Err(BAD_LATER_TLV),
                _ => later.push(tlv),
            }
        }
        // What is left is padding (L8).
        let length = lldpdu.len() - rest.len();
        Ok(Parts { outline: Outline { length, chassis, port, seconds }, later })
    }
}

/// The ID of a TLV of this type: a subtype, then octets up to the end of the TLV (L3, L4).
fn id_of(kind: u8, tlv: &Tlv) -> Option<Id> {
    let (&subtype, octets) = tlv.value.split_first()?;
    let id = Id { subtype, octets: octets.to_vec() };
    (tlv.kind == kind && id.may_stand_in(kind)).then_some(id)
}

/// Two octets, high octet first (L5).
fn seconds_of(tlv: &Tlv) -> Option<u16> {
    match (tlv.kind, tlv.value.as_slice()) {
        (SECONDS, &[high, low]) => Some(u16::from_be_bytes([high, low])),
        _ => None,
    }
}

/// What one later TLV means to the reading.
#[derive(PartialEq)]
enum Field {
    Description(Vec<u8>),
    /// One of IDs 1 to 4 with its string.
    Device(u8, Vec<u8>),
    Link(Link),
    /// Well-formed extension link information, as its octets behind the subtype.
    Extension(Vec<u8>),
    List(Vec<Address>),
    /// A port description or a TTC field of subtype 1 to 3 that is not well formed (H1).
    Malformed,
    /// Anything that neither has a value here nor spoils the verdict. Extension link information
    /// that is not well formed is among it (H1), and system fields are: they are read by rules of
    /// their own (S4, S5), and the verdict does not know them.
    Skipped,
}

impl Field {
    fn of(tlv: &Tlv) -> Field {
        let well_formed = match (tlv.kind, tlv.value.as_slice()) {
            (DESCRIPTION, text) => description_of(text),
            (ORGANIZATION, [a, b, c, subtype, body @ ..]) if [*a, *b, *c] == TTC => {
                match *subtype {
                    DEVICE => device_of(body),
                    LINK => link_of(body).map(Field::Link),
                    LIST => addresses_of(body).map(Field::List),
                    EXTENSION => Some(extension_of(body)),
                    _ => Some(Field::Skipped),
                }
            }
            _ => Some(Field::Skipped),
        };
        well_formed.unwrap_or(Field::Malformed)
    }
}

/// An empty description is well formed, since the rule only says "at most" (T10).
fn description_of(text: &[u8]) -> Option<Field> {
    let allowed =
        |octet: &u8| octet.is_ascii_alphanumeric() || b" -'()+,./:=?;!*#@$_%".contains(octet);
    (text.len() <= LONGEST_DESCRIPTION && text.iter().all(allowed))
        .then(|| Field::Description(text.to_vec()))
}

/// ID, string length s, string (T2). What lies behind a vendor's ID is the vendor's: s is not
/// looked at (T6).
fn device_of(body: &[u8]) -> Option<Field> {
    let (&id, behind) = body.split_first()?;
    if id == VENDOR {
        return Some(Field::Skipped);
    }
    let (&s, string) = behind.split_first()?;
    if string.len() != usize::from(s) || !lengths_of(id).contains(&s) {
        return None;
    }
    Some(match id {
        CATEGORY..=MODEL_NUMBER => Field::Device(id, string.to_vec()),
        _ => Field::Skipped,
    })
}

/// The string lengths that an ID allows (T3, T4). Reserved IDs are skipped whatever their length is
/// (T5).
pub(crate) fn lengths_of(id: u8) -> RangeInclusive<u8> {
    match id {
        CATEGORY => 1..=255,
        MANUFACTURER => 1..=6,
        MODEL_NAME | MODEL_NUMBER => 1..=31,
        _ => 0..=255,
    }
}

fn link_of(body: &[u8]) -> Option<Link> {
    let (interface, behind) = short_string(body)?;
    let (number, behind) = short_string(behind)?;
    Some(Link {
        interface: interface.to_vec(),
        number: number.to_vec(),
        addresses: addresses_of(behind)?,
    })
}

/// A count from 1 to 4 and that many octets, parted from what follows (T7, T11).
pub(crate) fn short_string(octets: &[u8]) -> Option<(&[u8], &[u8])> {
    match octets.split_first()? {
        (&count @ 1..=4, behind) => behind.split_at_checked(usize::from(count)),
        _ => None,
    }
}

/// It never spoils the verdict (T11, H1).
fn extension_of(body: &[u8]) -> Field {
    match Extension::of(body) {
        Some(_) => Field::Extension(body.to_vec()),
        None => Field::Skipped,
    }
}

/// A count k and then k addresses, ending exactly there (T7, T8).
fn addresses_of(octets: &[u8]) -> Option<Vec<Address>> {
    let (&k, behind) = octets.split_first()?;
    let (addresses, left_over) = behind.as_chunks::<6>();
    (left_over.is_empty() && addresses.len() == usize::from(k)).then(|| addresses.to_vec())
}

/// The information string of the first TLV of the type; a later one never stands in for it (S4).
fn first_of(later: &[Tlv], kind: u8) -> Option<&[u8]> {
    later.iter().find(|tlv| tlv.kind == kind).map(|tlv| tlv.value.as_slice())
}

/// A system name or a system description; of a wrong length it is absent, and so empty (S1, A2).
fn text_of(later: &[Tlv], kind: u8) -> Vec<u8> {
    let first = first_of(later, kind).filter(|text| TEXT_LENGTHS.contains(&text.len()));
    first.unwrap_or_default().to_vec()
}

/// Exactly four octets, two for each set, high octet first (S2).
pub(crate) fn capabilities_of(value: &[u8]) -> Option<Capabilities> {
    match *value {
        [a, b, c, d] => Some(Capabilities {
            can: u16::from_be_bytes([a, b]),
            enabled: u16::from_be_bytes([c, d]),
        }),
        _ => None,
    }
}

/// The first four of a right length; one of a wrong length is passed over and not counted (S5).
fn management_of(later: &[Tlv]) -> Vec<Vec<u8>> {
    later
        .iter()
        .filter(|tlv| tlv.kind == MANAGEMENT && MANAGEMENT_LENGTHS.contains(&tlv.value.len()))
        .take(MOST_MANAGEMENT)
        .map(|tlv| tlv.value.clone())
        .collect()
}

fn first_or_empty(strings: Vec<Vec<u8>>) -> Vec<u8> {
    strings.into_iter().next().unwrap_or_default()
}

/// High octet first (A4).
fn counted(octets: &[u8]) -> Counted {
    let value = octets.iter().fold(0, |value, &octet| (value << 8) | u32::from(octet));
    Counted { count: octets.len(), value }
}
