//! The description that a reading amounts to, with each string as a part of its LLDPDU (X5).
//! The twin reads strings; where they stand is found here, and each part is held against one.

use twin::id::Id;
use twin::reader::{read_lldpdu, Reading};
use twin::writer::{Description, LinkStrings, Management, Part};

/// A TLV: its type, where its information string begins, and L (L1).
#[derive(Clone, Copy)]
pub struct Tlv {
    pub kind: u8,
    pub start: usize,
    pub length: usize,
}

impl Tlv {
    fn end(&self) -> usize {
        self.start + self.length
    }

    /// The part of the information string from there on.
    fn from(&self, at: usize) -> Part {
        part(self.start + at, self.length - at)
    }
}

fn part(start: usize, len: usize) -> Part {
    Part { start: start as u64, len: len as u64 }
}

/// The whole TLVs from the front on, as far as there are any, without the End and what follows it.
pub fn tlvs(lldpdu: &[u8]) -> Vec<Tlv> {
    let mut tlvs = Vec::new();
    let mut at = 0;
    while let Some(&[high, low]) = lldpdu.get(at..at + 2) {
        let header = u16::from_be_bytes([high, low]);
        let (kind, start, length) = ((header >> 9) as u8, at + 2, usize::from(header & 511));
        at = start + length;
        if kind == 0 || at > lldpdu.len() {
            break;
        }
        tlvs.push(Tlv { kind, start, length });
    }
    tlvs
}

/// The parts of a valid LLDPDU that the twin read so.
pub fn description(lldpdu: &[u8], reading: &Reading) -> Description {
    let tlvs = tlvs(lldpdu);
    let [chassis, port, seconds, later @ ..] = tlvs.as_slice() else {
        panic!("the twin reads an LLDPDU without its first three TLVs")
    };
    // What one TLV says is what the twin reads where no other stands behind the first three.
    let alone = |tlv: &Tlv| {
        let three = &lldpdu[..seconds.end()];
        let one = &lldpdu[tlv.start - 2..tlv.end()];
        read_lldpdu(&[three, one, &[0, 0]].concat()).expect("a part of a valid LLDPDU is valid")
    };
    let alone: Vec<(Tlv, Reading)> = later.iter().map(|tlv| (*tlv, alone(tlv))).collect();
    let first = |says: &dyn Fn(&Tlv, &Reading) -> bool| {
        alone.iter().find(|(tlv, reading)| says(tlv, reading)).map(|(tlv, _)| *tlv)
    };
    // An absent string is the part of no octets from 0 on; one with L = 0 is there (T10, S4).
    let string = |tlv: Option<Tlv>, at| tlv.map_or(Part::default(), |tlv| tlv.from(at));
    let text = |kind: u8, read: fn(&Reading) -> &[u8]| {
        let is_right = |tlv: &Tlv, says: &Reading| tlv.length == 0 || !read(says).is_empty();
        match kind {
            // The first that is well formed (A2).
            4 => first(&|tlv, says| tlv.kind == kind && is_right(tlv, says)),
            // The first of its type, or none (S4).
            _ => alone
                .iter()
                .find(|(tlv, _)| tlv.kind == kind)
                .filter(|(tlv, says)| is_right(tlv, says))
                .map(|(tlv, _)| *tlv),
        }
    };
    let management = alone.iter().filter(|(_, says)| !says.management.is_empty()).take(4);
    let id = |tlv: &Tlv| Id { subtype: lldpdu[tlv.start], octets: tlv.from(1) };
    let found = Description {
        chassis: id(chassis),
        port: id(port),
        seconds: reading.outline.seconds,
        words: string(text(4, |says| &says.description), 0),
        category: string(first(&|_, says| !says.category.is_empty()), 6),
        manufacturer: string(first(&|_, says| !says.manufacturer.is_empty()), 6),
        model_name: string(first(&|_, says| !says.model_name.is_empty()), 6),
        model_number: string(first(&|_, says| !says.model_number.is_empty()), 6),
        link: first(&|_, says| says.link.is_some()).map(|tlv| link(lldpdu, &tlv)),
        extension: first(&|_, says| says.extension.is_some()).map(|tlv| tlv.from(4)),
        list: first(&|_, says| says.list.is_some()).map(|tlv| tlv.from(5)),
        system_name: string(text(5, |says| &says.system_name), 0),
        system_description: string(text(6, |says| &says.system_description), 0),
        capabilities: reading.capabilities,
        management: Management::of(management.map(|(tlv, _)| tlv.from(0)).collect()),
    };
    let cut = |part: &Part| {
        let octets = lldpdu.get(part.start as usize..)?.get(..part.len as usize)?;
        Some(octets.to_vec())
    };
    // If this fails, the places that are looked for here are wrong, or the twin is.
    assert_eq!(found.with(cut), Some(Description::read_back(reading)), "parts of {lldpdu:02X?}");
    found
}

/// n, interface type, m, port number, k, addresses, behind the subtype (T7).
fn link(lldpdu: &[u8], tlv: &Tlv) -> LinkStrings {
    let n = usize::from(lldpdu[tlv.start + 4]);
    let m = usize::from(lldpdu[tlv.start + 5 + n]);
    LinkStrings {
        interface: part(tlv.start + 5, n),
        number: part(tlv.start + 6 + n, m),
        addresses: tlv.from(7 + n + m),
    }
}
