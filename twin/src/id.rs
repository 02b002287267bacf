//! An ID: the chassis ID or the port ID of an LLDPDU, which have one shape (L3, L4).
//! Both are cut, compared, written and printed in the same way; only what they may be differs.

use crate::numbers::*;

/// A subtype and octets. The octets are the ID's own, or a part of a text.
#[derive(Clone, Debug, PartialEq, Eq)]
pub struct Id<S = Vec<u8>> {
    pub subtype: u8,
    pub octets: S,
}

impl<S> Id<S> {
    /// The same with its octets turned into something else; None if they cannot be.
    pub fn with<T>(&self, turned: impl FnOnce(&S) -> Option<T>) -> Option<Id<T>> {
        Some(Id { subtype: self.subtype, octets: turned(&self.octets)? })
    }
}

impl<S: AsRef<[u8]>> Id<S> {
    /// Whether it may stand in a TLV of this type: as the chassis ID (L3), or as the port ID (L4).
    pub fn may_stand_in(&self, kind: u8) -> bool {
        let octets = self.octets.as_ref();
        match (kind, self.subtype, octets.len()) {
            (CHASSIS, ADDRESS, 6 | 8) => true,
            (CHASSIS, LOCAL, 2..=64) => {
                octets.len().is_multiple_of(2) && octets.iter().all(is_hex_character)
            }
            (PORT, 1..=7, 1..=255) => true,
            _ => false,
        }
    }
}

/// Small letters are none (L3).
fn is_hex_character(octet: &u8) -> bool {
    matches!(octet, b'0'..=b'9' | b'A'..=b'F')
}
