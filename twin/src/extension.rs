//! Extension link information: what its octets behind the subtype say (T11), and what they can be
//! asked for (A6). A count is believed only as far as octets stand behind it (L2).

use crate::reader::{short_string, Address};

/// What well-formed octets say. The default, no octets and zeros, is said of all others (A6).
#[derive(Clone, Debug, Default, PartialEq, Eq)]
pub struct Extension {
    pub interface: Vec<u8>,
    pub number: Vec<u8>,
    /// The number of octets of each address. It is kept where there is none (T11).
    pub p: u8,
    /// The number of items of each address, kept in the same way.
    pub c: u8,
    /// The k addresses with their items.
    pub entries: Vec<Entry>,
    /// The q pairing addresses.
    pub pairings: Vec<Vec<u8>>,
    /// The d items of the port.
    pub items: Vec<Vec<u8>>,
}

/// An address of p octets and the data of its c items.
#[derive(Clone, Debug, PartialEq, Eq)]
pub struct Entry {
    pub address: Vec<u8>,
    pub items: Vec<Vec<u8>>,
}

impl Extension {
    /// None where the octets are not well formed (T11).
    pub fn of(octets: &[u8]) -> Option<Extension> {
        let (interface, behind) = short_string(octets)?;
        let (number, behind) = short_string(behind)?;
        let rest = &mut &*behind;
        let p = take_number(rest)?;
        let k = take_number(rest)?;
        let c = take_number(rest)?;
        let entries = take_each(k, || {
            Some(Entry { address: take(rest, p)?, items: take_each(c, || take_item(rest))? })
        })?;
        let d = take_number(rest)?;
        let q = take_number(rest)?;
        let pairings = take_each(q, || take(rest, p))?;
        let items = take_each(d, || take_item(rest))?;
        let addresses_have_octets = p > 0 || (k == 0 && q == 0);
        (rest.is_empty() && addresses_have_octets).then(|| Extension {
            interface: interface.to_vec(),
            number: number.to_vec(),
            p,
            c,
            entries,
            pairings,
            items,
        })
    }

    /// What any octets say when they are asked (A6).
    pub fn asked(octets: &[u8]) -> Extension {
        Extension::of(octets).unwrap_or_default()
    }

    /// Addresses of another number of octets than six are not named, and pairing addresses are not
    /// either (A4).
    pub fn names(&self, address: Address) -> bool {
        self.entries.iter().any(|entry| entry.address == address)
    }

    /// The address of this number; no octets where there is none (A6).
    pub fn address(&self, i: usize) -> &[u8] {
        self.entries.get(i).map_or(&[], |entry| &entry.address)
    }

    /// An item of an address. One that is not there shows as one of length 0 does (T13).
    pub fn item(&self, i: usize, j: usize) -> &[u8] {
        self.entries.get(i).map_or(&[], |entry| octets_at(&entry.items, j))
    }

    pub fn pairing(&self, i: usize) -> &[u8] {
        octets_at(&self.pairings, i)
    }

    /// An item of the port.
    pub fn port_item(&self, j: usize) -> &[u8] {
        octets_at(&self.items, j)
    }
}

fn octets_at(strings: &[Vec<u8>], number: usize) -> &[u8] {
    strings.get(number).map_or(&[], Vec::as_slice)
}

/// So many octets off the front.
fn take(rest: &mut &[u8], count: u8) -> Option<Vec<u8>> {
    let (taken, behind) = rest.split_at_checked(usize::from(count))?;
    *rest = behind;
    Some(taken.to_vec())
}

fn take_number(rest: &mut &[u8]) -> Option<u8> {
    take(rest, 1).map(|octets| octets[0])
}

/// A length and that many octets of data (T11).
fn take_item(rest: &mut &[u8]) -> Option<Vec<u8>> {
    let length = take_number(rest)?;
    take(rest, length)
}

/// So many of them; none where the octets run out before the last.
fn take_each<T>(count: u8, mut one: impl FnMut() -> Option<T>) -> Option<Vec<T>> {
    (0..count).map(|_| one()).collect()
}
