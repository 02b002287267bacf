//! Extension link information: whether its octets are well formed (T11), and whom they name (A4).
//! One walk does both, and a count is believed only as far as octets stand behind it (L2).

use crate::reader::{short_string, Address, Naming};

pub fn is_well_formed(octets: &[u8]) -> bool {
    strings(octets, |_| ()).is_some()
}

/// Where the address is seen; none where the octets are not well formed either (A4).
pub fn naming(octets: &[u8], address: &Address) -> Option<Naming> {
    let mut is_named = false;
    let (interface, number) = strings(octets, |found| is_named |= found == address)?;
    is_named.then(|| Naming::of(interface, number))
}

/// Interface type and port number of well-formed octets. The k addresses are shown on the way, before
/// it is known that all is well formed.
#[inline(always)]
fn strings(octets: &[u8], mut show: impl FnMut(&[u8])) -> Option<(&[u8], &[u8])> {
    let (interface, behind) = short_string(octets)?;
    let (number, behind) = short_string(behind)?;
    let (&[p, k, c], mut rest) = behind.split_first_chunk()?;
    if p == 0 && k > 0 {
        return None;
    }
    for _ in 0..k {
        let (address, behind) = rest.split_at_checked(usize::from(p))?;
        show(address);
        rest = behind_items(behind, c)?;
    }
    let (&[d, q], behind) = rest.split_first_chunk()?;
    let behind = behind.get(usize::from(q) * usize::from(p)..)?;
    let is_whole = behind_items(behind, d)?.is_empty() && (p > 0 || q == 0);
    is_whole.then_some((interface, number))
}

/// What follows so many items; none where they run out.
#[inline(always)]
fn behind_items(octets: &[u8], count: u8) -> Option<&[u8]> {
    let mut at = 0;
    for _ in 0..count {
        at += 1 + usize::from(*octets.get(at)?);
    }
    octets.get(at..)
}
