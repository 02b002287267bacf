//! Damage: octets flipped and cut; TLVs cut, swapped, doubled, inserted and given another length.
//! Much of it leaves an LLDPDU valid, so that values are compared as well as refusals.

use twin::rng::Rng;

use crate::parts::tlvs;
use crate::sizes::HEADER_OCTETS;

/// One octet is another one, or is gone, or is new, or the rest is cut off.
pub fn octet(rng: &mut Rng, octets: &mut Vec<u8>) {
    if octets.is_empty() {
        return octets.push(rng.octet());
    }
    let at = rng.below(octets.len());
    match rng.below(10) {
        0..=3 => octets[at] ^= 1 << rng.below(8),
        4 => octets[at] = rng.octet(),
        5 => octets[at] = octets[at].wrapping_add(rng.pick(&[1, 0xFF])),
        6 => octets[at] = rng.pick(&[0, 1, 4, 6, 7, 0x7F, 0x80, 0xFE, 0xFF]),
        7 => octets.insert(at, rng.pick(&[0x00, 0x01, 0xFE, 0xFF])),
        8 => drop(octets.remove(at)),
        _ => octets.truncate(at),
    }
}

/// The TLVs of an LLDPDU with their headers, and what stands behind them.
fn pieces(lldpdu: &[u8]) -> (Vec<Vec<u8>>, Vec<u8>) {
    let found = tlvs(lldpdu);
    let end = found.last().map_or(0, |tlv| tlv.start + tlv.length);
    let whole = |tlv: &crate::parts::Tlv| lldpdu[tlv.start - 2..tlv.start + tlv.length].to_vec();
    (found.iter().map(whole).collect(), lldpdu[end..].to_vec())
}

/// Later TLVs of these LLDPDUs, to be put elsewhere.
pub fn stock(lldpdus: &[Vec<u8>]) -> Vec<Vec<u8>> {
    let later = lldpdus.iter().flat_map(|lldpdu| pieces(lldpdu).0.into_iter().skip(3));
    let mut stock: Vec<_> = later.filter(|tlv| tlv.len() <= 120).collect();
    stock.sort();
    stock.dedup();
    stock
}

/// A TLV with a header that tells its true L, which is at most 511 (L1).
pub fn tlv(kind: u8, value: &[u8]) -> Vec<u8> {
    let value = &value[..value.len().min(511)];
    let header = u16::from(kind) << 9 | value.len() as u16;
    [&header.to_be_bytes(), value].concat()
}

/// TLVs that are skipped, with so many octets together, which are not one alone (L9).
pub fn filler(mut octets: usize) -> Vec<u8> {
    let mut tlvs = vec![];
    while octets >= 2 {
        // One octet must not be left over.
        let length = match octets {
            2..=513 => octets - 2,
            514 | 515 => 300,
            _ => 511,
        };
        tlvs.extend(tlv(9, &vec![0x5A; length]));
        octets -= 2 + length;
    }
    tlvs
}

/// An LLDPDU with these octets behind its first three TLVs.
pub fn inserted(lldpdu: &[u8], octets: &[u8]) -> Vec<u8> {
    let third = tlvs(lldpdu)[2];
    let (three, later) = lldpdu.split_at(third.start + third.length);
    [three, octets, later].concat()
}

/// Something happens to the TLVs of an LLDPDU.
pub fn structure(rng: &mut Rng, lldpdu: &mut Vec<u8>, stock: &[Vec<u8>]) {
    let (mut pieces, behind) = pieces(lldpdu);
    if pieces.is_empty() {
        return octet(rng, lldpdu);
    }
    // Mostly behind the first three, where it may leave the LLDPDU valid.
    let first = if pieces.len() > 3 && !rng.once_in(8) { 3 } else { 0 };
    let at = rng.between(first, pieces.len() - 1);
    let other = rng.between(first, pieces.len() - 1);
    let between = rng.between(first.max(3).min(pieces.len()), pieces.len());
    match rng.below(14) {
        0 => drop(pieces.remove(at)),
        1 => pieces.swap(at, other),
        2 => pieces.insert(between, pieces[at].clone()),
        3..=5 => pieces.insert(between, stock[rng.below(stock.len())].clone()),
        6 => {
            // The header tells another L: what follows is read from another octet on.
            let longer = rng.pick(&[1, 2, 6, 255, 511]) * rng.pick(&[1, -1]);
            let header = i32::from(u16::from_be_bytes([pieces[at][0], pieces[at][1]]));
            let header = (header & !511) | ((header + longer) & 511);
            pieces[at][..2].copy_from_slice(&(header as u16).to_be_bytes());
        }
        7 => {
            // Shorter or longer, and the header tells it.
            let mut value = pieces[at].split_off(2);
            let length = rng.pick(&[value.len() + 1, value.len() + 6, value.len() / 2, 255, 256]);
            value.resize(rng.pick(&[length, value.len().saturating_sub(1)]), rng.octet());
            pieces[at] = tlv(pieces[at][0] >> 1, &value);
        }
        8 => pieces[at][0] = rng.pick(&[2, 4, 6, 8, 10, 12, 14, 16, 18, 252, 254]),
        9 => {
            let kind = rng.pick(&[0, 1, 2, 3, 4, 5, 6, 7, 8, 9, 126, 127]);
            let length = rng.pick(&[0, 1, 2, 3, 4, 5, 9, 167, 168, 255, 256, 511]);
            let value = rng.octets(length);
            pieces.insert(between, tlv(kind, &value));
        }
        10 => pieces.insert(between, ttc(rng)),
        _ => {
            let (_, value) = pieces[at].split_at_mut(2);
            if !value.is_empty() {
                let place = rng.below(value.len());
                value[place] = rng.pick(&[0, 1, 2, 3, 4, 5, 6, 7, 31, 32, 255]);
            }
        }
    }
    *lldpdu = [pieces.concat(), behind].concat();
}

/// A TTC field of any subtype, its counts mostly near what they should be (T2 to T11).
fn ttc(rng: &mut Rng) -> Vec<u8> {
    let subtype = rng.pick(&[0, 1, 1, 1, 2, 2, 3, 4, 4, 5, 255]);
    let count = rng.pick(&[0, 0, 1, 2, 3]);
    let (n, m) = (rng.between(0, 5), rng.between(1, 4));
    let addresses = rng.octets(6 * count);
    let link = [&[n as u8], &rng.octets(n)[..], &[m as u8], &rng.octets(m)].concat();
    let near = count + rng.pick(&[0, 0, 0, 1]);
    let mut body = match subtype {
        1 => {
            let id = rng.pick(&[0, 1, 2, 3, 4, 5, 20, 50, 80, 254, 255]);
            let s = rng.pick(&[0, 1, 6, 7, 31, 32, 255]);
            [&[id, s][..], &rng.octets(usize::from(s))].concat()
        }
        2 => [&link, &[near as u8][..], &addresses].concat(),
        3 => [&[near as u8], &addresses[..]].concat(),
        // No items of the addresses, one of the port, and no pairing address.
        _ => [&link, &[6, near as u8, 0][..], &addresses, &[1, 0, 1, 9]].concat(),
    };
    if rng.once_in(6) {
        octet(rng, &mut body);
    }
    tlv(127, &[&[0xE0, 0x27, 0x1A, subtype], &body[..]].concat())
}

/// Something happens to a header: each octet of it is looked at by a rule (F1 to F4).
pub fn header(rng: &mut Rng, frame: &mut [u8]) {
    if frame.len() < HEADER_OCTETS {
        return;
    }
    match rng.below(6) {
        0 => frame[..6].copy_from_slice(&[0x01, 0x80, 0xC2, 0x00, 0x00, 0x0E]),
        1 => frame[..6].copy_from_slice(&[0xFF; 6]),
        2 => frame[6] |= 1,
        3 => frame[6..12].copy_from_slice(&rng.address()),
        4 => frame[rng.below(6)] ^= 1 << rng.below(8),
        _ => frame[12 + rng.below(2)] ^= 1 << rng.below(8),
    }
}
