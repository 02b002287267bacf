//! The walk over the TLVs of an LLDPDU: where its parts end, or which refusal is due.
//! It goes by headers alone. A TLV that runs past the octets is noticed where the next one begins.

use super::octets::are_hex_characters;
use crate::numbers::*;
use crate::reader::{Refusal, BAD_LATER_TLV, BAD_LEADING_TLV, RUNS_OUT};

/// The octets of a header (L1).
pub const HEADER: usize = 2;

/// A header as a number: seven bits of type, nine bits of length (L1). A wider number than it needs
/// spares cuts to sixteen bits.
pub const fn header(kind: u8, length: usize) -> u32 {
    (kind as u32) << 9 | length as u32
}

/// The length L that a header says (L1).
pub fn length_of(header: u32) -> usize {
    (header % 512) as usize
}

/// The header that begins here. None where it is not all there (R5).
#[inline(always)]
pub fn header_at(octets: &[u8], at: usize) -> Option<u32> {
    let last = octets.len().checked_sub(1)?;
    (at < last).then(|| u32::from(u16::from_be_bytes([octets[at], octets[at + 1]])))
}

/// Where the leading TLVs end, from the first octet of the LLDPDU, and its seconds (L3 to L5).
pub struct Leading {
    pub chassis: usize,
    pub port: usize,
    pub seconds: u16,
}

impl Leading {
    #[inline(always)]
    pub fn of(octets: &[u8]) -> Result<Leading, Refusal> {
        let chassis = end_of_chassis(octets)?;
        let port = end_of_port(octets, chassis)?;
        Ok(Leading { chassis, port, seconds: seconds_at(octets, port)? })
    }

    /// Where the later TLVs begin (L6).
    #[inline(always)]
    pub fn end(&self) -> usize {
        self.port + HEADER + 2
    }
}

/// A header and where its TLV ends. Running out goes before all else at one TLV (Q1).
#[inline(always)]
fn whole_at(octets: &[u8], at: usize) -> Result<(u32, usize), Refusal> {
    let header = header_at(octets, at).ok_or(RUNS_OUT)?;
    let end = at + HEADER + length_of(header);
    if end <= octets.len() {
        Ok((header, end))
    } else {
        Err(RUNS_OUT)
    }
}

#[inline(always)]
fn end_of_chassis(octets: &[u8]) -> Result<usize, Refusal> {
    const OF_SIX: u32 = header(CHASSIS, 7);
    const OF_EIGHT: u32 = header(CHASSIS, 9);
    let (header, end) = whole_at(octets, 0)?;
    let value = &octets[HEADER..end];
    match (value.first(), header) {
        (Some(&ADDRESS), OF_SIX) => Ok(HEADER + 7),
        (Some(&ADDRESS), OF_EIGHT) => Ok(HEADER + 9),
        (Some(&LOCAL), _) if is_local_chassis(header, value) => Ok(end),
        _ => Err(BAD_LEADING_TLV),
    }
}

/// One to 32 pairs of characters behind the subtype (L3). Out of line, since it is rare.
#[cold]
fn is_local_chassis(head: u32, value: &[u8]) -> bool {
    (header(CHASSIS, 3)..=header(CHASSIS, 65)).contains(&head)
        && value.len() % 2 == 1
        && are_hex_characters(&value[1..])
}

#[inline(always)]
fn end_of_port(octets: &[u8], at: usize) -> Result<usize, Refusal> {
    let (found, end) = whole_at(octets, at)?;
    let is_right = (header(PORT, 2)..=header(PORT, 256)).contains(&found)
        && matches!(octets[at + HEADER], 1..=7);
    is_right.then_some(end).ok_or(BAD_LEADING_TLV)
}

#[inline(always)]
fn seconds_at(octets: &[u8], at: usize) -> Result<u16, Refusal> {
    let (found, end) = whole_at(octets, at)?;
    if found != header(SECONDS, 2) {
        return Err(BAD_LEADING_TLV);
    }
    Ok(u16::from_be_bytes([octets[end - 2], octets[end - 1]]))
}

/// Where the LLDPDU ends, its later TLVs beginning here (L6 to L10). The information strings of TLVs
/// of type 127 are shown on the way, front to back.
#[inline(always)]
pub fn end_of<'a>(
    octets: &'a [u8],
    mut at: usize,
    mut show: impl FnMut(&'a [u8]),
) -> Result<usize, Refusal> {
    loop {
        let found = header_at(octets, at).ok_or(RUNS_OUT)?;
        let start = at + HEADER;
        at = start + length_of(found);
        if stops(found) {
            return stop(octets, found, at);
        }
        if found >= header(ORGANIZATION, 0) {
            octets.get(start..at).map(&mut show);
        }
    }
}

/// Whether a header is an End or wrong between the third TLV and the End (R6).
#[inline(always)]
pub fn stops(found: u32) -> bool {
    found < header(DESCRIPTION, 0) || found.wrapping_sub(header(ORGANIZATION, 0)) < 4
}

/// What a walk that stops here answers: where the LLDPDU ends, or 5, or 6 (Q1).
#[inline(always)]
pub fn stop(octets: &[u8], found: u32, end: usize) -> Result<usize, Refusal> {
    if end > octets.len() {
        Err(RUNS_OUT)
    } else if found == header(END, 0) {
        Ok(end)
    } else {
        Err(BAD_LATER_TLV)
    }
}
