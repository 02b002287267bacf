//! The neighbour table: each call judges the whole table in one pass over its places (N5).
//! The pass notes where identities end and what each port holds, and the call then uses the notes.

use super::octets::are_zeros;
use super::reader::naming_of;
use super::walk::{end_of, Leading};
use crate::reader::{is_group, open_frame, Address, Refusal};
use crate::table::{
    judge_port, octets_of, Reply, Sighting, Table, BUFFER_OCTETS, CHASSIS_HOLDS_THREE, COMMON,
    COMMON_TAKEN, MOST, MOST_OF_A_CHASSIS, PLACES, PLACE_OCTETS, PORTS, PORT_HOLDS_SIX, SURE,
    UNFIT, ZEROS,
};

type Places = [[u8; PLACE_OCTETS]; PLACES];

/// Start looks at the length of the buffer alone (N6).
pub fn start(table: &mut Table, buffer: &mut [u8]) -> Result<(), Refusal> {
    if buffer.len() != BUFFER_OCTETS {
        return Err(UNFIT);
    }
    buffer.fill(0);
    *table = Table::default();
    Ok(())
}

/// Frame on a port (N7). Refusals come in the order of Q1.
pub fn frame_on_port(
    table: &mut Table,
    buffer: &mut [u8],
    port: usize,
    frame: &[u8],
) -> Result<Reply, Refusal> {
    let places = places_of(buffer)?;
    let records = &mut Records::none();
    records.judge(table, places, |_, _| ())?;
    judge_port(port)?;
    let (sender, behind) = open_frame(frame)?;
    let leading = Leading::of(behind)?;
    let lldpdu = &behind[..end_of(behind, leading.end(), |_| ())?];
    let alike = records.alike(places, port, lldpdu, leading.port);
    let place = match (leading.seconds, alike.place) {
        (0, None) => return Ok(Reply::UnknownGoodbye),
        (0, Some(place)) => {
            free(table, buffer, place);
            return Ok(Reply::Gone);
        }
        (_, Some(place)) => place,
        (_, None) => records.place_for_a_new_one(table, port, alike.of_chassis)?,
    };
    put(table, buffer, place, lldpdu);
    table.port[place] = port as u8;
    table.seconds[place] = leading.seconds;
    table.sender[place] = sender;
    Ok(if alike.place.is_some() { Reply::Refreshed } else { Reply::Recorded })
}

/// Seconds passed (N8). A used place of a fit table has seconds left, so that one without them has
/// just lost its last; a free place has none to lose.
pub fn seconds_passed(table: &mut Table, buffer: &mut [u8], seconds: u16) -> Result<(), Refusal> {
    Records::none().judge(table, places_of(buffer)?, |_, _| ())?;
    for left in &mut table.seconds {
        *left = left.saturating_sub(seconds);
    }
    for place in 0..PLACES {
        if table.seconds[place] == 0 && table.length[place] != 0 {
            free(table, buffer, place);
        }
    }
    Ok(())
}

/// Link lost on a port (N9).
pub fn link_lost(table: &mut Table, buffer: &mut [u8], port: usize) -> Result<(), Refusal> {
    let records = &mut Records::none();
    records.judge(table, places_of(buffer)?, |_, _| ())?;
    judge_port(port)?;
    for &place in records.on(port) {
        free(table, buffer, usize::from(place));
    }
    Ok(())
}

/// How many a port holds (N10).
pub fn how_many(table: &Table, buffer: &[u8], port: usize) -> Result<usize, Refusal> {
    let records = &mut Records::none();
    records.judge(table, places_of(buffer)?, |_, _| ())?;
    judge_port(port)?;
    Ok(records.on(port).len())
}

/// Who sees an address, from a place on (N11). It is looked for while the table is judged, so that no
/// place is walked twice.
pub fn who_sees(
    table: &Table,
    buffer: &[u8],
    address: Address,
    from: usize,
) -> Result<Option<Sighting>, Refusal> {
    let mut sighting = None;
    Records::none().judge(table, places_of(buffer)?, |place, value| {
        if place >= from && sighting.is_none() {
            sighting = naming_of(value, &address).map(|naming| Sighting { place, naming });
        }
    })?;
    Ok(sighting)
}

/// Whether the table is fit (N5).
pub fn is_fit(table: &Table, buffer: &[u8]) -> bool {
    places_of(buffer).is_ok_and(|places| Records::none().judge(table, places, |_, _| ()).is_ok())
}

/// The places of a buffer of the right length (N5 a).
#[inline(always)]
fn places_of(buffer: &[u8]) -> Result<&Places, Refusal> {
    let (places, rest) = buffer.as_chunks::<PLACE_OCTETS>();
    places.try_into().ok().filter(|_| rest.is_empty()).ok_or(UNFIT)
}

/// What a fit table holds.
struct Records {
    /// How many each port holds, and at which places.
    held: [u8; PORTS],
    on: [[u8; MOST]; PORTS],
    /// Where the port ID of each place ends. Two records of one port are one neighbour exactly if
    /// their octets up to there are the same: the headers follow from the lengths (L1, N2).
    end: [u16; PLACES],
    common_taken: usize,
}

/// What is known of a neighbour on its port: its place, and how many its chassis holds (N2, N13).
struct Alike {
    place: Option<usize>,
    of_chassis: usize,
}

impl Records {
    fn none() -> Records {
        Records { held: [0; PORTS], on: [[0; MOST]; PORTS], end: [0; PLACES], common_taken: 0 }
    }

    /// Notes what the table holds, or answers 1 where it is not fit (N5). The information strings of
    /// TLVs of type 127 are shown on the way, with their places.
    #[inline(always)]
    fn judge<'b>(
        &mut self,
        table: &Table,
        places: &'b Places,
        mut show: impl FnMut(usize, &'b [u8]),
    ) -> Result<(), Refusal> {
        for place in 0..PLACES {
            if table.length[place] != 0 {
                self.add(table, places, place, |value| show(place, value)).ok_or(UNFIT)?;
            } else if !is_clear(table, places, place) {
                return Err(UNFIT);
            }
        }
        let beyond = |&held: &u8| usize::from(held).saturating_sub(SURE);
        self.common_taken = self.held.iter().map(beyond).sum();
        (self.common_taken <= COMMON).then_some(()).ok_or(UNFIT)
    }

    /// Notes a used place. None where it makes the table unfit (N5 c, d, e, g).
    #[inline(always)]
    fn add<'b>(
        &mut self,
        table: &Table,
        places: &'b Places,
        place: usize,
        show: impl FnMut(&'b [u8]),
    ) -> Option<()> {
        let octets = &places[place];
        let length = usize::from(table.length[place]);
        let port = usize::from(table.port[place]);
        let held = usize::from(*self.held.get(port)?);
        // The walk is let go past the length: an End that is not met exactly there is wrong anyway.
        let leading = Leading::of(octets).ok()?;
        let is_sound = end_of(octets, leading.end(), show) == Ok(length)
            && !is_group(&table.sender[place])
            && table.seconds[place].wrapping_sub(1) < leading.seconds
            && are_zeros(octets.get(length..)?);
        if !is_sound {
            return None;
        }
        let alike = self.alike(places, port, octets, leading.port);
        if alike.place.is_some() || alike.of_chassis >= MOST_OF_A_CHASSIS {
            return None;
        }
        *self.on[port].get_mut(held)? = place as u8;
        self.held[port] += 1;
        self.end[place] = leading.port as u16;
        Some(())
    }

    /// The places of a port.
    #[inline(always)]
    fn on(&self, port: usize) -> &[u8] {
        &self.on[port][..usize::from(self.held[port])]
    }

    /// What the port holds of a neighbour whose port ID ends here in its LLDPDU.
    #[inline(always)]
    fn alike(&self, places: &Places, port: usize, lldpdu: &[u8], end: usize) -> Alike {
        let mut alike = Alike { place: None, of_chassis: 0 };
        for &place in self.on(port) {
            let place = usize::from(place);
            let other = &places[place];
            if is_same_chassis(lldpdu, other) {
                alike.of_chassis += 1;
                if usize::from(self.end[place]) == end && is_same_to(end, lldpdu, other) {
                    alike.place = Some(place);
                }
            }
        }
        alike
    }

    /// The lowest free place, or 13, or 7, or 8, in the order of Q1 (N4, N12, N13).
    fn place_for_a_new_one(
        &self,
        table: &Table,
        port: usize,
        of_chassis: usize,
    ) -> Result<usize, Refusal> {
        if of_chassis >= MOST_OF_A_CHASSIS {
            return Err(CHASSIS_HOLDS_THREE);
        }
        let held = self.on(port).len();
        if held >= MOST {
            return Err(PORT_HOLDS_SIX);
        }
        if held >= SURE && self.common_taken >= COMMON {
            return Err(COMMON_TAKEN);
        }
        let free = table.length.iter().position(|&length| length == 0);
        Ok(free.expect("sure and common places are not all taken"))
    }
}

/// Whether a place of length 0 is as a free one has to be (N5 b).
#[inline(always)]
fn is_clear(table: &Table, places: &Places, place: usize) -> bool {
    table.port[place] == 0
        && table.seconds[place] == 0
        && table.sender[place] == ZEROS
        && are_zeros(&places[place])
}

/// Whether two valid LLDPDUs have one chassis (L3). L, subtype and six octets are one number; for an
/// address of six octets that is all.
#[inline(always)]
fn is_same_chassis(one: &[u8], other: &[u8]) -> bool {
    const OF_SIX: u8 = 7;
    let length = one[1];
    if length == OF_SIX {
        eight_at(one, 1) == eight_at(other, 1)
    } else {
        let end = 2 + usize::from(length);
        length == other[1] && one[2..end] == other[2..end]
    }
}

/// Whether two LLDPDUs of one chassis have the same octets up to the end of their port IDs, which is
/// the same (N2). The last eight octets differ most often, and so they go first.
#[inline(always)]
fn is_same_to(end: usize, one: &[u8], other: &[u8]) -> bool {
    eight_at(one, end - 8) == eight_at(other, end - 8) && one[..end] == other[..end]
}

#[inline(always)]
fn eight_at(octets: &[u8], at: usize) -> u64 {
    u64::from_ne_bytes(*octets[at..].first_chunk().expect("the leading TLVs have more octets"))
}

/// Puts an LLDPDU at a place of a fit table, where zeros stand behind the old one already (N3).
#[inline(always)]
fn put(table: &mut Table, buffer: &mut [u8], place: usize, lldpdu: &[u8]) {
    let octets = &mut buffer[octets_of(place)];
    let old = usize::from(table.length[place]);
    octets[..lldpdu.len()].copy_from_slice(lldpdu);
    if old > lldpdu.len() {
        octets[lldpdu.len()..old].fill(0);
    }
    table.length[place] = lldpdu.len() as u16;
}

/// Frees a place of a fit table (N4).
#[inline(always)]
fn free(table: &mut Table, buffer: &mut [u8], place: usize) {
    put(table, buffer, place, &[]);
    table.port[place] = 0;
    table.seconds[place] = 0;
    table.sender[place] = ZEROS;
}
