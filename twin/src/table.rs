//! The neighbour table of a cell: the places over a lent buffer, and the six calls on them.
//! Each call judges the fitness of what it is handed first, and a refusal changes nothing (Q2).

use std::ops::Range;

use crate::id::Id;
use crate::reader::{
    is_group, name_link, open_frame, outline_lldpdu, Address, Naming, Outline, Refusal,
};

/// The number of ports, which is n in the rules. All sizes of the table follow from it (N1).
pub const PORTS: usize = 10;
pub const LAST_PORT: usize = PORTS - 1;
pub const PLACES: usize = places(PORTS);
pub const LAST_PLACE: usize = PLACES - 1;
pub const PLACE_OCTETS: usize = 1500;
pub const BUFFER_OCTETS: usize = buffer_octets(PORTS);

/// Where each port holds so many, the table is full (N1).
pub const OF_EACH_PORT: usize = 4;

/// What a port holds is counted in an octet (N1).
const _: () = assert!(PORTS >= 1 && PORTS <= 63);

/// What a port can hold at most, what it is sure of, and what all ports share (N12).
pub const MOST: usize = 6;
pub const SURE: usize = 2;
pub const COMMON: usize = common(PORTS);

/// What one chassis can hold at most on a port (N13).
pub const MOST_OF_A_CHASSIS: usize = 3;

/// The sender of a free place (N4); a used place may have it too (N5).
pub(crate) const ZEROS: Address = [0; 6];

pub(crate) const UNFIT: Refusal = 1;
const NO_SUCH_PORT: Refusal = 2;
pub(crate) const PORT_HOLDS_SIX: Refusal = 7;
pub(crate) const COMMON_TAKEN: Refusal = 8;
pub(crate) const CHASSIS_HOLDS_THREE: Refusal = 13;

/// The places of a cell with so many ports (N1).
pub const fn places(ports: usize) -> usize {
    OF_EACH_PORT * ports
}

/// The octets of its buffer (N1).
pub const fn buffer_octets(ports: usize) -> usize {
    PLACE_OCTETS * places(ports)
}

/// Those of its places that are common (N12).
pub const fn common(ports: usize) -> usize {
    2 * ports
}

/// The table's own numbers and the senders; the octets lie in the lent buffer (N1).
#[derive(Clone, Debug, PartialEq, Eq)]
pub struct Table {
    pub port: [u8; PLACES],
    /// Seconds left.
    pub seconds: [u16; PLACES],
    pub length: [u16; PLACES],
    /// The source of the frame that the record's LLDPDU came in (N3).
    pub sender: [Address; PLACES],
}

impl Default for Table {
    /// All places are free (N4).
    fn default() -> Table {
        Table {
            port: [0; PLACES],
            seconds: [0; PLACES],
            length: [0; PLACES],
            sender: [ZEROS; PLACES],
        }
    }
}

/// What becomes of a frame that is not refused (N7).
#[derive(Clone, Copy, Debug, PartialEq, Eq)]
pub enum Reply {
    Recorded,
    Refreshed,
    Gone,
    UnknownGoodbye,
}

/// The place whose record names an address, and where its neighbour has seen it (N11).
#[derive(Clone, Copy, Debug, PartialEq, Eq)]
pub struct Sighting {
    pub place: usize,
    pub naming: Naming,
}

/// Chassis alone is not enough, and of both IDs the subtype and the number of octets count. The
/// sender is no part of it (N2).
#[derive(Clone, Debug, PartialEq, Eq)]
pub(crate) struct Identity {
    receiving_port: u8,
    chassis: Id,
    port: Id,
}

impl Identity {
    fn of(receiving_port: u8, outline: &Outline) -> Identity {
        Identity { receiving_port, chassis: outline.chassis.clone(), port: outline.port.clone() }
    }
}

/// A condition of N5: its letter, and whether a table with its buffer meets it.
type Condition = (char, fn(&Table, &[u8]) -> bool);

/// The first one is judged first: the others rely on the length of the buffer.
const CONDITIONS: [Condition; 7] = [
    ('a', |_, buffer| buffer.len() == BUFFER_OCTETS),
    ('b', Table::free_places_are_clear),
    ('c', Table::used_places_are_sound),
    ('d', Table::no_identity_twice),
    ('e', |table, _| (0..PORTS).all(|port| table.held(port) <= MOST)),
    ('f', |table, _| table.common_taken() <= COMMON),
    ('g', Table::no_chassis_is_too_loud),
];

impl Table {
    /// Start looks at the length of the buffer alone (N6).
    pub fn start(&mut self, buffer: &mut [u8]) -> Result<(), Refusal> {
        if buffer.len() != BUFFER_OCTETS {
            return Err(UNFIT);
        }
        buffer.fill(0);
        *self = Table::default();
        Ok(())
    }

    /// Frame on a port (N7). Refusals come in the order of Q1.
    pub fn frame_on_port(
        &mut self,
        buffer: &mut [u8],
        port: usize,
        frame: &[u8],
    ) -> Result<Reply, Refusal> {
        self.judge(buffer)?;
        judge_port(port)?;
        let (source, behind) = open_frame(frame)?;
        let outline = outline_lldpdu(behind)?;
        let lldpdu = &behind[..outline.length];
        let identity = Identity::of(port as u8, &outline);
        let known =
            self.used().find(|&place| self.identity(buffer, place) == Some(identity.clone()));
        match (outline.seconds, known) {
            (0, None) => Ok(Reply::UnknownGoodbye),
            (0, Some(place)) => {
                self.clear(buffer, place);
                Ok(Reply::Gone)
            }
            (seconds, Some(place)) => {
                self.put(buffer, place, port as u8, seconds, source, lldpdu);
                Ok(Reply::Refreshed)
            }
            (seconds, None) => {
                let place = self.place_for_a_new_one(buffer, port, &outline.chassis)?;
                self.put(buffer, place, port as u8, seconds, source, lldpdu);
                Ok(Reply::Recorded)
            }
        }
    }

    /// Seconds passed (N8).
    pub fn seconds_passed(&mut self, buffer: &mut [u8], seconds: u16) -> Result<(), Refusal> {
        self.judge(buffer)?;
        for place in 0..PLACES {
            if self.seconds[place] > seconds {
                self.seconds[place] -= seconds;
            } else {
                // A free place is freed again, which changes nothing.
                self.clear(buffer, place);
            }
        }
        Ok(())
    }

    /// Link lost on a port (N9).
    pub fn link_lost(&mut self, buffer: &mut [u8], port: usize) -> Result<(), Refusal> {
        self.judge(buffer)?;
        judge_port(port)?;
        for place in 0..PLACES {
            if usize::from(self.port[place]) == port {
                // Free places have port 0; to free them again changes nothing.
                self.clear(buffer, place);
            }
        }
        Ok(())
    }

    /// How many a port holds (N10).
    pub fn how_many(&self, buffer: &[u8], port: usize) -> Result<usize, Refusal> {
        self.judge(buffer)?;
        judge_port(port)?;
        Ok(self.held(port))
    }

    /// Who sees an address, from a place on (N11). A start behind the last place finds nobody.
    pub fn who_sees(
        &self,
        buffer: &[u8],
        address: Address,
        from: usize,
    ) -> Result<Option<Sighting>, Refusal> {
        self.judge(buffer)?;
        let sighting = self.used().filter(|&place| place >= from).find_map(|place| {
            let naming = name_link(self.lldpdu(buffer, place)?, address).ok()??;
            Some(Sighting { place, naming })
        });
        Ok(sighting)
    }

    /// The places that are not free (N4).
    pub fn used(&self) -> impl Iterator<Item = usize> + '_ {
        (0..PLACES).filter(|&place| self.length[place] != 0)
    }

    pub fn free(&self) -> impl Iterator<Item = usize> + '_ {
        (0..PLACES).filter(|&place| self.length[place] == 0)
    }

    pub fn held(&self, port: usize) -> usize {
        self.used().filter(|&place| usize::from(self.port[place]) == port).count()
    }

    /// How many records a chassis holds on a port (N13).
    pub fn held_by(&self, buffer: &[u8], port: usize, chassis: &Id) -> usize {
        held_among(&self.identities(buffer), port, chassis)
    }

    /// The sum over the ports of what each holds beyond its sure places (N5, N12).
    pub fn common_taken(&self) -> usize {
        (0..PORTS).map(|port| self.held(port).saturating_sub(SURE)).sum()
    }

    /// What the record at a place announces; none where no whole valid LLDPDU of exactly its length
    /// stands there (N5).
    pub fn outline(&self, buffer: &[u8], place: usize) -> Option<Outline> {
        let lldpdu = self.lldpdu(buffer, place)?;
        outline_lldpdu(lldpdu).ok().filter(|outline| outline.length == lldpdu.len())
    }

    /// A table that is not fit (N5) is refused by every call but Start (R1).
    pub(crate) fn judge(&self, buffer: &[u8]) -> Result<(), Refusal> {
        let fit = CONDITIONS.iter().all(|(_, is_met)| is_met(self, buffer));
        fit.then_some(()).ok_or(UNFIT)
    }

    /// The letters of the conditions of N5 that are not met. With a buffer of a wrong length only
    /// the first one is judged.
    pub fn breaches(&self, buffer: &[u8]) -> Vec<char> {
        let conditions = if buffer.len() == BUFFER_OCTETS { &CONDITIONS } else { &CONDITIONS[..1] };
        let broken = conditions.iter().filter(|(_, is_met)| !is_met(self, buffer));
        broken.map(|&(letter, _)| letter).collect()
    }

    fn free_places_are_clear(&self, buffer: &[u8]) -> bool {
        self.free().all(|place| {
            self.port[place] == 0
                && self.seconds[place] == 0
                && self.sender[place] == ZEROS
                && buffer[octets_of(place)].iter().all(|&octet| octet == 0)
        })
    }

    fn used_places_are_sound(&self, buffer: &[u8]) -> bool {
        self.used().all(|place| {
            let Some(outline) = self.outline(buffer, place) else {
                return false;
            };
            usize::from(self.port[place]) < PORTS
                && !is_group(&self.sender[place])
                && (1..=outline.seconds).contains(&self.seconds[place])
                && buffer[octets_of(place)][outline.length..].iter().all(|&octet| octet == 0)
        })
    }

    fn no_identity_twice(&self, buffer: &[u8]) -> bool {
        let identities = self.identities(buffer);
        let twice = |(i, identity)| identities[..i].contains(identity);
        !identities.iter().enumerate().any(twice)
    }

    fn no_chassis_is_too_loud(&self, buffer: &[u8]) -> bool {
        let identities = self.identities(buffer);
        identities.iter().all(|Identity { receiving_port, chassis, .. }| {
            held_among(&identities, usize::from(*receiving_port), chassis) <= MOST_OF_A_CHASSIS
        })
    }

    fn identities(&self, buffer: &[u8]) -> Vec<Identity> {
        self.used().filter_map(|place| self.identity(buffer, place)).collect()
    }

    pub(crate) fn identity(&self, buffer: &[u8], place: usize) -> Option<Identity> {
        Some(Identity::of(self.port[place], &self.outline(buffer, place)?))
    }

    /// As many octets of the place as its length says; none where it has not so many.
    pub(crate) fn lldpdu<'b>(&self, buffer: &'b [u8], place: usize) -> Option<&'b [u8]> {
        buffer[octets_of(place)].get(..usize::from(self.length[place]))
    }

    /// The lowest free place, or 13, or 7, or 8, in the order of Q1 (N4, N12, N13). A fit table has a
    /// free place where none is due: its 4n places are two sure ones for each of n ports and 2n common
    /// ones.
    fn place_for_a_new_one(
        &self,
        buffer: &[u8],
        port: usize,
        chassis: &Id,
    ) -> Result<usize, Refusal> {
        if self.held_by(buffer, port, chassis) >= MOST_OF_A_CHASSIS {
            return Err(CHASSIS_HOLDS_THREE);
        }
        let held = self.held(port);
        if held >= MOST {
            return Err(PORT_HOLDS_SIX);
        }
        if held >= SURE && self.common_taken() >= COMMON {
            return Err(COMMON_TAKEN);
        }
        Ok(self.free().next().expect("sure and common places are not all taken"))
    }

    /// The LLDPDU through its End, then zeros; of the header the source alone (N3).
    pub(crate) fn put(
        &mut self,
        buffer: &mut [u8],
        place: usize,
        port: u8,
        seconds: u16,
        sender: Address,
        lldpdu: &[u8],
    ) {
        self.port[place] = port;
        self.seconds[place] = seconds;
        self.length[place] = lldpdu.len() as u16;
        self.sender[place] = sender;
        let (kept, behind) = buffer[octets_of(place)].split_at_mut(lldpdu.len());
        kept.copy_from_slice(lldpdu);
        behind.fill(0);
    }

    /// Numbers 0, a sender of six zeros and octets 0 (N4).
    fn clear(&mut self, buffer: &mut [u8], place: usize) {
        self.put(buffer, place, 0, 0, ZEROS, &[]);
    }
}

/// How many of these records a chassis holds on a port, whatever their port IDs are (N13).
fn held_among(records: &[Identity], port: usize, chassis: &Id) -> usize {
    let is_of_it = |record: &&Identity| {
        usize::from(record.receiving_port) == port && record.chassis == *chassis
    };
    records.iter().filter(is_of_it).count()
}

pub(crate) fn judge_port(port: usize) -> Result<(), Refusal> {
    (port < PORTS).then_some(()).ok_or(NO_SUCH_PORT)
}

/// The octets of a place in the buffer (N1).
pub fn octets_of(place: usize) -> Range<usize> {
    PLACE_OCTETS * place..PLACE_OCTETS * (place + 1)
}
