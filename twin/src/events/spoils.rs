//! Spoiled tables: from each kept table several in every way that fitness names (N5).
//! Edits are proposed at random; those are taken that break the one condition they are meant for.

use super::desk::{Desk, STORE_OCTETS};
use super::maker::{Agent, Maker};
use super::{Event, Trial};
use crate::frames::blocks::{from_a_group, leading_of, pool, stations, GROUPS};
use crate::id::Id;
use crate::reader::{outline_lldpdu, Address};
use crate::table::{
    buffer_octets, octets_of, BUFFER_OCTETS, COMMON, LAST_PLACE, LAST_PORT, MOST, PLACES,
    PLACE_OCTETS, PORTS, SURE,
};

/// How often a proposal is made before a kept table is given up.
const PROPOSALS: usize = 80;

#[derive(Clone, Copy, Debug, PartialEq, Eq)]
pub enum Way {
    ShorterBuffer,
    LongerBuffer,
    EmptyBuffer,
    FreePort,
    FreeSeconds,
    FreeSender,
    FreeOctet,
    PortBehindTheLast,
    GroupSender,
    LengthAbove1500,
    AnotherLength,
    InvalidLldpdu,
    WrongChassis,
    OctetBehind,
    NoSecondsLeft,
    TooManySecondsLeft,
    IdentityTwice,
    SevenOnAPort,
    OneBeyondTheCommon,
    LoudChassis,
}

impl Way {
    /// Every way, the condition of N5 that it breaks, and how many tables are spoiled so after a
    /// sequence. Two ways need a port with six, or the common places taken, which not all sequences
    /// end with.
    pub const ALL: [(Way, char, usize); 20] = [
        (Way::ShorterBuffer, 'a', 5),
        (Way::LongerBuffer, 'a', 5),
        (Way::EmptyBuffer, 'a', 5),
        (Way::FreePort, 'b', 5),
        (Way::FreeSeconds, 'b', 5),
        (Way::FreeSender, 'b', 5),
        (Way::FreeOctet, 'b', 5),
        (Way::PortBehindTheLast, 'c', 5),
        (Way::GroupSender, 'c', 5),
        (Way::LengthAbove1500, 'c', 5),
        (Way::AnotherLength, 'c', 5),
        (Way::InvalidLldpdu, 'c', 5),
        (Way::WrongChassis, 'c', 5),
        (Way::OctetBehind, 'c', 5),
        (Way::NoSecondsLeft, 'c', 5),
        (Way::TooManySecondsLeft, 'c', 5),
        (Way::IdentityTwice, 'd', 6),
        (Way::SevenOnAPort, 'e', 8),
        (Way::OneBeyondTheCommon, 'f', 15),
        (Way::LoudChassis, 'g', 5),
    ];

    /// The condition of N5 that is broken.
    pub fn letter(self) -> char {
        Way::ALL[self as usize].1
    }
}

impl Maker {
    /// The table as it is now is kept, and spoiled in each way.
    pub fn spoils(&mut self) {
        self.call(Event::Keep);
        for (way, _, tables) in Way::ALL {
            for _ in 0..tables {
                if let Some(edits) = self.edits(way) {
                    self.spoil(way, edits);
                }
            }
        }
    }

    /// The kept table is spoiled by these edits.
    fn spoil(&mut self, way: Way, edits: Vec<Event>) {
        let trial = self.trial(way);
        self.events.extend(edits);
        self.events.push(Event::Spoiled(trial));
    }

    /// The kept table is spoiled: records of a port get a chassis that holds three there (N13).
    pub fn spoil_by_a_loud_chassis(&mut self, places: &[usize], chassis: &Id) {
        let edits = places.iter().flat_map(|&place| {
            let edits = self.chassis_becomes(place, chassis.clone());
            edits.expect("the chassis that it had is as long")
        });
        let edits = edits.collect();
        self.spoil(Way::LoudChassis, edits);
    }

    /// Edits that break the condition of the way and no other; none where they are not found.
    pub fn edits(&mut self, way: Way) -> Option<Vec<Event>> {
        (0..PROPOSALS).find_map(|_| {
            let edits = self.proposal(way)?;
            let mut desk = self.desk.clone();
            for edit in &edits {
                desk.act(edit);
            }
            (desk.table.breaches(desk.buffer()) == [way.letter()]).then_some(edits)
        })
    }

    /// Nothing may hide behind a wrong port, a group address as source, a damaged frame, a start
    /// past the last place, or a chassis that holds three on its port (Q1).
    fn trial(&mut self, way: Way) -> Trial {
        let mut number = match self.rng().below(6) {
            0 => self.random_port(&[PORTS]),
            1 => self.random_start(),
            _ => self.rng().below(PORTS),
        };
        let agent = match self.any_used() {
            Some(place) if self.rng().once_in(2) => {
                let mut agent = self.agent_at(place);
                if self.rng().once_in(2) {
                    number = usize::from(self.desk.table.port[place]);
                    agent.port.octets = b"new".to_vec();
                }
                agent
            }
            _ => self.unseen_agent(number),
        };
        let seconds = self.rng().pick(&[0, 1, 120, 65_535]);
        let mut frame = [self.frames.header(), agent.announcement(seconds, &[])].concat();
        if self.rng().once_in(6) {
            frame = from_a_group(frame);
        }
        if self.rng().once_in(6) {
            frame = self.damaged(frame);
        }
        Trial {
            way,
            number,
            seconds: self.random_seconds_passed(),
            address: self.rng().pick(&pool()),
            frame,
        }
    }

    fn proposal(&mut self, way: Way) -> Option<Vec<Event>> {
        match way {
            Way::ShorterBuffer => Some(vec![self.shorter_buffer()]),
            Way::LongerBuffer => Some(self.longer_buffer()),
            Way::EmptyBuffer => Some(vec![Event::Lend(0)]),
            Way::FreePort => {
                let place = self.any_free()?;
                let some = self.rng().between(1, 255);
                let port = self.rng().pick(&[1, LAST_PORT, PORTS, 255, some]) as u8;
                Some(vec![Event::SetPort { place, port }])
            }
            Way::FreeSeconds => {
                let place = self.any_free()?;
                let some = self.rng().between(1, 65_535) as u16;
                let seconds = self.rng().pick(&[1, 120, 65_535, some]);
                Some(vec![Event::SetSeconds { place, seconds }])
            }
            Way::FreeSender => self.free_sender(),
            Way::FreeOctet => self.free_octet(),
            Way::PortBehindTheLast => self.port_behind_the_last(),
            Way::GroupSender => self.group_sender(),
            Way::LengthAbove1500 => self.length_above_1500(),
            Way::AnotherLength => self.another_length(),
            Way::InvalidLldpdu => self.invalid_lldpdu(),
            Way::WrongChassis => self.chassis_becomes_wrong(),
            Way::OctetBehind => {
                let place = self.any_used()?;
                let length = usize::from(self.desk.table.length[place]);
                let some = self.rng().between(length.min(PLACE_OCTETS - 1), PLACE_OCTETS - 1);
                let behind = self.rng().pick(&[length, some, PLACE_OCTETS - 1]);
                Some(vec![self.octet_becomes(octets_of(place).start + behind)])
            }
            Way::NoSecondsLeft => {
                let place = self.any_used()?;
                Some(vec![Event::SetSeconds { place, seconds: 0 }])
            }
            Way::TooManySecondsLeft => self.too_many_seconds_left(),
            Way::IdentityTwice => self.identity_twice(),
            Way::SevenOnAPort => {
                let ports = self.ports_holding(MOST, MOST);
                self.one_more_on(&ports)
            }
            Way::OneBeyondTheCommon => {
                if self.desk.table.common_taken() < COMMON {
                    return None;
                }
                let ports = self.ports_holding(SURE, MOST - 1);
                self.one_more_on(&ports)
            }
            Way::LoudChassis => self.chassis_becomes_loud(),
        }
    }

    /// An octet becomes one that is not 0.
    fn octet_becomes(&mut self, at: usize) -> Event {
        let some = self.rng().between(1, 255) as u8;
        Event::SetOctet { at, octet: self.rng().pick(&[1, 0x80, 0xFF, some]) }
    }

    /// Fewer octets: among others those of one place, of half of the places, of a cell with two
    /// ports fewer, and of all places but one.
    fn shorter_buffer(&mut self) -> Event {
        Event::Lend(match self.rng().below(7) {
            0 => 1,
            1 => PLACE_OCTETS,
            2 => BUFFER_OCTETS / 2,
            3 => buffer_octets(PORTS - 2),
            4 => BUFFER_OCTETS - PLACE_OCTETS,
            5 => BUFFER_OCTETS - 1,
            _ => self.rng().between(1, BUFFER_OCTETS - 1),
        })
    }

    /// More octets, zeros or with one that is not.
    fn longer_buffer(&mut self) -> Vec<Event> {
        let most = STORE_OCTETS - BUFFER_OCTETS;
        let some = self.rng().between(1, most);
        let octets = BUFFER_OCTETS + self.rng().pick(&[1, 2, PLACE_OCTETS, most, some]);
        let lend = Event::Lend(octets);
        if self.rng().once_in(2) {
            return vec![lend];
        }
        let at = self.rng().between(BUFFER_OCTETS, octets - 1);
        vec![self.octet_becomes(at), lend]
    }

    /// The sender of a free place: mostly one octet of the six alone is not 0; or several are, of a
    /// group address or another.
    fn free_sender(&mut self) -> Option<Vec<Event>> {
        let place = self.any_free()?;
        let some = self.rng().between(1, 255) as u8;
        let mut sender = Address::default();
        sender[self.rng().below(6)] = self.rng().pick(&[1, 2, 0x80, 0xFF, some]);
        let other = self.rng().pick(&[stations(), GROUPS.to_vec()].concat());
        Some(vec![Event::SetSender { place, sender: self.rng().pick(&[sender, sender, other]) }])
    }

    /// An octet of a free place, or a place whose numbers alone become free, with its sender or not. A
    /// place that alone is free is always the one, so that the first and the last are not spared.
    fn free_octet(&mut self) -> Option<Vec<Event>> {
        if self.desk.table.free().count() != 1 && self.rng().once_in(4) {
            let place = self.any_used()?;
            let mut edits = vec![
                Event::SetPort { place, port: 0 },
                Event::SetSeconds { place, seconds: 0 },
                Event::SetLength { place, length: 0 },
            ];
            if self.rng().once_in(2) {
                edits.push(Event::SetSender { place, sender: Address::default() });
            }
            return Some(edits);
        }
        let place = self.any_free()?;
        let some = self.rng().below(PLACE_OCTETS);
        let octet = self.rng().pick(&[0, 1, PLACE_OCTETS - 1, some]);
        Some(vec![self.octet_becomes(octets_of(place).start + octet)])
    }

    /// The next numbers, one with the same low bits, or any.
    fn port_behind_the_last(&mut self) -> Option<Vec<Event>> {
        let place = self.any_used()?;
        let low = usize::from(self.desk.table.port[place]);
        let some = self.rng().between(PORTS, 255);
        let near = [PORTS, PORTS + 1, low | PORTS.next_power_of_two()];
        let far = [low | 128, 255, some];
        let port = self.rng().pick(&[near, far].concat()) as u8;
        Some(vec![Event::SetPort { place, port }])
    }

    /// The sender that is there with the lowest bit of its first octet set, or another group address
    /// (F4).
    fn group_sender(&mut self) -> Option<Vec<Event>> {
        let place = self.any_used()?;
        let mut bit_alone = self.desk.table.sender[place];
        bit_alone[0] |= 0x01;
        let other = self.rng().pick(&GROUPS);
        Some(vec![Event::SetSender { place, sender: self.rng().pick(&[bit_alone, other]) }])
    }

    /// A length that the place has no room for. Where an LLDPDU fills its place, it may even look
    /// whole: its End becomes a TLV of L = 0, and the next place, being free, begins with an End.
    fn length_above_1500(&mut self) -> Option<Vec<Event>> {
        let table = &self.desk.table;
        let full = table.used().find(|&place| {
            usize::from(table.length[place]) == PLACE_OCTETS
                && table.free().any(|free| free == place + 1)
        });
        if let Some(place) = full {
            if self.rng().once_in(2) {
                let end = octets_of(place).end - 2;
                return Some(vec![
                    Event::SetOctet { at: end, octet: 0x0A },
                    Event::SetLength { place, length: PLACE_OCTETS as u16 + 2 },
                ]);
            }
        }
        let place = self.any_used()?;
        let some = self.rng().between(PLACE_OCTETS + 1, 65_535) as u16;
        let wrapped = self.desk.table.length[place] + 2048;
        // The whole buffer, as far as a length can say it.
        let whole = BUFFER_OCTETS.min(65_535) as u16;
        let length = self.rng().pick(&[1_501, 1_502, 3_000, whole, 65_535, wrapped, some]);
        Some(vec![Event::SetLength { place, length }])
    }

    /// The number becomes another one, or an End in the middle makes the LLDPDU end sooner.
    fn another_length(&mut self) -> Option<Vec<Event>> {
        let place = self.any_used()?;
        if self.rng().once_in(3) {
            let later = self.behind_port_id(place) + 4;
            let edits = [later, later + 1].map(|at| Event::SetOctet { at, octet: 0 });
            return Some(edits.to_vec());
        }
        let right = self.desk.table.length[place];
        let some = self.rng().between(1, PLACE_OCTETS) as u16;
        let near = [right - 1, right - 2, right + 1, right + 2];
        let far = [1, 2, PLACE_OCTETS as u16, some];
        let length = self.rng().pick(&[near, far].concat());
        (length <= PLACE_OCTETS as u16).then(|| vec![Event::SetLength { place, length }])
    }

    /// One octet of the LLDPDU becomes another one, and a refusal 4, 5 or 6 is due.
    fn invalid_lldpdu(&mut self) -> Option<Vec<Event>> {
        let place = self.any_used()?;
        let start = octets_of(place).start;
        let mut lldpdu =
            self.desk.buffer()[start..][..usize::from(self.desk.table.length[place])].to_vec();
        let some = self.rng().below(lldpdu.len());
        let leading = self.behind_port_id(place) + 4 - start;
        let front = self.rng().below(leading);
        let at = self.rng().pick(&[some, front, lldpdu.len() - 1, lldpdu.len() - 2]);
        lldpdu[at] = match self.rng().below(3) {
            0 => self.rng().octet(),
            1 => lldpdu[at] ^ (1 << self.rng().below(8)),
            _ => self.rng().pick(&[0x02, 0x04, 0x06, 0xFE]),
        };
        let edit = Event::SetOctet { at: start + at, octet: lldpdu[at] };
        outline_lldpdu(&lldpdu).is_err().then(|| vec![edit])
    }

    /// The chassis alone breaks a rule (L3).
    fn chassis_becomes_wrong(&mut self) -> Option<Vec<Event>> {
        let place = self.any_used()?;
        let right = self.agent_at(place).chassis;
        let wrong = self.wrong_chassis(right);
        self.chassis_becomes(place, wrong)
    }

    /// The chassis of a record becomes another one. What it has more, the port ID has fewer; none
    /// where no port ID has so many (L4).
    fn chassis_becomes(&self, place: usize, chassis: Id) -> Option<Vec<Event>> {
        let Agent { chassis: before, mut port } = self.agent_at(place);
        let rest = (before.octets.len() + port.octets.len()).checked_sub(chassis.octets.len())?;
        port.octets.resize(rest, b'1');
        if (1..=255).contains(&rest) {
            self.ids_become(place, &Agent { chassis, port })
        } else {
            None
        }
    }

    /// Chassis ID and port ID of a record become those of an agent; none where these would have
    /// another number of octets together.
    fn ids_become(&self, place: usize, agent: &Agent) -> Option<Vec<Event>> {
        let start = octets_of(place).start;
        let [chassis, port, _] = leading_of(&agent.chassis, &agent.port, 0);
        let ids = [chassis, port].concat();
        let changes = |(at, octet): (usize, u8)| {
            (self.desk.buffer()[at] != octet).then_some(Event::SetOctet { at, octet })
        };
        (start + ids.len() == self.behind_port_id(place))
            .then(|| (start..).zip(ids).filter_map(changes).collect())
    }

    /// What is left goes up, or the seconds of the LLDPDU go down.
    fn too_many_seconds_left(&mut self) -> Option<Vec<Event>> {
        let place = self.any_used()?;
        let outline = self.desk.table.outline(self.desk.buffer(), place)?;
        let left = self.desk.table.seconds[place];
        if self.rng().once_in(3) {
            let some = self.rng().below(usize::from(left)) as u16;
            let fewer = self.rng().pick(&[left - 1, some, 0]);
            return Some(self.seconds_become(place, fewer));
        }
        let some = self.rng().between(usize::from(outline.seconds), 65_535) as u16;
        let seconds = self.rng().pick(&[outline.seconds.saturating_add(1), some, 65_535]);
        Some(vec![Event::SetSeconds { place, seconds }])
    }

    /// Where the third TLV of the LLDPDU at a place begins (L3 to L5).
    fn behind_port_id(&self, place: usize) -> usize {
        let Agent { chassis, port } = self.agent_at(place);
        octets_of(place).start + (3 + chassis.octets.len()) + (3 + port.octets.len())
    }

    /// The seconds of the LLDPDU at a place, behind the port ID (L5).
    fn seconds_become(&mut self, place: usize, seconds: u16) -> Vec<Event> {
        let at = self.behind_port_id(place) + 2;
        let [high, low] = seconds.to_be_bytes();
        vec![Event::SetOctet { at, octet: high }, Event::SetOctet { at: at + 1, octet: low }]
    }

    /// A record is copied as it is or with other seconds; one takes the port of another; or one
    /// takes chassis and port ID of another.
    fn identity_twice(&mut self) -> Option<Vec<Event>> {
        let from = self.any_used()?;
        match self.rng().below(4) {
            0 => Some(vec![Event::CopyPlace { from, to: self.any_free()? }]),
            1 => {
                // The one that was there gets the other seconds.
                let copy = Event::CopyPlace { from, to: self.any_free()? };
                Some([vec![copy], self.seconds_become(from, 65_535)].concat())
            }
            2 => {
                let place = self.any_used()?;
                Some(vec![Event::SetPort { place, port: self.desk.table.port[from] }])
            }
            _ => {
                let place = self.any_used()?;
                self.ids_become(place, &self.agent_at(from))
            }
        }
    }

    /// A record of another port is copied to a free place, or moved, so that it is on one of these
    /// ports.
    fn one_more_on(&mut self, ports: &[usize]) -> Option<Vec<Event>> {
        let port = self.any_of(ports)? as u8;
        let from = self.any_used()?;
        if self.rng().once_in(2) {
            return Some(vec![Event::SetPort { place: from, port }]);
        }
        let to = self.any_free()?;
        Some(vec![Event::CopyPlace { from, to }, Event::SetPort { place: to, port }])
    }

    /// Four to six of one chassis on a port (N13). It is one of the loudest already, so that few edits
    /// are needed.
    fn chassis_becomes_loud(&mut self) -> Option<Vec<Event>> {
        let used: Vec<usize> = self.desk.table.used().collect();
        let held = used.iter().map(|&place| self.held_beside(place)).max()?;
        let loudest: Vec<usize> =
            used.into_iter().filter(|&place| self.held_beside(place) == held).collect();
        let from = self.any_of(&loudest)?;
        let goal = self.rng().pick(&[4, 4, 5, 6]);
        let more: Option<Vec<_>> = (held..goal).map(|_| self.one_more_beside(from)).collect();
        Some(more?.concat())
    }

    /// What the chassis of a record holds on its port.
    fn held_beside(&self, place: usize) -> usize {
        let Desk { table, .. } = &self.desk;
        let chassis = self.agent_at(place).chassis;
        table.held_by(self.desk.buffer(), usize::from(table.port[place]), &chassis)
    }

    /// One more of a record's chassis on its port: one of another port comes there, any other record
    /// becomes one, or the record is copied and gets another port ID.
    fn one_more_beside(&mut self, from: usize) -> Option<Vec<Event>> {
        let port = self.desk.table.port[from];
        let chassis = self.agent_at(from).chassis;
        let used: Vec<usize> = self.desk.table.used().collect();
        let is_here = |&place: &usize| self.desk.table.port[place] == port;
        let (here, elsewhere): (Vec<usize>, Vec<usize>) = used.into_iter().partition(is_here);
        match self.rng().below(10) {
            0 | 1 => {
                let of_chassis = |&place: &usize| self.agent_at(place).chassis == chassis;
                let same: Vec<usize> = elsewhere.into_iter().filter(of_chassis).collect();
                Some(vec![Event::SetPort { place: self.any_of(&same)?, port }])
            }
            2 => {
                let place = self.any_used()?;
                let becomes = self.chassis_becomes(place, chassis)?;
                Some([vec![Event::SetPort { place, port }], becomes].concat())
            }
            _ => {
                let [any, beside] = [self.rng().below(PLACES), self.rng().pick(&here)];
                let to = self.rng().pick(&[any, any, beside, beside, 0, LAST_PLACE]);
                let last = self.behind_port_id(from) - octets_of(from).start - 1;
                let other = self.octet_becomes(octets_of(to).start + last);
                Some(vec![Event::CopyPlace { from, to }, other])
            }
        }
    }
}
