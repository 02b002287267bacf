//! Random sequences of calls: frames of few agents on few ports, time, lost links, questions.
//! Some sequences begin in a crowd, and each ends with a table that can be spoiled.

use super::desk::WRONG_LENGTHS;
use super::last::NO_PORTS;
use super::maker::{Agent, Maker};
use super::Event;
use crate::frames::blocks::*;
use crate::frames::hex;
use crate::id::Id;
use crate::reader::Address;
use crate::table::{
    BUFFER_OCTETS, COMMON, LAST_PLACE, MOST, MOST_OF_A_CHASSIS, PLACES, PLACE_OCTETS, PORTS, SURE,
};

const SEQUENCES: usize = 64;
const CALLS: usize = 44;

impl Maker {
    pub fn sequences(&mut self) {
        for round in 0..SEQUENCES {
            self.call(Event::Start);
            let mut ports = all_ports();
            self.rng().shuffle(&mut ports);
            // From two ports up to all of them, with each way to begin.
            let ports = &ports[..2 + round / 6 % (PORTS - 1)];
            match round % 6 {
                1 => self.fill_all_places(),
                2 => self.fill_a_port(ports[0]),
                3 => {
                    self.take_the_common(&all_ports());
                    self.one_more_of_each_kind();
                }
                4 => self.fill_whole_places(ports),
                5 => self.begin_loud(&ports[..2]),
                _ => {}
            }
            for _ in 0..CALLS {
                self.random_call(ports);
            }
            match round % 3 {
                0 => self.end_with_a_whole_place(),
                1 => self.end_with_six(),
                _ => self.end_with_the_common_taken(),
            }
            self.spoils();
        }
    }

    /// Two on every port, then any of them until the common places are taken, then one more for
    /// each port (N12).
    pub fn fill_all_places(&mut self) {
        for port in all_ports() {
            self.hear_somebody_new(port);
            self.hear_somebody_new(port);
        }
        self.take_the_common(&all_ports());
        for port in all_ports() {
            self.hear_somebody_new(port);
            self.call(Event::HowMany { port });
        }
    }

    /// Six on the port, and a seventh.
    fn fill_a_port(&mut self, port: usize) {
        for _ in 0..=MOST {
            self.hear_somebody_new(port);
        }
    }

    /// Three of a chassis on each of the ports, and a fourth (N13).
    fn begin_loud(&mut self, ports: &[usize]) {
        let Agent { chassis, .. } = self.random_agent();
        for &port in ports {
            for number in 1..=MOST_OF_A_CHASSIS + 1 {
                let agent = Agent::numbered(chassis.clone(), number);
                self.hear(port, agent.announcement(200, &[]));
            }
        }
    }

    /// New ones on some of the ports until the common places are taken.
    fn take_the_common(&mut self, ports: &[usize]) {
        while self.desk.table.common_taken() < COMMON {
            let port = self.rng().pick(ports);
            if self.desk.table.held(port) < MOST {
                self.hear_somebody_new(port);
            }
        }
    }

    /// A new one where the port holds six, two to five, and fewer.
    fn one_more_of_each_kind(&mut self) {
        for (least, most) in [(MOST, MOST), (SURE, MOST - 1), (0, SURE - 1)] {
            let ports = self.ports_holding(least, most);
            if let Some(port) = self.any_of(&ports) {
                self.hear_somebody_new(port);
            }
        }
    }

    pub fn ports_holding(&self, least: usize, most: usize) -> Vec<usize> {
        let held = |port: &usize| (least..=most).contains(&self.desk.table.held(*port));
        (0..PORTS).filter(held).collect()
    }

    /// LLDPDUs that fill their places or leave one octet, and shorter ones of the same agents. With
    /// padding behind it, what fills its place is too long for a frame (F1).
    fn fill_whole_places(&mut self, ports: &[usize]) {
        for octets in [PLACE_OCTETS, PLACE_OCTETS - 1] {
            let port = self.rng().pick(ports);
            let agent = self.unseen_agent(port);
            let longest = long_announcement(&agent, octets);
            self.hear(port, longest.clone());
            if self.rng().once_in(2) {
                self.hear(port, agent.announcement(90, &[]));
                self.hear(port, [longest, vec![0]].concat());
            }
        }
    }

    /// One time in thirty the buffer has a wrong length, and then Start is refused too (R1).
    fn random_call(&mut self, ports: &[usize]) {
        let event = self.random_event(ports);
        if !self.rng().once_in(30) {
            return self.call(event);
        }
        let octets = self.rng().pick(&WRONG_LENGTHS);
        self.call(Event::Lend(octets));
        self.call(event);
        self.call(Event::Start);
        self.call(Event::Lend(BUFFER_OCTETS));
    }

    fn random_event(&mut self, ports: &[usize]) -> Event {
        match self.rng().below(100) {
            0..=63 => self.random_frame(ports),
            64..=71 => Event::Seconds(self.random_seconds_passed()),
            72..=74 => Event::Lost { port: self.random_port(ports) },
            75..=83 => Event::HowMany { port: self.random_port(ports) },
            _ => Event::WhoSees {
                // Two more than link information names.
                address: neighbour(self.rng().between(1, 8) as u8),
                from: self.random_start(),
            },
        }
    }

    /// Mostly one of the given ports, and now and then none at all (R2).
    pub fn random_port(&mut self, ports: &[usize]) -> usize {
        match self.rng().below(24) {
            0 => self.rng().pick(&NO_PORTS),
            // Low bits that are a port.
            1 => self.rng().pick(&[1 << 8, 1 << 16, 1 << 32, 1 << 63]) + self.rng().below(PORTS),
            2 => self.rng().below(PORTS),
            _ => self.rng().pick(ports),
        }
    }

    /// One of the places, or a number behind the last (N11).
    pub fn random_start(&mut self) -> usize {
        match self.rng().below(12) {
            0..=4 => 0,
            5..=8 => self.rng().below(PLACES),
            9 => self.rng().pick(&[LAST_PLACE, PLACES, PLACES + 1]),
            10 => self.rng().pick(&[2 * PLACES, 256, 65_536, 1 << 32, usize::MAX]),
            _ => self.rng().word() as usize,
        }
    }

    /// None, all, few, or about so many as a record has left (N8).
    pub fn random_seconds_passed(&mut self) -> u16 {
        let left = self.any_used().map_or(1, |place| self.desk.table.seconds[place]);
        match self.rng().below(12) {
            0 => 0,
            1 => 65_535,
            2 | 3 => left,
            4 | 5 => left.saturating_sub(1),
            6 => left.saturating_add(1),
            _ => self.rng().between(1, 40) as u16,
        }
    }

    /// A frame of a known agent, one much like it, or any; sometimes with a fault, or from a group
    /// address (F4).
    pub fn random_frame(&mut self, ports: &[usize]) -> Event {
        let (port, mut agent) = self.random_identity(ports);
        let header = self.random_header(port, &agent);
        if self.rng().once_in(25) {
            agent.chassis = self.wrong_chassis(agent.chassis);
        }
        let seconds = self.random_seconds();
        let mut later = self.random_later();
        if self.rng().once_in(25) {
            later.push(self.refused_later());
        }
        let mut frame = [header, agent.announcement(seconds, &later)].concat();
        frame.extend(self.frames.random_padding());
        if self.rng().once_in(12) {
            frame = from_a_group(frame);
        }
        if self.rng().once_in(8) {
            frame = self.damaged(frame);
        }
        Event::Frame { port, frame }
    }

    /// A right header. A known agent has the sender of its record again, one that differs from it in
    /// a bit, or mostly any other; now and then the source has no bit set (F4).
    fn random_header(&mut self, port: usize, agent: &Agent) -> Vec<u8> {
        let header = self.frames.header();
        let known = self.desk.table.used().find(|&place| {
            usize::from(self.desk.table.port[place]) == port && self.agent_at(place) == *agent
        });
        match (self.rng().below(12), known) {
            (0, _) => sent_by(Address::default(), header),
            (1..=3, Some(place)) => sent_by(self.desk.table.sender[place], header),
            (4, Some(place)) => {
                let mut source = self.desk.table.sender[place];
                source[self.rng().below(6)] ^= 1 << self.rng().below(8);
                from_a_station(sent_by(source, header))
            }
            _ => header,
        }
    }

    /// A TLV that may not stand behind the third (R6).
    pub fn refused_later(&mut self) -> Tlv {
        let kind = self.rng().pick(&[0, 1, 2, 3, 127]);
        let length = self.rng().between(1, 3);
        let value = self.rng().octets(length);
        tlv(kind, &value)
    }

    fn random_later(&mut self) -> Vec<Tlv> {
        if self.rng().once_in(6) {
            let spoilt = self.rng().once_in(2);
            self.frames.random_later(&pool(), spoilt)
        } else {
            self.light_later()
        }
    }

    /// One time in five the header is damaged, else what stands behind it.
    pub fn damaged(&mut self, mut frame: Vec<u8>) -> Vec<u8> {
        let mut behind = frame.split_off(HEADER);
        let part = if self.rng().once_in(5) { &mut frame } else { &mut behind };
        for _ in 0..self.frames.rng.between(1, 2) {
            self.frames.damage(part);
        }
        [frame, behind].concat()
    }

    /// The seconds of a frame; 0 is a goodbye.
    fn random_seconds(&mut self) -> u16 {
        match self.rng().below(10) {
            0 | 1 => 0,
            2 => 1,
            3 => 65_535,
            4 | 5 => self.rng().between(2, 60) as u16,
            6..=8 => self.rng().between(100, 400) as u16,
            _ => self.rng().between(1, 65_535) as u16,
        }
    }

    fn random_identity(&mut self, ports: &[usize]) -> (usize, Agent) {
        let known = if self.rng().once_in(3) { None } else { self.any_used() };
        match known {
            Some(place) => {
                let port = usize::from(self.desk.table.port[place]);
                let agent = self.agent_at(place);
                self.much_like(port, agent, ports)
            }
            None => (self.random_port(ports), self.random_agent()),
        }
    }

    /// The same one, or another that differs from it in one part of the identity (N2).
    fn much_like(&mut self, port: usize, mut agent: Agent, ports: &[usize]) -> (usize, Agent) {
        match self.rng().below(14) {
            0 => return (self.random_port(ports), agent),
            1 | 2 => agent.chassis = self.another_chassis(agent.chassis),
            3 => agent.port.subtype = self.rng().between(1, 7) as u8,
            4 => agent.port.octets.push(self.rng().pick(&[0, 0x31])),
            5 if agent.port.octets.len() > 1 => drop(agent.port.octets.pop()),
            5 | 6 => {
                let last = agent.port.octets.len() - 1;
                agent.port.octets[last] ^= 1 << self.rng().below(8);
            }
            7 | 8 => agent = Agent::numbered(agent.chassis, self.rng().between(1, 9)),
            _ => {}
        }
        agent.port.octets.truncate(255);
        (port, agent)
    }

    /// A right chassis that differs from this one in an octet, in the number of octets, in the
    /// subtype alone, or in that the one spells the other (L3, N2).
    fn another_chassis(&mut self, Id { subtype, mut octets }: Id) -> Id {
        let place = self.rng().below(octets.len());
        match (self.rng().below(4), subtype, octets.len()) {
            (0, 4, 6) | (0, 7, ..=62) => octets.extend(b"00"),
            (0, 4, _) | (0, 7, _) => octets.truncate(octets.len() - 2),
            (1, 7, 6 | 8) => return address(&octets),
            (1, 4, _) if octets.iter().all(|octet| HEX.contains(octet)) => return local(&octets),
            (2, 4, _) => return local(hex(&octets).as_bytes()),
            (_, 4, _) => octets[place] ^= 1 << self.rng().below(8),
            _ => octets[place] = self.rng().pick(HEX),
        }
        Id { subtype, octets }
    }

    /// A chassis that would be this one but for L3: an octet too few or too many, a small letter or
    /// another foreign character, or another subtype.
    pub fn wrong_chassis(&mut self, Id { mut subtype, mut octets }: Id) -> Id {
        let place = self.rng().below(octets.len());
        match self.rng().below(7) {
            0 | 1 => drop(octets.remove(place)),
            2 | 3 => octets.insert(place, self.rng().pick(HEX)),
            4 | 5 if subtype == 7 => octets[place] = self.rng().pick(b"abcdefgG/:@`"),
            _ => subtype = self.rng().pick(&[0, 1, 2, 3, 5, 6, 8, 255]),
        }
        Id { subtype, octets }
    }

    /// Few chassis and few port IDs, so that many identities differ in one part alone.
    fn random_agent(&mut self) -> Agent {
        let chassis = match self.rng().below(8) {
            0 => address(&[2, 0, 0, 0, 0, 1]),
            1 => address(&[3, 0, 0, 0, 0, 1]),
            2 => address(&[2, 0, 0, 0, 0, 1, 0, 0]),
            3 => local(b"020000000001"),
            4 => address(b"012345"),
            5 => local(b"012345"),
            6 => address(b"01234567"),
            _ => local(b"01234567"),
        };
        let octets = match self.rng().below(40) {
            0 => vec![0x31; 255],
            1 => vec![0x31; 254],
            n => [&b"1"[..], b"2", b"11", b"1\0", b"\0"][n % 5].to_vec(),
        };
        Agent { chassis, port: Id { subtype: self.rng().pick(&[1, 5, 7]), octets } }
    }

    /// Used and free places, and an LLDPDU that fills its place, mostly with a free one behind it.
    fn end_with_a_whole_place(&mut self) {
        let port = self.rng().below(PORTS);
        self.call(Event::Lost { port });
        let agent = self.unseen_agent(port);
        self.hear(port, long_announcement(&agent, PLACE_OCTETS));
    }

    /// A port holds six, and common places are left: a seventh would break one condition alone.
    pub fn end_with_six(&mut self) {
        let (port, others) = self.one_and_the_others();
        for &other in &others {
            if self.desk.table.common_taken() > COMMON - MOST {
                self.call(Event::Lost { port: other });
            }
        }
        while self.desk.table.held(port) < MOST {
            self.hear_somebody_new(port);
        }
        self.hear_somebody_new(others[0]);
    }

    /// The common places are taken, others are free, and some port holds two to five.
    pub fn end_with_the_common_taken(&mut self) {
        let (port, others) = self.one_and_the_others();
        self.call(Event::Lost { port });
        self.take_the_common(&others);
        while self.ports_holding(SURE, MOST - 1).is_empty() {
            // Half of the ports hold six, and the others fewer than two.
            let port = self.ports_holding(0, SURE - 1)[0];
            self.hear_somebody_new(port);
        }
    }

    fn one_and_the_others(&mut self) -> (usize, Vec<usize>) {
        let mut ports = all_ports();
        self.rng().shuffle(&mut ports);
        (ports[0], ports[1..].to_vec())
    }
}

fn all_ports() -> [usize; PORTS] {
    std::array::from_fn(|port| port)
}

/// An LLDPDU of so many octets: TLVs of a type that is skipped fill it up.
pub fn long_announcement(agent: &Agent, octets: usize) -> Vec<u8> {
    let fixed = agent.announcement(600, &[]).len();
    let mut rest = octets - fixed;
    let mut later = Vec::new();
    while rest > 0 {
        // A TLV has at least its header: one octet alone cannot be left over.
        let whole = if rest > 513 { 500 } else { rest };
        later.push(tlv(9, &vec![0x55; whole - 2]));
        rest -= whole;
    }
    agent.announcement(600, &later)
}
