//! The maker gathers events and does each of them at its own desk, so that it knows what it led to.
//! It has the frame maker's generator, and agents that make themselves known by frames.

use super::desk::Desk;
use super::Event;
use crate::frames::blocks::*;
use crate::frames::maker::Maker as FrameMaker;
use crate::frames::two_octets;
use crate::id::Id;
use crate::reader::outline_frame;
use crate::rng::{self, Rng};
use crate::table::{MOST_OF_A_CHASSIS, PORTS};

pub struct Maker {
    pub frames: FrameMaker,
    pub events: Vec<Event>,
    pub desk: Desk,
    /// How many agents were made for each port that nobody had seen before, and last for no port.
    unseen: [usize; PORTS + 1],
}

/// Who is announced by a frame: an identity but for the receiving port (N2).
#[derive(Clone, Debug, PartialEq, Eq)]
pub struct Agent {
    pub chassis: Id,
    pub port: Id,
}

impl Agent {
    /// One that has the port ID of frame A.
    pub fn of(chassis: Id) -> Agent {
        Agent::numbered(chassis, 1)
    }

    /// One of several that share a chassis, which have other port IDs (N2). The first has that of
    /// frame A.
    pub fn numbered(chassis: Id, number: usize) -> Agent {
        Agent { chassis, port: Id { subtype: 7, octets: vec![b'0' + number as u8] } }
    }

    pub fn announcement(&self, seconds: u16, later: &[Tlv]) -> Vec<u8> {
        lldpdu(&leading_of(&self.chassis, &self.port, seconds), later)
    }
}

impl Maker {
    pub fn new() -> Self {
        Maker::seeded(rng::EVENTS)
    }

    pub fn seeded(seed: u64) -> Self {
        let frames = FrameMaker { rng: Rng::new(seed), cases: vec![] };
        Maker { frames, events: Vec::new(), desk: Desk::new(), unseen: [0; PORTS + 1] }
    }

    pub fn rng(&mut self) -> &mut Rng {
        &mut self.frames.rng
    }

    /// An event that leaves the table fit: neither an edit that spoils it nor a spoiled table.
    pub fn call(&mut self, event: Event) {
        self.desk.act(&event);
        self.events.push(event);
    }

    /// A frame with a right header.
    pub fn hear(&mut self, port: usize, lldpdu: Vec<u8>) {
        let header = self.frames.header();
        self.hear_behind(&header, port, lldpdu);
    }

    /// A frame with this header.
    pub fn hear_behind(&mut self, header: &[u8], port: usize, lldpdu: Vec<u8>) {
        self.call(Event::Frame { port, frame: [header, &lldpdu].concat() });
    }

    /// A frame from an agent that was never heard before, of seconds that last.
    pub fn hear_somebody_new(&mut self, port: usize) {
        let agent = self.unseen_agent(port);
        let seconds = self.rng().between(300, 65_535) as u16;
        let later = self.light_later();
        let frame = [self.frames.header(), agent.announcement(seconds, &later)].concat();
        // Who waits for a table to fill would wait for ever if these were refused.
        assert!(outline_frame(&frame).is_ok());
        self.call(Event::Frame { port, frame });
    }

    /// The kinds of chassis come in turn (L3). As many in a row share one as it may hold on the port,
    /// so that none of them is refused for it (N13).
    pub fn unseen_agent(&mut self, port: usize) -> Agent {
        let port = port.min(PORTS);
        let before = self.unseen[port];
        self.unseen[port] += 1;
        let chassis = before / MOST_OF_A_CHASSIS;
        let ([high, low], of_port) = (two_octets(chassis), port as u8);
        let chassis = match chassis % 3 {
            0 => address(&[0x0A, 0, 0, of_port, high, low]),
            1 => address(&[0x0A, 0, 0, 0, 0, of_port, high, low]),
            _ => local(format!("{port:02X}{chassis:04X}").as_bytes()),
        };
        Agent::numbered(chassis, 1 + before % MOST_OF_A_CHASSIS)
    }

    /// Nothing, what makes it HTIP, or link information.
    pub fn light_later(&mut self) -> Vec<Tlv> {
        match self.rng().below(8) {
            0..=3 => vec![],
            4 | 5 => vec![category(), model_number()],
            _ => {
                let count = self.rng().between(1, 2);
                (0..count).map(|_| self.frames.random_link(&pool())).collect()
            }
        }
    }

    pub fn any_used(&mut self) -> Option<usize> {
        let used: Vec<usize> = self.desk.table.used().collect();
        self.any_of(&used)
    }

    pub fn any_free(&mut self) -> Option<usize> {
        let free: Vec<usize> = self.desk.table.free().collect();
        self.any_of(&free)
    }

    /// One of the list; none where it is empty.
    pub fn any_of(&mut self, among: &[usize]) -> Option<usize> {
        (!among.is_empty()).then(|| self.rng().pick(among))
    }

    /// The agent of a used place.
    pub fn agent_at(&self, place: usize) -> Agent {
        let outline = self.desk.table.outline(self.desk.buffer(), place);
        let outline = outline.expect("the desk's table is fit");
        Agent { chassis: outline.chassis, port: outline.port }
    }
}
