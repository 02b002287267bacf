//! Neighbours on one port whose identities differ in their IDs alone, and there in little (N2).
//! Each is heard, refreshed and heard off by itself; the digests show that the others stay.

use super::maker::{Agent, Maker};
use super::Event;
use crate::frames::blocks::*;
use crate::id::Id;
use crate::reader::Address;

/// The address of frame A.
pub const SIX: Address = [0x02, 0x00, 0x00, 0x00, 0x00, 0x01];

impl Maker {
    pub fn chassis(&mut self) {
        self.call(Event::Start);
        for (crowd, port) in crowds().iter().zip(0..) {
            self.one_by_one(port, crowd);
        }
    }

    /// The crowd has at most six agents, so that none is refused for room. It is gone in the end.
    fn one_by_one(&mut self, port: usize, crowd: &[Agent]) {
        let elsewhere = port + 1;
        for (agent, seconds) in crowd.iter().zip(100..) {
            // A goodbye of one that is not known yet, though one much like it may be.
            self.hear(port, agent.announcement(0, &[]));
            self.hear(port, agent.announcement(seconds, &[]));
        }
        self.call(Event::HowMany { port });
        self.call(Event::Seconds(40));
        for (agent, number) in crowd.iter().zip(1..) {
            // Each sees an address that no other sees, behind its own IDs.
            let later = [link(&[number], &[number; 2], &[neighbour(number)])];
            self.hear(port, agent.announcement(200, &later));
            self.call(Event::WhoSees { address: neighbour(number), from: 0 });
        }
        self.wrong_ones(port, &crowd[0]);
        for agent in crowd.iter().rev() {
            self.hear(elsewhere, agent.announcement(0, &[]));
            self.hear(port, agent.announcement(0, &[]));
            self.call(Event::HowMany { port });
            self.hear(port, agent.announcement(300, &[]));
        }
        for agent in crowd {
            self.hear(port, agent.announcement(0, &[]));
        }
    }

    /// The chassis of a known one with a change that L3 does not allow: 4, and nothing changes.
    fn wrong_ones(&mut self, port: usize, known: &Agent) {
        let Id { subtype, ref octets } = known.chassis;
        for (subtype, octets) in [
            (subtype, octets[1..].to_vec()),
            (subtype, [octets, &octets[..1]].concat()),
            (subtype + 1, octets.clone()),
            // Capital letters become small ones.
            (7, octets.iter().map(|octet| octet | 0x60).collect()),
        ] {
            let agent = Agent { chassis: Id { subtype, octets }, ..known.clone() };
            for seconds in [0, 250] {
                self.hear(port, agent.announcement(seconds, &[]));
            }
        }
    }
}

/// Chassis of which each is much like the others beside it.
pub fn much_alike() -> [[Id; 6]; 3] {
    // The octets of addresses are characters themselves: the subtype alone differs, or the number.
    let subtypes = [
        address(b"ABCDEF"),
        local(b"ABCDEF"),
        address(b"ABCDEF01"),
        local(b"ABCDEF01"),
        local(b"ABCD"),
        address(b"ABCDEG"),
    ];
    // An address, the characters that spell it, and longer addresses that begin or end with it.
    let spelled = [
        address(&SIX),
        local(b"020000000001"),
        address(&[&SIX[..], &[0, 0]].concat()),
        local(b"0200000000010000"),
        address(&[&[0, 0], &SIX[..]].concat()),
        address(&[&SIX[..], &[0, 1]].concat()),
    ];
    // Characters that begin alike, or that differ far behind.
    let [mut middle, mut last] = [characters(64), characters(64)];
    middle[32] = b'F';
    last[63] = b'F';
    let long = [
        local(&characters(64)),
        local(&middle),
        local(&last),
        local(&characters(62)),
        local(&characters(32)),
        local(&characters(2)),
    ];
    [subtypes, spelled, long]
}

/// Agents that are much like each other, at most six in a crowd.
pub fn crowds() -> [Vec<Agent>; 5] {
    // What the chassis has more, the port ID has fewer; and each has the subtype of the other.
    let pairs = [
        (local(b"AA"), (7, &b"AAAA"[..])),
        (local(b"AAAA"), (7, b"AA")),
        (local(b"AAAAAA"), (7, b"AAAAAAAA")),
        (local(b"AAAAAAAA"), (7, b"AAAAAA")),
        (address(b"AAAAAA"), (7, b"AAAAAA")),
        (local(b"AAAAAA"), (4, b"AAAAAA")),
    ];
    let shared = pairs.map(|(chassis, (subtype, octets))| Agent {
        chassis,
        port: Id { subtype, octets: octets.to_vec() },
    });
    // Two agents of one chassis, of each kind: they differ in their port IDs.
    let kinds = [address(&SIX), address(&[2; 8]), local(b"AF")];
    let two_of_each = kinds.into_iter().flat_map(|chassis| {
        let first = Agent::of(chassis);
        let mut second = first.clone();
        second.port.octets.push(0x31);
        [first, second]
    });
    let [subtypes, spelled, long] = much_alike().map(|chassis| chassis.map(Agent::of).to_vec());
    [subtypes, spelled, long, shared.to_vec(), two_of_each.collect()]
}
