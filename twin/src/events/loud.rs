//! One loud chassis (N13): on every port a fourth of it is refused, whatever else is held there and
//! elsewhere, and nobody else is. Chassis that are much like each other are counted apart. Tables
//! with four to six of a chassis on a port are spoiled.

use super::bench::six_octets;
use super::chassis::{much_alike, SIX};
use super::maker::{Agent, Maker};
use super::Event;
use crate::frames::blocks::*;
use crate::id::Id;
use crate::table::{BUFFER_OCTETS, LAST_PORT, OF_EACH_PORT, PLACES, PORTS};

/// Seconds that last.
const LONG: u16 = 600;

/// Four chassis that are much like each other.
type Crowd = [Id; 4];

/// The agent of a number that has one of the chassis of a port, the loud one first.
type Nth = fn(usize, usize, usize) -> Agent;

impl Maker {
    pub fn loud_chassis(&mut self) {
        self.call(Event::Start);
        for port in 0..PORTS {
            self.loud_on(port);
        }
        for (crowd, port) in crowds().iter().zip((0..PORTS).cycle()) {
            self.counted_apart(port, crowd);
        }
        for kind in 0..3 {
            self.what_goes_before(kind);
        }
        self.port_ids_and_senders();
        self.loud_everywhere();
        self.loud_in_turn();
    }

    /// Announcements of agents, each with its seconds.
    fn hear_each<const N: usize>(&mut self, port: usize, announced: [(Agent, u16); N]) {
        for (agent, seconds) in announced {
            self.hear(port, agent.announcement(seconds, &[]));
        }
    }

    /// Common places are left all the time.
    fn loud_on(&mut self, port: usize) {
        let elsewhere = (port + 1) % PORTS;
        let [loud, second, third] = [0, 1, 2].map(|of| move |number| alike(port, of, number));
        // Recorded three times, 13. Unknown goodbye, refreshed. On another port: recorded.
        self.hear_each(port, [1, 2, 3, 4].map(|number| (loud(number), LONG)));
        self.hear_each(port, [(loud(4), 0), (loud(1), LONG)]);
        self.hear_each(elsewhere, [(loud(4), LONG)]);
        // Another chassis: recorded. Once more of the first: 13.
        self.hear_each(port, [(second(5), LONG), (loud(5), LONG)]);
        self.call(Event::HowMany { port });
        // A goodbye makes room for one: gone, recorded, 13.
        self.hear_each(port, [(loud(2), 0), (loud(4), LONG), (loud(2), LONG)]);
        // So does time: refreshed; recorded. The port holds five: recorded, 13.
        self.hear_each(port, [(loud(3), 60)]);
        self.call(Event::Seconds(60));
        self.hear_each(port, [(loud(2), LONG), (second(6), LONG), (loud(3), LONG)]);
        // It holds six, three of each: recorded. A fourth of either: 13. A third chassis: 7.
        self.hear_each(port, [(second(7), LONG)]);
        self.six_become_louder(port);
        self.hear_each(port, [(loud(3), LONG), (second(8), LONG), (third(1), LONG)]);
        // Of one there are two now: gone, recorded, 7; of the other still three: 13.
        let two_left = [(second(6), 0), (third(1), LONG), (second(8), LONG), (loud(3), LONG)];
        self.hear_each(port, two_left);
        // A link that is lost elsewhere makes no room: 13. That of the port does: recorded.
        self.call(Event::Lost { port: elsewhere });
        self.hear_each(port, [(loud(3), LONG)]);
        self.call(Event::Lost { port });
        self.hear_each(port, [(loud(3), LONG)]);
        self.call(Event::Lost { port });
    }

    /// One to three records of the second chassis get the first, which holds three.
    fn six_become_louder(&mut self, port: usize) {
        let [first, second] = [0, 1].map(|of| alike(port, of, 1).chassis);
        let is_second = |&place: &usize| self.agent_at(place).chassis == second;
        let places: Vec<usize> = self.desk.table.used().filter(is_second).collect();
        self.call(Event::Keep);
        for spoiled in [&places[port % 3..][..1], &places[port % 2..][..2], &places] {
            self.spoil_by_a_loud_chassis(spoiled, &first);
        }
    }

    /// Three of one and one of each other: all are recorded, and a fourth of the one gets 13. With
    /// two of the one left it is recorded.
    fn counted_apart(&mut self, port: usize, [one, others @ ..]: &Crowd) {
        let nth = |number| Agent::numbered(one.clone(), number);
        self.hear_each(port, [1, 2, 3].map(|number| (nth(number), LONG)));
        for other in others {
            self.hear_each(port, [(Agent::of(other.clone()), LONG)]);
        }
        self.hear_each(port, [(nth(4), LONG), (nth(1), 0), (nth(4), LONG)]);
        self.call(Event::HowMany { port });
        self.call(Event::Lost { port });
    }

    /// The refusals that go before 13 (Q1), for a chassis of each kind (L3).
    fn what_goes_before(&mut self, kind: usize) {
        let port = LAST_PORT - kind;
        let nth = |number| alike(kind, 0, number);
        self.hear_each(port, [1, 2, 3].map(|number| (nth(number), LONG)));
        let fourth = nth(4);
        let whole = fourth.announcement(LONG, &[]);
        // Cut short, the seconds twice, seconds of three octets: 5, 6, 4.
        self.hear(port, whole[..whole.len() - 1].to_vec());
        self.hear(port, fourth.announcement(LONG, &[seconds()]));
        let [chassis, port_id, _] = leading_of(&fourth.chassis, &fourth.port, LONG);
        self.hear(port, lldpdu(&[chassis, port_id, tlv(3, &[0, 0, 1])], &[]));
        // From a group address: 3. Numbers that are no port, also with low bits that are one: 2.
        let header = from_a_group(self.frames.header());
        self.hear_behind(&header, port, whole.clone());
        for no_port in [PORTS, 256 + port] {
            self.hear(no_port, whole.clone());
        }
        // A buffer of a wrong length: 1. Nothing of that: 13.
        self.call(Event::Lend(BUFFER_OCTETS - 1));
        self.hear(port, whole.clone());
        self.call(Event::Lend(BUFFER_OCTETS));
        self.hear(port, whole);
        self.call(Event::Lost { port });
    }

    /// Three of a chassis are recorded and the others get 13, whatever their port IDs are. All are
    /// from one source, and so are four chassis that are recorded.
    fn port_ids_and_senders(&mut self) {
        let header = self.frames.header();
        let port = LAST_PORT;
        let chassis = six_octets(port, 1);
        let mut port_ids = port_ids_beside(&chassis);
        for _ in 0..2 {
            for port_id in &port_ids {
                let agent = Agent { chassis: chassis.clone(), port: port_id.clone() };
                self.hear_behind(&header, port, agent.announcement(LONG, &[]));
            }
            self.call(Event::Lost { port });
            port_ids.reverse();
        }
        for number in 1..=4 {
            let agent = Agent::of(six_octets(port, number));
            self.hear_behind(&header, port, agent.announcement(LONG, &[]));
        }
    }

    /// The same chassis on each port: what it holds on one does not count on another.
    fn loud_everywhere(&mut self) {
        self.three_and_one(same_octets, |place| (place / OF_EACH_PORT, place % OF_EACH_PORT));
        for port in 0..PORTS {
            self.thirteen_and_eight(same_octets, port);
        }
    }

    /// The ports come in turn, so that the places of each lie far apart. Then every other port holds
    /// three and the next one five.
    fn loud_in_turn(&mut self) {
        // The numbers go down, so that here the last place is not of the loud chassis.
        self.three_and_one(alike, |place| (place % PORTS, OF_EACH_PORT - 1 - place / PORTS));
        for port in (0..PORTS).step_by(2) {
            let next = port + 1;
            self.hear_each(port, [(alike(port, 1, quiet_on(port)), 0)]);
            self.hear_each(next, [(alike(next, 1, 6), LONG)]);
            for port in [port, next] {
                self.thirteen_and_eight(alike, port);
            }
        }
    }

    /// All places are taken: on each port three of a chassis and one of another, so that the common
    /// places are taken too (N12). Each port is spoiled by itself.
    fn three_and_one(&mut self, nth: Nth, port_and_number: fn(usize) -> (usize, usize)) {
        self.call(Event::Start);
        let mut quiet = Vec::new();
        for place in 0..PLACES {
            let (port, number) = port_and_number(place);
            let is_quiet = number == quiet_on(port);
            if is_quiet {
                quiet.push((place, port));
            }
            self.hear_each(port, [(nth(port, usize::from(is_quiet), number), LONG)]);
        }
        self.call(Event::Keep);
        for (place, port) in quiet {
            self.spoil_by_a_loud_chassis(&[place], &nth(port, 0, 0).chassis);
        }
    }

    /// The common places are taken. A fourth of the loud chassis: 13. Of the other: 8 (Q1).
    fn thirteen_and_eight(&mut self, nth: Nth, port: usize) {
        self.hear_each(port, [0, 1].map(|of| (nth(port, of, 8), LONG)));
    }
}

/// Which of the four on a port is not of the loud chassis: another one on the next port, and the
/// lowest on the last port.
fn quiet_on(port: usize) -> usize {
    (LAST_PORT - port) % OF_EACH_PORT
}

/// Both chassis have the same octets, on every port.
fn same_octets(_port: usize, of: usize, number: usize) -> Agent {
    let chassis = if of == 0 { address(b"ABCDEF") } else { local(b"ABCDEF") };
    Agent::numbered(chassis, number)
}

/// The chassis are of each kind in turn (L3). Those of a port differ in one octet alone, and those of
/// all ports have the same last octet.
fn alike(port: usize, of: usize, number: usize) -> Agent {
    let [of, port_octet] = [2 + 4 * of as u8, port as u8];
    let chassis = match port % 3 {
        0 => address(&[of, 0, 0, 0x70, port_octet, b'9']),
        1 => address(&[of, 0, 0, 0, 0, 0x70, port_octet, b'9']),
        _ => local(format!("{of:02X}{port:02X}09").as_bytes()),
    };
    Agent::numbered(chassis, number)
}

/// Short and long ones of each subtype (L4), and one that is the chassis once more.
fn port_ids_beside(chassis: &Id) -> Vec<Id> {
    let mut port_ids: Vec<Id> =
        (1..=7).map(|subtype| Id { subtype, octets: b"1".to_vec() }).collect();
    for octets in [&b"11"[..], b"1\0", &chassis.octets, &[0x31; 254], &[0x31; 255]] {
        port_ids.push(Id { subtype: chassis.subtype, octets: octets.to_vec() });
    }
    port_ids
}

fn crowds() -> Vec<Crowd> {
    let [in_front, behind, with_its_end] =
        [[&[0, 0], &SIX[..]], [&SIX[..], &[0, 0]], [&SIX[..], &[0, 1]]].map(|parts| parts.concat());
    let mut crowds = vec![
        apart(&SIX, [0, 1, 2]),
        apart(&SIX, [3, 4, 5]),
        apart(&in_front, [0, 1, 2]),
        apart(&in_front, [3, 4, 5]),
        apart(&in_front, [5, 6, 7]),
        // Six octets, and eight that begin or end with them.
        [&SIX[..], &in_front, &behind, &with_its_end].map(address),
        // The same octets in another order.
        [[2, 4, 6, 8, 10, 12], [12, 10, 8, 6, 4, 2], [4, 2, 6, 8, 10, 12], [4, 6, 8, 10, 12, 2]]
            .map(|octets| address(&octets)),
        // Nothing but the last octet is the same.
        [address(b"\x02\0\0\0\0A"), address(b"bcdefA"), address(b"bcdefghA"), local(b"9A")],
    ];
    for [a, b, c, d, e, f] in much_alike() {
        crowds.extend([[a, b, c.clone(), d.clone()], [d, c, e, f]]);
    }
    crowds
}

/// Addresses of which each but the first differs from that one in one octet alone.
fn apart(octets: &[u8], places: [usize; 3]) -> Crowd {
    let [first, second, third] = places.map(|place| {
        let mut octets = octets.to_vec();
        octets[place] ^= 0x40;
        address(&octets)
    });
    [address(octets), first, second, third]
}
