//! Pairs that differ in one thing alone: in who is there, in the seconds, in the sender, in an octet or
//! in the number of octets. Identities that are much alike are told apart.

use super::maker::Maker;
use crate::events::chassis::crowds;
use crate::events::desk::Desk;
use crate::events::maker::Agent;
use crate::events::random::long_announcement;
use crate::events::Event;
use crate::frames::blocks::{category, model_number, tlv, Tlv};
use crate::reader::Address;
use crate::table::{LAST_PORT, PLACE_OCTETS};

/// The source where it does not matter, and another one.
const STATION: Address = [2, 0, 0, 0, 0, 1];
const ANOTHER: Address = [2, 0, 0, 0, 0, 2];

/// Fewer seconds than somebody new has left. Of some the low octet is 0, or the high one.
const PASSED: [u16; 6] = [1, 2, 255, 256, 257, 299];

impl Maker {
    pub fn one_thing_alone(&mut self) {
        self.one_empty();
        self.seconds_alone();
        self.senders_alone();
        self.first_octets_alone();
        self.octets_alone();
        self.another_length();
        self.much_alike();
        self.on_two_ports();
    }

    /// Neighbours join one by one, and nobody was there before.
    fn one_empty(&mut self) {
        let empty = Desk::new();
        self.pair(&empty, &empty);
        for round in 0..8 {
            self.begin_with(0);
            for _ in 0..6 {
                self.hear_new_ones(1);
                let look = self.look();
                if round % 2 == 0 {
                    self.pair(&empty, &look);
                } else {
                    self.pair_back(&look, &empty);
                }
            }
        }
    }

    /// Time passes, and nobody goes. Then one is heard again, and has more left.
    fn seconds_alone(&mut self) {
        for round in 0..20 {
            self.begin_with(1 + round % 5);
            let before = self.look();
            for seconds in PASSED {
                self.return_to(&before);
                self.call(Event::Seconds(seconds));
                self.pair_with_now(&before);
            }
            let passed = self.look();
            if let Some(place) = self.events.any_used() {
                self.hear_again(place, passed.table.sender[place]);
            }
            self.pair_with_now(&passed);
        }
    }

    /// One is heard again from a source that differs in one octet, all are, and one is after a time.
    fn senders_alone(&mut self) {
        for round in 0..18 {
            self.begin_with(1 + round % 4);
            let before = self.look();
            let used: Vec<usize> = before.table.used().collect();
            for octet in 0..6 {
                self.return_to(&before);
                let place = self.rng().pick(&used);
                self.hear_from_another(place, octet);
                self.pair_with_now(&before);
            }
            self.return_to(&before);
            for &place in &used {
                let octet = self.rng().below(6);
                self.hear_from_another(place, octet);
            }
            self.pair_with_now(&before);
            let seconds = self.rng().pick(&PASSED);
            self.call(Event::Seconds(seconds));
            let passed = self.look();
            self.hear_from_another(used[0], round % 6);
            self.pair_with_now(&passed);
        }
    }

    /// The seconds of the LLDPDU are the first octets in which two of one identity can differ. The one
    /// was heard earlier by as many seconds as it has more, so that both have the same left.
    fn first_octets_alone(&mut self) {
        for more in [0x0001, 0x0080, 0x0100, 0x0200, 0x1000, 0x8000] {
            for round in 0..8 {
                let agent = self.events.unseen_agent(3);
                let left = self.rng().between(1, 100) as u16;
                let [lasting, short] =
                    [left + more, left].map(|seconds| agent.announcement(seconds, &[category()]));
                self.begin_with(round % 4);
                let begun = self.look();
                self.hear_from(STATION, 3, lasting);
                self.call(Event::Seconds(more));
                let earlier = self.look();
                self.return_to(&begun);
                self.call(Event::Seconds(more));
                self.hear_from(STATION, 3, short);
                let later = self.look();
                self.pair_either_way(&earlier, &later);
            }
        }
    }

    /// One octet of a skipped TLV is another one: the first, the last before the End, or one between
    /// them. So is the type of the TLV.
    fn octets_alone(&mut self) {
        for (octets, others) in [
            (22, 0),
            (23, 1),
            (40, 2),
            (280, 3),
            (530, 0),
            (PLACE_OCTETS - 1, 1),
            (PLACE_OCTETS, 2),
        ] {
            self.begin_with(others);
            let agent = self.events.unseen_agent(LAST_PORT);
            let lldpdu = long_announcement(&agent, octets);
            self.hear_from(STATION, LAST_PORT, lldpdu.clone());
            let before = self.look();
            let kind = agent.announcement(0, &[]).len() - 2;
            let [first, last] = [kind + 2, octets - 3];
            let some = [64, 127, 128, 254, 255, 256, 257, 300, 511, 512, 1_023, 1_024, 1_280];
            let some = some.into_iter().filter(|at| (first..last).contains(at));
            for at in [kind, first, last, last - 1].into_iter().chain(some) {
                for bit in [1, 7] {
                    let mut other = lldpdu.clone();
                    other[at] ^= 1 << bit;
                    self.return_to(&before);
                    self.hear_from(STATION, LAST_PORT, other);
                    self.pair_with_now(&before);
                }
            }
        }
    }

    /// The same neighbour with none, one or some TLVs behind the third.
    fn another_length(&mut self) {
        for others in 0..3 {
            let agent = self.events.unseen_agent(0);
            let laters: [Vec<Tlv>; 5] = [
                vec![],
                vec![tlv(9, &[])],
                vec![tlv(9, &[0])],
                vec![category()],
                vec![category(), model_number()],
            ];
            let mut lldpdus = laters.map(|later| agent.announcement(600, &later)).to_vec();
            lldpdus
                .extend([1_000, PLACE_OCTETS - 1].map(|octets| long_announcement(&agent, octets)));
            self.begin_with(others);
            let looks = lldpdus.into_iter().map(|lldpdu| {
                self.hear_from(STATION, 0, lldpdu);
                self.look()
            });
            let looks: Vec<Desk> = looks.collect();
            for (older, i) in looks.iter().zip(1..) {
                for newer in &looks[i..] {
                    self.pair_either_way(older, newer);
                }
            }
        }
    }

    /// One of a crowd was there, and another one is: the same place, the same seconds and the same
    /// sender, and two entries. So with one that begins alike. Then a third is there with one of two.
    fn much_alike(&mut self) {
        for crowd in crowds() {
            for (one, i) in crowd.iter().zip(1..) {
                for other in crowd[i..].iter().chain(&beginning_alike(one)) {
                    let [first, second] = [one, other].map(|agent| self.look_at(&[(4, agent)]));
                    self.pair_either_way(&first, &second);
                }
            }
            for three in crowd.windows(3) {
                let [one, other, third] = [0, 1, 2].map(|i| (4, &three[i]));
                let [first, second] =
                    [[one, other], [third, one]].map(|agents| self.look_at(&agents));
                self.pair_either_way(&first, &second);
            }
        }
    }

    /// The same neighbour on two ports is two (N2): on the one or the other, on one or both, and with
    /// the seconds, the sender or the octets of the other one.
    fn on_two_ports(&mut self) {
        for crowd in crowds() {
            for agent in &crowd[..2] {
                let [one, other] = [2, 7].map(|port| (port, agent));
                let [alone, elsewhere, both] =
                    [&[one][..], &[other], &[one, other]].map(|agents| self.look_at(agents));
                self.pair_either_way(&alone, &elsewhere);
                self.pair_either_way(&alone, &both);
                for (seconds, source, later) in [
                    (20, STATION, [category()]),
                    (0, ANOTHER, [category()]),
                    (0, STATION, [model_number()]),
                ] {
                    let [first, second] = [[2, 7], [7, 2]].map(|[one, other]| {
                        self.look_at(&[(one, agent)]);
                        self.call(Event::Seconds(seconds));
                        self.hear_from(source, other, agent.announcement(120, &later));
                        self.look()
                    });
                    self.pair_either_way(&first, &second);
                }
            }
        }
    }

    /// A table with these agents on their ports, all with the same seconds and the same source.
    fn look_at(&mut self, agents: &[(usize, &Agent)]) -> Desk {
        self.call(Event::Start);
        for (port, agent) in agents {
            self.hear_from(STATION, *port, agent.announcement(120, &[category()]));
        }
        self.look()
    }
}

/// Agents of which the subtype of the port ID is another, the port ID has an octet more, or the chassis
/// has two octets more or fewer (N2).
fn beginning_alike(agent: &Agent) -> [Agent; 3] {
    let [mut subtype, mut port, mut chassis] = [agent.clone(), agent.clone(), agent.clone()];
    subtype.port.subtype ^= 1;
    port.port.octets.push(0);
    let octets = &mut chassis.chassis.octets;
    match (chassis.chassis.subtype, octets.len()) {
        (4, 6) | (7, ..=62) => octets.extend(b"00"),
        _ => octets.truncate(octets.len() - 2),
    }
    [subtype, port, chassis]
}
