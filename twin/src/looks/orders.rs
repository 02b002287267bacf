//! Two frames in both orders (E1 to E5): pairs on both sides of what makes the order matter, on ports
//! that hold at most one, that there are not, and on tables that are not fit. In a third of the pairs the
//! two orders start from tables that have the same records in other places.

#[cfg(test)]
mod tests;

use std::ops::RangeInclusive;

use super::maker::Maker;
use super::unfit::is_said;
use crate::events::desk::Desk;
use crate::events::maker::Agent;
use crate::events::Way;
use crate::frames::blocks::*;
use crate::order::Heard;
use crate::reader::Refusal;
use crate::table::{
    Reply, CHASSIS_HOLDS_THREE, COMMON, COMMON_TAKEN, MOST, MOST_OF_A_CHASSIS, PORTS,
    PORT_HOLDS_SIX, SURE,
};

const HALF: usize = PORTS / 2;

/// How many tables there are of a kind, and how many pairs start from each of them.
const TABLES: usize = 24;
const STARTS: usize = 12;

/// The same for what comes near to mattering.
const NEAR_TABLES: usize = 2;
const NEAR_STARTS: usize = 6;

/// How many runs there are in which both sides go on from what the pair before left, and how many pairs
/// a run has.
const RUNS: usize = 10;
const GOING_ON: usize = 20;

/// Numbers that are no port (R2).
const NO_PORTS: [u8; 5] = [PORTS as u8, 255, PORTS as u8 + 1, 64, 128];

/// The common places that are left on the tables that are spoiled, each in every way.
const SPOILED: [usize; 6] = [0, 1, 0, 2, 0, 1];

/// How many proposals are made for a frame of a kind before it counts as impossible.
const PROPOSALS: usize = 60;

/// What a frame is to a fit table, on a port in range.
#[derive(Clone, Copy, Debug, PartialEq, Eq, Hash)]
enum Kind {
    /// A new one that is not loud: it is recorded, or refused for room (R7, R8).
    New,
    Known,
    Goodbye,
    UnknownGoodbye,
    /// The reader refuses it with this number (R3 to R6).
    Refused(Refusal),
    /// A new one of a chassis that holds three on the port (R13).
    Loud,
}

const KINDS: [Kind; 9] = [
    Kind::New,
    Kind::Known,
    Kind::Goodbye,
    Kind::UnknownGoodbye,
    Kind::Refused(3),
    Kind::Refused(4),
    Kind::Refused(5),
    Kind::Refused(6),
    Kind::Loud,
];

impl Kind {
    /// Told by the answer that the frame gets where it comes alone.
    fn of(desk: &Desk, heard: &Heard) -> Kind {
        let Desk { mut table, mut store, lent, .. } = desk.clone();
        let port = usize::from(heard.port);
        match table.frame_on_port(&mut store[..lent], port, &heard.frame) {
            Ok(Reply::Recorded) | Err(PORT_HOLDS_SIX | COMMON_TAKEN) => Kind::New,
            Ok(Reply::Refreshed) => Kind::Known,
            Ok(Reply::Gone) => Kind::Goodbye,
            Ok(Reply::UnknownGoodbye) => Kind::UnknownGoodbye,
            Err(CHASSIS_HOLDS_THREE) => Kind::Loud,
            Err(refusal) => Kind::Refused(refusal),
        }
    }
}

/// A frame of a kind, on a port that holds so many.
type Wanted = (Kind, RangeInclusive<usize>);

const AT_MOST_ONE: RangeInclusive<usize> = 0..=1;
const ONE: RangeInclusive<usize> = 1..=1;
const TWO: RangeInclusive<usize> = 2..=2;
const TWO_TO_FIVE: RangeInclusive<usize> = 2..=5;
const THREE_OR_MORE: RangeInclusive<usize> = 3..=6;
const SIX: RangeInclusive<usize> = 6..=6;
const TWO_OR_MORE: RangeInclusive<usize> = 2..=6;

/// So many common places are left, and one thing alone keeps the order from mattering (E2).
const NEAR_MISSES: [(usize, Wanted, Wanted); 24] = [
    (1, (Kind::New, ONE), (Kind::New, TWO_TO_FIVE)),
    (1, (Kind::New, SIX), (Kind::New, TWO_TO_FIVE)),
    (1, (Kind::Loud, THREE_OR_MORE), (Kind::New, TWO_TO_FIVE)),
    (1, (Kind::Known, TWO_TO_FIVE), (Kind::New, TWO_TO_FIVE)),
    (1, (Kind::UnknownGoodbye, TWO_TO_FIVE), (Kind::New, TWO_TO_FIVE)),
    (1, (Kind::Goodbye, TWO), (Kind::New, TWO_TO_FIVE)),
    (1, (Kind::Goodbye, THREE_OR_MORE), (Kind::New, TWO_TO_FIVE)),
    (1, (Kind::Refused(3), TWO_TO_FIVE), (Kind::New, TWO_TO_FIVE)),
    (1, (Kind::Refused(5), TWO_TO_FIVE), (Kind::New, TWO_TO_FIVE)),
    (2, (Kind::New, TWO_TO_FIVE), (Kind::New, TWO_TO_FIVE)),
    (2, (Kind::Goodbye, THREE_OR_MORE), (Kind::New, TWO_TO_FIVE)),
    (0, (Kind::New, TWO_TO_FIVE), (Kind::New, TWO_TO_FIVE)),
    (0, (Kind::Goodbye, TWO), (Kind::New, TWO_TO_FIVE)),
    (0, (Kind::Goodbye, ONE), (Kind::New, TWO_TO_FIVE)),
    (0, (Kind::UnknownGoodbye, THREE_OR_MORE), (Kind::New, TWO_TO_FIVE)),
    (0, (Kind::Known, THREE_OR_MORE), (Kind::New, TWO_TO_FIVE)),
    (0, (Kind::Refused(3), THREE_OR_MORE), (Kind::New, TWO_TO_FIVE)),
    (0, (Kind::Refused(4), THREE_OR_MORE), (Kind::New, TWO_TO_FIVE)),
    (0, (Kind::Refused(6), THREE_OR_MORE), (Kind::New, TWO_TO_FIVE)),
    (0, (Kind::Goodbye, THREE_OR_MORE), (Kind::New, SIX)),
    (0, (Kind::Goodbye, THREE_OR_MORE), (Kind::Loud, THREE_OR_MORE)),
    (0, (Kind::Goodbye, THREE_OR_MORE), (Kind::Known, TWO_TO_FIVE)),
    (0, (Kind::Goodbye, THREE_OR_MORE), (Kind::Goodbye, THREE_OR_MORE)),
    (0, (Kind::Goodbye, THREE_OR_MORE), (Kind::UnknownGoodbye, TWO_TO_FIVE)),
];

impl Maker {
    pub fn both_orders(&mut self) {
        self.shown();
        self.last_common_places();
        self.freed_common_places();
        self.at_most_one();
        self.near_misses();
        self.no_such_ports();
        self.going_on();
        self.unfit_in_both_orders();
    }

    /// The runs of B26, which the documents show: the last common place, a goodbye that frees one, and the
    /// same goodbye beside a port that holds at most one. Half of the ports with six take all common
    /// places, as in B13.
    fn shown(&mut self) {
        let [one, other] = [HALF, HALF + 1];
        // Behind those that hold six.
        let holding = |six: usize, others: &[usize]| -> Vec<Heard> {
            let held = [&vec![MOST; six], others].concat();
            let on_port =
                |(port, &held): (usize, &usize)| (0..held).map(move |i| plain(port, i, 120));
            held.iter().enumerate().flat_map(on_port).collect()
        };
        let last_place = holding(HALF - 1, &[5, 2, 2]);
        self.pair_heard_behind(last_place, [plain(one, 2, 120), plain(other, 2, 120)]);
        let goodbye = plain(0, 0, 0);
        self.pair_heard_behind(holding(HALF, &[2]), [goodbye.clone(), plain(one, 2, 120)]);
        self.pair_heard_behind(holding(HALF, &[2, 1]), [goodbye, plain(other, 1, 120)]);
    }

    /// Both frames would take the last common place (E2 (a)).
    fn last_common_places(&mut self) {
        for _ in 0..TABLES {
            self.begin_crowded(1, &[TWO_TO_FIVE; 2]);
            self.starts(STARTS, |_| [(Kind::New, TWO_TO_FIVE), (Kind::New, TWO_TO_FIVE)]);
        }
    }

    /// No common place is left, the one frees one, and the other would take it (E2 (b)).
    fn freed_common_places(&mut self) {
        for _ in 0..TABLES {
            self.begin_crowded(0, &[THREE_OR_MORE, TWO_TO_FIVE]);
            self.starts(STARTS, |round| {
                turned(round, [(Kind::Goodbye, THREE_OR_MORE), (Kind::New, TWO_TO_FIVE)])
            });
        }
    }

    /// One of the ports holds at most one, or both do: whatever the frames are (E3). So with two common
    /// places left, with one and with none. No chassis holds three on such a port (N13).
    fn at_most_one(&mut self) {
        let held = [[AT_MOST_ONE, TWO_OR_MORE], [TWO_OR_MORE, AT_MOST_ONE], [AT_MOST_ONE; 2]];
        let mut wanted: Vec<[Wanted; 2]> = Vec::new();
        for [of_x, of_y] in held {
            for x in KINDS {
                wanted.extend(KINDS.map(|y| [(x, of_x.clone()), (y, of_y.clone())]));
            }
        }
        wanted.retain(|two| !two.contains(&(Kind::Loud, AT_MOST_ONE)));
        for left in [0, 1, 2] {
            self.rng().shuffle(&mut wanted);
            for some in wanted.chunks(STARTS) {
                self.begin_crowded(left, &[0..=0, 0..=0, ONE, ONE, THREE_OR_MORE]);
                self.starts(some.len(), |round| some[round].clone());
            }
        }
    }

    fn near_misses(&mut self) {
        for (left, one, other) in NEAR_MISSES {
            for _ in 0..NEAR_TABLES {
                self.begin_crowded(left, &[one.1.clone(), other.1.clone()]);
                self.starts(NEAR_STARTS, |round| turned(round, [one.clone(), other.clone()]));
            }
        }
    }

    /// One port is none, and a frame of each kind comes on the other, or both are none (E4).
    fn no_such_ports(&mut self) {
        for left in [0, 1] {
            self.begin_crowded(left, &[ONE, TWO_TO_FIVE, SIX]);
            let start = self.look();
            for kind in KINDS {
                let other = self.rng().pick(&NO_PORTS);
                for (port, round) in
                    [NO_PORTS[0], NO_PORTS[0], 255, 255, other].into_iter().zip(0..)
                {
                    let frames = turned(round, [self.frame_on_any(kind), self.frame_on_none(port)]);
                    self.pair_heard(&start, frames);
                }
            }
            for ports in [[0, 1], [1, 0], [0, 2], [3, 1], [4, 0], [1, 4]] {
                let frames = ports.map(|i: usize| self.frame_on_none(NO_PORTS[i]));
                self.pair_heard(&start, frames);
            }
        }
    }

    /// Two tables with the same records in other places go on, one pair of frames behind the other (E5).
    /// Where an order matters, they have not the same any more, and the second is made anew.
    fn going_on(&mut self) {
        for run in 0..RUNS {
            self.begin_crowded(run % 3, &[TWO_TO_FIVE, THREE_OR_MORE]);
            let start = self.look();
            let mut starts = [self.moved_some(&start, run), start];
            for _ in 0..GOING_ON {
                self.return_to(&starts[0]);
                let [x, y] = [0; 2].map(|_| self.usual_kind());
                let Some(frames) = self.two_frames([(x, 0..=MOST), (y, 0..=MOST)]) else {
                    continue;
                };
                self.pair_heard_apart(starts.each_ref(), frames);
                starts = self.sides();
                if self.pairs.last().is_some_and(|pair| pair.entries > 0) {
                    starts[1] = self.moved_some(&starts[0], run);
                }
            }
        }
    }

    /// Tables that are spoiled: both frames get 1 in both orders, whatever they are (E4).
    fn unfit_in_both_orders(&mut self) {
        for left in SPOILED {
            self.begin_crowded(left, &[ONE, TWO_TO_FIVE, SIX]);
            let start = self.look();
            for (way, ..) in Way::ALL {
                if !is_said(&way) {
                    continue;
                }
                self.return_to(&start);
                let [x, y] = [0; 2].map(|_| self.usual_kind());
                let frames = self.two_frames([(x, 0..=MOST), (y, 0..=MOST)]);
                if let (Some(frames), Some(spoiled)) = (frames, self.spoiled(&start, way)) {
                    self.pair_heard(&spoiled, frames);
                }
            }
        }
    }

    /// Pairs of wanted frames that all start from the table as it is. There is none where one of them is
    /// impossible.
    fn starts(&mut self, rounds: usize, wanted: impl Fn(usize) -> [Wanted; 2]) {
        let start = self.look();
        for round in 0..rounds {
            self.return_to(&start);
            let Some(frames) = self.two_frames(wanted(round)) else {
                continue;
            };
            if self.pairs.len().is_multiple_of(3) {
                let moved = self.moved_some(&start, round);
                self.pair_heard_apart([&start, &moved], frames);
            } else {
                self.pair_heard(&start, frames);
            }
        }
    }

    /// The records in other places: mostly some of them, so that the file is short, and at times all.
    fn moved_some(&mut self, look: &Desk, round: usize) -> Desk {
        if self.rng().once_in(16) {
            return self.moved(look, round % 3);
        }
        let swaps = self.rng().between(1, 3);
        (0..swaps).fold(look.clone(), |look, _| self.moved(&look, 3))
    }

    /// A table with so many common places left, on which there are ports that hold so many. It has its
    /// records in the order in which they came, or in any places.
    fn begin_crowded(&mut self, left: usize, wanted: &[RangeInclusive<usize>]) {
        let mut ports: Vec<usize> = (0..PORTS).collect();
        self.rng().shuffle(&mut ports);
        let mut held = [0; PORTS];
        for (&port, wanted) in ports.iter().zip(wanted) {
            held[port] = self.rng().between(*wanted.start(), *wanted.end());
        }
        let others = &ports[wanted.len()..];
        for &port in others {
            held[port] = self.rng().between(0, SURE);
        }
        let taken = |held: &[usize; PORTS]| -> usize {
            held.iter().map(|held| held.saturating_sub(SURE)).sum()
        };
        // A cell with few ports may have no room for so many.
        while taken(&held) < COMMON - left && others.iter().any(|&port| held[port] < MOST) {
            let port = self.rng().pick(others);
            held[port] = MOST.min(held[port] + 1);
        }
        self.begin_holding(held);
        if self.rng().once_in(2) {
            let look = self.look();
            let moved = self.moved(&look, 0);
            self.return_to(&moved);
        }
    }

    /// A new table on which the ports hold so many. They come in any order.
    fn begin_holding(&mut self, held: [usize; PORTS]) {
        self.begin_with(0);
        let on_port = |(port, held): (usize, usize)| (0..held).map(move |_| port);
        let mut ports: Vec<usize> = held.into_iter().enumerate().flat_map(on_port).collect();
        self.rng().shuffle(&mut ports);
        let tag = self.rng().octet();
        let mut came = [0; PORTS];
        for port in ports {
            let agent = resident(tag, port, came[port]);
            came[port] += 1;
            let seconds = self.rng().between(1, 65_535) as u16;
            let later = self.few_later();
            self.events.hear(port, agent.announcement(seconds, &later));
        }
    }

    fn few_later(&mut self) -> Vec<Tlv> {
        if self.rng().once_in(6) {
            self.events.light_later()
        } else {
            vec![]
        }
    }

    fn usual_kind(&mut self) -> Kind {
        match self.rng().below(3) {
            0 => Kind::New,
            1 => Kind::Goodbye,
            _ => self.rng().pick(&KINDS),
        }
    }

    /// Wanted frames on two ports of the table as it is; none where there are none. At times the other
    /// one is the same frame, if it is wanted on its port too (N2).
    fn two_frames(&mut self, [of_x, of_y]: [Wanted; 2]) -> Option<[Heard; 2]> {
        (0..PROPOSALS).find_map(|_| {
            let [p, q] = [&of_x, &of_y].map(|(_, held)| {
                let ports = self.events.ports_holding(*held.start(), *held.end());
                self.events.any_of(&ports)
            });
            let (p, q) = (p?, q?);
            if p == q {
                return None;
            }
            let x = self.frame_of(of_x.0, p)?;
            let same = Heard { port: q as u8, frame: x.frame.clone() };
            if self.rng().once_in(4) && Kind::of(&self.events.desk, &same) == of_y.0 {
                return Some([x, same]);
            }
            let y = self.frame_of(of_y.0, q)?;
            Some([x, y])
        })
    }

    /// A frame of a kind on some port of the table as it is.
    fn frame_on_any(&mut self, kind: Kind) -> Heard {
        let frame = (0..PROPOSALS).find_map(|_| {
            let port = self.rng().below(PORTS);
            self.frame_of(kind, port)
        });
        frame.expect("a crowded table has a port for each kind")
    }

    /// A frame on a port that there is not. Some port may know who is announced.
    fn frame_on_none(&mut self, port: u8) -> Heard {
        let kind = self.usual_kind();
        Heard { port, ..self.frame_on_any(kind) }
    }

    /// A frame of a kind on a port of the table as it is; none where it is impossible.
    fn frame_of(&mut self, kind: Kind, port: usize) -> Option<Heard> {
        (0..PROPOSALS).find_map(|_| {
            let frame = self.proposed(kind, port)?;
            let heard = Heard { port: port as u8, frame };
            (Kind::of(&self.events.desk, &heard) == kind).then_some(heard)
        })
    }

    fn proposed(&mut self, kind: Kind, port: usize) -> Option<Vec<u8>> {
        let agent = match kind {
            Kind::New | Kind::UnknownGoodbye => self.newcomer(port),
            Kind::Known | Kind::Goodbye => self.known_on(port)?,
            Kind::Refused(_) => match self.known_on(port) {
                Some(known) if self.rng().once_in(2) => known,
                _ => self.newcomer(port),
            },
            Kind::Loud => {
                let number = self.rng().between(1, 9);
                Agent::numbered(self.known_on(port)?.chassis, number)
            }
        };
        let lasting = self.rng().between(1, 65_535) as u16;
        let seconds = match kind {
            Kind::Goodbye | Kind::UnknownGoodbye => 0,
            Kind::Refused(_) => self.rng().pick(&[0, lasting]),
            _ => lasting,
        };
        let later = self.few_later();
        match kind {
            Kind::Refused(refusal) => Some(self.refused(refusal, agent, seconds, later)),
            _ => Some([self.events.frames.header(), agent.announcement(seconds, &later)].concat()),
        }
    }

    /// One that the port has never heard, one that another port may know, or one more of a chassis that is
    /// there.
    fn newcomer(&mut self, port: usize) -> Agent {
        match (self.rng().below(6), self.events.any_used(), self.known_on(port)) {
            (0, Some(place), _) => self.events.agent_at(place),
            (1, _, Some(known)) => {
                let number = self.rng().between(1, 9);
                Agent::numbered(known.chassis, number)
            }
            _ => self.events.unseen_agent(port),
        }
    }

    /// Somebody whom the port knows.
    fn known_on(&mut self, port: usize) -> Option<Agent> {
        let table = &self.events.desk.table;
        let places: Vec<usize> =
            table.used().filter(|&place| usize::from(table.port[place]) == port).collect();
        let place = self.events.any_of(&places)?;
        Some(self.events.agent_at(place))
    }

    /// A frame that the reader refuses, mostly with this number.
    fn refused(
        &mut self,
        refusal: Refusal,
        agent: Agent,
        seconds: u16,
        later: Vec<Tlv>,
    ) -> Vec<u8> {
        let header = self.events.frames.header();
        match refusal {
            3 => {
                let frame = [header, agent.announcement(seconds, &later)].concat();
                self.with_a_wrong_header(frame)
            }
            4 => {
                let chassis = self.events.wrong_chassis(agent.chassis);
                let agent = Agent { chassis, ..agent };
                [header, agent.announcement(seconds, &later)].concat()
            }
            5 => {
                let mut frame = [header, agent.announcement(seconds, &later)].concat();
                let octets = self.rng().between(HEADER, frame.len() - 1);
                frame.truncate(octets);
                frame
            }
            _ => {
                let later = [later, vec![self.events.refused_later()]].concat();
                [header, agent.announcement(seconds, &later)].concat()
            }
        }
    }

    /// The source is a group address, the destination or the type is another, or there are too few octets
    /// (F1 to F4).
    fn with_a_wrong_header(&mut self, mut frame: Vec<u8>) -> Vec<u8> {
        match self.rng().below(4) {
            0 => return from_a_group(frame),
            1 => frame[self.rng().below(6)] ^= 0x10,
            2 => frame[12] ^= 0x01,
            _ => frame.truncate(self.rng().below(HEADER)),
        }
        frame
    }
}

/// The two as they are, or turned every other time.
fn turned<T>(round: usize, [one, other]: [T; 2]) -> [T; 2] {
    if round.is_multiple_of(2) {
        [one, other]
    } else {
        [other, one]
    }
}

/// Who comes on a port, counted from 0: three in a row share a chassis, so that a chassis holds three
/// where the port holds three (N13). The kinds of chassis come in turn (L3).
fn resident(tag: u8, port: usize, number: usize) -> Agent {
    let (group, port) = ((number / MOST_OF_A_CHASSIS) as u8, port as u8);
    let chassis = match (usize::from(tag) + usize::from(port) + usize::from(group)) % 3 {
        0 => address(&[0x06, 0, 0, tag, port, group]),
        1 => address(&[0x06, 0, 0, 0, 0, tag, port, group]),
        _ => local(format!("{tag:02X}{port:02X}{group:02X}").as_bytes()),
    };
    Agent::numbered(chassis, 1 + number % MOST_OF_A_CHASSIS)
}

/// A short frame of one of a port's own, counted from 0. Three in a row share a chassis (N13).
fn plain(port: usize, number: usize, seconds: u16) -> Heard {
    let port = port as u8;
    let chassis = [2, 0, 0, 0, port, 1 + (number / MOST_OF_A_CHASSIS) as u8];
    let agent = Agent::numbered(address(&chassis), 1 + number % MOST_OF_A_CHASSIS);
    let frame = headed(EVERYONE, chassis, LLDP, &agent.announcement(seconds, &[]));
    Heard { port, frame }
}
