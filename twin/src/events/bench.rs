//! The run cases of the rules page (B13, B25), and on the ports of B13 frames from group addresses
//! (F4). Neighbours are frame A with other IDs; questions in between show what the ports hold.

use super::maker::{Agent, Maker};
use super::Event;
use crate::frames::blocks::*;
use crate::id::Id;
use crate::reader::Address;
use crate::table::{BUFFER_OCTETS, LAST_PORT, MOST, MOST_OF_A_CHASSIS, PORTS, SURE};

/// The source of frame A.
const STATION: Address = [2, 0, 0, 0, 0, 1];

/// The ports of B13 below this one hold six, which takes the common places; it holds two itself.
const HALF: usize = PORTS / 2;

/// The next one takes its two sure places; the last port is another and holds none.
const NEXT: usize = HALF + 1;

/// Six for each of the half are all common places, and there are ports for all parts of the run.
const _: () = assert!(PORTS.is_multiple_of(2) && NEXT < LAST_PORT);

/// The chassis of a number on a port, from 1 on.
type Numbered = fn(usize, usize) -> Id;

impl Maker {
    /// The run cases with the chassis of frame A, and with all kinds of chassis on each port (L3).
    pub fn bench(&mut self) {
        for chassis in [six_octets as Numbered, each_kind_in_turn] {
            self.run_cases(chassis);
            self.run_of_a_loud_chassis(chassis);
        }
    }

    fn run_cases(&mut self, chassis: Numbered) {
        let nth = |port, number| nth(chassis, port, number);
        self.ports_of_b13(chassis);
        // A seventh on the first port: 7. A third on the one that holds two: 8.
        self.bench_frame(0, &nth(0, 7), 120);
        self.bench_frame(HALF, &nth(HALF, 3), 120);
        // Two new ones on the next port: recorded. A third: 8.
        self.bench_frame(NEXT, &nth(NEXT, 1), 120);
        self.bench_frame(NEXT, &nth(NEXT, 2), 120);
        self.bench_frame(NEXT, &nth(NEXT, 3), 120);
        // A goodbye on the first port, then the third that was refused: recorded.
        self.bench_frame(0, &nth(0, 6), 0);
        self.bench_frame(HALF, &nth(HALF, 3), 120);
        self.all_held();

        // With 120 seconds left, 119 pass: 1 is left. 1 more passes: the record is gone.
        self.call(Event::Start);
        self.bench_frame(0, &nth(0, 1), 120);
        for seconds in [119, 1] {
            self.call(Event::Seconds(seconds));
            self.call(Event::HowMany { port: 0 });
        }
    }

    fn run_of_a_loud_chassis(&mut self, chassis: Numbered) {
        let [first, second, third] =
            [1, 2, 3].map(|of| move |number| Agent::numbered(chassis(0, of), number));
        self.call(Event::Start);
        // Four of one chassis: recorded, recorded, recorded, 13.
        for number in 1..=4 {
            self.bench_frame(0, &first(number), 120);
        }
        // The first again: refreshed. A goodbye of the fourth: unknown goodbye.
        self.bench_frame(0, &first(1), 120);
        self.bench_frame(0, &first(4), 0);
        // The fourth on another port: recorded. Three of a second chassis: recorded.
        self.bench_frame(1, &first(4), 120);
        for number in 1..=3 {
            self.bench_frame(0, &second(number), 120);
        }
        self.call(Event::HowMany { port: 0 });
        // A fourth of either chassis: 13. One of a third chassis: 7.
        self.bench_frame(0, &first(4), 120);
        self.bench_frame(0, &second(4), 120);
        self.bench_frame(0, &third(1), 120);
        // A goodbye, then the fourth that was refused: recorded.
        self.bench_frame(0, &first(2), 0);
        self.bench_frame(0, &first(4), 120);
        self.all_held();
    }

    /// Frames from group addresses: 3, and nothing changes. Then the same ones from a station.
    pub fn frames_from_group_addresses(&mut self) {
        self.ports_of_b13(six_octets);
        self.call(Event::Seconds(20));
        for source in [NO_STATION, NEAREST, EVERYONE, STATION] {
            self.each_answer_to(&headed(EVERYONE, source, LLDP, &[]));
        }
    }

    /// Frames with this header on the ports of B13: each answer is due, or 3 from a group address.
    pub fn each_answer_to(&mut self, header: &[u8]) {
        let nth = |port, number| nth(six_octets, port, number);
        let first = nth(0, 1);
        // New ones. From a station: 7, 13, 8, recorded.
        self.frame_behind(header, 0, &nth(0, 7), 120);
        self.frame_behind(header, 0, &Agent::numbered(six_octets(0, 1), 4), 120);
        self.frame_behind(header, HALF, &nth(HALF, 3), 120);
        self.frame_behind(header, NEXT, &nth(NEXT, 1), 120);
        // A known one and two goodbyes. From a station: refreshed, gone, unknown goodbye.
        self.frame_behind(header, 0, &first, 120);
        self.frame_behind(header, 1, &nth(1, 1), 0);
        self.frame_behind(header, LAST_PORT, &nth(LAST_PORT, 1), 0);
        // A wrong chassis, one that is cut short, seconds twice. From a station: 4, 5, 6.
        self.frame_behind(header, 0, &Agent::of(address(&[2, 0, 0, 0, 0, 0, 1])), 120);
        let whole = announced(&first, 120);
        self.hear_behind(header, 0, whole[..whole.len() - 1].to_vec());
        self.hear_behind(header, 0, first.announcement(120, &[seconds()]));
        // 2 and 1 go before 3 (Q1).
        self.frame_behind(header, PORTS, &first, 120);
        self.call(Event::Lend(BUFFER_OCTETS - 1));
        self.frame_behind(header, 0, &first, 120);
        self.call(Event::Lend(BUFFER_OCTETS));
        self.all_held();
    }

    /// The first half of the ports hold six each, the next port holds two.
    pub fn ports_of_b13(&mut self, chassis: Numbered) {
        self.call(Event::Start);
        for port in 0..=HALF {
            let held = if port < HALF { MOST } else { SURE };
            for number in 1..=held {
                self.bench_frame(port, &nth(chassis, port, number), 120);
            }
        }
        self.all_held();
    }

    fn bench_frame(&mut self, port: usize, agent: &Agent, seconds: u16) {
        self.frame_behind(&headed(EVERYONE, STATION, LLDP, &[]), port, agent, seconds);
    }

    fn frame_behind(&mut self, header: &[u8], port: usize, agent: &Agent, seconds: u16) {
        self.hear_behind(header, port, announced(agent, seconds));
    }

    /// What each port holds, and the refusal for the number behind the last.
    fn all_held(&mut self) {
        for port in 0..=PORTS {
            self.call(Event::HowMany { port });
        }
    }
}

/// The LLDPDU of frame A with other IDs; with seconds 0 it has no other fields.
fn announced(agent: &Agent, seconds: u16) -> Vec<u8> {
    let later = if seconds == 0 { vec![] } else { vec![category(), model_number()] };
    agent.announcement(seconds, &later)
}

/// The neighbour of a number on a port, from 1 on. Three share a chassis; the next three have their
/// port IDs and a second chassis, the seventh a third one (B13).
fn nth(chassis: Numbered, port: usize, number: usize) -> Agent {
    let before = number - 1;
    let [of, number] = [before / MOST_OF_A_CHASSIS, before % MOST_OF_A_CHASSIS].map(|i| i + 1);
    Agent::numbered(chassis(port, of), number)
}

/// Other octets for each chassis; the first one of port 0 is that of frame A.
pub fn six_octets(port: usize, number: usize) -> Id {
    address(&[2, 0, 0, 0, port as u8, number as u8])
}

fn each_kind_in_turn(port: usize, number: usize) -> Id {
    match (port + number) % 3 {
        0 => six_octets(port, number),
        1 => address(&[2, 0, 0, 0, port as u8, number as u8, 0, 0]),
        _ => local(format!("{port:02X}{number:02X}").as_bytes()),
    }
}
