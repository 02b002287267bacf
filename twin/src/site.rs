//! A small capture of a site: port 3 of a cell in the two minutes before an arm halted.
//! It is written as tcpdump writes on a PC, with the low octet first, and cut at 96 octets a frame.

use crate::captures::blocks::{capture_snapped, Order, Record};
use crate::events::maker::Agent;
use crate::frames::blocks::*;
use crate::id::Id;
use crate::reader::Address;

/// The first second of the capture: 5 January 2026, 8:40 in the morning.
const BEGIN: u32 = 1_767_602_400;

/// No frame on Ethernet is shorter, and of a longer one than this not all was captured.
const SHORTEST: usize = 60;
const SNAP: usize = 96;

/// A neighbour on the port: who it is, where its frames come from, how long they last, and the fields
/// that make it HTIP.
struct Neighbour {
    agent: Agent,
    source: Address,
    seconds: u16,
    fields: [Tlv; 2],
}

impl Neighbour {
    fn announcement(&self) -> Vec<u8> {
        framed(self.source, &self.agent.announcement(self.seconds, &self.fields))
    }

    /// It goes on purpose, and says so (N7).
    fn goodbye(&self) -> Vec<u8> {
        framed(self.source, &self.agent.announcement(0, &[]))
    }
}

/// The capture, always the same. The first drive falls silent and runs out, the second says goodbye;
/// both agents of the switch and the third drive are there to the end.
pub fn capture() -> Vec<u8> {
    let [one, other] = switch();
    let [silent, leaving, staying] = drives();
    let records = [
        at(0, 104_882, one.announcement()),
        at(0, 105_017, other.announcement()),
        at(1, 330_461, silent.announcement()),
        at(5, 912_008, leaving.announcement()),
        at(8, 47_553, staying.announcement()),
        at(11, 330_874, silent.announcement()),
        at(21, 331_209, silent.announcement()),
        at(31, 331_590, silent.announcement()),
        at(41, 332_046, silent.announcement()),
        at(44, 760_225, from_a_group(silent.announcement())),
        at(45, 105_340, one.announcement()),
        at(45, 105_471, other.announcement()),
        at(50, 913_337, leaving.announcement()),
        at(62, 48_110, staying.announcement()),
        at(83, 271_694, padded(&headed(EVERYONE, [2, 0, 0, 0, 0, 5], [0x08, 0x00], &[0x45]), 342)),
        at(90, 105_798, one.announcement()),
        at(90, 105_926, other.announcement()),
        at(97, 914_120, leaving.goodbye()),
        at(116, 49_002, staying.announcement()),
        at(120, 500_731, who_has()),
    ];
    capture_snapped(Order::Low, SNAP as u32, &records)
}

/// Two agents of one chassis. The second sends from an address of its own.
fn switch() -> [Neighbour; 2] {
    let chassis = [2, 0, 0, 0, 0, 0x01];
    [(1, chassis), (2, [2, 0, 0, 0, 0, 0x0A])].map(|(number, source)| Neighbour {
        agent: Agent::numbered(address(&chassis), number),
        source,
        seconds: 120,
        fields: [device(1, b"Switch"), device(4, b"S8")],
    })
}

/// One that has an address as its chassis and its port ID, and two that have local ones.
fn drives() -> [Neighbour; 3] {
    let own = [2, 0, 0, 0, 0, 0x02];
    let of_address =
        Agent { chassis: address(&own), port: Id { subtype: 3, octets: own.to_vec() } };
    [
        (of_address, own, 30),
        (Agent::of(local(b"0A1B")), [2, 0, 0, 0, 0, 0x03], 60),
        (Agent::of(local(b"0A1C")), [2, 0, 0, 0, 0, 0x04], 60),
    ]
    .map(|(agent, source, seconds)| Neighbour {
        agent,
        source,
        seconds,
        fields: [device(1, b"Drive"), device(4, b"D2")],
    })
}

/// A frame of another type: after the halt a PC asks who has the drive's address (R3).
fn who_has() -> Vec<u8> {
    let pc = [2, 0, 0, 0, 0, 0x05];
    let kind = [0x00, 0x01, 0x08, 0x00, 6, 4, 0x00, 0x01];
    let asked = [&kind[..], &pc, &[10, 0, 0, 5], &[0; 6], &[10, 0, 0, 2]].concat();
    padded(&headed(EVERYONE, pc, [0x08, 0x06], &asked), SHORTEST)
}

fn framed(source: Address, lldpdu: &[u8]) -> Vec<u8> {
    let frame = headed(EVERYONE, source, LLDP, lldpdu);
    let length = frame.len().max(SHORTEST);
    padded(&frame, length)
}

/// As much of the frame as was captured, so long after the beginning.
fn at(seconds: u32, microseconds: u32, frame: Vec<u8>) -> Record {
    let on_the_wire = frame.len() as u32;
    let captured = frame[..frame.len().min(SNAP)].to_vec();
    Record::of(BEGIN + seconds, captured, on_the_wire).at(microseconds)
}

#[cfg(test)]
mod tests {
    use super::*;
    use crate::capture::{replay_text, ALL};
    use crate::changes::changes_text;

    /// What is left at the end, by the times above: 90 + 120 - 120 seconds of the agents, and
    /// 116 + 60 - 120 of the drive that stays.
    #[test]
    fn the_table_of_the_site() {
        assert_eq!(
            replay_text(&capture(), 3, ALL),
            "3 90 02-00-00-00-00-01 7 31 02-00-00-00-00-01\n\
             3 90 02-00-00-00-00-01 7 32 02-00-00-00-00-0A\n\
             3 56 local 0A1C 7 31 02-00-00-00-00-04\n"
        );
    }

    /// After nine frames, 41 seconds in, all three drives are there.
    #[test]
    fn the_table_before_the_drive_falls_silent() {
        assert_eq!(
            replay_text(&capture(), 3, 9),
            "3 79 02-00-00-00-00-01 7 31 02-00-00-00-00-01\n\
             3 79 02-00-00-00-00-01 7 32 02-00-00-00-00-0A\n\
             3 30 02-00-00-00-00-02 3 02-00-00-00-00-02 02-00-00-00-00-02\n\
             3 24 local 0A1B 7 31 02-00-00-00-00-03\n\
             3 27 local 0A1C 7 31 02-00-00-00-00-04\n"
        );
    }

    /// From the fourth frame, 5 seconds in, to the last but one at 116: the agents were heard at 90, the
    /// first drive fell silent at 41, the second said goodbye, and the third came.
    #[test]
    fn what_changed_at_the_site() {
        assert_eq!(
            changes_text(&capture(), 3, [4, 18]),
            "seconds 3 115 94 02-00-00-00-00-01 7 31 02-00-00-00-00-01\n\
             seconds 3 115 94 02-00-00-00-00-01 7 32 02-00-00-00-00-0A\n\
             left 3 26 - 02-00-00-00-00-02 3 02-00-00-00-00-02 02-00-00-00-00-02\n\
             left 3 60 - local 0A1B 7 31 02-00-00-00-00-03\n\
             joined 3 - 60 local 0A1C 7 31 02-00-00-00-00-04\n"
        );
    }

    #[test]
    fn it_is_small_and_the_same_each_time() {
        assert!(capture().len() < 2_500);
        assert_eq!(capture(), capture());
        assert_eq!(capture()[..8], [0xD4, 0xC3, 0xB2, 0xA1, 0x02, 0x00, 0x04, 0x00]);
    }
}
