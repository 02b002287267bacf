//! A table with its buffer, and the frames that it hears, for the tests of the table.
//! The frames are frame A with some octets changed.

use crate::page::*;
use twin::id::Id;
use twin::reader::Refusal;
use twin::table::{Reply, Sighting, Table, BUFFER_OCTETS, LAST_PLACE, LAST_PORT, PLACES, PORTS};

/// With six on each of so many ports all common places are taken; the number of ports is even.
pub const HALF: usize = PORTS / 2;

/// The source of frame A, and two others that may be one. The second differs from it in the last
/// octet alone, the third has every bit that a source may have (F4).
pub const STATION: [u8; 6] = [0x02, 0x00, 0x00, 0x00, 0x00, 0x01];
pub const SECOND: [u8; 6] = [0x02, 0x00, 0x00, 0x00, 0x00, 0x02];
pub const THIRD: [u8; 6] = [0xFE, 0xFF, 0xFF, 0xFF, 0xFF, 0xFF];
pub const ZEROS: [u8; 6] = [0x00; 6];

/// Places of octets in A: the last of the chassis, the subtype and the octet of the port ID, and
/// the low one of the seconds.
pub const CHASSIS: usize = 8;
pub const SUBTYPE: usize = 11;
pub const PORT_ID: usize = 12;
pub const SECONDS_LOW: usize = 16;

/// Octets of A with some of them changed, behind the header.
pub fn frame(changes: &[(usize, u8)]) -> Vec<u8> {
    [&HEADER[..], &lldpdu(changes)].concat()
}

pub fn lldpdu(changes: &[(usize, u8)]) -> Vec<u8> {
    let mut octets = A.to_vec();
    for &(at, octet) in changes {
        octets[at] = octet;
    }
    octets
}

/// Frame A from the neighbour of that number.
pub fn neighbour(number: u8) -> Vec<u8> {
    frame(&[(CHASSIS, number)])
}

/// Frame A from one of several that share a chassis and differ in port ID (N2).
pub fn one_of(chassis: u8, number: u8) -> Vec<u8> {
    frame(&[(CHASSIS, chassis), (PORT_ID, 0x30 + number)])
}

/// Frame A from the neighbour of that number on a port: the first to third are of one chassis, the
/// fourth to sixth of a second, the seventh of a third (B13).
pub fn nth(number: u8) -> Vec<u8> {
    match number {
        1..=3 => one_of(1, number),
        4..=6 => one_of(2, number - 3),
        _ => one_of(3, number - 6),
    }
}

/// Seconds 0 and nothing else: A without its device information.
pub fn goodbye(number: u8) -> Vec<u8> {
    let whole = lldpdu(&[(CHASSIS, number), (SECONDS_LOW, 0)]);
    [&HEADER[..], &whole[..17], &[0x00, 0x00]].concat()
}

/// A with another chassis, and with seconds up to 255.
pub fn announced(chassis: &Id, seconds: u8) -> Vec<u8> {
    let first = first_tlv(chassis.subtype, &chassis.octets);
    [&first, &A[9..SECONDS_LOW], &[seconds], &A[17..]].concat()
}

/// The frame with another source (F1).
pub fn sent_by(source: [u8; 6], mut frame: Vec<u8>) -> Vec<u8> {
    frame[6..12].copy_from_slice(&source);
    frame
}

/// The frame with the source 03-00-00-00-00-01, a group address (F4).
pub fn from_a_group(frame: Vec<u8>) -> Vec<u8> {
    sent_by([0x03, 0x00, 0x00, 0x00, 0x00, 0x01], frame)
}

/// Six chassis that are much alike: in all octets, in the first or last ones, or spelled (N2).
pub fn much_alike() -> [[Id; 6]; 3] {
    let mut other_end = [0x30; 64];
    other_end[63] = 0x46;
    [
        [
            id(4, b"ABCDEF"),
            id(7, b"ABCDEF"),
            id(4, b"ABCDEF01"),
            id(7, b"ABCDEF01"),
            id(7, b"ABCD"),
            id(7, b"414243444546"),
        ],
        [
            id(4, &[0x02, 0x00, 0x00, 0x00, 0x00, 0x01]),
            id(7, b"020000000001"),
            id(4, &[0x02, 0x00, 0x00, 0x00, 0x00, 0x01, 0x00, 0x00]),
            id(7, b"0200000000010000"),
            id(4, &[0x02, 0x00, 0x00, 0x00, 0x00, 0x01, 0x00, 0x01]),
            id(4, &[0x00, 0x00, 0x02, 0x00, 0x00, 0x00, 0x00, 0x01]),
        ],
        [
            id(7, &[0x30; 64]),
            id(7, &other_end),
            id(7, &[0x30; 62]),
            id(7, &[0x30; 2]),
            id(7, &[0x30; 6]),
            id(4, &[0x30; 6]),
        ],
    ]
}

/// Writes a record over a place, without asking anybody.
pub fn write(watch: &mut Watch, place: usize, port: u8, octets: &[u8]) {
    watch.table.port[place] = port;
    watch.table.seconds[place] = 120;
    watch.table.length[place] = octets.len() as u16;
    watch.table.sender[place] = STATION;
    watch.buffer[1500 * place..][..octets.len()].copy_from_slice(octets);
}

/// A table with the buffer that is lent to it.
#[derive(Clone, Debug, PartialEq, Eq)]
pub struct Watch {
    pub table: Table,
    pub buffer: Vec<u8>,
}

impl Watch {
    pub fn started() -> Watch {
        let mut watch = Watch { table: Table::default(), buffer: vec![0xEE; BUFFER_OCTETS] };
        watch.table.port[3] = 255;
        watch.table.seconds[0] = 1;
        watch.table.length[LAST_PLACE] = 65_535;
        watch.table.sender[1] = STATION;
        watch.table.sender[LAST_PLACE] = [0xFF; 6];
        assert_eq!(watch.start(), Ok(()));
        watch
    }

    /// Each of these frames was recorded on its port.
    pub fn hearing(frames: impl IntoIterator<Item = (usize, Vec<u8>)>) -> Watch {
        let mut watch = Watch::started();
        for (port, frame) in frames {
            assert_eq!(watch.frame(port, &frame), Ok(Reply::Recorded));
        }
        watch
    }

    /// Each of these ports holds so many neighbours, as in B13.
    pub fn crowded(ports: &[(usize, u8)]) -> Watch {
        let of_port = |&(port, count)| (1..=count).map(move |number| (port, nth(number)));
        Watch::hearing(ports.iter().flat_map(of_port))
    }

    pub fn start(&mut self) -> Result<(), Refusal> {
        self.table.start(&mut self.buffer)
    }

    pub fn frame(&mut self, port: usize, frame: &[u8]) -> Result<Reply, Refusal> {
        self.table.frame_on_port(&mut self.buffer, port, frame)
    }

    pub fn seconds(&mut self, seconds: u16) -> Result<(), Refusal> {
        self.table.seconds_passed(&mut self.buffer, seconds)
    }

    pub fn lost(&mut self, port: usize) -> Result<(), Refusal> {
        self.table.link_lost(&mut self.buffer, port)
    }

    pub fn holds(&self, port: usize) -> Result<usize, Refusal> {
        self.table.how_many(&self.buffer, port)
    }

    pub fn sees(&self, address: [u8; 6], from: usize) -> Result<Option<Sighting>, Refusal> {
        self.table.who_sees(&self.buffer, address, from)
    }

    /// Calls that answer with a refusal leave everything as it was (Q2).
    pub fn refuses(&mut self, due: Refusal, call: impl Fn(&mut Watch) -> Option<Refusal>) {
        let before = self.clone();
        assert_eq!(call(self), Some(due));
        assert_eq!(*self, before);
    }

    /// All calls but Start refuse with 1, whatever the port, the frame and the start are (Q1).
    pub fn is_unfit(&mut self) {
        for port in [0, LAST_PORT, PORTS, usize::MAX] {
            self.refuses(1, |watch| watch.frame(port, &neighbour(1)).err());
            self.refuses(1, |watch| watch.frame(port, &goodbye(1)).err());
            self.refuses(1, |watch| watch.frame(port, &[]).err());
            self.refuses(1, |watch| watch.frame(port, &from_a_group(neighbour(1))).err());
            self.refuses(1, |watch| watch.lost(port).err());
            self.refuses(1, |watch| watch.holds(port).err());
        }
        for seconds in [0, 1, 65_535] {
            self.refuses(1, |watch| watch.seconds(seconds).err());
        }
        for from in [0, LAST_PLACE, PLACES, usize::MAX] {
            self.refuses(1, |watch| watch.sees([0; 6], from).err());
        }
    }

    pub fn is_fit(&self) -> bool {
        self.holds(0).is_ok()
    }
}
