//! The frames of the rows: frame A (B1), frames of 1,514 octets, and those of neighbours.
//! Each is valid and HTIP, since it has frame A's category and model number.

use twin::reader::Address;

/// The shipped example.
pub const FRAME_A: &[u8; 51] = include_bytes!("../../../crates/judge/stdin");

/// Octets of frame A's category and model number.
const OF_A: std::ops::Range<usize> = 31..49;

/// Octets of the longest frame (F1).
const LONGEST: usize = 1_514;

/// Of the types that are skipped whatever their L (L9).
const SKIPPED: u8 = 9;
const ORGANIZATION: u8 = 127;

/// An organization that is not TTC, and a subtype: the TLV is skipped (T1). It is one that other
/// readers do not know either.
const ANOTHER: [u8; 4] = [0x00, 0x00, 0x5E, 1];

/// Who announces, and what: the identity without the port (N2), the seconds, and the later TLVs.
pub struct Announced {
    pub chassis: Address,
    pub port_id: Vec<u8>,
    pub seconds: u16,
    pub later: Later,
}

/// What stands behind frame A's category and model number. All but the first fill the frame.
#[derive(Clone, Copy, PartialEq, Eq)]
pub enum Later {
    Nothing,
    /// Three TLVs of another organization.
    Few,
    /// TLVs of L = 0.
    Empty,
    /// Link information with as many addresses as there can be (W5).
    Links,
    /// Link information with one address, as often as there is room.
    ShortLinks,
    /// Extension link information, each address with nine items of one octet (T11).
    Items,
    /// TLVs of that organization, of L = 4, which is the least (L10).
    Organization,
}

impl Announced {
    /// Chassis, port ID and seconds of frame A.
    pub fn a() -> Announced {
        let chassis = [2, 0, 0, 0, 0, 1];
        Announced { chassis, port_id: b"1".to_vec(), seconds: 120, later: Later::Nothing }
    }

    pub fn with(later: Later) -> Announced {
        Announced { later, ..Announced::a() }
    }

    /// The rows keep their frames as long as the program runs.
    pub fn frame(&self) -> &'static [u8] {
        let mut frame = [&FRAME_A[..6], &self.chassis, &FRAME_A[12..14]].concat();
        frame.extend(tlv(1, &[&[4], &self.chassis[..]].concat()));
        frame.extend(tlv(2, &[&[7], &self.port_id[..]].concat()));
        frame.extend(tlv(3, &self.seconds.to_be_bytes()));
        frame.extend(&FRAME_A[OF_A]);
        let room = LONGEST - 2 - frame.len();
        frame.extend(self.later.octets(room));
        frame.extend([0, 0]);
        frame.leak()
    }
}

impl Later {
    fn octets(self, room: usize) -> Vec<u8> {
        match self {
            Later::Nothing => vec![],
            Later::Few => filled(ORGANIZATION, &ANOTHER, 3, room),
            Later::Empty => filled(SKIPPED, &[], room / 2, room),
            Later::Links => repeated(&links(83), room),
            Later::ShortLinks => repeated(&links(1), room),
            Later::Items => repeated(&items(20), room),
            Later::Organization => filled(ORGANIZATION, &ANOTHER, room / 6, room),
        }
    }
}

/// So many TLVs of one length, but the last has what is left.
fn filled(kind: u8, front: &[u8], count: usize, room: usize) -> Vec<u8> {
    let one = |octets: usize| {
        let mut value = front.to_vec();
        value.resize(octets - 2, 0);
        tlv(kind, &value)
    };
    let each = room / count;
    [one(each).repeat(count - 1), one(room - each * (count - 1))].concat()
}

/// A TLV as often as there is room, and one of another organization in what is left.
fn repeated(tlv: &[u8], room: usize) -> Vec<u8> {
    // Its header and the organization with its subtype take six octets (L10).
    let times = (room - 6) / tlv.len();
    let rest = filled(ORGANIZATION, &ANOTHER, 1, room - times * tlv.len());
    [tlv.repeat(times), rest].concat()
}

/// So many addresses, of which none is asked for; 83 are the most (W5).
fn links(count: u8) -> Vec<u8> {
    let addresses: Vec<u8> = (0..count).flat_map(|i| [4, 0, 0, 0, 0, i]).collect();
    tlv(ORGANIZATION, &[&[0xE0, 0x27, 0x1A, 2, 1, 6, 1, 1, count], &addresses[..]].concat())
}

/// So many addresses of six octets, each with nine items, and nothing behind them (T11).
fn items(count: u8) -> Vec<u8> {
    let entry = |i| [&[4, 0, 0, 0, 0, i][..], &[1, b'2'].repeat(9)].concat();
    let entries: Vec<u8> = (0..count).flat_map(entry).collect();
    let front = [0xE0, 0x27, 0x1A, 4, 1, 6, 1, 1, 6, count, 9];
    tlv(ORGANIZATION, &[&front[..], &entries, &[0, 0]].concat())
}

/// Seven bits of type, nine of length, and then the information string (L1).
fn tlv(kind: u8, value: &[u8]) -> Vec<u8> {
    let header = u16::from(kind) << 9 | value.len() as u16;
    [&header.to_be_bytes(), value].concat()
}
