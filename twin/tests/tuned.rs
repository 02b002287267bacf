//! The tuned peer gives the answers of the plain program: on every stored case, and on seeded damage.
//! After each call on a table the answer, the table and the whole buffer are compared (Q2).

use twin::events::{Event, Trial};
use twin::frames::Kind;
use twin::reader::{self, Address, Refusal};
use twin::rng::Rng;
use twin::table::{octets_of, Table, BUFFER_OCTETS, COMMON, PLACES, PLACE_OCTETS, PORTS};
use twin::writer::{self, Description, Part};
use twin::{announcements, events, frames, tuned};

/// The header of frame A.
const HEADER: [u8; 14] =
    [0xFF, 0xFF, 0xFF, 0xFF, 0xFF, 0xFF, 0x02, 0x00, 0x00, 0x00, 0x00, 0x01, 0x88, 0xCC];

/// An octet that no output has before it is written.
const UNTOUCHED: u8 = 0xEE;

/// More than a table needs, so that a buffer can be too long.
const STORE: usize = BUFFER_OCTETS + 2_000;

/// Octets that mean something as a type, a length, a subtype or a count.
const TELLING: [u8; 20] =
    [0, 1, 2, 3, 4, 5, 6, 7, 8, 9, 0x0A, 0x10, 0x12, 0x41, 0xE0, 0x27, 0x1A, 0xFD, 0xFE, 0xFF];

fn same_reading(octets: &[u8], address: Address) {
    let owned = |read: Result<tuned::Reading, Refusal>| read.map(|reading| reading.owned());
    assert_eq!(owned(tuned::read_frame(octets)), reader::read_frame(octets));
    assert_eq!(owned(tuned::read_lldpdu(octets)), reader::read_lldpdu(octets));
    let owned = |read: Result<tuned::Outline, Refusal>| read.map(|outline| outline.owned());
    assert_eq!(owned(tuned::outline_frame(octets)), reader::outline_frame(octets));
    assert_eq!(owned(tuned::outline_lldpdu(octets)), reader::outline_lldpdu(octets));
    assert_eq!(tuned::name_link(octets, address), reader::name_link(octets, address));
}

/// The octets, and those behind where a header would end.
fn same_readings(octets: &[u8], address: Address) {
    same_reading(octets, address);
    same_reading(octets.get(14..).unwrap_or_default(), address);
}

fn telling(rng: &mut Rng) -> u8 {
    if rng.once_in(2) {
        rng.pick(&TELLING)
    } else {
        rng.octet()
    }
}

/// One to three octets become others, are taken away or are put in; or the octets are cut.
fn damaged(rng: &mut Rng, octets: &[u8]) -> Vec<u8> {
    let mut octets = octets.to_vec();
    for _ in 0..rng.between(1, 3) {
        if octets.is_empty() {
            break;
        }
        let at = match rng.below(3) {
            0 => rng.below(octets.len().min(40)),
            _ => rng.below(octets.len()),
        };
        match rng.below(10) {
            0 => octets.truncate(at),
            1 => drop(octets.remove(at)),
            2 => octets.insert(at, telling(rng)),
            3 => octets[at] ^= 1 << rng.below(8),
            4 => octets[at] = octets[at].wrapping_add(1),
            5 => octets[at] = octets[at].wrapping_sub(1),
            _ => octets[at] = telling(rng),
        }
    }
    octets
}

/// A TLV with any octets.
fn tlv(kind: u8, value: &[u8]) -> Vec<u8> {
    let header = (u16::from(kind) << 9 | value.len() as u16).to_be_bytes();
    [&header[..], value].concat()
}

/// The three leading TLVs.
fn leading(chassis: &[u8], port: &[u8], seconds: u16) -> Vec<u8> {
    [tlv(1, chassis), tlv(2, port), tlv(3, &seconds.to_be_bytes())].concat()
}

/// Leading TLVs, and then TLVs of few octets or none up to so many octets, with an End or without.
fn many_tlvs(rng: &mut Rng, octets: usize) -> Vec<u8> {
    let mut lldpdu = leading(&[4, 2, 0, 0, 0, 0, 1], &[7, 0x31], 120);
    let longest = rng.pick(&[0, 0, 0, 1, 2, 9]);
    let (low, high) = rng.pick(&[(9, 126), (4, 126), (9, 9), (4, 127), (0, 127)]);
    while lldpdu.len() + 4 + longest <= octets {
        let length = if longest == 0 && rng.once_in(400) { 1 } else { rng.below(longest + 1) };
        let kind = rng.between(low, high) as u8;
        lldpdu.extend(tlv(kind, &rng.octets(length)));
    }
    if !rng.once_in(8) {
        lldpdu.extend([0, 0]);
    }
    lldpdu
}

#[test]
fn every_stored_frame() {
    for case in frames::cases() {
        same_reading(&case.octets, case.asked);
        if case.kind == Kind::Frame {
            same_readings(&case.octets, case.asked);
        }
    }
}

#[test]
fn every_cut_of_stored_frames() {
    for case in frames::cases().iter().step_by(9) {
        for length in 0..case.octets.len().min(700) {
            same_reading(&case.octets[..length], case.asked);
        }
    }
}

#[test]
fn damaged_frames() {
    let mut rng = Rng::new(1);
    let cases = frames::cases();
    for _ in 0..150_000 {
        let case = &cases[rng.below(cases.len())];
        let octets = damaged(&mut rng, &case.octets);
        same_reading(&octets, case.asked);
    }
}

#[test]
fn frames_of_many_tlvs() {
    let mut rng = Rng::new(2);
    for _ in 0..3_000 {
        let octets = rng.pick(&[30, 60, 100, 700, 1499, 1500, 1501]);
        let lldpdu = many_tlvs(&mut rng, octets);
        same_readings(&[&HEADER[..], &lldpdu].concat(), [0; 6]);
        same_readings(&[&HEADER[..], &damaged(&mut rng, &lldpdu)].concat(), [0; 6]);
    }
}

/// Each octet at each place of a small frame, and each character of a description and a chassis.
#[test]
fn each_octet_everywhere() {
    let later = [
        tlv(4, b"words"),
        tlv(5, b"name"),
        tlv(7, &[0, 20, 0, 4]),
        tlv(127, &[0xE0, 0x27, 0x1A, 1, 1, 1, 0x41]),
        tlv(127, &[0xE0, 0x27, 0x1A, 1, 4, 1, 0x37]),
        tlv(127, &[0xE0, 0x27, 0x1A, 2, 1, 6, 1, 3, 1, 2, 0, 0, 0, 0, 9]),
        tlv(127, &[0xE0, 0x27, 0x1A, 3, 1, 2, 0, 0, 0, 0, 8]),
        tlv(0, &[]),
    ]
    .concat();
    for chassis in [&[4, 2, 0, 0, 0, 0, 1][..], &[4, 2, 0, 0, 0, 0, 1, 2, 3], b"\x0701AF"] {
        let frame = [&HEADER[..], &leading(chassis, &[7, 0x31], 120), &later].concat();
        for at in 0..frame.len() {
            let mut frame = frame.clone();
            for octet in 0..=255 {
                frame[at] = octet;
                same_readings(&frame, [2, 0, 0, 0, 0, 9]);
            }
        }
    }
    for octet in 0..=255 {
        for length in [1, 15, 16, 17, 31, 33, 64, 254, 255] {
            for at in [0, length / 2, length - 1] {
                let mut words = vec![b'a'; length];
                words[at] = octet;
                let body = [tlv(4, &words), tlv(0, &[])].concat();
                same_reading(&[leading(&[4; 7], &[7, 1], 1), body].concat(), [0; 6]);
            }
        }
        for pairs in [1, 8, 32] {
            for at in [1, pairs, 2 * pairs] {
                let mut chassis = vec![b'A'; 1 + 2 * pairs];
                chassis[0] = 7;
                chassis[at] = octet;
                same_reading(&[leading(&chassis, &[7, 1], 1), vec![0, 0]].concat(), [0; 6]);
            }
        }
    }
}

/// An address, and one that differs from it in one octet, at each place of long link information (A4).
#[test]
fn each_place_of_a_link_table() {
    let address = [2, 3, 4, 5, 6, 7];
    for count in [1, 7, 8, 9, 16, 83] {
        for (place, octet) in (0..count).flat_map(|place| (0..7).map(move |octet| (place, octet))) {
            let mut addresses = vec![[2, 3, 4, 5, 6, 8]; count];
            addresses[place] = address;
            if let Some(octet) = addresses[place].get_mut(octet) {
                *octet ^= 0x10;
            }
            let octets = addresses.as_flattened();
            let link = [&[0xE0, 0x27, 0x1A, 2, 1, 6, 1, 3, count as u8], octets].concat();
            let front = [0xE0, 0x27, 0x1A, 4, 1, 6, 1, 3, 6, count as u8, 0];
            let extension = [&front[..], octets, &[0, 0]].concat();
            for value in [link, extension] {
                let later = [tlv(127, &value), tlv(0, &[])].concat();
                same_reading(&[leading(&[4; 7], &[7, 1], 1), later].concat(), address);
            }
        }
    }
}

/// A table with its store, twice: one for the plain calls and one for the tuned ones.
#[derive(Clone)]
struct Pair {
    plain: (Table, Vec<u8>),
    tuned: (Table, Vec<u8>),
    lent: usize,
}

impl Pair {
    fn new() -> Pair {
        let state = (Table::default(), vec![0; STORE]);
        Pair { plain: state.clone(), tuned: state, lent: BUFFER_OCTETS }
    }

    /// Does a call on both, and holds answer, table and buffer against each other.
    fn call(&mut self, event: &Event) {
        let (table, store) = &mut self.plain;
        let plain = plain_answer(table, &mut store[..self.lent], event);
        let (table, store) = &mut self.tuned;
        let tuned = tuned_answer(table, &mut store[..self.lent], event);
        assert_eq!(tuned, plain, "{event:?}");
        assert!(self.tuned == self.plain, "{event:?} {plain}");
        let buffer = &self.plain.1[..self.lent];
        let fit = self.plain.0.breaches(buffer).is_empty();
        assert_eq!(tuned::is_fit(&self.plain.0, buffer), fit);
    }

    /// Does the same to both tables.
    fn edit(&mut self, mut edit: impl FnMut(&mut Table, &mut [u8])) {
        for (table, store) in [&mut self.plain, &mut self.tuned] {
            edit(table, store);
        }
        assert!(self.tuned == self.plain);
    }

    fn act(&mut self, event: &Event, kept: &mut Pair) {
        match *event {
            Event::Lend(octets) => self.lent = octets,
            Event::SetPort { place, port } => self.edit(|table, _| table.port[place] = port),
            Event::SetSeconds { place, seconds } => {
                self.edit(|table, _| table.seconds[place] = seconds)
            }
            Event::SetLength { place, length } => {
                self.edit(|table, _| table.length[place] = length)
            }
            Event::SetSender { place, sender } => {
                self.edit(|table, _| table.sender[place] = sender)
            }
            Event::SetOctet { at, octet } => self.edit(|_, store| store[at] = octet),
            Event::CopyPlace { from, to } => {
                self.edit(|table, store| copy_place(table, store, from, to))
            }
            Event::Keep => *kept = self.clone(),
            Event::Spoiled(ref trial) => {
                self.trial(trial);
                *self = kept.clone();
                self.lent = BUFFER_OCTETS;
            }
            ref call => self.call(call),
        }
    }

    fn trial(&mut self, trial: &Trial) {
        let &Trial { number, seconds, address, ref frame, .. } = trial;
        self.call(&Event::Frame { port: number, frame: frame.clone() });
        self.call(&Event::Seconds(seconds));
        self.call(&Event::Lost { port: number });
        self.call(&Event::HowMany { port: number });
        self.call(&Event::WhoSees { address, from: number });
        self.call(&Event::Start);
    }
}

fn copy_place(table: &mut Table, store: &mut [u8], from: usize, to: usize) {
    table.port[to] = table.port[from];
    table.seconds[to] = table.seconds[from];
    table.length[to] = table.length[from];
    table.sender[to] = table.sender[from];
    store.copy_within(octets_of(from), octets_of(to).start);
}

fn plain_answer(table: &mut Table, buffer: &mut [u8], event: &Event) -> String {
    match *event {
        Event::Start => format!("{:?}", table.start(buffer)),
        Event::Frame { port, ref frame } => {
            format!("{:?}", table.frame_on_port(buffer, port, frame))
        }
        Event::Seconds(seconds) => format!("{:?}", table.seconds_passed(buffer, seconds)),
        Event::Lost { port } => format!("{:?}", table.link_lost(buffer, port)),
        Event::HowMany { port } => format!("{:?}", table.how_many(buffer, port)),
        Event::WhoSees { address, from } => {
            format!("{:?}", table.who_sees(buffer, address, from))
        }
        _ => unreachable!("{event:?} is no call"),
    }
}

fn tuned_answer(table: &mut Table, buffer: &mut [u8], event: &Event) -> String {
    match *event {
        Event::Start => format!("{:?}", tuned::start(table, buffer)),
        Event::Frame { port, ref frame } => {
            format!("{:?}", tuned::frame_on_port(table, buffer, port, frame))
        }
        Event::Seconds(seconds) => format!("{:?}", tuned::seconds_passed(table, buffer, seconds)),
        Event::Lost { port } => format!("{:?}", tuned::link_lost(table, buffer, port)),
        Event::HowMany { port } => format!("{:?}", tuned::how_many(table, buffer, port)),
        Event::WhoSees { address, from } => {
            format!("{:?}", tuned::who_sees(table, buffer, address, from))
        }
        _ => unreachable!("{event:?} is no call"),
    }
}

#[test]
fn every_stored_event() {
    let (mut pair, mut kept) = (Pair::new(), Pair::new());
    for event in events::events() {
        pair.act(&event, &mut kept);
    }
}

/// A chassis of any kind, of few numbers, so that ones much like each other meet.
fn some_chassis(rng: &mut Rng) -> Vec<u8> {
    let number = rng.between(1, 3) as u8;
    match rng.below(6) {
        0 => vec![4, 2, 0, 0, 0, 0, 0, 0, number],
        1 => vec![7, b'0', b'0' + number],
        2 => vec![7, b'0', b'0', b'0', b'0' + number],
        3 => [&[7], &[b'A'; 63][..], &[b'0' + number]].concat(),
        _ => vec![4, 2, 0, 0, 0, 0, number],
    }
}

/// A port ID: an octet, or many of which one in the middle or at an end says the number.
fn some_port(rng: &mut Rng) -> Vec<u8> {
    let number = rng.between(1, 7) as u8;
    let octets = rng.pick(&[1, 1, 2, 7, 8, 9, 20, 255]);
    let mut port = vec![0x55; 1 + octets];
    port[0] = 7;
    port[1 + rng.pick(&[0, octets / 2, octets - 1])] = number;
    port
}

/// An LLDPDU of few or of many octets.
fn some_lldpdu(rng: &mut Rng, most: usize) -> Vec<u8> {
    let seconds = rng.pick(&[0, 1, 2, 120, 120, 120, 65_535]);
    let mut lldpdu = leading(&some_chassis(rng), &some_port(rng), seconds);
    let address = rng.pick(&[8, 9]);
    for _ in 0..rng.below(4) {
        lldpdu.extend(match rng.below(5) {
            0 => tlv(127, &[0xE0, 0x27, 0x1A, 2, 1, 6, 1, 3, 1, 2, 0, 0, 0, 0, address]),
            1 => {
                tlv(127, &[0xE0, 0x27, 0x1A, 4, 1, 71, 1, 0, 6, 1, 0, 2, 0, 0, 0, 0, address, 0, 0])
            }
            2 => tlv(127, &[0xE0, 0x27, 0x1A, 1, 1, 1, 0x41]),
            _ => tlv(rng.between(4, 126) as u8, &vec![0x41; rng.below(500)]),
        });
    }
    lldpdu.truncate(most.max(400));
    match rng.below(8) {
        0 => {
            while lldpdu.len() + 4 <= most {
                lldpdu.extend(tlv(100, &[]));
            }
        }
        1 => {
            while lldpdu.len() + 4 <= most {
                lldpdu.extend(tlv(100, &vec![1; 511.min(most - lldpdu.len() - 4)]));
            }
        }
        _ => {}
    }
    lldpdu.extend([0, 0]);
    lldpdu
}

fn some_port_number(rng: &mut Rng) -> usize {
    match rng.below(20) {
        0 => PORTS,
        1 => rng.pick(&[PORTS + 1, 255, 256, 65_536, 1 << 32, usize::MAX]),
        _ => rng.below(PORTS),
    }
}

fn some_call(rng: &mut Rng, frame: Vec<u8>) -> Event {
    let port = some_port_number(rng);
    match rng.below(12) {
        0 => Event::Seconds(rng.pick(&[0, 1, 2, 119, 120, 65_535])),
        1 => Event::Lost { port },
        2 => Event::HowMany { port },
        3 | 4 => {
            let address = [2, 0, 0, 0, 0, rng.pick(&[7, 8, 9])];
            let any = rng.below(PLACES);
            let from = rng.pick(&[0, 0, 1, any, PLACES - 1, PLACES, usize::MAX]);
            Event::WhoSees { address, from }
        }
        _ => Event::Frame { port, frame },
    }
}

/// A frame: some LLDPDU, or one of the table's, perhaps damaged, from any source.
fn some_frame(rng: &mut Rng, pair: &Pair) -> Vec<u8> {
    let (table, store) = &pair.plain;
    let place = rng.below(PLACES);
    let length = usize::from(table.length[place]).min(PLACE_OCTETS);
    let mut lldpdu = if rng.once_in(2) || length == 0 {
        some_lldpdu(rng, 1_500)
    } else {
        store[octets_of(place)][..length].to_vec()
    };
    if rng.once_in(4) {
        lldpdu = damaged(rng, &lldpdu);
    }
    let mut frame = [&HEADER[..], &lldpdu].concat();
    frame[11] = rng.octet();
    if rng.once_in(10) {
        frame[rng.below(14)] = rng.octet();
    }
    frame
}

#[test]
fn any_run_of_calls() {
    for seed in 0..60 {
        let mut rng = Rng::new(1_000 + seed);
        let mut pair = Pair::new();
        pair.call(&Event::Start);
        for _ in 0..250 {
            let frame = some_frame(&mut rng, &pair);
            let call = match rng.below(40) {
                0 => some_call(&mut rng, frame),
                _ => Event::Frame { port: some_port_number(&mut rng), frame },
            };
            pair.call(&call);
        }
    }
}

/// Fit tables to start from: of small records, of large ones, of many TLVs, and not all full.
fn bases() -> Vec<Pair> {
    let mut bases = vec![Pair::new()];
    for seed in 0..6 {
        let mut rng = Rng::new(seed);
        let mut pair = Pair::new();
        for _ in 0..300 {
            let lldpdu = some_lldpdu(&mut rng, if seed < 3 { 60 } else { 1_500 });
            let frame = [&HEADER[..], &lldpdu].concat();
            pair.call(&Event::Frame { port: rng.below(PORTS), frame });
        }
        bases.push(pair);
    }
    bases.extend([spread(|i| 1 + i / PORTS), spread(|_| 1), hoarded()]);
    bases
}

/// A record of one octet more than frame A's, of this chassis and this port ID.
fn small(chassis: u8, port: u8) -> Vec<u8> {
    let lldpdu = leading(&[4, 2, 0, 0, 0, 0, chassis], &[7, 0x30, port], 120);
    [&HEADER[..], &lldpdu, &[0, 0]].concat()
}

/// As many as fit with the same number on each port.
fn spread(chassis: impl Fn(usize) -> usize) -> Pair {
    let mut pair = Pair::new();
    for i in 0..PLACES {
        let frame = small(chassis(i) as u8, i as u8);
        pair.call(&Event::Frame { port: i % PORTS, frame });
    }
    pair
}

/// Six on the first ports, so that all common places are taken (N12).
fn hoarded() -> Pair {
    let mut pair = Pair::new();
    for i in 0..6 * PORTS {
        let frame = small((i % 2) as u8, i as u8);
        pair.call(&Event::Frame { port: i / 6, frame });
    }
    assert_eq!(pair.plain.0.common_taken(), COMMON);
    pair
}

/// Spoils a table in one way, or changes it so that it stays fit.
fn spoil(rng: &mut Rng, pair: &mut Pair) {
    let [place, other] = [0, 1].map(|_| match rng.below(4) {
        0 => rng.pick(&[0, PLACES - 1]),
        _ => rng.below(PLACES),
    });
    let length = usize::from(pair.plain.0.length[place]).min(PLACE_OCTETS - 1);
    let word = rng.word() as u16;
    let octet = telling(rng);
    let at = octets_of(place).start
        + match rng.below(6) {
            0 => PLACE_OCTETS - 1,
            1 => length,
            2 => rng.below(PLACE_OCTETS),
            3 => rng.below(16.min(length + 1)),
            _ => rng.below(length + 1),
        };
    match rng.below(14) {
        0 => {
            let last = PORTS as u8 - 1;
            let port = rng.pick(&[0, 1, last, last + 1, last + 2, 255, octet]);
            pair.edit(|table, _| table.port[place] = port)
        }
        1 => {
            let seconds = rng.pick(&[0, 1, 2, 119, 120, 121, 65_535, word]);
            pair.edit(|table, _| table.seconds[place] = seconds)
        }
        2 => {
            let lengths = [0, 1, length as u16 + 1, length as u16 - 1 + u16::from(length == 0)];
            let length = rng.pick(&[&lengths[..], &[1_499, 1_500, 1_501, 65_535, word]].concat());
            pair.edit(|table, _| table.length[place] = length)
        }
        3 => {
            let i = rng.below(6);
            pair.edit(|table, _| table.sender[place][i] = octet)
        }
        4 => pair.edit(|table, store| copy_place(table, store, place, other)),
        5 => pair.edit(|table, store| swap_places(table, store, place, other)),
        6 => {
            // Four of a chassis, or the same neighbour twice, or only more on the port (N5 d, g).
            let behind_the_port_id = 8 + usize::from(pair.plain.1[octets_of(place).start + 1]);
            for i in 0..rng.between(1, 4) {
                let to = rng.below(PLACES);
                let at = octets_of(to).start + behind_the_port_id - 3 - rng.below(2);
                pair.edit(|table, store| {
                    copy_place(table, store, place, to);
                    store[at] = store[at].wrapping_add(i as u8);
                });
            }
        }
        7 => {
            // Seven on a port, too many in common places, or not (N5 e, f).
            for _ in 0..rng.between(1, 5) {
                let to = rng.below(PLACES);
                let port = pair.plain.0.port[place];
                pair.edit(|table, _| table.port[to] = port);
            }
        }
        8 => pair.lent = rng.pick(&[0, 1, BUFFER_OCTETS - 1, BUFFER_OCTETS + 1, STORE]),
        9 => pair.edit(|_, store| store[at] ^= 1 << (octet % 8)),
        _ => pair.edit(|_, store| store[at] = octet),
    }
}

fn swap_places(table: &mut Table, store: &mut [u8], one: usize, other: usize) {
    table.port.swap(one, other);
    table.seconds.swap(one, other);
    table.length.swap(one, other);
    table.sender.swap(one, other);
    for i in 0..PLACE_OCTETS {
        store.swap(octets_of(one).start + i, octets_of(other).start + i);
    }
}

#[test]
fn spoiled_tables() {
    let mut rng = Rng::new(3);
    let bases = bases();
    let [mut fit, mut unfit] = [0; 2];
    for _ in 0..12_000 {
        let base = &bases[rng.below(bases.len())];
        let mut pair = base.clone();
        for _ in 0..rng.pick(&[1, 1, 1, 2, 3]) {
            spoil(&mut rng, &mut pair);
        }
        let frame = some_frame(&mut rng, base);
        let call = some_call(&mut rng, frame);
        match tuned::is_fit(&pair.tuned.0, &pair.tuned.1[..pair.lent]) {
            true => fit += 1,
            false => unfit += 1,
        }
        pair.call(&call);
    }
    println!("fit {fit}, unfit {unfit}");
    assert!(fit >= 1_000 && unfit >= 4_000);
}

/// Each octet of the padding, of a free place and of a used one, is looked at (N5 b, c).
#[test]
fn each_octet_of_the_padding() {
    let mut table = Table::default();
    let mut buffer = vec![0; BUFFER_OCTETS];
    let lldpdus = [37, 38, 39, 1_420, 1_436, 1_437, 1_498, 1_499, 1_500];
    for (length, port) in lldpdus.into_iter().zip(0..) {
        let mut lldpdu = leading(&[4, 2, 0, 0, 0, 0, 1], &[7, 0x31], 120);
        while lldpdu.len() + 2 < length {
            let rest = length - lldpdu.len() - 4;
            lldpdu.extend(tlv(100, &vec![1; if rest > 511 { 400 } else { rest }]));
        }
        lldpdu.extend([0, 0]);
        assert_eq!(lldpdu.len(), length);
        let frame = [&HEADER[..], &lldpdu].concat();
        tuned::frame_on_port(&mut table, &mut buffer, port, &frame).expect("there is room");
    }
    assert!(tuned::is_fit(&table, &buffer) && table.breaches(&buffer).is_empty());
    for place in (0..=lldpdus.len()).chain([PLACES - 1]) {
        for at in octets_of(place).skip(usize::from(table.length[place])) {
            buffer[at] = 0x40;
            assert!(!tuned::is_fit(&table, &buffer), "octet {at}");
            buffer[at] = 0;
        }
    }
    assert!(tuned::is_fit(&table, &buffer));
}

/// Writes with this room, and holds answer and output against the plain writer's.
fn same_writing(description: &Description, text: &[u8], room: usize) -> Result<usize, Refusal> {
    let mut output = vec![UNTOUCHED; room];
    let plain = writer::write(description, text, room);
    let tuned = tuned::write(description, text, &mut output);
    assert_eq!(tuned, plain.as_ref().map(Vec::len).map_err(|&refusal| refusal), "{description:?}");
    let written = plain.unwrap_or_default();
    assert_eq!(output[..written.len()], written);
    assert!(output[written.len()..].iter().all(|&octet| octet == UNTOUCHED));
    tuned
}

#[test]
fn every_stored_announcement() {
    for case in announcements::cases() {
        let written = same_writing(&case.description, &case.text, case.room);
        assert_eq!(written, case.meant);
        let whole = same_writing(&case.description, &case.text, 2_000).unwrap_or(40);
        for room in [0, 1, whole - 1, whole, whole + 1, whole + 15, whole + 16, whole + 40] {
            let _ = same_writing(&case.description, &case.text, room);
        }
    }
}

#[test]
fn every_room_of_some_announcements() {
    for case in announcements::cases().iter().step_by(31) {
        for room in 0..=1_502 {
            let _ = same_writing(&case.description, &case.text, room);
        }
    }
}

/// All parts of a description, to be changed.
fn parts(description: &mut Description) -> Vec<&mut Part> {
    let Description { chassis, port, words, category, manufacturer, .. } = description;
    let mut parts = vec![&mut chassis.octets, &mut port.octets, words, category, manufacturer];
    let Description { model_name, model_number, system_name, system_description, .. } = description;
    parts.extend([model_name, model_number, system_name, system_description]);
    if let Some(link) = &mut description.link {
        parts.extend([&mut link.interface, &mut link.number, &mut link.addresses]);
    }
    parts.extend(&mut description.list);
    parts.extend(&mut description.extension);
    parts.extend(&mut description.management.slots);
    parts
}

#[test]
fn damaged_announcements() {
    let mut rng = Rng::new(4);
    let cases = announcements::cases();
    let [mut written, mut refused] = [0; 2];
    for _ in 0..120_000 {
        let case = &cases[rng.below(cases.len())];
        let mut description = case.description.clone();
        let mut text = case.text.clone();
        for _ in 0..rng.between(1, 2) {
            let any = rng.word();
            let near = rng.pick(&[0, 1, 2, 6, 7, 31, 32, 255, 256, 507, 508, 511, 512, any]);
            let mut parts = parts(&mut description);
            let part = rng.below(parts.len());
            let part = &mut *parts[part];
            match rng.below(9) {
                0 => part.start = rng.pick(&[near, part.start.wrapping_add(1), text.len() as u64]),
                1 | 2 => part.len = near,
                3 => part.len = part.len.wrapping_add(rng.pick(&[1, 6, 1u64.wrapping_neg()])),
                4 => description.seconds = rng.pick(&[0, 1, 65_535]),
                5 => description.chassis.subtype = telling(&mut rng),
                6 => description.port.subtype = telling(&mut rng),
                7 => description.management.count = rng.pick(&[0, 1, 4, 5, any]),
                _ => {
                    if !text.is_empty() {
                        let at = rng.below(text.len());
                        text[at] = telling(&mut rng);
                    }
                }
            }
        }
        let any = rng.below(1_501);
        let room = rng.pick(&[case.room, 1_500, 1_500, any]);
        match same_writing(&description, &text, room) {
            Ok(_) => written += 1,
            Err(_) => refused += 1,
        }
    }
    println!("written {written}, refused {refused}");
    assert!(written >= 10_000 && refused >= 10_000);
}
