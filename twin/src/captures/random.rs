//! Random captures: frames of few neighbours, as the events have them, with any time between them.
//! Now and then a record, the file header, the limit or the port is odd, or the file ends too soon.

use super::blocks::*;
use super::maker::Maker;
use super::{Case, NEVER, ROOM};
use crate::capture::ALL;
use crate::events::maker::Maker as EventMaker;
use crate::events::Event;
use crate::frames::blocks::padded;
use crate::rng;
use crate::table::PORTS;

const CAPTURES: usize = 320;
const MOST_RECORDS: usize = 40;

impl Maker {
    pub fn random_captures(&mut self) {
        let mut events = EventMaker::seeded(rng::CAPTURES);
        for round in 0..CAPTURES {
            self.order = Order::BOTH[round % 2];
            let case = random_case(&mut events, self.order);
            self.cases.push(case);
        }
    }
}

/// The maker of events hears the frames too, so that it knows whom to make heard again.
fn random_case(events: &mut EventMaker, order: Order) -> Case {
    let go_on = events.rng().once_in(5);
    if !go_on {
        events.call(Event::Start);
    }
    let port = events.rng().below(PORTS);
    let count = match events.rng().below(10) {
        0 => events.rng().below(3),
        1 => MOST_RECORDS,
        _ => events.rng().between(1, MOST_RECORDS),
    };
    let records = random_records(events, port, count);
    let frames = records.iter().filter(|record| record.captured >= record.original).count();
    let octets = random_file(events, order, &records);
    Case {
        order,
        go_on,
        port: if events.rng().once_in(20) { events.random_port(&[PORTS]) } else { port },
        limit: random_limit(events, frames as u64),
        spoil: random_spoil(events, octets.len()),
        room: random_room(events),
        octets,
    }
}

fn random_records(events: &mut EventMaker, port: usize, count: usize) -> Vec<Record> {
    let mut stamp = match events.rng().below(4) {
        0 => events.rng().word() as u32,
        1 => events.rng().below(100) as u32,
        _ => 1_700_000_000 + events.rng().below(100_000_000) as u32,
    };
    let mut records = Vec::new();
    for _ in 0..count {
        let before = stamp;
        stamp = random_stamp(events, before);
        if !records.is_empty() {
            let passed = stamp.saturating_sub(before).min(65_535);
            events.call(Event::Seconds(passed as u16));
        }
        let record = random_record(events, port, stamp);
        if record.captured >= record.original {
            events.call(Event::Frame { port, frame: record.octets.clone() });
        }
        records.push(record);
    }
    records
}

/// Mostly a little later; now and then as late as a neighbour has seconds left, much later, or
/// earlier.
fn random_stamp(events: &mut EventMaker, before: u32) -> u32 {
    let later = match events.rng().below(40) {
        0..=9 => 0,
        10..=13 => u32::from(events.random_seconds_passed()),
        14 => events.rng().between(65_534, 65_600) as u32,
        15 => events.rng().word() as u32,
        16..=18 => return before.wrapping_sub(events.rng().between(1, 400) as u32),
        _ => events.rng().between(1, 12) as u32,
    };
    before.wrapping_add(later)
}

/// Mostly a whole frame; now and then one of which something is missing, or lengths that do not
/// suit each other.
fn random_record(events: &mut EventMaker, port: usize, stamp: u32) -> Record {
    let Event::Frame { frame, .. } = events.random_frame(&[port]) else {
        unreachable!("a random frame is a frame");
    };
    let length = frame.len();
    let rng = events.rng();
    let record = match rng.below(24) {
        0 => Record::skipped(stamp, frame),
        1 => {
            let kept = rng.below(length + 1);
            Record::of(stamp, frame[..kept].to_vec(), length as u32)
        }
        2 => Record::of(stamp, frame, rng.word() as u32),
        3 => Record::of(stamp, frame, rng.below(length + 1) as u32),
        4 => Record::of(stamp, vec![], rng.below(3) as u32),
        // Short of the longest frame, and above it.
        5 if rng.once_in(12) => Record::whole(stamp, padded(&frame, rng.between(1_512, 1_517))),
        _ => Record::whole(stamp, frame),
    };
    let microseconds = match rng.below(8) {
        0 => rng.word() as u32,
        _ => rng.below(1_000_000) as u32,
    };
    record.at(microseconds)
}

/// Now and then the file header is odd, a record's length is, or the end is missing.
fn random_file(events: &mut EventMaker, order: Order, records: &[Record]) -> Vec<u8> {
    let rng = events.rng();
    let mut file = capture(order, records);
    match rng.below(30) {
        0 => file[rng.below(4)] ^= 1 << rng.below(8),
        1 => file[LINK_TYPE + rng.below(4)] ^= 1 << rng.below(8),
        2..=9 => {
            let octets = rng.octets(LINK_TYPE - VERSION);
            file = written_over(file, VERSION, &octets);
        }
        // An octet of some record is another one, perhaps one of its lengths.
        10 if !records.is_empty() => {
            let starts: Vec<usize> = edges(records).into_iter().step_by(2).collect();
            let start = rng.pick(&starts[..records.len()]);
            file[start + rng.below(RECORD_HEADER)] ^= 1 << rng.below(8);
        }
        _ => {}
    }
    match rng.below(12) {
        0 | 1 => cut(file.clone(), rng.below(file.len() + 1)),
        2 => {
            let octets = rng.between(1, 20);
            [file, rng.octets(octets)].concat()
        }
        _ => file,
    }
}

/// About as many as there are frames, fewer, or any number.
fn random_limit(events: &mut EventMaker, frames: u64) -> u64 {
    let rng = events.rng();
    match rng.below(10) {
        0 => frames,
        1 => frames.saturating_sub(1),
        2 => frames + 1,
        3 | 4 => rng.below(frames as usize + 1) as u64,
        5 => rng.word(),
        _ => ALL,
    }
}

fn random_spoil(events: &mut EventMaker, length: usize) -> u64 {
    let rng = events.rng();
    match rng.below(10) {
        0 => rng.below(length + 3) as u64,
        _ => NEVER,
    }
}

fn random_room(events: &mut EventMaker) -> u16 {
    let rng = events.rng();
    match rng.below(60) {
        0 => rng.word() as u16,
        _ => ROOM,
    }
}
