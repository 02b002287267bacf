//! Frames and LLDPDUs for judge, read and read LLDPDU: stored ones of the twin, cut, long, damaged.
//! What read gives is then handed to write, with the LLDPDU as the text (X5, W6).

use twin::frames::{cases, Kind};
use twin::reader::{read_lldpdu, Reading};
use twin::rng::Rng;
use twin::writer::{write, Description, Part};

use crate::bench::Bench;
use crate::damage;
use crate::exports::Export;
use crate::octets::number;
use crate::sizes::{
    DESCRIPTION_OCTETS, HEADER_OCTETS, JUDGED_OCTETS, VERDICT_OCTETS, WRITTEN_OCTETS,
};

const STORED: u64 = 0x5354_4F52_4544;
const CUT: u64 = 0x4355_5453;
const LONG: u64 = 0x4C4F_4E47;
const DAMAGED: u64 = 0x4441_4D41_4745;

/// How many stored frames are cut at each of their lengths, how many are made as long as each of
/// the long ones, and how many damaged ones there are.
const CUT_FRAMES: usize = 60;
const LONG_ROUNDS: usize = 60;
const DAMAGED_FRAMES: usize = 30_000;

/// A bare LLDPDU may be long (A1), but its first 65,535 octets alone are looked at (X5).
const LONG_LLDPDUS: [usize; 15] = [
    1_500, 1_501, 2_000, 32_767, 32_768, 33_000, 65_279, 65_534, 65_535, 65_536, 65_537, 65_573,
    66_000, 70_000, 131_109,
];

const HEADER: [u8; HEADER_OCTETS] =
    [0xFF, 0xFF, 0xFF, 0xFF, 0xFF, 0xFF, 0x02, 0x00, 0x00, 0x00, 0x00, 0x01, 0x88, 0xCC];

/// The stored cases as frames; a bare LLDPDU gets a right header.
pub fn stored() -> Vec<Vec<u8>> {
    let frame = |case: twin::frames::Case| match case.kind {
        Kind::Frame => case.octets,
        Kind::Bare => [&HEADER, case.octets.as_slice()].concat(),
    };
    cases().into_iter().map(frame).collect()
}

/// The LLDPDUs of those that are valid, with their padding.
pub fn valid_lldpdus(frames: &[Vec<u8>]) -> Vec<Vec<u8>> {
    let behind = frames.iter().filter_map(|frame| frame.get(HEADER_OCTETS..));
    behind.filter(|lldpdu| read_lldpdu(lldpdu).is_ok()).map(|lldpdu| lldpdu.to_vec()).collect()
}

pub fn run(bench: &mut Bench, frames: &[Vec<u8>], stock: &[Vec<u8>]) {
    let lldpdus = valid_lldpdus(frames);
    let mut rng = bench.section("stored frames", STORED);
    for frame in frames {
        all_readers(bench, &mut rng, frame);
        // A right header, whatever stands behind it.
        let behind = frame.get(HEADER_OCTETS..).unwrap_or_default();
        all_readers(bench, &mut rng, &[&HEADER, behind].concat());
    }
    let mut rng = bench.section("frames cut at each length, and lengthened", CUT);
    for _ in 0..CUT_FRAMES {
        let lldpdu = &lldpdus[rng.below(lldpdus.len())];
        let frame = [&HEADER, lldpdu.as_slice()].concat();
        for length in 0..frame.len() {
            all_readers(bench, &mut rng, &frame[..length]);
        }
        for length in [frame.len() + 1, 1_513, 1_514, 1_515, 2_000, 65_536, 65_600] {
            let mut longer = frame.clone();
            longer.resize(length, rng.octet());
            all_readers(bench, &mut rng, &longer);
        }
    }
    let mut rng = bench.section("long LLDPDUs", LONG);
    for _ in 0..LONG_ROUNDS {
        let lldpdu = &lldpdus[rng.below(lldpdus.len())];
        let length = read_lldpdu(lldpdu).expect("it is valid").outline.length;
        for long in LONG_LLDPDUS {
            // What stands behind the filler begins far behind the first octet. One octet is no TLV.
            if long >= length && long != length + 1 {
                let filler = damage::filler(long - length);
                let long = damage::inserted(lldpdu, &filler);
                all_readers(bench, &mut rng, &[&HEADER, long.as_slice()].concat());
                // A second chassis ID behind it gives 6 where it is looked at (R6).
                let chassis = damage::tlv(1, &[4, 2, 0, 0, 0, 0, 1]);
                let long = damage::inserted(lldpdu, &[filler, chassis].concat());
                all_readers(bench, &mut rng, &[&HEADER, long.as_slice()].concat());
            }
        }
    }
    let mut rng = bench.section("damaged frames", DAMAGED);
    for _ in 0..DAMAGED_FRAMES {
        let mut lldpdu = lldpdus[rng.below(lldpdus.len())].clone();
        for _ in 0..rng.between(0, 4) {
            damage::structure(&mut rng, &mut lldpdu, stock);
        }
        if rng.once_in(3) {
            damage::octet(&mut rng, &mut lldpdu);
        }
        let mut frame = [&HEADER, lldpdu.as_slice()].concat();
        if rng.once_in(8) {
            damage::header(&mut rng, &mut frame);
        }
        all_readers(bench, &mut rng, &frame);
    }
}

/// The three readers on a frame and on what stands behind its header, and write on what was read.
fn all_readers(bench: &mut Bench, rng: &mut Rng, frame: &[u8]) {
    // The slices that are written come with any octets, so that one that is not written is seen.
    let mut slices = [frame.to_vec(), rng.octets(JUDGED_OCTETS)];
    bench.compare(Export::Judge, &mut slices, 0);
    let mut slices = [frame.to_vec(), rng.octets(VERDICT_OCTETS), rng.octets(DESCRIPTION_OCTETS)];
    bench.compare(Export::Read, &mut slices, 0);
    let Some(lldpdu) = frame.get(HEADER_OCTETS..) else {
        return;
    };
    slices[0] = lldpdu.to_vec();
    slices[1] = rng.octets(VERDICT_OCTETS);
    slices[2] = rng.octets(DESCRIPTION_OCTETS);
    if bench.compare(Export::ReadLldpdu, &mut slices, 0) != 0 {
        return;
    }
    let [_, _, description] = slices;
    let reading = read_lldpdu(lldpdu).expect("it was not refused");
    let text = if rng.once_in(2) { lldpdu } else { &lldpdu[..reading.outline.length] };
    write_again(bench, rng, description, text, &reading);
}

/// What was read is written, which succeeds or is refused as it is for the twin's own reading.
fn write_again(
    bench: &mut Bench,
    rng: &mut Rng,
    description: Vec<u8>,
    text: &[u8],
    reading: &Reading,
) {
    let length = reading.outline.length;
    let room = rng.pick(&[length, length, length + 1, length.saturating_sub(1), 1_500, 1_600]);
    let output = rng.octets(room);
    let mut slices = [description, text.to_vec(), output, rng.octets(WRITTEN_OCTETS)];
    let refusal = bench.compare(Export::Write, &mut slices, 0);
    let [_, _, output, answer] = slices;
    // The twin's own reading has its strings in a text of its own.
    let mut text = vec![];
    let own = Description::read_back(reading).with(|string: &Vec<u8>| {
        let start = text.len() as u64;
        text.extend(string);
        Some(Part { start, len: string.len() as u64 })
    });
    let due = write(&own.expect("each string has its part"), &text, room);
    let said = match refusal {
        0 => {
            let written = usize::from(number(&answer));
            Ok(output[..written].to_vec())
        }
        number => Err(number),
    };
    if said != due {
        bench.differ(&format!("write on what was read, due {due:02X?}, said {said:02X?}"));
    }
}
