//! Cases whose answers are typed from the rules by hand, octet for octet, and taken from no code.
//! They hold the twin's octets as well as the exports, should both have gone astray in one way.

use crate::bench::Bench;
use crate::cell::{Call, Cell};
use crate::due::BUFFER;
use crate::exports::Export;

const HEADER: &str = "FFFFFFFFFFFF 020000000001 88CC";

/// The LLDPDU of frame A (B1).
const A: &str = "020704020000000001 04020731 06020078 FE07E0271A01010141 FE07E0271A01040137 0000";

/// The first three TLVs of A; its category and model number; and one of each field besides.
const THREE: &str = "020704020000000001 04020731 06020078";
const CATEGORY: &str = "FE07E0271A01010141";
const NUMBER: &str = "FE07E0271A01040137";
const WORDS: &str = "08027031";
const SYSTEM: &str = "0A027377 0C0178 0E0400140004 100905010A000001020001";
const MANUFACTURER: &str = "FE07E0271A01020142";
const MODEL: &str = "FE07E0271A01030143";
const LINK: &str = "FE10E0271A02 020006 0103 01 02000000000B";
const EXTENSION: &str = "FE1EE0271A04 0147 0100 060102 020000000009 0132 00 0101 02000000000A 0107";
const LIST: &str = "FE11E0271A03 02 02000000000C 02000000000D";

/// What A is described as (X5).
const A_DESCRIBED: &str = "04 0003 0006 07 000C 0001 0078 00000000 0019 0001 00000000 00000000 \
    0022 0001 00000000000000000000000000 0000000000 0000000000 00000000 00000000 0000000000 \
    0000000000000000000000000000000000";

/// What the LLDPDU with one of each field is described as, in the order that it stands in below.
const ALL_DESCRIBED: &str = "04 0003 0006 07 000C 0001 0078 0025 0002 0019 0001 0047 0001 \
    0050 0001 0022 0001 01 0058 0002 005B 0001 005D 0006 01 0069 001A 01 008A 000C 0029 0002 \
    002D 0001 01 0014 0004 01 0036 0009 000000000000000000000000";

fn octets(hex: &str) -> Vec<u8> {
    let digits: Vec<u32> = hex.chars().filter_map(|digit| digit.to_digit(16)).collect();
    digits.chunks_exact(2).map(|pair| (16 * pair[0] + pair[1]) as u8).collect()
}

/// The slice that the call left is the one that was typed.
fn hold(bench: &Bench, what: &str, left: &[u8], typed: &[u8]) {
    if left != typed {
        bench.differ(&format!("{what}, typed by hand {typed:02X?}, left {left:02X?}"));
    }
}

pub fn run(bench: &mut Bench) {
    bench.section("typed by hand", 0);
    read_and_written(bench);
    kept(bench);
    changed(bench);
}

fn read_and_written(bench: &mut Bench) {
    let a = octets(A);
    let mut slices = [octets(&format!("{HEADER}{A}")), vec![0xEE; 15]];
    bench.compare(Export::Judge, &mut slices, 0);
    hold(bench, "judge", &slices[1], &octets("0025 01 04 0003 0006 07 000C 0001 0078"));

    let all = [THREE, CATEGORY, NUMBER, WORDS, SYSTEM, MANUFACTURER, MODEL, LINK, EXTENSION, LIST];
    let all = octets(&format!("{}0000", all.concat()));
    let readings = [(a.clone(), "0025 01", A_DESCRIBED), (all.clone(), "0098 01", ALL_DESCRIBED)];
    for (lldpdu, verdict, described) in readings {
        let frame = [octets(HEADER), lldpdu.clone()].concat();
        for (export, given) in [(Export::Read, frame), (Export::ReadLldpdu, lldpdu)] {
            let mut slices = [given, vec![0xEE; 3], vec![0xEE; 85]];
            bench.compare(export, &mut slices, 0);
            hold(bench, "verdict", &slices[1], &octets(verdict));
            hold(bench, "description", &slices[2], &octets(described));
        }
    }

    // The order of W1 is another one than that above.
    let order =
        [THREE, WORDS, SYSTEM, CATEGORY, MANUFACTURER, MODEL, NUMBER, LINK, EXTENSION, LIST];
    let ordered = octets(&format!("{}0000", order.concat()));
    for (described, text, lldpdu) in [(A_DESCRIBED, &a, &a), (ALL_DESCRIBED, &all, &ordered)] {
        let mut slices = [octets(described), text.clone(), vec![0xEE; 160], vec![0xEE; 2]];
        bench.compare(Export::Write, &mut slices, 0);
        let behind = vec![0xEE; 160 - lldpdu.len()];
        hold(bench, "output", &slices[2], &[lldpdu.as_slice(), &behind].concat());
        hold(bench, "written", &slices[3], &[0, lldpdu.len() as u8]);
    }
}

/// Frame A on port 3, and on port 9 one that sees an address (B21); 119 seconds pass, and one more.
fn kept(bench: &mut Bench) {
    let mut rng = bench.section("typed by hand", 0);
    let seeing = octets(&format!("{THREE}{CATEGORY}{NUMBER}{EXTENSION}0000"));
    let mut frame = [octets(HEADER), seeing.clone()].concat();
    // It is sent from another source, and has 515 seconds.
    frame[6..12].copy_from_slice(&[0x0A, 0x0B, 0x0C, 0x0D, 0x0E, 0x0F]);
    frame[29..31].copy_from_slice(&[0x02, 0x03]);
    let a = octets(&format!("{HEADER}{A}"));

    let mut cell =
        Cell { slices: [40, 80, 80, 240, 60_000].map(|length| vec![0xEE; length]).to_vec() };
    cell.call(bench, &mut rng, &Call::Start);
    let empty = cell.clone();
    hold(bench, "all slices after a start", &cell.slices.concat(), &[0; 60_440]);
    cell.call(bench, &mut rng, &Call::Frame { port: 3, frame: a });
    cell.call(bench, &mut rng, &Call::Frame { port: 9, frame: frame.clone() });

    let mut due = empty.slices;
    due[0][..2].copy_from_slice(&[3, 9]);
    due[1][..4].copy_from_slice(&[0x00, 0x78, 0x02, 0x03]);
    due[2][..4].copy_from_slice(&[0x00, 37, 0x00, 69]);
    due[3][..12].copy_from_slice(&octets("020000000001 0A0B0C0D0E0F"));
    due[BUFFER][..37].copy_from_slice(&octets(A));
    due[BUFFER][1_500..1_569].copy_from_slice(&frame[14..]);
    hold(bench, "all slices after two frames", &cell.slices.concat(), &due.concat());

    let sees = |bench: &mut Bench, address: &str, start: usize, sight: &str| {
        let mut slices = [cell.slices.clone(), vec![octets(address), vec![0xEE; 13]]].concat();
        bench.compare(Export::WhoSees, &mut slices, start);
        hold(bench, "who sees", &slices[6], &octets(sight));
    };
    sees(bench, "020000000009", 0, "01 0001 01 00000047 01 00000000");
    sees(bench, "020000000009", 1, "01 0001 01 00000047 01 00000000");
    sees(bench, "020000000009", 2, "00000000000000000000000000");
    sees(bench, "02000000000A", 0, "00000000000000000000000000");

    cell.call(bench, &mut rng, &Call::Seconds(119));
    due[1][..4].copy_from_slice(&[0x00, 0x01, 0x01, 0x8C]);
    hold(bench, "all slices after 119 seconds", &cell.slices.concat(), &due.concat());
    cell.call(bench, &mut rng, &Call::Seconds(1));
    for (slice, octets) in due.iter_mut().zip([1, 2, 2, 6, 1_500]) {
        slice[..octets].fill(0);
    }
    due[1][3] = 0x8B;
    hold(bench, "all slices after one more", &cell.slices.concat(), &due.concat());

    for (port, holds) in [(3, 0), (9, 1)] {
        let mut slices = [cell.slices.clone(), vec![vec![0xEE]]].concat();
        bench.compare(Export::HowMany, &mut slices, port);
        hold(bench, "how many", &slices[5], &[holds]);
    }
    // Refreshed, gone, unknown goodbye, recorded.
    let mut goodbye = frame.clone();
    goodbye[29..31].fill(0);
    for (frame, reply) in [(&frame, 2), (&goodbye, 3), (&goodbye, 4), (&frame, 1)] {
        cell.slices.extend([frame.clone(), vec![0xEE]]);
        bench.compare(Export::FrameOnPort, &mut cell.slices, 9);
        hold(bench, "frame on a port", &cell.slices[6], &[reply]);
        cell.slices.truncate(BUFFER + 1);
    }
}

/// A frame of a neighbour; of source, chassis and port ID the last octet is told.
fn heard(port: usize, source: &str, chassis: &str, port_id: &str, seconds: &str) -> Call {
    let header = format!("FFFFFFFFFFFF 0200000000{source} 88CC");
    let three = format!("020704 0200000000{chassis} 040207{port_id} 0602{seconds}");
    Call::Frame { port, frame: octets(&format!("{header}{three}{CATEGORY}{NUMBER}0000")) }
}

/// Two looks at one table, and a third at a table with the records of the second in other places.
fn changed(bench: &mut Bench) {
    let mut rng = bench.section("typed by hand", 0);
    let mut after = |bench: &mut Bench, cell: &Cell, calls: &[Call]| {
        let mut cell = cell.clone();
        for call in calls {
            let refusal = cell.call(bench, &mut rng, call);
            hold(bench, "refusal in a history", &[refusal], &[0]);
        }
        cell
    };
    let empty = Cell::new();
    // Chassis and port ID of the first are also on port 5, which is another record (N2).
    let calls = [
        heard(0, "A1", "01", "31", "0078"),
        heard(0, "A1", "01", "32", "0078"),
        heard(5, "A1", "01", "31", "0078"),
        heard(9, "A2", "02", "31", "0078"),
        heard(9, "A3", "03", "31", "012C"),
    ];
    let first = after(bench, &empty, &calls);
    // The place that port 5 leaves is taken (N4). Then one is as before, one has another sender with
    // the same seconds, one has other octets and other seconds; the last alone only lost seconds.
    let calls = [
        Call::Seconds(20),
        Call::Lost { port: 5 },
        heard(9, "A4", "04", "31", "0078"),
        heard(0, "A1", "01", "31", "0078"),
        heard(0, "A9", "01", "32", "0078"),
        heard(9, "A2", "02", "31", "0203"),
    ];
    let second = after(bench, &first, &calls);
    let calls = [
        heard(9, "A3", "03", "31", "012C"),
        Call::Seconds(20),
        heard(9, "A4", "04", "31", "0078"),
        heard(9, "A2", "02", "31", "0203"),
        heard(0, "A9", "01", "32", "0078"),
        heard(0, "A1", "01", "31", "0078"),
    ];
    let third = after(bench, &empty, &calls);
    let looks = [
        (&first, &second, "0401 0102 0403 0304 0202"),
        (&second, &first, "0401 0102 0403 0304 0202"),
        (&first, &third, "0403 0102 0402 0300 0201"),
        (&third, &first, "0304 0101 0403 0401 0202"),
        (&second, &third, ""),
        (&third, &second, ""),
        (&first, &first, ""),
        (&empty, &first, "0200 0201 0202 0203 0204"),
        (&first, &empty, "0100 0101 0102 0103 0104"),
        (&empty, &empty, ""),
    ];
    let mut unfit = first.clone();
    unfit.slices[0][0] = 10;
    let unfit = [(&unfit, &second), (&second, &unfit), (&unfit, &unfit)];
    for (first, second, entries) in looks {
        let entries = octets(entries);
        for length in (0..=entries.len() + 3).chain([160, 161]) {
            let fits = length >= entries.len();
            let typed = if fits { (0, &entries[..]) } else { (14, &[][..]) };
            in_list(bench, first, second, length, typed);
        }
    }
    for (first, second) in unfit {
        for length in [0, 9, 10, 160] {
            in_list(bench, first, second, length, (1, &[]));
        }
    }
}

/// What is typed is the refusal number and the entries; behind these, and with a refusal, each octet
/// of the list stays.
fn in_list(bench: &mut Bench, first: &Cell, second: &Cell, length: usize, typed: (u8, &[u8])) {
    let (refusal, entries) = typed;
    let written = [vec![0xEE; length], vec![0xEE; 2]];
    let mut slices = [&first.slices, &second.slices, &written[..]].concat();
    let said = bench.compare(Export::Compare, &mut slices, 0);
    hold(bench, "refusal", &[said], &[refusal]);
    let behind = vec![0xEE; length - entries.len()];
    hold(bench, "list", &slices[10], &[entries, &behind].concat());
    let answer = if refusal == 0 { [0, entries.len() as u8 / 2] } else { [0xEE; 2] };
    hold(bench, "how many entries", &slices[11], &answer);
}
