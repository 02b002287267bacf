//! The replay of a capture, C1 to C8, and the texts of J3 and J4, as ordinary tests.
//! Octets and expected values are typed from the rules page by hand, never taken from the program.

mod placed;

use placed::Watch;
use twin::capture::{number_of, replay, replay_text, shown, Answer, ALL};
use twin::captures;
use twin::changes::changes_text;

use Answer::{Handed, Refused};

/// A file header with the high octet first: magic, version 2.4, zone, accuracy, snap length, link
/// type 1.
const HIGH: [u8; 24] = [
    0xA1, 0xB2, 0xC3, 0xD4, 0x00, 0x02, 0x00, 0x04, 0x00, 0x00, 0x00, 0x00, //
    0x00, 0x00, 0x00, 0x00, 0x00, 0x00, 0xFF, 0xFF, 0x00, 0x00, 0x00, 0x01,
];

/// The same with the low octet first.
const LOW: [u8; 24] = [
    0xD4, 0xC3, 0xB2, 0xA1, 0x02, 0x00, 0x04, 0x00, 0x00, 0x00, 0x00, 0x00, //
    0x00, 0x00, 0x00, 0x00, 0xFF, 0xFF, 0x00, 0x00, 0x01, 0x00, 0x00, 0x00,
];

/// Stamp 100, microseconds 7, 33 octets captured of 33, with the high octet first.
const HIGH_RECORD: [u8; 16] = [0, 0, 0, 100, 0, 0, 0, 7, 0, 0, 0, 33, 0, 0, 0, 33];
const LOW_RECORD: [u8; 16] = [100, 0, 0, 0, 7, 0, 0, 0, 33, 0, 0, 0, 33, 0, 0, 0];

/// A frame of 33 octets, with 60 seconds.
const FRAME: [u8; 33] = [
    0xFF, 0xFF, 0xFF, 0xFF, 0xFF, 0xFF, 0x02, 0x00, 0x00, 0x00, 0x00, 0x0A, 0x88,
    0xCC, // header
    0x02, 0x07, 0x04, 0x02, 0x00, 0x00, 0x00, 0x00, 0x01, // chassis
    0x04, 0x02, 0x07, 0x31, // port ID
    0x06, 0x02, 0x00, 0x3C, // seconds
    0x00, 0x00, // End
];

/// The last octet of the chassis, and the seconds.
const CHASSIS: usize = 22;
const SECONDS: usize = 29;

/// The frame of the neighbour of that number.
fn heard(number: u8, seconds: u16) -> Vec<u8> {
    let mut frame = FRAME.to_vec();
    frame[CHASSIS] = number;
    frame[SECONDS..][..2].copy_from_slice(&seconds.to_be_bytes());
    frame
}

/// A record with the high octet first, of which so many octets are captured as there are.
fn of(stamp: u32, original: u32, octets: &[u8]) -> Vec<u8> {
    stated(stamp, octets.len() as u32, original, octets)
}

fn whole(stamp: u32, octets: &[u8]) -> Vec<u8> {
    of(stamp, octets.len() as u32, octets)
}

fn stated(stamp: u32, captured: u32, original: u32, octets: &[u8]) -> Vec<u8> {
    let header = [stamp, 0, captured, original].map(u32::to_be_bytes);
    [header.as_flattened(), octets].concat()
}

fn file(records: &[Vec<u8>]) -> Vec<u8> {
    [&HIGH[..], &records.concat()].concat()
}

/// Neighbours by number, with their seconds left.
type Left = Vec<(u8, u16)>;

impl Watch {
    fn replay(&mut self, port: usize, limit: u64, file: &[u8]) -> Answer {
        replay(&mut self.table, &mut self.buffer, port, limit, file)
    }

    /// Those that are there, in the order of the places.
    fn left(&self) -> Left {
        let number = |place: usize| self.buffer[1_500 * place + CHASSIS - 14];
        self.table.used().map(|place| (number(place), self.table.seconds[place])).collect()
    }
}

/// On a newly started table, with all frames: the answer and who is left.
fn replayed(file: &[u8]) -> (Answer, Left) {
    replayed_up_to(ALL, file)
}

fn replayed_up_to(limit: u64, file: &[u8]) -> (Answer, Left) {
    let mut watch = Watch::started();
    let answer = watch.replay(3, limit, file);
    (answer, watch.left())
}

/// C1: the same capture in both orders.
#[test]
fn both_orders() {
    for file in
        [[&HIGH[..], &HIGH_RECORD, &FRAME].concat(), [&LOW[..], &LOW_RECORD, &FRAME].concat()]
    {
        let mut watch = Watch::started();
        assert_eq!(watch.replay(3, ALL, &file), Handed(1));
        assert_eq!(watch.left(), [(1, 60)]);
        assert_eq!(watch.table.port[0], 3);
        assert_eq!(watch.table.sender[0], [0x02, 0x00, 0x00, 0x00, 0x00, 0x0A]);
        assert_eq!(watch.buffer[..19], FRAME[14..]);
    }
    // The one order in the file header, the other in the record: 33 is then 553,648,128.
    for file in
        [[&HIGH[..], &LOW_RECORD, &FRAME].concat(), [&LOW[..], &HIGH_RECORD, &FRAME].concat()]
    {
        assert_eq!(replayed(&file), (Refused(12), vec![]));
    }
}

/// C2 and C7: under 24 octets 11, then 12 until the record is whole; behind the file header and behind
/// the record the file is whole.
#[test]
fn a_file_that_ends_anywhere() {
    for file in
        [[&HIGH[..], &HIGH_RECORD, &FRAME].concat(), [&LOW[..], &LOW_RECORD, &FRAME].concat()]
    {
        assert_eq!(file.len(), 73);
        for length in 0..=73 {
            let (answer, left) = match length {
                0..=23 => (Refused(11), vec![]),
                24 => (Handed(0), vec![]),
                25..=72 => (Refused(12), vec![]),
                _ => (Handed(1), vec![(1, 60)]),
            };
            assert_eq!(replayed(&file[..length]), (answer, left), "{length} octets");
        }
    }
}

/// C2: nanoseconds, pcapng, an octet off, and octets in another order.
#[test]
fn other_magics() {
    for magic in [
        [0xA1, 0xB2, 0x3C, 0x4D],
        [0x4D, 0x3C, 0xB2, 0xA1],
        [0x0A, 0x0D, 0x0D, 0x0A],
        [0xA1, 0xB2, 0xC3, 0xD5],
        [0xA0, 0xB2, 0xC3, 0xD4],
        [0xD4, 0xC3, 0xB2, 0xA0],
        [0xB2, 0xA1, 0xD4, 0xC3],
        [0x00, 0x00, 0x00, 0x00],
    ] {
        for mut file in
            [[&HIGH[..], &HIGH_RECORD, &FRAME].concat(), [&LOW[..], &LOW_RECORD, &FRAME].concat()]
        {
            file[..4].copy_from_slice(&magic);
            assert_eq!(replayed(&file), (Refused(11), vec![]));
        }
    }
}

/// C2: the link type is 1 by all of its four octets.
#[test]
fn other_link_types() {
    for octets in [
        [0, 0, 0, 0],
        [0, 0, 0, 2],
        [0, 0, 1, 1],
        [0, 1, 0, 1],
        [4, 0, 0, 1],
        [1, 0, 0, 0],
        [0, 0, 0, 0x81],
        [0xFF, 0xFF, 0xFF, 0xFF],
    ] {
        let mut high = [&HIGH[..], &HIGH_RECORD, &FRAME].concat();
        high[20..24].copy_from_slice(&octets);
        assert_eq!(replayed(&high), (Refused(11), vec![]));
        let mut low = [&LOW[..], &LOW_RECORD, &FRAME].concat();
        low[20..24].copy_from_slice(&[octets[3], octets[2], octets[1], octets[0]]);
        assert_eq!(replayed(&low), (Refused(11), vec![]));
    }
}

/// C1: octets 4 to 19 of the file header and 4 to 7 of a record header.
#[test]
fn what_is_not_looked_at() {
    for octet in [0x00, 0x01, 0x80, 0xFF] {
        let mut file = [&HIGH[..], &HIGH_RECORD, &FRAME].concat();
        file[4..20].fill(octet);
        file[28..32].fill(octet);
        assert_eq!(replayed(&file), (Handed(1), vec![(1, 60)]));
    }
}

/// C3: the seconds pass first. A neighbour whose time is over is not refreshed but recorded anew, and
/// it takes the lowest free place, which another one left too.
#[test]
fn seconds_before_the_frame() {
    let records = [
        whole(0, &heard(1, 10)),
        whole(0, &heard(2, 10)),
        whole(0, &heard(3, 99)),
        whole(10, &heard(2, 10)),
    ];
    assert_eq!(replayed(&file(&records)), (Handed(4), vec![(2, 10), (3, 89)]));
    // A second sooner: refreshed at its own place.
    let mut sooner = records;
    sooner[3] = whole(9, &heard(2, 10));
    assert_eq!(replayed(&file(&sooner)), (Handed(4), vec![(1, 1), (2, 10), (3, 90)]));
}

/// C4: who is left of a neighbour with 65,535 seconds, one with 12 and later ones with 600.
#[test]
fn stamps() {
    let all: [(&[u32], Left); 15] = [
        (&[50, 50], vec![(1, 65_535), (2, 12), (3, 600)]),
        (&[50, 49], vec![(1, 65_535), (2, 12), (3, 600)]),
        (&[50, 61], vec![(1, 65_524), (2, 1), (3, 600)]),
        (&[50, 62], vec![(1, 65_523), (3, 600)]),
        // Back by 10, and forth by 5: below the highest, but 5 from the record before.
        (&[100, 90, 95], vec![(1, 65_530), (2, 7), (3, 595), (4, 600)]),
        (&[100, 90, 100], vec![(1, 65_525), (2, 2), (3, 590), (4, 600)]),
        (&[0, 65_534], vec![(1, 1), (3, 600)]),
        (&[0, 65_535], vec![(3, 600)]),
        (&[0, 65_536], vec![(3, 600)]),
        (&[0, 65_537], vec![(3, 600)]),
        (&[0, 4_294_967_295], vec![(3, 600)]),
        (&[4_294_967_295, 0], vec![(1, 65_535), (2, 12), (3, 600)]),
        (&[4_294_967_290, 4_294_967_295], vec![(1, 65_530), (2, 7), (3, 600)]),
        (&[2_147_483_647, 2_147_483_648], vec![(1, 65_534), (2, 11), (3, 600)]),
        (&[2_147_483_648, 2_147_483_647], vec![(1, 65_535), (2, 12), (3, 600)]),
    ];
    for (stamps, left) in all {
        let mut records =
            vec![whole(stamps[0], &heard(1, 65_535)), whole(stamps[0], &heard(2, 12))];
        for (&stamp, number) in stamps[1..].iter().zip(3..) {
            // A new one takes the lowest free place, and then the order is another one.
            records.push(whole(stamp, &heard(number, 600)));
        }
        let (answer, mut found) = replayed(&file(&records));
        found.sort_unstable();
        assert_eq!(answer, Handed(records.len() as u64));
        assert_eq!(found, left, "{stamps:?}");
    }
}

/// C4: none pass before the first record, whatever its stamp is.
#[test]
fn the_first_stamp() {
    for stamp in [0, 1, 65_536, 4_294_967_295] {
        let mut watch = Watch::started();
        assert_eq!(watch.replay(3, ALL, &file(&[whole(9, &heard(1, 5))])), Handed(1));
        assert_eq!(watch.replay(4, ALL, &file(&[whole(stamp, &heard(2, 5))])), Handed(1));
        assert_eq!(watch.left(), [(1, 5), (2, 5)]);
        assert_eq!(watch.table.port[..2], [3, 4]);
    }
}

/// C5: a record whose captured length is below its original is no frame and is not counted, but its
/// seconds pass, and the next difference is from its stamp.
#[test]
fn skipped_records() {
    let first = whole(100, &heard(1, 120));
    let skipped = |stamp| of(stamp, 34, &heard(2, 60));
    let last = |stamp| whole(stamp, &heard(3, 60));
    for (records, answer, left) in [
        (vec![first.clone(), skipped(219)], Handed(1), vec![(1, 1)]),
        (vec![first.clone(), skipped(220)], Handed(1), vec![]),
        (vec![skipped(0)], Handed(0), vec![]),
        (vec![skipped(0), first.clone()], Handed(1), vec![(1, 120)]),
        (vec![first.clone(), skipped(150), last(160)], Handed(2), vec![(1, 60), (3, 60)]),
        (vec![first.clone(), skipped(50), last(160)], Handed(2), vec![(1, 10), (3, 60)]),
        (vec![first.clone(), skipped(150), last(140)], Handed(2), vec![(1, 70), (3, 60)]),
    ] {
        assert_eq!(replayed(&file(&records)), (answer, left));
    }
}

/// C5: captured above original, nothing of nothing, and nothing of something.
#[test]
fn odd_lengths() {
    for original in [0, 1, 32, 33] {
        let records = [of(0, original, &heard(1, 60))];
        assert_eq!(replayed(&file(&records)), (Handed(1), vec![(1, 60)]));
    }
    for original in [34, 65_569, 2_147_483_681, 4_294_967_295] {
        let records = [of(0, original, &heard(1, 60))];
        assert_eq!(replayed(&file(&records)), (Handed(0), vec![]));
    }
    let around = |original| file(&[whole(0, &heard(1, 9)), of(9, original, &[])]);
    assert_eq!(replayed(&around(0)), (Handed(2), vec![]));
    assert_eq!(replayed(&around(1)), (Handed(1), vec![]));
    assert_eq!(replayed_up_to(1, &around(0)), (Handed(1), vec![(1, 9)]));
}

/// C5: up to 1,514 octets are a frame, since what is behind its End does not matter; more are handed
/// over and refused, and counted.
#[test]
fn long_records() {
    for (length, left) in [
        (1_513, vec![(1, 60), (2, 60)]),
        (1_514, vec![(1, 60), (2, 60)]),
        (1_515, vec![(2, 60)]),
        // As many as 33 and 1,514 in sixteen bits.
        (65_569, vec![(2, 60)]),
        (67_050, vec![(2, 60)]),
    ] {
        let mut long = heard(1, 60);
        long.resize(length, 0);
        let behind = whole(0, &heard(2, 60));
        let both = file(&[whole(0, &long), behind.clone()]);
        assert_eq!(replayed(&both), (Handed(2), left));
        let skipped = file(&[of(0, length as u32 + 1, &long), behind]);
        assert_eq!(replayed(&skipped), (Handed(1), vec![(2, 60)]));
        // C7: without its last octet it makes no call, skipped or not.
        for original in [0, 1] {
            let mut torn = file(&[whole(0, &heard(3, 60)), of(5, length as u32 + original, &long)]);
            torn.pop();
            assert_eq!(replayed(&torn), (Refused(12), vec![(3, 60)]));
        }
    }
}

/// C5: goodbyes, and frames that the table refuses with 3, 4, 5, 6 and 13, count.
#[test]
fn every_frame_counts() {
    let goodbye = whole(0, &heard(1, 0));
    let again = whole(0, &heard(1, 60));
    assert_eq!(replayed(&file(&[again.clone(), goodbye.clone()])), (Handed(2), vec![]));
    assert_eq!(replayed(&file(&[goodbye, again])), (Handed(2), vec![(1, 60)]));

    let mut group = heard(1, 60);
    group[6] = 0x03;
    let mut chassis = heard(1, 60);
    chassis[16] = 0x05;
    let torn = heard(1, 60)[..32].to_vec();
    let mut twice = heard(1, 60);
    twice.splice(31..31, [0x06, 0x02, 0x00, 0x3C]);
    let mut records: Vec<_> = [group, chassis, torn, twice].map(|frame| whole(0, &frame)).into();
    records.push(whole(0, &heard(1, 60)));
    let refused = file(&records);
    assert_eq!(replayed(&refused), (Handed(5), vec![(1, 60)]));
    assert_eq!(replayed_up_to(4, &refused), (Handed(4), vec![]));

    let of_one_chassis = b"1234".map(|character| {
        let mut frame = heard(1, 60);
        frame[26] = character;
        whole(0, &frame)
    });
    let loud = file(&[&of_one_chassis[..], &[whole(0, &heard(2, 60))]].concat());
    assert_eq!(replayed(&loud), (Handed(5), vec![(1, 60), (1, 60), (1, 60), (2, 60)]));
    assert_eq!(replayed_up_to(4, &loud), (Handed(4), vec![(1, 60), (1, 60), (1, 60)]));
}

/// C6: nothing behind the last frame is looked at, be it skipped, torn or junk.
#[test]
fn limits() {
    let first = whole(0, &heard(1, 10));
    let skipped = of(10, 99, &[0x55; 20]);
    let second = whole(15, &heard(2, 10));
    let records = file(&[first.clone(), skipped.clone(), second]);
    for (limit, answer, left) in [
        (0, Handed(0), vec![]),
        (1, Handed(1), vec![(1, 10)]),
        (2, Handed(2), vec![(2, 10)]),
        (3, Handed(2), vec![(2, 10)]),
        (4_294_967_296, Handed(2), vec![(2, 10)]),
        (ALL, Handed(2), vec![(2, 10)]),
    ] {
        assert_eq!(replayed_up_to(limit, &records), (answer, left), "{limit}");
    }
    // A skipped record is not counted.
    let begins_skipped = file(&[skipped, first.clone()]);
    assert_eq!(replayed_up_to(1, &begins_skipped), (Handed(1), vec![(1, 10)]));
    for behind in [&[0xEE][..], &[0xEE; 16], &[0xEE; 100], &[0x00; 15]] {
        let junk = [&file(std::slice::from_ref(&first))[..], behind].concat();
        assert_eq!(replayed_up_to(1, &junk), (Handed(1), vec![(1, 10)]));
        assert_eq!(replayed_up_to(2, &junk), (Refused(12), vec![(1, 10)]));
        assert_eq!(replayed_up_to(0, &junk), (Handed(0), vec![]));
        let nothing_else = [&HIGH[..], behind].concat();
        assert_eq!(replayed_up_to(0, &nothing_else), (Handed(0), vec![]));
        assert_eq!(replayed_up_to(1, &nothing_else), (Refused(12), vec![]));
    }
    // Sixteen zeros are a record: nothing of nothing, at second 0.
    let zeros = [&HIGH[..], &[0; 16]].concat();
    assert_eq!(replayed(&zeros), (Handed(1), vec![]));
}

/// C7: a torn record makes no call, not even for its seconds.
#[test]
fn torn_records() {
    let first = whole(0, &heard(1, 10));
    for (captured, original) in
        [(34, 34), (34, 33), (34, 99), (4_294_967_295, 0), (4_294_967_294, 4_294_967_295)]
    {
        let torn = stated(10, captured, original, &heard(2, 60));
        assert_eq!(replayed(&file(&[first.clone(), torn])), (Refused(12), vec![(1, 10)]));
    }
    let only_header = stated(10, 1, 1, &[]);
    assert_eq!(replayed(&file(&[first, only_header])), (Refused(12), vec![(1, 10)]));
}

/// C8: 1, 2, 11, 12. The first three change nothing, with a limit of 0 too.
#[test]
fn the_order_of_refusals() {
    let torn = [&HIGH[..], &HIGH_RECORD, &FRAME[..32]].concat();
    let mut other = torn.clone();
    other[0] = 0;
    let good = [&HIGH[..], &HIGH_RECORD, &FRAME].concat();
    let mut unfit = Watch::started();
    unfit.buffer[59_999] = 1;
    let fit = Watch::started();
    let no_port = 10;
    for (watch, port, limit, file, answer) in [
        (&unfit, no_port, ALL, &other, Refused(1)),
        (&unfit, 3, ALL, &other, Refused(1)),
        (&unfit, 3, ALL, &torn, Refused(1)),
        (&unfit, 3, ALL, &good, Refused(1)),
        (&unfit, 3, 0, &good, Refused(1)),
        (&unfit, no_port, 0, &vec![], Refused(1)),
        (&fit, no_port, ALL, &other, Refused(2)),
        (&fit, no_port, ALL, &torn, Refused(2)),
        (&fit, no_port, ALL, &good, Refused(2)),
        (&fit, no_port, 0, &good, Refused(2)),
        (&fit, no_port, 0, &vec![], Refused(2)),
        (&fit, 3, ALL, &other, Refused(11)),
        (&fit, 3, 0, &other, Refused(11)),
        (&fit, 3, 0, &vec![], Refused(11)),
        (&fit, 3, ALL, &torn, Refused(12)),
        (&fit, 3, 0, &torn, Handed(0)),
    ] {
        let mut after = watch.clone();
        assert_eq!(after.replay(port, limit, file), answer);
        assert!(after == *watch);
    }
}

/// C3 and R2: the port that the caller names; no other number is taken for it.
#[test]
fn ports() {
    let good = [&LOW[..], &LOW_RECORD, &FRAME].concat();
    for port in [0, 9] {
        let mut watch = Watch::started();
        assert_eq!(watch.replay(port, ALL, &good), Handed(1));
        assert_eq!(usize::from(watch.table.port[0]), port);
    }
    for port in [10, 255, 256, 1 << 32, (1 << 32) + 3, usize::MAX] {
        let mut watch = Watch::started();
        assert_eq!(watch.replay(port, ALL, &good), Refused(2));
        assert!(watch == Watch::started());
    }
}

/// J3: a line for each used place, as J2 prints chassis and port IDs.
#[test]
fn the_text() {
    let mut watch = Watch::started();
    watch.write(
        0,
        (3, 60, [0x02, 0x00, 0x00, 0x00, 0x00, 0x0A]),
        b"\x02\x07\x04\x02\x00\x00\x00\x00\x01\x04\x02\x07\x31\x06\x02\x00\x78\x00\x00",
    );
    watch.write(
        2,
        (9, 1, [0x00; 6]),
        b"\x02\x07\x070123AB\x04\x07\x03\x02\x00\x00\xAB\xCD\xEF\x06\x02\x00\x01\x00\x00",
    );
    watch.write(
        3,
        (0, 65_535, [0xFE, 0xFF, 0xFF, 0xFF, 0xFF, 0xFF]),
        b"\x02\x09\x04\x02\x00\x00\xFF\xFE\x00\x00\x01\x04\x02\x01\x00\x06\x02\xFF\xFF\x00\x00",
    );
    watch.write(
        39,
        (3, 30, [0x02, 0x00, 0x00, 0x00, 0x00, 0x02]),
        b"\x02\x03\x07AF\x04\x05\x05eth0\x06\x02\x00\x1E\x00\x00",
    );
    let Watch { table, buffer } = &watch;
    assert_eq!(
        shown(Handed(7), table, buffer),
        "3 60 02-00-00-00-00-01 7 31 02-00-00-00-00-0A\n\
         9 1 local 0123AB 3 02-00-00-AB-CD-EF 00-00-00-00-00-00\n\
         0 65535 02-00-00-FF-FE-00-00-01 1 00 FE-FF-FF-FF-FF-FF\n\
         3 30 local AF 5 65-74-68-30 02-00-00-00-00-02\n"
    );
    assert_eq!(shown(Refused(12), table, buffer), "refused 12\n");
    // That table is fit: a replay goes on from it.
    assert_eq!(watch.replay(1, 0, &HIGH), Handed(0));
}

/// J3: the program on a file, and what is a number to it.
#[test]
fn the_replay_program() {
    let records = file(&[whole(0, &FRAME), whole(20, &heard(2, 30))]);
    let both = "5 40 02-00-00-00-00-01 7 31 02-00-00-00-00-0A\n\
                5 30 02-00-00-00-00-02 7 31 02-00-00-00-00-0A\n";
    assert_eq!(replay_text(&records, 5, ALL), both);
    assert_eq!(replay_text(&records, 5, 1), "5 60 02-00-00-00-00-01 7 31 02-00-00-00-00-0A\n");
    assert_eq!(replay_text(&records, 5, 0), "");
    assert_eq!(replay_text(&records, 10, ALL), "refused 2\n");
    assert_eq!(replay_text(&records[..23], 5, ALL), "refused 11\n");
    assert_eq!(replay_text(&records[..80], 5, ALL), "refused 12\n");

    for (word, number) in [
        ("0", 0),
        ("007", 7),
        ("18446744073709551615", ALL),
        ("18446744073709551616", ALL),
        ("99999999999999999999999999", ALL),
    ] {
        assert_eq!(number_of(word), Some(number));
    }
    for word in ["", "-1", "+1", " 1", "1 ", "1x", "0x1", "1.0", "\u{0661}"] {
        assert_eq!(number_of(word), None);
    }
}

/// J4: all four words, with the limits in either order. The sender is that of the second table, but of
/// one that left.
#[test]
fn the_changes_program() {
    let [mut described, mut from_another] = [heard(2, 120), heard(3, 120)];
    described.splice(31..31, *b"\x08\x01A");
    from_another[11] = 0x0B;
    let records = file(&[
        whole(0, &heard(1, 30)),
        whole(0, &heard(2, 120)),
        whole(0, &heard(3, 120)),
        whole(0, &heard(4, 120)),
        whole(20, &described),
        whole(20, &from_another),
        whole(30, &heard(5, 9)),
    ]);
    assert_eq!(
        changes_text(&records, 3, [4, ALL]),
        "left 3 30 - 02-00-00-00-00-01 7 31 02-00-00-00-00-0A\n\
         altered 3 120 110 02-00-00-00-00-02 7 31 02-00-00-00-00-0A\n\
         altered 3 120 110 02-00-00-00-00-03 7 31 02-00-00-00-00-0B\n\
         seconds 3 120 90 02-00-00-00-00-04 7 31 02-00-00-00-00-0A\n\
         joined 3 - 9 02-00-00-00-00-05 7 31 02-00-00-00-00-0A\n"
    );
    assert_eq!(
        changes_text(&records, 3, [7, 4]),
        "left 3 9 - 02-00-00-00-00-05 7 31 02-00-00-00-00-0A\n\
         altered 3 110 120 02-00-00-00-00-02 7 31 02-00-00-00-00-0A\n\
         altered 3 110 120 02-00-00-00-00-03 7 31 02-00-00-00-00-0A\n\
         seconds 3 90 120 02-00-00-00-00-04 7 31 02-00-00-00-00-0A\n\
         joined 3 - 30 02-00-00-00-00-01 7 31 02-00-00-00-00-0A\n"
    );
    for limit in [0, 4, 7, ALL] {
        assert_eq!(changes_text(&records, 3, [limit, limit]), "");
    }
    // The second neighbour comes back to the place of the first, and is else the same.
    let places = file(
        &[(1, 60), (2, 60), (1, 0), (2, 0), (2, 60)]
            .map(|(number, seconds)| whole(0, &heard(number, seconds))),
    );
    assert_eq!(
        changes_text(&places, 9, [2, 5]),
        "left 9 60 - 02-00-00-00-00-01 7 31 02-00-00-00-00-0A\n"
    );
}

/// J4: a refusal of the one replay or of the other stands alone.
#[test]
fn the_changes_program_is_refused() {
    let records = file(&[whole(0, &FRAME), whole(20, &heard(2, 30))]);
    for limits in [[0, 0], [0, ALL], [ALL, 1]] {
        assert_eq!(changes_text(&records, 10, limits), "refused 2\n");
        assert_eq!(changes_text(&records[..23], 3, limits), "refused 11\n");
    }
    let torn = &records[..80];
    assert_eq!(changes_text(torn, 3, [1, 2]), "refused 12\n");
    assert_eq!(changes_text(torn, 3, [2, 1]), "refused 12\n");
    assert_eq!(
        changes_text(torn, 3, [0, 1]),
        "joined 3 - 60 02-00-00-00-00-01 7 31 02-00-00-00-00-0A\n"
    );
}

/// The files that another program is compared with do not change by themselves.
#[test]
fn the_files_are_the_same_each_time() {
    let [one, other] = [(); 2].map(|()| twin::files("captures").expect("there is such a kind"));
    assert!(one == other);
    assert!(captures::case_file(&captures::cases()) == one.0);
}
