//! Captures on both sides of each rule of the replay (C1 to C8).
//! What a rule leaves unlooked at has odd values here, and the answer must not care.

use super::blocks::*;
use super::maker::{Maker, PORT};
use crate::capture::ALL;
use crate::events::maker::Agent;
use crate::events::random::long_announcement;
use crate::frames::blocks::*;
use crate::table::{LAST_PORT, MOST, MOST_OF_A_CHASSIS, PLACE_OCTETS, PORTS};

/// The longest frame (F1).
const LONGEST: usize = 1_514;

/// A long record of which the low sixteen bits would be the length of frame A, and another.
const MUCH_TOO_LONG: [usize; 2] = [65_536 + 51, 70_000];

/// Numbers that are no port (R2), and the limits of the ports.
const PORT_NUMBERS: [usize; 10] =
    [0, LAST_PORT, PORTS, 255, 256, 256 + PORT, 65_536, 1 << 32, (1 << 32) + PORT, usize::MAX];

impl Maker {
    pub fn rules(&mut self) {
        self.cut_everywhere();
        self.file_headers();
        self.link_types();
        self.what_is_not_looked_at();
        self.stamps();
        self.first_stamps();
        self.time_runs_out();
        self.lengths();
        self.empty_records();
        self.long_records();
        self.lengths_beyond_the_file();
        self.replies();
        self.refused_frames();
        self.crowds();
        self.limits();
        self.ports();
    }

    fn cut_everywhere(&mut self) {
        let whole = small(self.order);
        for length in 0..=whole.len() {
            self.file(cut(whole.clone(), length));
        }
    }

    /// Another magic, whole and cut short (C2).
    fn file_headers(&mut self) {
        let order = self.order;
        let right = order.number(0xA1B2_C3D4);
        let [a, b, c, d] = right;
        let mut magics: Vec<[u8; 4]> = [0xA1B2_3C4D, 0xA1B2_CD34, 0x0A0D_0D0A, 0x1A2B_3C4D, 0]
            .map(|magic| order.number(magic))
            .to_vec();
        magics.extend([[b, a, d, c], [c, d, a, b], [0xFF; 4]]);
        // Each octet off by one, and by a high bit.
        for (octet, other) in [(0, 0x01), (1, 0x01), (2, 0x01), (3, 0x01), (0, 0x80), (3, 0x80)] {
            let mut magic = right;
            magic[octet] ^= other;
            magics.push(magic);
        }
        for magic in magics {
            self.file(written_over(small(order), 0, &magic));
        }
        // Too short, and not even the beginning is right; or nothing but the header.
        for length in [1, 4, 23] {
            self.file(cut(written_over(small(order), 0, &[0; 4]), length));
        }
        self.records(&[]);
        // A section header of pcapng with its own length and order.
        let section = [0x0A0D_0D0A, 28, 0x1A2B_3C4D, 1, u32::MAX, u32::MAX, 28];
        self.file(section.map(|number| order.number(number)).concat());
        // The magic of one order, and all else in the other.
        let other = if order == Order::High { Order::Low } else { Order::High };
        self.file(written_over(small(other), 0, &right));
        let of_right_link = written_over(small(other), 0, &right);
        self.file(written_over(of_right_link, LINK_TYPE, &order.number(1)));
    }

    /// All four octets count (C2). The last but one is 1 with its octets the wrong way round.
    fn link_types(&mut self) {
        for link_type in [
            0,
            2,
            101,
            113,
            257,
            0x0001_0000,
            0x0001_0001,
            0x0400_0001,
            0x8000_0001,
            0x0100_0000,
            u32::MAX,
        ] {
            let octets = self.order.number(link_type);
            self.file(written_over(small(self.order), LINK_TYPE, &octets));
        }
    }

    /// Version, zone, accuracy, snap length and microseconds (C1).
    fn what_is_not_looked_at(&mut self) {
        for at in [VERSION, ZONE, ACCURACY, SNAP] {
            for number in [0, 1, 0x8000_0000, u32::MAX] {
                let octets = self.order.number(number);
                self.file(written_over(small(self.order), at, &octets));
            }
        }
        let every_one = [0xA5; LINK_TYPE - VERSION];
        self.file(written_over(small(self.order), VERSION, &every_one));
        for [first, second] in [
            [0, 999_999],
            [999_999, 0],
            [1_000_000, 1_999_999],
            [u32::MAX, 0],
            [0, u32::MAX],
            [0x8000_0000, 0x7FFF_FFFF],
        ] {
            let one = Record::whole(10, heard(1, 60)).at(first);
            let other = Record::whole(11, heard(2, 60)).at(second);
            self.records(&[one, other]);
        }
    }

    /// The seconds that pass between records (C4). Of the first neighbours some are soon gone, and the
    /// others show how many seconds passed.
    fn stamps(&mut self) {
        let stamps: [&[u32]; 26] = [
            // Equal, back, and back and then forth again.
            &[50, 50],
            &[50, 50, 50, 51],
            &[50, 49],
            &[50, 0],
            &[100, 90, 95],
            &[100, 90, 100],
            &[100, 90, 101],
            &[100, 40, 100, 40, 100],
            &[1_000, 100, 200, 150, 160],
            // About as many as a call takes, and more.
            &[0, 65_534],
            &[0, 65_535],
            &[0, 65_536],
            &[0, 65_546],
            &[7, 65_541],
            &[7, 65_542],
            &[7, 65_543],
            &[0, 0x0002_0000],
            &[0, 0x0100_0005],
            &[0, u32::MAX],
            &[u32::MAX, 0],
            &[u32::MAX, 0, 5],
            &[u32::MAX - 5, u32::MAX],
            // About the sign, if there were one.
            &[0x7FFF_FFFF, 0x8000_0000],
            &[0x8000_0000, 0x7FFF_FFFF],
            &[0x7FFF_FFFF, 0x8000_0009],
            &[0xFFFF_FFF0, 0x0000_000F, 0x0000_0010],
        ];
        for stamps in stamps {
            let mut records = vec![
                Record::whole(stamps[0], heard(1, 65_535)),
                Record::whole(stamps[0], heard(2, 12)),
            ];
            let later = stamps[1..].iter().zip(3..);
            records.extend(later.map(|(&stamp, number)| Record::whole(stamp, heard(number, 600))));
            self.records(&records);
        }
    }

    /// No time passes before the first record, whatever its stamp is: who was there stays (C4).
    fn first_stamps(&mut self) {
        for stamp in [0, 1, 1_000, 65_535, 65_536, 0x8000_0000, u32::MAX] {
            self.records(&[Record::whole(1_000, heard(1, 30))]);
            self.records_over(&[Record::whole(stamp, heard(2, 30))]);
            self.records_over(&[Record::skipped(stamp, vec![1, 2, 3])]);
        }
    }

    /// A neighbour goes with its last second, by frames and by skipped records (N8, C5).
    fn time_runs_out(&mut self) {
        let first = Record::whole(500, heard(1, 120));
        for passed in [119, 120, 121] {
            let stamp = 500 + passed;
            self.records(&[first.clone(), Record::whole(stamp, heard(2, 60))]);
            self.records(&[first.clone(), Record::skipped(stamp, heard(2, 60))]);
            self.records(&[first.clone(), Record::whole(stamp, frame_a(60)[..13].to_vec())]);
            // Its own frame comes too late to refresh it, and so it is recorded anew.
            let between = Record::whole(stamp, heard(2, 60));
            self.records(&[first.clone(), between, Record::whole(stamp, heard(1, 9))]);
            // In two steps, of which the second is from a skipped record.
            let step = Record::skipped(560, vec![0; 14]);
            self.records(&[first.clone(), step, Record::skipped(stamp, vec![])]);
            // Back to a skipped record, and from there.
            let back = Record::skipped(400, vec![0; 60]);
            self.records(&[first.clone(), back, Record::whole(400 + passed, heard(2, 60))]);
        }
    }

    /// Captured and original lengths (C5).
    fn lengths(&mut self) {
        let frame = frame_a(60);
        let length = frame.len() as u32;
        let behind = Record::whole(12, heard(2, 60));
        for original in [
            0,
            1,
            length - 1,
            length,
            length + 1,
            256 + length,
            65_536 + length,
            0x7FFF_FFFF,
            0x8000_0000,
            0x8000_0000 + length,
            u32::MAX,
        ] {
            let first = Record::of(10, frame.clone(), original);
            self.records(&[first, behind.clone()]);
        }
        // Not all of the frame was captured, and one time nobody says so.
        let captured = frame[..50].to_vec();
        self.records(&[Record::skipped(10, captured.clone()), behind.clone()]);
        self.records(&[Record::whole(10, captured), behind]);
    }

    /// Nothing was captured: of nothing it is a frame, of something it is skipped (C5).
    fn empty_records(&mut self) {
        let first = Record::whole(10, heard(1, 60));
        let behind = Record::whole(20, heard(2, 60));
        for original in [0, 1, 60, u32::MAX] {
            let empty = Record::of(15, vec![], original);
            self.records(std::slice::from_ref(&empty));
            self.records(&[first.clone(), empty.clone()]);
            self.records(&[first.clone(), empty.clone(), behind.clone()]).limit = 2;
            self.records(&[empty.clone(), empty, first.clone()]).limit = 2;
        }
    }

    /// About as long as a frame can be, and much longer (F1, C5): handed over and skipped, whole and
    /// without the last octet.
    fn long_records(&mut self) {
        for length in [LONGEST - 1, LONGEST, LONGEST + 1] {
            for skipped in [false, true] {
                self.long_record(length, skipped);
                self.long_record_cut_short(length, skipped);
            }
        }
        let longest = long_announcement(&Agent::of(address(&[2, 0, 0, 0, 0, 9])), PLACE_OCTETS);
        let frame = headed(NEAREST, [2, 0, 0, 0, 0, 8], LLDP, &longest);
        let first = Record::whole(0, heard(1, 60));
        let too_long = Record::whole(2, [&frame[..], &[0]].concat());
        self.records(&[first, Record::whole(1, frame), too_long]);
        // These take so much room that the orders share them.
        let [one, another] = MUCH_TOO_LONG;
        match self.order {
            Order::High => {
                self.long_record(one, false);
                self.long_record_cut_short(another, true);
            }
            Order::Low => {
                self.long_record(another, true);
                self.long_record_cut_short(one, false);
            }
        }
    }

    /// Another frame stands behind it.
    fn long_record(&mut self, length: usize, skipped: bool) {
        let behind = Record::whole(115, heard(2, 60));
        self.records(&[Record::whole(0, heard(1, 120)), long(length, skipped), behind]);
    }

    fn long_record_cut_short(&mut self, length: usize, skipped: bool) {
        let case = self.records(&[Record::whole(0, heard(1, 120)), long(length, skipped)]);
        case.octets.pop();
    }

    /// A captured length that the file has not (C7).
    fn lengths_beyond_the_file(&mut self) {
        let first = Record::whole(10, heard(1, 20));
        for (captured, original) in [
            (u32::MAX, u32::MAX),
            (u32::MAX, 0),
            (u32::MAX - 1, u32::MAX),
            (u32::MAX - 15, u32::MAX - 15),
            (0x8000_0000, 0x8000_0000),
            (65_536 + 51, 51),
            (65_536 + 51, 65_536 + 51),
            (52, 51),
            (52, 53),
        ] {
            for octets in [vec![], frame_a(60)] {
                let beyond = Record::of(40, octets, original).claiming(captured);
                self.records(&[first.clone(), beyond]);
            }
        }
        self.records(&[Record::of(40, vec![], u32::MAX).claiming(u32::MAX)]);
    }

    /// Recorded, refreshed, gone and unknown goodbye (N7).
    fn replies(&mut self) {
        let goodbye = Record::whole(30, heard(1, 0));
        let again = Record::whole(40, heard(1, 60));
        self.records(&[again.clone(), goodbye.clone()]);
        self.records(&[again.clone(), goodbye.clone(), again.clone()]);
        self.records(&[goodbye.clone(), goodbye.clone()]);
        self.records(&[again.clone(), Record::skipped(50, heard(1, 0))]);
        self.records(&[Record::whole(0, heard(1, 60)), Record::whole(60, heard(1, 0)), again]);
        let refreshed = [0, 10, 20, 30, 35].map(|stamp| Record::whole(stamp, heard(1, 25)));
        self.records(&refreshed);
        let lowered = [(0, 600), (10, 5), (14, 5)];
        self.records(&lowered.map(|(stamp, seconds)| Record::whole(stamp, heard(1, seconds))));
    }

    /// Frames that the table refuses with 3 to 6 count like any other (C5).
    fn refused_frames(&mut self) {
        let refused = refused_frames();
        let count = refused.len() as u64;
        let good = Record::whole(90, heard(2, 60));
        for frame in &refused {
            let records = [Record::whole(80, frame.clone()), good.clone()];
            self.records(&records);
            self.records(&records).limit = 1;
        }
        let mut records: Vec<Record> =
            refused.into_iter().map(|frame| Record::whole(80, frame)).collect();
        records.push(good);
        for limit in [count - 1, count, count + 1, ALL] {
            self.records(&records).limit = limit;
        }
    }

    /// 13, 7 and 8 count too. For 8 the ports before hold all common places (N12).
    fn crowds(&mut self) {
        let frame = |chassis, number| Record::whole(5, one_of(chassis, number, 300));
        let loud: Vec<Record> =
            (1..=MOST_OF_A_CHASSIS + 1).map(|number| frame(1, number)).collect();
        self.records(&[&loud[..], &[frame(2, 1)]].concat());
        self.records(&[&loud[..], &[frame(2, 1)]].concat()).limit = 4;
        // The first goes, and the fourth comes again.
        let goodbye = Record::whole(6, one_of(1, 1, 0));
        self.records(&[&loud[..], &[goodbye, frame(1, 4)]].concat());
        let six: Vec<Record> = (0..MOST).map(|i| frame(1 + i as u8 / 3, 1 + i % 3)).collect();
        self.records(&[&six[..], &[frame(3, 1), frame(2, 4), frame(1, 1)]].concat());
        self.records(&[&six[..], &[frame(3, 1), frame(2, 4), frame(1, 1)]].concat()).limit = 7;
        for port in 0..PORTS / 2 {
            let case = self.records(&six);
            case.port = port;
            case.go_on = port > 0;
        }
        for limit in [3, ALL] {
            let three = [frame(1, 1), frame(2, 1), frame(3, 1), frame(1, 1)];
            let case = self.records_over(&three);
            (case.port, case.limit) = (PORTS / 2, limit);
        }
        self.records_over(&[frame(4, 1)]).port = 0;
        self.records_over(&[Record::whole(9, one_of(2, 3, 0))]).port = 0;
        self.records_over(&[frame(3, 1), frame(4, 1)]).port = PORTS / 2;
    }

    /// Nothing behind the last frame is looked at (C6).
    fn limits(&mut self) {
        let order = self.order;
        for limit in [0, 1, 2, 3, 4, 1 << 32, (1 << 32) + 1, ALL - 1, ALL] {
            self.file(small(order)).limit = limit;
        }
        // A skipped record is not counted, wherever it stands.
        let skipped = Record::skipped(0, vec![9; 30]);
        let soon = Record::whole(1, heard(1, 10));
        let late = Record::skipped(11, vec![9; 30]);
        let last = Record::whole(20, heard(2, 10));
        for limit in 0..4 {
            self.records(&[skipped.clone(), soon.clone(), late.clone(), last.clone()]).limit =
                limit;
        }
        // In front of nothing, and of what is skipped, torn or no record at all.
        let one = capture(order, std::slice::from_ref(&soon));
        let two = capture(order, &[soon.clone(), last]);
        let torn = cut(two.clone(), two.len() - 1);
        let torn_header = cut(two, one.len() + RECORD_HEADER - 1);
        let junk = [&one[..], &[0xEE; 40]].concat();
        let one_more = [&one[..], &[0x00]].concat();
        let before_skipped = capture(order, &[soon, late]);
        for file in [one, torn, torn_header, junk, one_more, before_skipped] {
            for limit in [1, 2] {
                self.file(file.clone()).limit = limit;
            }
        }
        // With a limit of 0 nothing behind the file header (C6).
        for behind in [&[][..], &[0xEE], &[0xEE; 16], &[0x00; 16], &[0xEE; 60]] {
            self.file([&capture(order, &[]), behind].concat()).limit = 0;
        }
    }

    fn ports(&mut self) {
        for port in PORT_NUMBERS {
            self.file(small(self.order)).port = port;
        }
    }
}

/// A record of that length that begins like a frame; a frame of up to 1,514 octets is a right one,
/// since what is behind its End does not matter (L8).
fn long(length: usize, skipped: bool) -> Record {
    let octets = padded(&frame_a(90), length);
    if skipped {
        Record::skipped(110, octets)
    } else {
        Record::whole(110, octets)
    }
}

/// Frames that get 3 to 6: destination, type, source, and length; then B7, B8, B3, B9 and B10.
fn refused_frames() -> Vec<Vec<u8>> {
    let a = frame_a(120);
    let (header, rest) = a.split_at(HEADER);
    let before_end = &rest[..rest.len() - 2];
    let behind_leading = &rest[17..];
    let with = |parts: &[&[u8]]| [&[header], parts].concat().concat();
    vec![
        written_over(a.clone(), 0, &[2, 0, 0, 0, 0, 1]),
        written_over(a.clone(), 12, &[0x08, 0x00]),
        from_a_group(a.clone()),
        a[..13].to_vec(),
        vec![],
        with(&[&[0x02, 0x06, 0x04, 2, 0, 0, 0, 0], &rest[9..]]),
        with(&[&rest[..13], &[0x06, 0x03, 0x00, 0x78, 0x00], behind_leading]),
        a[..50].to_vec(),
        header.to_vec(),
        with(&[before_end, &[0x06, 0x02, 0x00, 0x78], &end()]),
        with(&[before_end, &[0xFE, 0x03, 0xE0, 0x27, 0x1A], &end()]),
    ]
}
