//! That the captures have what they are made for: each oddity of each rule is counted, in both orders.
//! A rule that never decides would not be compared.

use super::blocks::*;
use super::*;
use crate::capture::{Record as Replayed, ALL};
use crate::reader::Refusal;
use crate::table::{Reply, LAST_PLACE, LAST_PORT, PORTS};
use std::sync::OnceLock;

use Answer::{Handed, Refused};

/// Made once for all tests.
pub fn stored() -> &'static (Vec<Case>, String) {
    static STORED: OnceLock<(Vec<Case>, String)> = OnceLock::new();
    STORED.get_or_init(|| {
        let cases = cases();
        let text = expected(&cases);
        (cases, text)
    })
}

/// A record that a replay looked at while nobody wrote to the table.
struct Seen {
    stamp: u32,
    microseconds: u32,
    captured: usize,
    original: u32,
    seconds: u16,
    end: usize,
    /// How many neighbours went with the time, and how many have one second left.
    let_go: usize,
    at_last: usize,
    /// None where the record was skipped.
    reply: Option<Result<Reply, Refusal>>,
}

/// A case, the table before it, the records that its replay looked at, and its answer.
struct Look {
    case: &'static Case,
    fit: bool,
    /// The ports of the records that were there before.
    ports: Vec<u8>,
    last_place_is_free: bool,
    seen: Vec<Seen>,
    answer: Answer,
}

impl Look {
    fn octets(&self) -> &'static [u8] {
        &self.case.octets
    }

    fn number(&self, at: usize) -> Option<u32> {
        let octets = self.octets().get(at..at + 4)?.try_into().ok()?;
        Some(match self.case.order {
            Order::High => u32::from_be_bytes(octets),
            Order::Low => u32::from_le_bytes(octets),
        })
    }

    fn has_magic(&self) -> bool {
        self.number(0) == Some(0xA1B2_C3D4)
    }

    /// The magic is right, and the field of the file header that begins there is this number.
    fn header_has(&self, at: usize, number: u32) -> bool {
        self.has_magic() && self.number(at) == Some(number)
    }

    fn is_quiet(&self) -> bool {
        self.fit && self.case.spoil == NEVER && self.case.room == ROOM
    }

    /// Where the last record that was looked at ends.
    fn end(&self) -> usize {
        self.seen.last().map_or(FILE_HEADER, |seen| seen.end)
    }

    /// How many octets there are behind it.
    fn behind(&self) -> usize {
        self.octets().len().saturating_sub(self.end())
    }

    /// What the record behind it states, if there is a whole header: captured and original length.
    fn captured_behind(&self) -> Option<(u32, u32)> {
        Some((self.number(self.end() + 8)?, self.number(self.end() + 12)?))
    }

    /// What follows is a record that the file has not whole (C7).
    fn is_torn_behind(&self) -> bool {
        match self.captured_behind() {
            Some((captured, _)) => self.behind() - RECORD_HEADER < captured as usize,
            None => self.behind() > 0,
        }
    }

    /// A record of this captured length has all octets but one, and then the file ends.
    fn lacks_one_of(&self, captured: usize, skipped: bool) -> bool {
        self.answer == Refused(12)
            && self.behind() == RECORD_HEADER + captured - 1
            && self.captured_behind().is_some_and(|(stated, original)| {
                stated as usize == captured && (stated < original) == skipped
            })
    }

    fn handed_record_of(&self, captured: usize, skipped: bool) -> bool {
        let is_one = |seen: &Seen| seen.captured == captured && seen.reply.is_none() == skipped;
        matches!(self.answer, Handed(_)) && self.seen.iter().any(is_one)
    }

    fn has(&self, is_one: impl Fn(&Seen) -> bool) -> bool {
        self.is_quiet() && self.seen.iter().any(is_one)
    }

    /// Two records one behind the other.
    fn has_two(&self, are_those: impl Fn(&Seen, &Seen) -> bool) -> bool {
        self.is_quiet() && self.seen.windows(2).any(|two| are_those(&two[0], &two[1]))
    }

    fn has_gap_of(&self, seconds: u32) -> bool {
        self.has_two(|one, other| other.stamp.checked_sub(one.stamp) == Some(seconds))
    }

    fn reaches_its_limit(&self) -> bool {
        self.is_quiet() && self.answer == Handed(self.case.limit)
    }

    /// Somebody wrote at that octet.
    fn is_spoiled_at(&self, at: usize) -> bool {
        self.fit && self.case.room == ROOM && self.case.spoil == at as u64
    }

    /// Somebody wrote inside the header or the octets of a record that was looked at, or exactly
    /// behind it.
    fn is_spoiled_in(&self, part: fn(&Seen, usize) -> bool) -> bool {
        let is_in = |seen: &Seen| part(seen, self.case.spoil as usize);
        self.fit
            && self.case.room == ROOM
            && self.case.spoil != NEVER
            && self.seen.iter().any(is_in)
    }
}

fn looks() -> &'static [Look] {
    static LOOKS: OnceLock<Vec<Look>> = OnceLock::new();
    LOOKS.get_or_init(|| {
        let mut player = Player::new();
        stored().0.iter().map(|case| look(&mut player, case)).collect()
    })
}

/// The records are looked at on a copy, without anybody beside.
fn look(player: &mut Player, case: &'static Case) -> Look {
    let mut copy = Player { table: player.table.clone(), buffer: player.buffer.clone() };
    let Player { table, buffer } = &mut copy;
    if !case.go_on {
        table.start(buffer).expect("the buffer has its length");
    }
    let fit = table.breaches(buffer).is_empty();
    let ports = table.used().map(|place| table.port[place]).collect();
    let mut seen = Vec::new();
    replay_beside(table, buffer, case.port, case.limit, &case.octets, |record, table, buffer| {
        seen.push(see(case, record, table.clone(), buffer.to_vec()));
    });
    let last_place_is_free = table.length[LAST_PLACE] == 0;
    Look { case, fit, ports, last_place_is_free, seen, answer: player.play(case) }
}

fn see(case: &Case, record: &Replayed, mut table: Table, mut buffer: Vec<u8>) -> Seen {
    let held = table.used().count();
    table.seconds_passed(&mut buffer, record.seconds).expect("the table is fit");
    let at_last = table.used().filter(|&place| table.seconds[place] == 1).count();
    let let_go = held - table.used().count();
    let microseconds = record.end - record.octets.len() - 12;
    let octets = [0, 1, 2, 3].map(|i| case.octets[microseconds + i]);
    Seen {
        stamp: record.stamp,
        microseconds: match case.order {
            Order::High => u32::from_be_bytes(octets),
            Order::Low => u32::from_le_bytes(octets),
        },
        captured: record.octets.len(),
        original: record.original,
        seconds: record.seconds,
        end: record.end,
        let_go,
        at_last,
        reply: record.frame().map(|frame| table.frame_on_port(&mut buffer, case.port, frame)),
    }
}

/// How many cases of each order are such ones. There must be some of both.
fn some(what: &str, is_one: impl Fn(&Look) -> bool) {
    let [high, low] = count(is_one);
    println!("{what}: {high} and {low}");
    assert!(high > 0 && low > 0, "{what}: {high} and {low}");
}

fn count(is_one: impl Fn(&Look) -> bool) -> [usize; 2] {
    Order::BOTH
        .map(|order| looks().iter().filter(|look| look.case.order == order && is_one(look)).count())
}

#[test]
fn there_are_as_many_as_promised() {
    let [high, low] = count(|_| true);
    println!("{high} with the high octet first, {low} with the low one");
    assert!(high == low && high + low >= 450 + 300);
    let long = count(|look| look.seen.len() >= 10);
    println!("{long:?} of ten records and more");
    assert!(long.iter().all(|&count| count >= 80));
}

#[test]
fn no_answer_is_rare() {
    for number in [1, 2, 11, 12] {
        let counts = count(|look| look.answer == Refused(number));
        println!("{number}: {counts:?}");
        assert!(counts.iter().all(|&count| count >= 30));
    }
    for handed in [0..=0, 1..=1, 2..=2, 3..=3, 4..=4, 5..=9, 10..=19, 20..=29, 30..=40] {
        some(&format!("handed {handed:?}"), |look| match look.answer {
            Handed(frames) => handed.contains(&frames),
            Refused(_) => false,
        });
    }
}

/// Four times the same answers, each with its piece.
#[test]
fn the_text_has_four_passes() {
    let (cases, text) = stored();
    let lines: Vec<_> = text.lines().map(|line| line.splitn(3, ' ').collect::<Vec<_>>()).collect();
    assert_eq!(lines.len(), 4 * cases.len());
    for (i, line) in lines.iter().enumerate() {
        let (pass, number) = (i / cases.len(), i % cases.len());
        assert_eq!(line[0], (number + 1).to_string());
        assert_eq!(line[1], ["1", "7", "4096", "0"][pass]);
        assert_eq!(line[2], lines[number][2]);
    }
    assert!(!cases[0].go_on);
}

/// The numbers in their order, each with its high octet first, and then the octets.
#[test]
fn the_case_file_is_as_promised() {
    let case = Case {
        order: Order::High,
        go_on: true,
        port: 0x0102,
        limit: 0x0304,
        spoil: NEVER,
        room: 0x05EA,
        octets: vec![0xAA, 0xBB],
    };
    let first = [1, 0, 0, 0, 0, 0, 0, 1, 2, 0, 0, 0, 0, 0, 0, 3, 4];
    let second = [255, 255, 255, 255, 255, 255, 255, 255, 5, 0xEA, 0, 0, 0, 2, 0xAA, 0xBB];
    assert_eq!(case_file(&[case]), [&first[..], &second].concat());
}

/// What somebody writes makes a table unfit because its last place is free (N5); the cases promise it.
#[test]
fn the_last_place_is_always_free() {
    assert!(looks().iter().all(|look| look.last_place_is_free));
}

#[test]
fn the_small_capture_is_cut_everywhere() {
    for order in Order::BOTH {
        let whole = small(order);
        for length in 0..=whole.len() {
            let is_cut = |look: &&Look| look.octets() == &whole[..length];
            assert!(looks().iter().any(|look| is_cut(&look) && look.case.limit == ALL));
        }
    }
}

#[test]
fn file_headers() {
    for length in 0..FILE_HEADER {
        some(&format!("{length} octets"), |look| {
            look.is_quiet() && look.octets().len() == length && look.answer == Refused(11)
        });
    }
    for magic in [0xA1B2_3C4D, 0x0A0D_0D0A, 0xA1B2_CD34] {
        some(&format!("magic {magic:X}"), |look| {
            look.number(0) == Some(magic) && look.answer == Refused(11)
        });
    }
    for octet in 0..4 {
        some(&format!("octet {octet} of the magic"), |look| {
            let right = look.case.order.number(0xA1B2_C3D4);
            let mut others = (0..4).filter(|&i| look.octets().get(i) != Some(&right[i]));
            look.octets().len() > FILE_HEADER
                && look.answer == Refused(11)
                && others.next() == Some(octet)
                && others.next().is_none()
        });
    }
    for link_type in [0, 2, 257, 0x0100_0000, 0x0001_0001, 0x0400_0001] {
        some(&format!("link type {link_type:X}"), |look| {
            look.header_has(LINK_TYPE, link_type) && look.answer == Refused(11)
        });
    }
    for at in [VERSION, ZONE, ACCURACY, SNAP] {
        for number in [0, 1, 0x8000_0000, u32::MAX] {
            some(&format!("{number:X} at {at}"), |look| {
                look.header_has(at, number) && look.answer == Handed(2)
            });
        }
    }
    some("nothing but a file header", |look| {
        look.is_quiet() && look.octets().len() == FILE_HEADER && look.answer == Handed(0)
    });
}

#[test]
fn stamps() {
    some("equal", |look| look.has_two(|one, other| one.stamp == other.stamp));
    some("back", |look| look.has_two(|one, other| one.stamp > other.stamp && other.seconds == 0));
    some("back and then forth, below the highest", |look| {
        look.is_quiet()
            && look.seen.windows(3).any(|three| {
                let [first, second, third] = [0, 1, 2].map(|i| three[i].stamp);
                second < third && third < first && three[2].seconds > 0
            })
    });
    for gap in [65_534, 65_535, 65_536, u32::MAX] {
        some(&format!("a gap of {gap}"), |look| look.has_gap_of(gap));
    }
    for stamp in [0, 1, 65_536, 0x8000_0000, u32::MAX] {
        some(&format!("first with {stamp}, over a table with neighbours"), |look| {
            let first = look.seen.first();
            look.is_quiet()
                && !look.ports.is_empty()
                && first.is_some_and(|seen| seen.stamp == stamp && seen.seconds == 0)
        });
    }
    for (seconds, at_last, let_go) in [(119, 1, 0), (120, 0, 1), (65_534, 1, 1), (65_535, 0, 2)] {
        some(&format!("{seconds} seconds: {at_last} at the last, {let_go} gone"), |look| {
            look.has(|seen| (seen.seconds, seen.at_last, seen.let_go) == (seconds, at_last, let_go))
        });
    }
    some("a skipped record lets a neighbour go", |look| {
        look.has(|seen| seen.reply.is_none() && seen.let_go > 0)
    });
    some("time behind a skipped record", |look| {
        look.has_two(|one, other| one.reply.is_none() && other.seconds > 0)
    });
    some("microseconds above a second", |look| {
        look.has(|seen| seen.microseconds > 999_999) && matches!(look.answer, Handed(_))
    });
    some("microseconds that go back", |look| {
        look.has_two(|one, other| one.microseconds > other.microseconds && other.seconds == 1)
    });
}

#[test]
fn lengths() {
    some("captured above original", |look| {
        look.has(|seen| {
            seen.captured > seen.original as usize && seen.reply == Some(Ok(Reply::Recorded))
        })
    });
    some("nothing of nothing", |look| {
        look.has(|seen| (seen.captured, seen.original, seen.reply) == (0, 0, Some(Err(3))))
    });
    some("nothing of one", |look| {
        look.has(|seen| (seen.captured, seen.original, seen.reply) == (0, 1, None))
    });
    for captured in [1_513, 1_514, 1_515] {
        for skipped in [false, true] {
            let what = format!("{captured} octets, skipped: {skipped}");
            some(&what, |look| look.handed_record_of(captured, skipped));
            some(&format!("{what}, without the last"), |look| look.lacks_one_of(captured, skipped));
        }
    }
    some("a longest frame is recorded", |look| {
        look.has(|seen| seen.captured == 1_514 && seen.reply == Some(Ok(Reply::Recorded)))
    });
    for skipped in [false, true] {
        // The orders share these.
        let [whole, short] = [
            count(|look| (65_536..80_000).any(|length| look.handed_record_of(length, skipped))),
            count(|look| look.lacks_one_of(65_587, skipped) || look.lacks_one_of(70_000, skipped)),
        ];
        println!("very long, skipped: {skipped}: whole {whole:?}, without the last {short:?}");
        assert!([whole, short].iter().all(|[high, low]| high + low > 0));
    }
    for octets in [0, 51] {
        some(&format!("{octets} of {}", u32::MAX), |look| {
            look.answer == Refused(12)
                && look.behind() == RECORD_HEADER + octets
                && look.captured_behind().is_some_and(|(captured, _)| captured == u32::MAX)
        });
    }
}

#[test]
fn replies() {
    for reply in [Reply::Recorded, Reply::Refreshed, Reply::Gone, Reply::UnknownGoodbye] {
        some(&format!("{reply:?}"), |look| look.has(|seen| seen.reply == Some(Ok(reply))));
    }
    for number in [3, 4, 5, 6, 7, 8, 13] {
        some(&format!("a frame refused with {number} counts"), |look| {
            let frames = look.seen.iter().filter(|seen| seen.reply.is_some()).count();
            look.has(|seen| seen.reply == Some(Err(number))) && look.answer == Handed(frames as u64)
        });
        some(&format!("a limit that {number} reaches"), |look| {
            look.reaches_its_limit()
                && look.seen.last().is_some_and(|seen| seen.reply == Some(Err(number)))
        });
    }
}

#[test]
fn limits_and_ports() {
    for limit in [0, 1, 2, 3, 4, 1 << 32, ALL] {
        some(&format!("limit {limit} on the small capture"), |look| {
            look.is_quiet() && look.case.limit == limit && look.octets() == small(look.case.order)
        });
    }
    some("at the last record", |look| look.reaches_its_limit() && look.behind() == 0);
    some("before a torn record", |look| {
        look.reaches_its_limit() && look.case.limit > 0 && look.is_torn_behind()
    });
    some("in front of a skipped record", |look| {
        let skipped = |(captured, original): (u32, u32)| captured < original;
        look.reaches_its_limit()
            && !look.is_torn_behind()
            && look.captured_behind().is_some_and(skipped)
    });
    some("in front of junk", |look| {
        look.reaches_its_limit() && look.octets().ends_with(&[0xEE; 40])
    });
    some("nothing but junk behind the file header", |look| {
        look.reaches_its_limit() && look.octets()[FILE_HEADER..] == [0xEE; 60]
    });
    for (port, answer) in [
        (0, Handed(2)),
        (LAST_PORT, Handed(2)),
        (PORTS, Refused(2)),
        (255, Refused(2)),
        (256, Refused(2)),
        (1 << 32, Refused(2)),
        (usize::MAX, Refused(2)),
    ] {
        some(&format!("port {port}"), |look| {
            look.is_quiet() && look.case.port == port && look.answer == answer
        });
    }
}

/// 1 before 2 before 11 before 12 (C8).
#[test]
fn the_order_of_refusals() {
    let lent = |look: &Look| look.case.room == ROOM;
    let no_port = |look: &Look| look.case.port >= PORTS;
    let no_capture = |look: &Look| {
        look.octets().len() < FILE_HEADER || !look.has_magic() || look.number(LINK_TYPE) != Some(1)
    };
    let torn = |look: &Look| look.octets().len() > FILE_HEADER && look.is_torn_behind();
    type Also<'a> = (&'a str, &'a dyn Fn(&Look) -> bool);
    let also: [Also; 4] = [
        ("no port", &no_port),
        ("no capture", &no_capture),
        ("torn", &torn),
        ("limit 0", &|look| look.case.limit == 0),
    ];
    for (what, is_also) in also {
        some(&format!("1 and {what}"), |look| {
            lent(look) && !look.fit && is_also(look) && look.answer == Refused(1)
        });
    }
    for (what, is_also) in &also[1..] {
        some(&format!("2 and {what}"), |look| {
            look.is_quiet() && no_port(look) && is_also(look) && look.answer == Refused(2)
        });
    }
    for (what, is_also) in &also[2..] {
        some(&format!("11 and {what}"), |look| {
            look.is_quiet() && no_capture(look) && is_also(look) && look.answer == Refused(11)
        });
    }
}

#[test]
fn somebody_writes() {
    for answer in [Refused(1), Handed(0), Refused(11), Refused(12)] {
        some(&format!("at 0: {answer:?}"), |look| look.is_spoiled_at(0) && look.answer == answer);
    }
    for answer in [Refused(1), Handed(0), Refused(12)] {
        some(&format!("behind the file header: {answer:?}"), |look| {
            look.is_spoiled_at(FILE_HEADER) && look.answer == answer
        });
    }
    some("inside a record header", |look| {
        look.answer == Refused(1)
            && look.is_spoiled_in(|seen, at| {
                let header = seen.end - seen.captured - RECORD_HEADER;
                header < at && at < header + RECORD_HEADER
            })
    });
    some("inside a record's octets", |look| {
        look.answer == Refused(1)
            && look.is_spoiled_in(|seen, at| seen.end - seen.captured < at && at < seen.end)
    });
    some("exactly behind a record", |look| {
        look.answer == Refused(1) && look.is_spoiled_in(|seen, at| seen.end == at)
    });
    some("exactly behind an empty record", |look| {
        look.answer == Refused(1)
            && look.is_spoiled_in(|seen, at| seen.end == at && seen.captured == 0)
    });
    some("before the last octet of an empty record's header", |look| {
        look.answer == Refused(1)
            && look.is_spoiled_in(|seen, at| seen.end - 1 == at && seen.captured == 0)
    });
    some("at the file's end", |look| {
        look.is_spoiled_at(look.octets().len()) && matches!(look.answer, Handed(1..))
    });
    some("behind the last frame of the limit", |look| {
        look.answer == Handed(look.case.limit)
            && look.is_spoiled_in(|seen, at| seen.end == at)
            && look.behind() > 0
    });
    some("behind the limit", |look| {
        look.answer == Handed(look.case.limit)
            && look.fit
            && look.case.limit > 0
            && (look.end() as u64..look.octets().len() as u64).contains(&look.case.spoil)
    });
    some("above the length", |look| {
        look.fit
            && look.case.spoil != NEVER
            && look.case.spoil > look.octets().len() as u64
            && matches!(look.answer, Handed(1..))
    });
    some("on a port that there is not", |look| {
        look.answer == Refused(2) && look.case.spoil <= look.octets().len() as u64
    });
}

/// The small capture has two frames and a skipped record between them. They end at octets 91, 176 and
/// 127, and what they left is typed by hand.
#[test]
fn what_was_called_before_somebody_writes_stands() {
    for at in 0..=178 {
        let mut maker = Maker::new();
        maker.file(small(Order::High)).spoil = at;
        let (answer, left): (_, &[u16]) = match at {
            0..=90 => (Refused(1), &[]),
            91..=126 => (Refused(1), &[20]),
            127..=175 => (Refused(1), &[10]),
            _ => (Handed(2), &[5, 30]),
        };
        let mut player = Player::new();
        assert_eq!(player.play(&maker.cases[0]), answer, "at {at}");
        let seconds = &player.table.seconds;
        assert_eq!(&seconds[..left.len()], left, "at {at}");
        assert!(seconds[left.len()..].iter().all(|&seconds| seconds == 0), "at {at}");
        let last = player.buffer[59_999];
        assert_eq!(last, u8::from(at <= 176), "at {at}");
    }
}

/// 1 though the port, the magic and the limit would each give something else; with no octets it is
/// not lent.
#[test]
fn a_record_buffer_of_another_length_touches_nothing() {
    let mut maker = Maker::new();
    maker.file(small(Order::High));
    maker.file_over(small(Order::Low)).room = 1_513;
    maker.cases[1].port = 10;
    maker.file_over(vec![0; 24]).room = 1_515;
    maker.file_over(small(Order::Low)).room = 0;
    maker.cases[3].limit = 0;
    maker.file_over(vec![]).room = 0;
    let answers = [Handed(2), Refused(1), Refused(1), Refused(1), Refused(11)];
    let mut player = Player::new();
    for (case, answer) in maker.cases.iter().zip(answers) {
        assert_eq!(player.play(case), answer);
        assert_eq!(player.table.seconds[..3], [5, 30, 0]);
    }
}

#[test]
fn rooms() {
    for room in [0, 24, 1_513, 1_515, 65_535] {
        let is_one = |look: &Look| look.case.room == room;
        some(&format!("room {room}: 1"), |look| {
            is_one(look) && look.fit && look.answer == Refused(1)
        });
        some(&format!("room {room}, and somebody writes"), |look| {
            is_one(look) && look.fit && look.case.spoil == 24 && look.answer == Refused(1)
        });
        some(&format!("room {room} and no octets: 11"), |look| {
            is_one(look) && look.octets().is_empty() && look.answer == Refused(11)
        });
    }
    some("a wrong room and no octets: 2", |look| {
        look.case.room != ROOM && look.octets().is_empty() && look.answer == Refused(2)
    });
    some("a wrong room and no port", |look| {
        look.case.room != ROOM && look.case.port >= PORTS && look.answer == Refused(1)
    });
}

#[test]
fn tables_that_go_on() {
    some("another port", |look| {
        let others = look.ports.iter().filter(|&&port| usize::from(port) != look.case.port);
        look.is_quiet() && others.count() > 0 && matches!(look.answer, Handed(1..))
    });
    some("the same port", |look| {
        let same = look.ports.iter().filter(|&&port| usize::from(port) == look.case.port);
        look.is_quiet() && same.count() > 0 && matches!(look.answer, Handed(1..))
    });
    some("over a table that is not fit", |look| !look.fit && look.answer == Refused(1));
}
