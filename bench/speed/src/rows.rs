//! The rows of the table, in the order in which they are shown.
//! Each says what it stands on, which calls a round of it makes, and what they answer.

use twin::reader::{Address, Refusal};
use twin::table::{OF_EACH_PORT, PLACES, PORTS};

use crate::announcement::Announcement;
use crate::calls::{Call, Crossing, Row, Step};
use crate::frames::{Announced, Later, FRAME_A};
use crate::octets::two;
use crate::sizes::HEADER_OCTETS;
use crate::tables::{self, crowded, full, of_a, Heard, Held};

/// Answers of frame on a port (X4).
const RECORDED: u8 = 1;
const REFRESHED: u8 = 2;
const GONE: u8 = 3;

/// An address that no frame here names.
const UNSEEN: Address = [2, 0, 0, 0, 0, 9];

/// More than any record has left, so that all are freed (N8).
const ALL_SECONDS: u16 = u16::MAX;

/// Every fifth place of a full table is refreshed in a round: on average they lie as far behind as
/// all do, and a round is short beside what a machine is disturbed by.
const EVERY: usize = 5;

/// How many neighbours the tables hold on which the growth is shown: none, and quarters of all.
const GROWTH: [usize; 5] = [0, PLACES / 4, PLACES / 2, 3 * PLACES / 4, PLACES];

/// The rows of one heading.
pub struct Section {
    pub heading: &'static str,
    pub rows: Vec<Row>,
}

pub fn all() -> Vec<Section> {
    vec![
        Section { heading: "Reading and writing", rows: reading() },
        Section { heading: "Frame on a port", rows: frame_on_port() },
        Section { heading: "The other calls on a table", rows: others() },
        Section { heading: "How many, on tables that hold more and more", rows: growth() },
        Section { heading: "The crossing alone", rows: crossings() },
    ]
}

fn frame_on_port() -> Vec<Row> {
    refreshing().into_iter().chain(refusing()).collect()
}

/// The length and the verdict are due: the frames have no padding and are HTIP.
fn reading() -> Vec<Row> {
    let read = |name: &str, frame: &'static [u8]| {
        let due = [&two(frame.len() - HEADER_OCTETS)[..], &[1]].concat();
        row(
            name,
            Crossing::None,
            Held::empty(),
            vec![Step { call: Call::Read(frame), due: Ok(due) }],
        )
    };
    let long = |later| Announced::with(later).frame();
    let announcement = Box::leak(Box::new(Announcement::common()));
    let chassis = vec![2, 7, 4, 2, 0, 0, 0, 0, 1];
    let write = Step { call: Call::Write(announcement), due: Ok(chassis) };
    vec![
        read("read frame A", FRAME_A),
        read("read 1,514 octets in few TLVs", long(Later::Few)),
        read("read 1,514 octets in TLVs of L = 0", long(Later::Empty)),
        read("read 1,514 octets of link tables", long(Later::Links)),
        read("read 1,514 octets of TLVs of another organization", long(Later::Organization)),
        row(
            "write an announcement of all common fields",
            Crossing::None,
            Held::empty(),
            vec![write],
        ),
    ]
}

fn refreshing() -> Vec<Row> {
    let goodbye = Announced { seconds: 0, ..Announced::a() }.frame();
    let turn = vec![heard((0, FRAME_A), Ok(RECORDED)), heard((0, goodbye), Ok(GONE))];
    let refreshed = |name: &str, neighbours: Vec<Heard>| {
        let some = neighbours.iter().skip(2).step_by(EVERY);
        let steps = some.map(|&frame| heard(frame, Ok(REFRESHED))).collect();
        row(name, Crossing::InAndOut, Held::of(&neighbours), steps)
    };
    vec![
        row("empty table, recorded and gone by turns", Crossing::InAndOut, Held::empty(), turn),
        refreshed("full table of frame A's, refreshed", full(of_a)),
        refreshed("full table of 1,500 octets in few TLVs, refreshed", full(tables::with_few)),
        refreshed(
            "full table of port IDs of 255 octets that differ in the first octet, refreshed",
            full(tables::with_early_port_id),
        ),
        refreshed(
            "full table of port IDs of 255 octets that differ in the 253rd, refreshed",
            full(tables::with_late_port_id),
        ),
        refreshed(
            "full table of 1,500 octets in TLVs of L = 0, refreshed",
            full(tables::with_empty),
        ),
        refreshed(
            "full table of chassis that differ in the second octet, refreshed",
            full(tables::of_own_chassis),
        ),
    ]
}

fn refusing() -> Vec<Row> {
    let refused = |name: &str, held: Held, frame: Announced, refusal: Refusal| {
        row(name, Crossing::InAndOut, held, vec![heard((0, frame.frame()), Err(refusal))])
    };
    let seventh = of_a(0, 6);
    let fourth = Announced { port_id: b"9".to_vec(), ..Announced::a() };
    let full_of_a = || Held::of(&full(of_a));
    let late = full_of_a().spoiled_at_the_end();
    let twice = Held::of(&full(tables::of_two_chassis)).one_identity_twice();
    vec![
        refused("a port that holds six, refused 7", Held::of(&crowded()), seventh, 7),
        refused("one loud chassis, refused 13", full_of_a(), fourth, 13),
        refused("not fit by the last octet of the last place, refused 1", late, Announced::a(), 1),
        refused(
            "not fit by the identities of the last two places, refused 1",
            twice,
            Announced::a(),
            1,
        ),
    ]
}

fn others() -> Vec<Row> {
    let step = |call, due: &[u8]| vec![Step { call, due: Ok(due.to_vec()) }];
    let full_of_a = || Held::of(&full(of_a));
    let but_last_port = Held::of(&tables::first(PLACES - OF_EACH_PORT, of_a));
    let last_port = PORTS - 1;
    let unseen = Call::WhoSees { address: UNSEEN, start: 0 };
    let in_and_out = |name: &str, held, call| row(name, Crossing::InAndOut, held, step(call, &[]));
    let put_back = |row: Row| Row { put_back: true, ..row };
    vec![
        in_and_out("0 seconds passed, nothing is freed", full_of_a(), Call::Seconds(0)),
        put_back(in_and_out(
            &format!("seconds passed, all {PLACES} are freed"),
            full_of_a(),
            Call::Seconds(ALL_SECONDS),
        )),
        in_and_out(
            "link lost on a port that holds none, all others full",
            but_last_port,
            Call::Lost { port: last_port },
        ),
        put_back(in_and_out(
            "link lost, four are freed",
            full_of_a(),
            Call::Lost { port: last_port },
        )),
        row(
            "who sees, nobody, full table of frame A's",
            Crossing::In,
            full_of_a(),
            step(unseen, &[0]),
        ),
        row(
            "who sees, nobody, full table of link tables",
            Crossing::In,
            Held::of(&full(tables::with_links)),
            step(unseen, &[0]),
        ),
        row(
            "who sees, nobody, full table of link information with one address each",
            Crossing::In,
            Held::of(&full(tables::with_short_links)),
            step(unseen, &[0]),
        ),
        row(
            "who sees, nobody, full table of extension link information, nine items an address",
            Crossing::In,
            Held::of(&full(tables::with_items)),
            step(unseen, &[0]),
        ),
    ]
}

fn growth() -> Vec<Row> {
    GROWTH.into_iter().map(how_many).collect()
}

/// How many port 0 holds in a table of so many neighbours.
pub fn how_many(count: usize) -> Row {
    let due = Ok(vec![count.min(OF_EACH_PORT) as u8]);
    let steps = vec![Step { call: Call::HowMany { port: 0 }, due }];
    let held = Held::of(&tables::first(count, of_a));
    row(&format!("how many, table of {count} frame A's"), Crossing::In, held, steps)
}

/// A buffer of a wrong length is refused when the slices have become a table, and nothing else is
/// done (R1).
fn crossings() -> Vec<Row> {
    let crossing = |name: &str, crossing, call| {
        let held = Held::of(&full(of_a)).too_short();
        row(name, crossing, held, vec![Step { call, due: Err(1) }])
    };
    vec![
        crossing("in: how many, buffer too short", Crossing::In, Call::HowMany { port: 0 }),
        crossing("in and out: start, buffer too short", Crossing::InAndOut, Call::Start),
    ]
}

fn heard((port, frame): Heard, due: Result<u8, Refusal>) -> Step {
    Step { call: Call::Frame { port, frame }, due: due.map(|reply| vec![reply]) }
}

fn row(name: &str, crossing: Crossing, held: Held, steps: Vec<Step>) -> Row {
    Row { name: name.to_string(), crossing, held, steps, put_back: false }
}
