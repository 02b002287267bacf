//! The events: the run cases, frames from group addresses, neighbours much like each other, the last
//! ports and places, senders, loud chassis, random sequences of calls on the table, spoiled tables,
//! and records with extension link information. The case file and the text that is expected for it
//! are made here.
//!
//! A spoiled table is made in this way. Events have led to a table that is fit, and it is kept.
//! Edits follow: a number or the sender of a place or an octet becomes another one, a place is
//! copied to another place, or the buffer given has fewer or more octets. Each of the six calls is
//! tried on what that makes. Then the kept table is taken back, so that many are spoiled after one
//! sequence. Some edits of senders spoil nothing, and calls follow as on any table.

mod bench;
pub(crate) mod chassis;
pub(crate) mod desk;
mod extension;
mod last;
mod loud;
pub(crate) mod maker;
pub(crate) mod random;
mod sender;
mod spoils;

use crate::frames::two_octets;
use crate::reader::Address;
use desk::Desk;
use maker::Maker;
pub use spoils::Way;

/// The six calls, then what spoils and tries a table. From a Lend on, the buffer given is the first
/// so many octets of the store.
#[derive(Clone, Debug, PartialEq, Eq)]
pub enum Event {
    Start,
    Frame { port: usize, frame: Vec<u8> },
    Seconds(u16),
    Lost { port: usize },
    HowMany { port: usize },
    WhoSees { address: Address, from: usize },
    Lend(usize),
    SetPort { place: usize, port: u8 },
    SetSeconds { place: usize, seconds: u16 },
    SetLength { place: usize, length: u16 },
    SetSender { place: usize, sender: Address },
    SetOctet { at: usize, octet: u8 },
    CopyPlace { from: usize, to: usize },
    Keep,
    Spoiled(Trial),
}

/// What the six calls are given on a spoiled table; the kept table is taken back behind them.
#[derive(Clone, Debug, PartialEq, Eq)]
pub struct Trial {
    /// How the table was spoiled. It is not in the file; the tests hold the table against it.
    pub way: Way,
    /// The port, and also the start for the one who sees an address.
    pub number: usize,
    pub seconds: u16,
    pub address: Address,
    pub frame: Vec<u8>,
}

/// All events, always the same ones.
pub fn events() -> Vec<Event> {
    let mut maker = Maker::new();
    maker.bench();
    maker.frames_from_group_addresses();
    maker.chassis();
    maker.last_ports_and_places();
    maker.senders();
    maker.loud_chassis();
    maker.sequences();
    maker.extensions();
    maker.events
}

/// The case file. A record has a kind (1 octet), a number (8), a value (2), an address (6) and a
/// length (2), each with its high octet first, and then so many octets as the length says. What an
/// event has no use for is 0.
pub fn case_file(events: &[Event]) -> Vec<u8> {
    let none = Address::default();
    let record = |event: &Event| match *event {
        Event::Start => record(0, 0, 0, none, &[]),
        Event::Frame { port, ref frame } => record(1, port, 0, none, frame),
        Event::Seconds(seconds) => record(2, 0, seconds, none, &[]),
        Event::Lost { port } => record(3, port, 0, none, &[]),
        Event::HowMany { port } => record(4, port, 0, none, &[]),
        Event::WhoSees { address, from } => record(5, from, 0, address, &[]),
        Event::Lend(octets) => record(6, octets, 0, none, &[]),
        Event::SetPort { place, port } => record(7, place, u16::from(port), none, &[]),
        Event::SetSeconds { place, seconds } => record(8, place, seconds, none, &[]),
        Event::SetLength { place, length } => record(9, place, length, none, &[]),
        Event::SetSender { place, sender } => record(10, place, 0, sender, &[]),
        Event::SetOctet { at, octet } => record(11, at, u16::from(octet), none, &[]),
        Event::CopyPlace { from, to } => record(12, from, to as u16, none, &[]),
        Event::Keep => record(13, 0, 0, none, &[]),
        Event::Spoiled(Trial { number, seconds, address, ref frame, .. }) => {
            record(14, number, seconds, address, frame)
        }
    };
    events.iter().flat_map(record).collect()
}

fn record(kind: u8, number: usize, value: u16, address: Address, octets: &[u8]) -> Vec<u8> {
    let number = (number as u64).to_be_bytes();
    let length = two_octets(octets.len());
    [&[kind], &number[..], &value.to_be_bytes(), &address, &length, octets].concat()
}

/// The expected text: a line for each call and each spoiled table, with the number of its record
/// (from 1), the answer and the digest of numbers, senders and buffer. Other records have no line.
pub fn expected(events: &[Event]) -> String {
    let mut desk = Desk::new();
    let mut text = String::new();
    for (event, number) in events.iter().zip(1..) {
        if let Some(line) = desk.line(event) {
            text += &format!("{number} {line}\n");
        }
    }
    text
}

#[cfg(test)]
pub(crate) mod tests {
    use super::*;
    use crate::frames::blocks::{from_a_group, from_a_station, stations, HEADER};
    use crate::id::Id;
    use crate::reader::outline_frame;
    use crate::table::{
        buffer_octets, octets_of, places, Table, BUFFER_OCTETS, COMMON, LAST_PLACE, MOST, PLACES,
        PLACE_OCTETS, PORTS,
    };
    use std::collections::HashSet;
    use std::mem;
    use std::sync::OnceLock;

    /// From here on are the places that a cell with two ports fewer has not.
    const BEHIND_A_SMALLER_CELL: usize = places(PORTS - 2);

    /// Made once for all tests, since the digests take their time.
    pub fn stored() -> &'static (Vec<Event>, String) {
        static STORED: OnceLock<(Vec<Event>, String)> = OnceLock::new();
        STORED.get_or_init(|| {
            let events = events();
            let text = expected(&events);
            (events, text)
        })
    }

    /// The answers in the text, without record numbers and digests.
    fn answers() -> Vec<String> {
        let answer = |line: &str| {
            let words: Vec<_> = line.split(' ').collect();
            words[1..words.len() - 1].join(" ")
        };
        stored().1.lines().map(answer).collect()
    }

    fn is_from_a_group(frame: &[u8]) -> bool {
        frame.len() >= HEADER && from_a_group(frame.to_vec()) == frame
    }

    #[test]
    fn there_are_as_many_calls_as_promised() {
        let (events, text) = stored();
        let spoiled = events.iter().filter(|event| matches!(event, Event::Spoiled(_))).count();
        let calls = text.lines().count() - spoiled;
        println!("{} records, {calls} calls, {spoiled} spoiled tables", events.len());
        assert!(calls >= 3_000);
    }

    /// A rule that hardly ever decides would hardly be compared.
    #[test]
    fn no_answer_is_rare() {
        let answers = answers();
        let count = |wanted: &dyn Fn(&str) -> bool| answers.iter().filter(|a| wanted(a)).count();
        let mut counts = vec![("place", count(&|answer| answer.starts_with("place ")))];
        for whole in ["done", "nobody", "recorded", "refreshed", "gone", "unknown goodbye"] {
            counts.push((whole, count(&|answer| answer == whole)));
        }
        for whole in ["holds 0", "holds 1", "holds 2", "holds 3", "holds 4", "holds 5", "holds 6"] {
            counts.push((whole, count(&|answer| answer == whole)));
        }
        for number in ["1", "2", "3", "4", "5", "6", "7", "8", "13"] {
            counts.push((number, count(&|answer| answer == format!("refused {number}"))));
        }
        println!("{counts:?}");
        assert!(counts.iter().all(|&(_, count)| count >= 20));
    }

    /// A call, the table before it, how many octets its buffer had, where the chassis of its frame
    /// stood on its port, and its answer.
    struct Call {
        event: &'static Event,
        before: Table,
        octets: usize,
        of_chassis: Vec<usize>,
        answer: String,
    }

    /// The places of a chassis on a port.
    fn places_of(desk: &Desk, port: usize, chassis: &Id) -> Vec<usize> {
        let is_of_it = |place: &usize| {
            let outline = desk.table.outline(desk.buffer(), *place);
            usize::from(desk.table.port[*place]) == port
                && outline.is_some_and(|outline| outline.chassis == *chassis)
        };
        desk.table.used().filter(is_of_it).collect()
    }

    /// Those of the chassis of a frame; none where there is no valid frame or no table for it.
    fn places_of_chassis(desk: &Desk, event: &Event) -> Vec<usize> {
        let Event::Frame { port, frame } = event else {
            return vec![];
        };
        match outline_frame(frame) {
            Ok(outline) if desk.buffer().len() == BUFFER_OCTETS => {
                places_of(desk, *port, &outline.chassis)
            }
            _ => vec![],
        }
    }

    /// All calls but those on spoiled tables.
    fn calls() -> Vec<Call> {
        let mut desk = Desk::new();
        let mut calls = Vec::new();
        for event in &stored().0 {
            if let Event::Spoiled(_) = event {
                desk.take_back();
                continue;
            }
            let (before, octets) = (desk.table.clone(), desk.buffer().len());
            let of_chassis = places_of_chassis(&desk, event);
            if let Some(answer) = desk.act(event) {
                calls.push(Call { event, before, octets, of_chassis, answer });
            }
        }
        calls
    }

    /// The frames, the lost links and the questions how many, each with its port, with what the port
    /// held before it, and with its answer.
    fn on_ports(calls: &[Call]) -> [Vec<(usize, usize, &str)>; 3] {
        let mut kinds = [vec![], vec![], vec![]];
        for Call { event, before, answer, .. } in calls {
            let (kind, port) = match **event {
                Event::Frame { port, .. } => (0, port),
                Event::Lost { port } => (1, port),
                Event::HowMany { port } => (2, port),
                _ => continue,
            };
            kinds[kind].push((port, before.held(port), answer.as_str()));
        }
        kinds
    }

    #[test]
    fn no_port_is_missing() {
        let calls = calls();
        let [frames, lost, how_many] = on_ports(&calls);
        let accepted = ["recorded", "refreshed", "gone", "unknown goodbye"];
        let refused = ["refused 7", "refused 8", "refused 13"];
        for port in 0..PORTS {
            for reply in accepted.iter().chain(&refused).copied() {
                let replied = |&(p, _, answer): &(usize, usize, &str)| p == port && answer == reply;
                assert!(frames.iter().any(replied), "{reply} on port {port}");
            }
            for held in 0..=MOST {
                let answer = format!("holds {held}");
                assert!(how_many.contains(&(port, held, &answer)), "{answer} on port {port}");
            }
            assert!(lost.contains(&(port, MOST, "done")), "link lost on port {port}");
        }
    }

    /// Numbers that are no port: alone, and with a port as the low bits of something greater (R2).
    #[test]
    fn no_number_behind_the_last_port_is_missing() {
        for kind in on_ports(&calls()) {
            for port in [PORTS, PORTS + 1, 255, 256, 65_536, usize::MAX] {
                assert!(kind.contains(&(port, 0, "refused 2")), "port {port}");
            }
            let greater = |port: usize| port > 1 << 32 && port % 256 < PORTS;
            assert!(kind.iter().any(|&(port, _, answer)| greater(port) && answer == "refused 2"));
        }
    }

    /// A new one of a chassis that holds three on the port gets 13, whatever the port holds and
    /// whether common places are left or not (Q1); of one that holds fewer each other answer. Known
    /// ones and goodbyes are not refused for it (N13).
    #[test]
    fn no_loud_chassis_is_rare() {
        let calls = calls();
        let frames = calls.iter().filter_map(|call| match call.event {
            Event::Frame { port, .. } => Some((*port, call)),
            _ => None,
        });
        let frames: Vec<_> = frames.collect();
        let mut counts = Vec::new();
        let mut count = |what: String, is_one: &dyn Fn(usize, &Call) -> bool| {
            counts.push((what, frames.iter().filter(|(port, call)| is_one(*port, call)).count()));
        };
        for held in 3..=MOST {
            for taken in [false, true] {
                count(
                    format!("13 with {held} held, common places taken: {taken}"),
                    &|port, call| {
                        let table = &call.before;
                        call.answer == "refused 13"
                            && (table.held(port), table.common_taken() == COMMON) == (held, taken)
                    },
                );
            }
        }
        for place in [0, LAST_PLACE] {
            count(format!("13 with place {place} among the three"), &|_, call| {
                call.answer == "refused 13" && call.of_chassis.contains(&place)
            });
        }
        let fewer = ["recorded", "refused 7", "refused 8"].map(|answer| (answer, 0..3));
        let three = ["refreshed", "gone", "unknown goodbye"].map(|answer| (answer, 3..4));
        for (answer, numbers) in fewer.into_iter().chain(three) {
            for number in numbers {
                count(format!("{answer} with {number} of the chassis"), &|_, call| {
                    call.answer == answer && call.of_chassis.len() == number
                });
            }
        }
        println!("{counts:?}");
        assert!(counts.iter().all(|&(_, count)| count > 0));
    }

    /// Each place is used at some time, and often all of them are at once.
    #[test]
    fn no_place_is_missing() {
        let calls = calls();
        for place in 0..PLACES {
            assert!(calls.iter().any(|call| call.before.length[place] != 0), "place {place}");
        }
        let full = calls.iter().filter(|call| call.before.free().count() == 0).count();
        println!("{full} calls on full tables");
        assert!(full >= 20);
    }

    /// Who sees an address from the last places on, and from behind them (N11): on a full table, and
    /// on one whose last place alone is free, where the last two ports have the last places.
    #[test]
    fn no_start_around_the_end_is_missing() {
        let calls = calls();
        let answers = |free: &[usize], start: usize| -> Vec<&str> {
            let asked = |call: &&Call| {
                let Call { event, before, octets, .. } = call;
                let mut last_ports = before.port[BEHIND_A_SMALLER_CELL..LAST_PLACE].iter();
                matches!(event, Event::WhoSees { from, .. } if *from == start)
                    && *octets == BUFFER_OCTETS
                    && before.free().eq(free.iter().copied())
                    && last_ports.all(|&port| usize::from(port) >= PORTS - 2)
            };
            calls.iter().filter(asked).map(|call| call.answer.as_str()).collect()
        };
        let sees = |free: &[usize], place: usize| {
            let found = format!("place {place} ");
            answers(free, place).iter().any(|answer| answer.starts_with(&found))
        };
        let nobody_sees = |free: &[usize], start: usize| {
            let answers = answers(free, start);
            !answers.is_empty() && answers.iter().all(|&answer| answer == "nobody")
        };
        let [before, last] = [LAST_PLACE - 1, LAST_PLACE];
        assert!(sees(&[], before) && sees(&[], last));
        assert!([PLACES, PLACES + 1, usize::MAX].iter().all(|&start| nobody_sees(&[], start)));
        assert!(sees(&[last], before) && nobody_sees(&[last], last));
    }

    /// Each of the six calls is refused with a buffer of each wrong length, that of a cell with two
    /// ports fewer among them, and many tables are spoiled by it (R1).
    #[test]
    fn no_wrong_length_is_missing() {
        let fewer = [buffer_octets(PORTS - 2), BUFFER_OCTETS - PLACE_OCTETS, BUFFER_OCTETS - 1];
        let more = [BUFFER_OCTETS + 1, BUFFER_OCTETS + PLACE_OCTETS];
        let lengths = [&[0, 1], &fewer[..], &more].concat();
        let calls = calls();
        let mut counts = vec![0; lengths.len()];
        at_each_trial(|desk, _| {
            if let Some(i) = lengths.iter().position(|&length| length == desk.buffer().len()) {
                counts[i] += 1;
            }
        });
        println!("{lengths:?} {counts:?}");
        assert!(counts.iter().all(|&count| count >= 20));
        for length in lengths {
            let given = calls.iter().filter(|call| call.octets == length);
            assert!(given.clone().all(|call| call.answer == "refused 1"));
            let kinds: HashSet<_> = given.map(|call| mem::discriminant(call.event)).collect();
            assert_eq!(kinds.len(), 6, "{length} octets");
        }
    }

    /// A frame from a group address gets 3 where no 1 or 2 is due (F4, Q1) and changes nothing
    /// (Q2). From stations these frames would have had each of the other answers.
    #[test]
    fn group_sources_keep_every_answer_away() {
        let mut desk = Desk::new();
        let mut kept_away = Vec::new();
        for event in &stored().0 {
            match event {
                Event::Spoiled(_) => desk.take_back(),
                Event::Frame { port, frame } if is_from_a_group(frame) => {
                    let before = desk.clone();
                    let other = Event::Frame { port: *port, frame: from_a_station(frame.clone()) };
                    let other = before.clone().act(&other).expect("a frame is a call");
                    let due = match other.as_str() {
                        earlier @ ("refused 1" | "refused 2") => earlier,
                        _ => "refused 3",
                    };
                    assert_eq!(desk.act(event).as_deref(), Some(due));
                    assert!(desk.table == before.table && desk.buffer() == before.buffer());
                    kept_away.push(other);
                }
                _ => drop(desk.act(event)),
            }
        }
        let mut answers =
            ["recorded", "refreshed", "gone", "unknown goodbye"].map(String::from).to_vec();
        answers.extend([1, 2, 4, 5, 6, 7, 8, 13].map(|number| format!("refused {number}")));
        let count = |answer: &String| kept_away.iter().filter(|other| *other == answer).count();
        let counts: Vec<_> = answers.iter().map(|answer| (answer, count(answer))).collect();
        println!("{counts:?}");
        assert!(counts.iter().all(|&(_, count)| count >= 3));
    }

    /// Refreshes from the same source, those from another one, those of them that change the sender
    /// alone, and frames from a source without a bit that are kept (N3, N7).
    #[test]
    fn no_kind_of_sender_is_rare() {
        let mut desk = Desk::new();
        let [mut same, mut another, mut alone, mut zeros] = [0; 4];
        let zeros_used =
            |table: &Table| table.used().filter(|&place| table.sender[place] == [0; 6]).count();
        for event in &stored().0 {
            if let Event::Spoiled(_) = event {
                desk.take_back();
                continue;
            }
            let before = desk.clone();
            let Some(answer) = desk.act(event) else {
                continue;
            };
            if answer == "refreshed" {
                let from_another = desk.table.sender != before.table.sender;
                let with_old = Table { sender: before.table.sender, ..desk.table.clone() };
                let rest_stays = with_old == before.table && desk.buffer() == before.buffer();
                same += usize::from(!from_another);
                another += usize::from(from_another);
                alone += usize::from(from_another && rest_stays);
            }
            zeros += usize::from(zeros_used(&desk.table) > zeros_used(&before.table));
        }
        println!("same {same}, another {another}, sender alone {alone}, zeros {zeros}");
        assert!(same >= 50 && another >= 300 && alone >= 12 && zeros >= 20);
    }

    /// Each sender that a used place may have is set at one, and a call follows on a fit table (N5).
    #[test]
    fn no_right_sender_is_missing() {
        let mut desk = Desk::new();
        let mut set = HashSet::new();
        for pair in stored().0.windows(2) {
            match &pair[0] {
                Event::Spoiled(_) => desk.take_back(),
                event => drop(desk.act(event)),
            }
            if let [Event::SetSender { place, sender }, Event::HowMany { .. }] = pair {
                assert!(desk.table.used().any(|used| used == *place));
                assert!(desk.table.breaches(desk.buffer()).is_empty());
                set.insert(*sender);
            }
        }
        assert_eq!(set, stations().into_iter().collect());
    }

    /// Looks at each spoiled table before its calls.
    fn at_each_trial(mut look: impl FnMut(&Desk, &Trial)) {
        let mut desk = Desk::new();
        for event in &stored().0 {
            if let Event::Spoiled(trial) = event {
                look(&desk, trial);
                desk.take_back();
                assert!(desk.table.breaches(desk.buffer()).is_empty());
            } else {
                desk.act(event);
            }
        }
    }

    /// Each table breaks the one condition of N5 that it was spoiled to break.
    #[test]
    fn each_table_is_spoiled_in_its_way_alone() {
        let mut counts = Way::ALL.map(|_| 0);
        at_each_trial(|desk, trial| {
            assert_eq!(desk.table.breaches(desk.buffer()), [trial.way.letter()], "{trial:?}");
            counts[trial.way as usize] += 1;
        });
        println!("{counts:?}");
        assert!(counts.iter().all(|&count| count >= 300));
    }

    /// The desk with its kept table.
    fn taken_back(desk: &Desk) -> Desk {
        let mut kept = desk.clone();
        kept.take_back();
        kept
    }

    /// The places that differ from those of the kept table.
    fn spoiled_places(desk: &Desk) -> Vec<usize> {
        let kept = taken_back(desk);
        let differs = |&place: &usize| {
            let [now, before] = [desk, &kept].map(|Desk { table, .. }| {
                let numbers = (table.port[place], table.seconds[place], table.length[place]);
                (numbers, table.sender[place])
            });
            let octets = octets_of(place);
            now != before || desk.buffer()[octets.clone()] != kept.buffer()[octets]
        };
        (0..PLACES).filter(differs).collect()
    }

    /// In each way that spoils a place the first place is spoiled, the last places are, and the very
    /// last one; in the ways of free places (N5 b) while they are free.
    #[test]
    fn neither_end_is_spared() {
        let of_a_place = |way: Way| "bcdg".contains(way.letter());
        let mut counts = Way::ALL.map(|(way, ..)| (way, 0, 0, 0));
        at_each_trial(|desk, trial| {
            if of_a_place(trial.way) {
                let mut places = spoiled_places(desk);
                if trial.way.letter() == 'b' {
                    // Where the numbers alone become free, the sender may be wrong too.
                    let kept = taken_back(desk);
                    places.retain(|&place| kept.table.length[place] == 0);
                }
                let (_, first, behind, last) = &mut counts[trial.way as usize];
                *first += usize::from(places.contains(&0));
                *behind += usize::from(places.iter().any(|&place| place >= BEHIND_A_SMALLER_CELL));
                *last += usize::from(places.contains(&LAST_PLACE));
            }
        });
        println!("{counts:?}");
        let mut counts = counts.iter().filter(|(way, ..)| of_a_place(*way));
        assert!(counts.all(|&(_, first, behind, last)| first >= 3 && behind >= 10 && last >= 5));
    }

    /// The number just behind the last port, and just one too many on a port or in common places.
    #[test]
    fn limits_are_passed_by_one() {
        let mut next_ports = 0;
        at_each_trial(|Desk { table, .. }, trial| match trial.way {
            Way::PortBehindTheLast => next_ports += usize::from(table.held(PORTS) > 0),
            Way::SevenOnAPort => assert!((0..PORTS).any(|port| table.held(port) == MOST + 1)),
            Way::OneBeyondTheCommon => assert_eq!(table.common_taken(), COMMON + 1),
            _ => {}
        });
        println!("{next_ports} records with the next port");
        assert!(next_ports >= 20);
    }

    /// At a free place each octet of the sender is the only one that is not 0, the first without the
    /// group bit too. At a used place that bit alone is wrong, or it is another group address (F4).
    #[test]
    fn no_wrong_sender_is_rare() {
        let mut alone = [0; 6];
        let [mut even, mut several, mut bit, mut group] = [0; 4];
        // A place whose numbers alone become free keeps its sender, or not.
        let [mut left, mut cleared] = [0; 2];
        at_each_trial(|desk, trial| {
            let kept = taken_back(desk);
            let place = |desk| spoiled_places(desk)[0];
            match trial.way {
                Way::FreeSender => {
                    let sender = desk.table.sender[place(desk)];
                    let octets: Vec<_> = (0..6).filter(|&i| sender[i] != 0).collect();
                    match octets[..] {
                        [i] => alone[i] += 1,
                        _ => several += 1,
                    }
                    even += usize::from(octets == [0] && sender[0] % 2 == 0);
                }
                Way::GroupSender => {
                    let place = place(desk);
                    let mut sender = desk.table.sender[place];
                    sender[0] ^= 0x01;
                    let by_the_bit = sender == kept.table.sender[place];
                    bit += usize::from(by_the_bit);
                    group += usize::from(!by_the_bit);
                }
                Way::FreeOctet if kept.table.length[place(desk)] != 0 => {
                    let stays = desk.table.sender[place(desk)] != [0; 6];
                    left += usize::from(stays);
                    cleared += usize::from(!stays);
                }
                _ => {}
            }
        });
        println!("alone {alone:?}, even {even}, several {several}, bit alone {bit}, group {group}");
        println!("numbers alone: sender left {left}, cleared {cleared}");
        let counts = [even, several, bit, group, left, cleared];
        assert!(alone.iter().chain(&counts).all(|&count| count >= 10));
    }

    /// A chassis at a place is wrong in each way that L3 names.
    #[test]
    fn no_wrong_chassis_is_rare() {
        let mut counts = [0; 5];
        at_each_trial(|desk, trial| {
            if trial.way == Way::WrongChassis {
                let unsound = |&place: &usize| desk.table.outline(desk.buffer(), place).is_none();
                let place = desk.table.used().find(unsound).expect("a place is not sound");
                // Behind the first octet: L, subtype, and then the octets (L1, L3).
                counts[match desk.buffer()[octets_of(place)][1..] {
                    [8, 4, ..] => 0,
                    [_, 4, ..] => 1,
                    [length, 7, ..] if length % 2 == 0 => 2,
                    [_, 7, ..] => 3,
                    _ => 4,
                }] += 1;
            }
        });
        println!("L = 8, other L, odd number, character, subtype: {counts:?}");
        assert!(counts.iter().all(|&count| count >= 20));
    }

    /// A neighbour stands twice with each kind of chassis (L3).
    #[test]
    fn no_kind_of_twins_is_rare() {
        let mut counts = [0; 3];
        at_each_trial(|desk, trial| {
            if trial.way == Way::IdentityTwice {
                let identity = |place| {
                    let outline = desk.table.outline(desk.buffer(), place);
                    outline.map(|read| (desk.table.port[place], read.chassis, read.port))
                };
                let all: Vec<_> = desk.table.used().filter_map(identity).collect();
                let twin = all.iter().zip(1..).find(|(one, i)| all[*i..].contains(one));
                let ((_, chassis, _), _) = twin.expect("an identity stands twice");
                counts[match chassis {
                    Id { subtype: 4, octets } => octets.len() / 2 - 3,
                    _ => 2,
                }] += 1;
            }
        });
        println!("six octets, eight octets, local: {counts:?}");
        assert!(counts.iter().all(|&count| count >= 20));
    }

    /// Four, five and six of a chassis stand on one port, on each port at some time: in a row and far
    /// apart, and with the first place and the last one among theirs (N5).
    #[test]
    fn no_loud_table_is_rare() {
        let mut counts = [0; 3];
        let mut ports = [0; PORTS];
        let [mut in_a_row, mut far_apart, mut first, mut last] = [0; 4];
        at_each_trial(|desk, trial| {
            if trial.way == Way::LoudChassis {
                let places = loud_places(desk);
                counts[places.len() - 4] += 1;
                ports[usize::from(desk.table.port[places[0]])] += 1;
                in_a_row += usize::from(places.windows(2).all(|two| two[0] + 1 == two[1]));
                far_apart += usize::from(places.windows(2).all(|two| two[0] + 1 < two[1]));
                first += usize::from(places.contains(&0));
                last += usize::from(places.contains(&LAST_PLACE));
            }
        });
        println!("four, five, six: {counts:?}; ports {ports:?}");
        println!("in a row {in_a_row}, far apart {far_apart}, first {first}, last {last}");
        let places = [in_a_row, far_apart, first, last];
        assert!(counts.iter().chain(&ports).chain(&places).all(|&count| count >= 5));
    }

    /// The places of the chassis that holds more than three on a port.
    fn loud_places(desk: &Desk) -> Vec<usize> {
        let beside = |place: usize| {
            let outline = desk.table.outline(desk.buffer(), place).expect("the place is sound");
            places_of(desk, usize::from(desk.table.port[place]), &outline.chassis)
        };
        let loud = desk.table.used().map(beside).find(|places| places.len() > 3);
        loud.expect("a chassis is too loud")
    }

    /// 1 goes before 13 (Q1): the frame would get it if nothing were spoiled.
    #[test]
    fn loud_frames_are_tried_on_spoiled_tables() {
        let mut thirteen = Way::ALL.map(|(way, ..)| (way, 0));
        at_each_trial(|desk, trial| {
            let call = Event::Frame { port: trial.number, frame: trial.frame.clone() };
            let answer = taken_back(desk).act(&call);
            thirteen[trial.way as usize].1 += usize::from(answer.as_deref() == Some("refused 13"));
        });
        println!("{thirteen:?}");
        assert!(thirteen.iter().all(|&(_, count)| count >= 3));
    }

    /// All but Start refuse a spoiled table; Start refuses where the length of the buffer is wrong.
    #[test]
    fn spoiled_tables_are_refused() {
        let (events, text) = stored();
        let trials = events.iter().filter_map(|event| match event {
            Event::Spoiled(trial) => Some(trial),
            _ => None,
        });
        // 1 goes before the 3 that a group address as source gives (F4, Q1).
        assert!(trials.clone().filter(|trial| is_from_a_group(&trial.frame)).count() >= 300);
        let lines = text.lines().filter(|line| line.contains(" spoiled "));
        let five = "refused 1 refused 1 refused 1 refused 1 refused 1";
        for (trial, line) in trials.zip(lines) {
            let words: Vec<_> = line.split(' ').collect();
            assert_eq!(words[2..12].join(" "), five);
            let start = if trial.way.letter() == 'a' { "refused 1" } else { "done" };
            assert_eq!(words[13..words.len() - 1].join(" "), start);
        }
    }

    #[test]
    fn the_digest_of_nothing_but_zeros() {
        // h = 31 h + 1 from 0 on, so often as there are numbers and octets, six of them a sender.
        let mut h: u64 = 0;
        for _ in 0..(3 + 6) * PLACES + BUFFER_OCTETS {
            h = (31 * h + 1) % 4_294_967_291;
        }
        let mut desk = Desk::new();
        assert_eq!(desk.line(&Event::Start), Some(format!("done {h}")));
    }
}
