//! That the pairs have what they are made for: each kind of difference, of place and of unfit table is
//! counted. A rule that never decides would not be compared.

use super::*;
use crate::events::maker::Agent;
use crate::frames::blocks::local;
use crate::frames::hex;
use crate::reader::is_group;
use crate::table::{octets_of, BUFFER_OCTETS, LAST_PLACE, PLACES, PLACE_OCTETS, PORTS, ZEROS};
use std::collections::hash_map::DefaultHasher;
use std::collections::HashSet;
use std::hash::{Hash, Hasher};
use std::sync::OnceLock;

/// Made once for all tests.
pub fn stored() -> &'static (Vec<Pair>, String) {
    static STORED: OnceLock<(Vec<Pair>, String)> = OnceLock::new();
    STORED.get_or_init(|| {
        let pairs = pairs();
        let text = expected(&pairs);
        (pairs, text)
    })
}

/// A record, with the port it was heard on.
#[derive(Clone, PartialEq, Eq)]
struct Held {
    port: u8,
    agent: Agent,
    place: usize,
    seconds: u16,
    sender: Address,
    octets: Vec<u8>,
}

impl Held {
    fn is_known_as(&self, other: &Held) -> bool {
        (self.port, &self.agent) == (other.port, &other.agent)
    }

    /// Where the seconds of the LLDPDU stand: behind two IDs and a header (L3 to L5).
    fn seconds_at(&self) -> usize {
        (3 + self.agent.chassis.octets.len()) + (3 + self.agent.port.octets.len()) + 2
    }
}

/// An identity that both tables know.
struct Both {
    first: Held,
    second: Held,
}

impl Both {
    fn moved(&self) -> bool {
        self.first.place != self.second.place
    }

    fn same_octets(&self) -> bool {
        self.first.octets == self.second.octets
    }

    fn same_sender(&self) -> bool {
        self.first.sender == self.second.sender
    }

    fn same_seconds(&self) -> bool {
        self.first.seconds == self.second.seconds
    }

    /// Whether all but the place is the same.
    fn is_same(&self) -> bool {
        self.same_octets() && self.same_sender() && self.same_seconds()
    }

    /// Whether all but the seconds and the place is the same.
    fn is_seconds_alone(&self) -> bool {
        self.same_octets() && self.same_sender() && !self.same_seconds()
    }

    /// The octets of the LLDPDU that differ, where there are as many.
    fn differing(&self) -> Vec<usize> {
        let [first, second] = [&self.first, &self.second].map(|held| &held.octets);
        if first.len() != second.len() {
            return vec![];
        }
        (0..first.len()).filter(|&i| first[i] != second[i]).collect()
    }
}

/// What a pair has. Of tables that are not fit nothing is read.
struct Seen {
    pair: &'static Pair,
    fit: [bool; 2],
    equal: bool,
    both: Vec<Both>,
    left: Vec<Held>,
    joined: Vec<Held>,
    /// How many records the first table has, and the second.
    records: [usize; 2],
    /// One for each of the tables, by which they are told apart.
    numbers: [u64; 2],
    /// What is wrong with each of them.
    wrongs: [Vec<&'static str>; 2],
}

impl Seen {
    fn is_fit(&self) -> bool {
        self.fit == [true; 2]
    }

    fn changed(&self) -> impl Iterator<Item = &Both> {
        self.both.iter().filter(|both| !both.is_same())
    }

    /// Kind and place of the entries that are due (D1, D2).
    fn entries(&self) -> Vec<[usize; 2]> {
        let left = self.left.iter().map(|left| (left.place, [1, left.place]));
        let changed = self.changed().map(|both| {
            let kind = if both.is_seconds_alone() { 3 } else { 4 };
            (both.first.place, [kind, both.second.place])
        });
        let mut known: Vec<_> = left.chain(changed).collect();
        known.sort_unstable();
        let joined = self.joined.iter().map(|joined| [2, joined.place]);
        known.into_iter().map(|(_, entry)| entry).chain(joined).collect()
    }

    /// The one identity of which something changed, where both tables know it.
    fn only_changed(&self) -> Option<&Both> {
        let mut changed = self.changed();
        let one = changed.next();
        one.filter(|_| changed.next().is_none() && self.left.is_empty() && self.joined.is_empty())
    }

    /// The one that left and the one that joined, where nothing else changed.
    fn replaced(&self) -> Option<(&Held, &Held)> {
        match (&self.left[..], &self.joined[..]) {
            ([left], [joined]) if self.changed().next().is_none() => Some((left, joined)),
            _ => None,
        }
    }
}

fn seen() -> &'static [Seen] {
    static SEEN: OnceLock<Vec<Seen>> = OnceLock::new();
    SEEN.get_or_init(|| {
        let mut seen = Vec::new();
        at_each(&stored().0, |pair, _, first, second| {
            // Those in both orders have tests of their own.
            if pair.frames.is_none() {
                seen.push(see(pair, first, second));
            }
        });
        seen
    })
}

fn see(pair: &'static Pair, first: Look, second: Look) -> Seen {
    let looks = [first, second];
    let fit = looks.map(|look| look.table.breaches(look.buffer).is_empty());
    let held = looks.map(|look| if fit == [true; 2] { held_in(look) } else { vec![] });
    let [in_first, in_second] = &held;
    let known =
        |one: &Held, among: &[Held]| among.iter().find(|other| other.is_known_as(one)).cloned();
    Seen {
        pair,
        fit,
        equal: first.table == second.table && first.buffer == second.buffer,
        both: in_first
            .iter()
            .filter_map(|one| Some(Both { first: one.clone(), second: known(one, in_second)? }))
            .collect(),
        left: in_first.iter().filter(|one| known(one, in_second).is_none()).cloned().collect(),
        joined: in_second.iter().filter(|one| known(one, in_first).is_none()).cloned().collect(),
        records: looks.map(|look| look.table.used().count()),
        numbers: looks.map(number_of),
        wrongs: looks.map(wrongs_of),
    }
}

fn held_in(Look { table, buffer }: Look) -> Vec<Held> {
    let held = |place: usize| {
        let outline = table.outline(buffer, place).expect("the table is fit");
        Held {
            port: table.port[place],
            agent: Agent { chassis: outline.chassis, port: outline.port },
            place,
            seconds: table.seconds[place],
            sender: table.sender[place],
            octets: buffer[octets_of(place)][..outline.length].to_vec(),
        }
    };
    table.used().map(held).collect()
}

fn number_of(Look { table, buffer }: Look) -> u64 {
    let mut hasher = DefaultHasher::new();
    (table.port, table.seconds, table.length, table.sender, buffer).hash(&mut hasher);
    hasher.finish()
}

/// What can be wrong with a table (N5), and whether it is.
type Wrong = (&'static str, fn(Look) -> bool);

/// Of a table whose buffer has a wrong length nothing else is read.
const WRONGS: [Wrong; 18] = [
    ("a buffer of an octet less", |look| look.buffer.len() + 1 == BUFFER_OCTETS),
    ("a buffer of an octet more", |look| look.buffer.len() == BUFFER_OCTETS + 1),
    ("another buffer", |look| look.buffer.len().abs_diff(BUFFER_OCTETS) > 1),
    ("a free place with a port", |look| free(look, |place| look.table.port[place] != 0)),
    ("a free place with seconds", |look| free(look, |place| look.table.seconds[place] != 0)),
    ("a free place with a sender", |look| free(look, |place| look.table.sender[place] != ZEROS)),
    ("a free place with an octet", |look| free(look, |place| has_octet_behind(look, place))),
    ("port n", |look| used(look, |place| usize::from(look.table.port[place]) == PORTS)),
    ("a port above n", |look| used(look, |place| usize::from(look.table.port[place]) > PORTS)),
    ("a group sender", |look| used(look, |place| is_group(&look.table.sender[place]))),
    ("no LLDPDU of its length", |look| used(look, |place| seconds_of(look, place).is_none())),
    ("an octet behind", |look| used(look, |place| has_octet_behind(look, place))),
    ("no seconds left", |look| used(look, |place| look.table.seconds[place] == 0)),
    ("too many seconds left", |look| {
        used(look, |place| {
            seconds_of(look, place).is_some_and(|seconds| look.table.seconds[place] > seconds)
        })
    }),
    ("an identity twice", |look| breaks(look, 'd')),
    ("seven on a port", |look| breaks(look, 'e')),
    ("one beyond the common places", |look| breaks(look, 'f')),
    ("a loud chassis", |look| breaks(look, 'g')),
];

fn free(Look { table, buffer }: Look, is_one: impl Fn(usize) -> bool) -> bool {
    buffer.len() == BUFFER_OCTETS && table.free().any(is_one)
}

fn used(Look { table, buffer }: Look, is_one: impl Fn(usize) -> bool) -> bool {
    buffer.len() == BUFFER_OCTETS && table.used().any(is_one)
}

fn has_octet_behind(Look { table, buffer }: Look, place: usize) -> bool {
    let behind = &buffer[octets_of(place)][usize::from(table.length[place])..];
    behind.iter().any(|&octet| octet != 0)
}

fn seconds_of(Look { table, buffer }: Look, place: usize) -> Option<u16> {
    table.outline(buffer, place).map(|outline| outline.seconds)
}

fn breaks(Look { table, buffer }: Look, letter: char) -> bool {
    table.breaches(buffer).contains(&letter)
}

fn wrongs_of(look: Look) -> Vec<&'static str> {
    let wrongs = WRONGS.iter().filter(|(_, is_wrong)| is_wrong(look));
    wrongs.map(|&(what, _)| what).collect()
}

/// There are so many pairs of this kind, or more.
fn some(least: usize, what: &str, is_one: impl Fn(&Seen) -> bool) {
    let count = seen().iter().filter(|seen| is_one(seen)).count();
    println!("{what}: {count}");
    assert!(count >= least, "{what}: {count}");
}

/// The same of pairs that are fit.
fn some_fit(least: usize, what: &str, is_one: impl Fn(&Seen) -> bool) {
    some(least, what, |seen| seen.is_fit() && is_one(seen));
}

#[test]
fn there_are_as_many_pairs_as_promised() {
    let (pairs, text) = stored();
    let compares: usize = pairs.iter().map(|pair| pair.lists.len()).sum();
    let heard: usize = pairs.iter().map(frames_of).sum();
    let one_way: HashSet<_> = seen().iter().map(|seen| seen.numbers).collect();
    let fit: HashSet<_> = seen()
        .iter()
        .filter(|seen| seen.is_fit())
        .map(|Seen { numbers: [one, other], .. }| (one.min(other), one.max(other)))
        .collect();
    println!(
        "{} pairs, {} different ones, of which {} are fit if turned ones are the same, {} in both orders, \
         {compares} lists, {heard} frames",
        pairs.len(),
        one_way.len(),
        fit.len(),
        pairs.len() - seen().len(),
    );
    assert!(fit.len() >= 2_000);
    assert_eq!(text.lines().count(), compares + heard);
}

/// How many frames are heard before the tables of a pair are compared.
fn frames_of(pair: &Pair) -> usize {
    pair.steps().iter().filter(|(_, edit)| matches!(edit, Edit::Hear(_))).count()
}

/// None, one octet and all lengths about the right one, in this order and no one twice; now and then
/// 16n.
#[test]
fn no_length_of_a_list_is_missing() {
    for Seen { pair, .. } in seen() {
        let right = 2 * pair.entries;
        let due = (0..=right + 3).filter(|&length| length < 2 || length + 3 >= right);
        let beside = pair.lists.iter().copied().filter(|&length| length <= right + 3);
        assert!(due.eq(beside));
        assert!(pair.lists.iter().all(|&length| length <= right + 3 || length == 16 * PORTS));
    }
    some(80, "16n octets", |seen| seen.pair.lists.contains(&(16 * PORTS)));
    some(400, "the first table is that of side 1", |seen| seen.pair.first == 1);
}

/// A rule that hardly ever decides would hardly be compared.
#[test]
fn no_answer_is_rare() {
    let answers: Vec<String> = stored()
        .1
        .lines()
        .map(|line| line.split(' ').skip(1).take(2).collect::<Vec<_>>().join(" "))
        .collect();
    for (answer, least) in [
        ("refused 1", 1_000),
        ("refused 14", 1_000),
        ("listed 0", 300),
        ("listed 1", 300),
        ("listed 2", 300),
        ("listed 5", 100),
        ("listed 40", 4),
        ("listed 80", 4),
    ] {
        let count = answers.iter().filter(|other| *other == answer).count();
        println!("{answer}: {count}");
        assert!(count >= least);
    }
}

#[test]
fn looks_that_are_old_equal_empty_and_full() {
    some_fit(500, "the second is the older one", |seen| seen.pair.older);
    some_fit(50, "both are equal", |seen| seen.equal && seen.records[0] > 0);
    some_fit(1, "both are empty", |seen| seen.records == [0, 0]);
    some_fit(20, "the first alone is empty", |seen| seen.records[0] == 0 && seen.records[1] > 0);
    some_fit(20, "the second alone is empty", |seen| seen.records[1] == 0 && seen.records[0] > 0);
    let are_full = |seen: &Seen| seen.records == [PLACES; 2];
    some_fit(15, "both are full", are_full);
    some_fit(3, "both are full, and nobody is known in both", |seen| {
        are_full(seen) && seen.both.is_empty() && seen.pair.entries == 8 * PORTS
    });
    some_fit(3, "both are full, and some are known in both", |seen| {
        are_full(seen)
            && [&seen.left, &seen.joined].iter().all(|some| (10..PLACES).contains(&some.len()))
    });
}

/// Records in other places: with nothing else, with other seconds, and with more.
#[test]
fn records_in_other_places() {
    let has_moved = |seen: &Seen| seen.both.iter().any(Both::moved);
    some_fit(60, "moved, and no entry", |seen| has_moved(seen) && seen.pair.entries == 0);
    some_fit(30, "all of at least three moved, and no entry", |seen| {
        seen.both.len() >= 3 && seen.both.iter().all(Both::moved) && seen.pair.entries == 0
    });
    some_fit(5, "full, moved, and no entry", |seen| {
        has_moved(seen) && seen.records[0] == PLACES && seen.pair.entries == 0
    });
    some_fit(100, "moved, and something else", |seen| has_moved(seen) && seen.pair.entries > 0);
    some_fit(40, "moved with other seconds alone", |seen| {
        seen.both.iter().any(|both| both.moved() && both.is_seconds_alone())
    });
    some_fit(20, "moved with another sender", |seen| {
        seen.both.iter().any(|both| both.moved() && !both.same_sender())
    });
    some_fit(20, "moved with other octets", |seen| {
        seen.both.iter().any(|both| both.moved() && !both.same_octets())
    });
    some_fit(30, "two changed places with each other", |seen| {
        seen.both.iter().any(|one| {
            let crossed = |other: &Both| {
                one.first.place == other.second.place && one.second.place == other.first.place
            };
            one.moved() && seen.both.iter().any(crossed)
        })
    });
    for place in [0, LAST_PLACE] {
        some_fit(10, &format!("moved to place {place}"), |seen| {
            seen.both.iter().any(|both| both.moved() && both.second.place == place)
        });
        some_fit(10, &format!("moved from place {place}"), |seen| {
            seen.both.iter().any(|both| both.moved() && both.first.place == place)
        });
    }
}

/// Entries of each kind behind each other kind, but for who joined, and places that go back (D2).
#[test]
fn orders() {
    for one in [1, 3, 4] {
        for other in 1..=4 {
            some_fit(40, &format!("kind {other} behind kind {one}"), |seen| {
                seen.entries().windows(2).any(|two| (two[0][0], two[1][0]) == (one, other))
            });
        }
    }
    some_fit(30, "all four kinds", |seen| {
        (1..=4).all(|kind| seen.entries().iter().any(|entry| entry[0] == kind))
    });
    some_fit(40, "changed ones against the order of the second table", |seen| {
        let places: Vec<usize> = seen.changed().map(|both| both.second.place).collect();
        places.windows(2).any(|two| two[0] > two[1])
    });
    some_fit(40, "a joined one in front of all changed ones", |seen| {
        let first = seen.changed().map(|both| both.second.place).min();
        seen.joined.iter().any(|joined| first.is_some_and(|first| joined.place < first))
    });
    some_fit(60, "who joined has the place of who left", |seen| {
        seen.left.iter().any(|left| seen.joined.iter().any(|joined| joined.place == left.place))
    });
}

#[test]
fn other_seconds_alone() {
    some_fit(100, "seconds alone", |seen| {
        !seen.entries().is_empty() && seen.entries().iter().all(|entry| entry[0] == 3)
    });
    let one = |least: usize, what: &str, is_one: fn(u16, u16) -> bool| {
        some_fit(least, what, |seen| {
            let mut alone = seen.both.iter().filter(|both| both.is_seconds_alone());
            alone.any(|both| is_one(both.first.seconds, both.second.seconds))
        });
    };
    one(40, "by one", |first, second| first.abs_diff(second) == 1);
    one(50, "more in the second", |first, second| first < second);
    one(50, "fewer in the second", |first, second| first > second);
    one(20, "in the high octet alone", |first, second| first as u8 == second as u8);
    one(20, "in the low octet alone", |first, second| first >> 8 == second >> 8);
}

#[test]
fn another_sender_alone() {
    let sender_alone = |both: &Both| both.same_octets() && both.same_seconds();
    for octet in 0..6 {
        some_fit(8, &format!("in octet {octet} alone"), |seen| {
            seen.only_changed().is_some_and(|both| {
                let differs = |&i: &usize| both.first.sender[i] != both.second.sender[i];
                sender_alone(both) && (0..6).filter(differs).eq([octet])
            })
        });
    }
    some_fit(10, "of several", |seen| {
        seen.changed().count() > 1 && seen.changed().all(sender_alone)
    });
    some_fit(50, "with other seconds", |seen| {
        seen.changed().any(|both| both.same_octets() && !both.same_sender() && !both.same_seconds())
    });
}

#[test]
fn other_octets_alone() {
    let octets_alone = |both: &Both| both.same_sender() && both.same_seconds();
    // The octet that alone differs, the first that can, and the last, behind which is the End.
    let one = |least: usize, what: &str, is_one: &dyn Fn(usize, usize, usize) -> bool| {
        some_fit(least, what, |seen| {
            let only = seen.only_changed().filter(|both| octets_alone(both));
            only.is_some_and(|both| match both.differing()[..] {
                [at] => is_one(at, both.first.seconds_at(), both.first.octets.len() - 3),
                _ => false,
            })
        });
    };
    one(15, "the first that can differ", &|at, first, _| at == first);
    one(8, "the second that can differ", &|at, first, _| at == first + 1);
    one(12, "the last that can differ", &|at, _, last| at == last);
    one(2, "the last that can differ in a place", &|at, _, _| at == PLACE_OCTETS - 3);
    for octet in [255, 256, 512, 1_024] {
        one(2, &format!("octet {octet}"), &|at, _, _| at == octet);
    }
    some_fit(30, "another number of octets", |seen| {
        seen.only_changed().is_some_and(|both| {
            octets_alone(both) && both.first.octets.len() != both.second.octets.len()
        })
    });
    some_fit(30, "fewer octets", |seen| {
        seen.both.iter().any(|both| both.first.octets.len() > both.second.octets.len())
    });
    some_fit(50, "other octets and other seconds", |seen| {
        seen.changed().any(|both| !both.same_octets() && !both.same_seconds())
    });
    some_fit(50, "other octets and another sender", |seen| {
        seen.changed().any(|both| !both.same_octets() && !both.same_sender())
    });
}

/// One left and one much like it joined: never are they the same (N2).
#[test]
fn identities_that_are_much_alike() {
    let one = |least: usize, what: &str, are_alike: fn(&Held, &Held) -> bool| {
        some_fit(least, what, |seen| {
            seen.replaced().is_some_and(|(left, joined)| are_alike(left, joined))
        });
    };
    one(10, "the same chassis, another port ID", |left, joined| {
        left.port == joined.port && left.agent.chassis == joined.agent.chassis
    });
    one(10, "the same chassis and port ID, another port", |left, joined| {
        left.agent == joined.agent && left.octets == joined.octets
    });
    one(
        60,
        "on the same port and in the same place, with the same seconds and the same sender",
        |left, joined| {
            (left.port, left.place, left.seconds, left.sender)
                == (joined.port, joined.place, joined.seconds, joined.sender)
        },
    );
    one(12, "addresses of six and of eight octets that begin alike", |left, joined| {
        let [one, other] = [left, joined].map(|held| &held.agent.chassis);
        (one.subtype, other.subtype) == (4, 4)
            && one.octets.len() != other.octets.len()
            && one.octets[..6] == other.octets[..6]
    });
    one(3, "the same octets as an address and as local characters", |left, joined| {
        let [one, other] = [left, joined].map(|held| &held.agent.chassis);
        one.subtype != other.subtype && one.octets == other.octets
    });
    one(1, "an address and the characters that spell it", |left, joined| {
        let [one, other] = [left, joined].map(|held| &held.agent.chassis);
        local(hex(&one.octets).as_bytes()) == *other || local(hex(&other.octets).as_bytes()) == *one
    });
    some_fit(20, "the same chassis and port ID on two ports, both changed", |seen| {
        seen.changed().any(|one| {
            seen.changed().any(|other| {
                one.first.agent == other.first.agent && one.first.port != other.first.port
            })
        })
    });
}

/// Each way to be wrong, of the first table, of the second and of both; with lists that are too short
/// as well, so that 14 would be due behind 1 (D4).
#[test]
fn tables_that_are_not_fit() {
    for seen in seen() {
        assert_eq!(seen.fit, [0, 1].map(|i| seen.wrongs[i].is_empty()));
    }
    let short = |seen: &Seen| seen.pair.entries > 0;
    for (wrong, _) in WRONGS {
        for (what, fit, i) in [
            ("the first", [false, true], 0),
            ("the second", [true, false], 1),
            ("the first of two", [false, false], 0),
            ("the second of two", [false, false], 1),
        ] {
            some(2, &format!("{wrong} in {what}"), |seen| {
                seen.fit == fit && seen.wrongs[i] == [wrong] && short(seen)
            });
        }
    }
    some(10, "the same table twice", |seen| seen.equal && seen.fit == [false; 2]);
    some(20, "no list is too short", |seen| !seen.is_fit() && !short(seen));
}

/// 1 for each list where a table is not fit, and 14 for each that is too short where both are; then no
/// octet is written (D4). All others get the entries.
#[test]
fn what_each_list_gets() {
    let mut lines = stored().1.lines();
    for seen in seen() {
        let entries = seen.entries();
        for &length in &seen.pair.lists {
            let (answer, written) = match (seen.is_fit(), length < 2 * entries.len()) {
                (false, _) => ("refused 1".to_string(), &[][..]),
                (true, true) => ("refused 14".to_string(), &[][..]),
                (true, false) => (format!("listed {}", entries.len()), entries.as_flattened()),
            };
            let untouched = (written.len()..length).map(|j| 255 - j % 256);
            let octets = written.iter().copied().chain(untouched);
            let octets: Vec<String> = octets.map(|octet| format!("{octet:02X}")).collect();
            let due = format!("{answer} {}", octets.join("-"));
            let line = lines.next().expect("there is a line for each list");
            assert_eq!(line.split_once(' ').map(|(_, behind)| behind), Some(due.trim_end()));
        }
        if seen.is_fit() {
            assert_eq!(seen.pair.entries, entries.len());
        }
    }
    let behind = stored().0.iter().filter(|pair| pair.frames.is_some());
    assert_eq!(lines.count(), behind.map(|pair| frames_of(pair) + pair.lists.len()).sum());
}

#[test]
fn the_case_file_and_the_text() {
    let lldpdu = b"\x02\x07\x04\x02\0\0\0\0\x01\x04\x02\x07\x31\x06\x02\x02\x01\0\0";
    let sender = [0x02, 0x0A, 0x0B, 0x0C, 0x0D, 0x0E];
    let put = Edit::Put { place: 5, port: 3, seconds: 0x0201, sender, octets: lldpdu.to_vec() };
    let pair = |edits: [Vec<Edit>; 2], first: usize, lists: &[usize]| Pair {
        edits,
        frames: None,
        first,
        lists: lists.to_vec(),
        entries: 0,
        older: false,
    };
    let pairs = [
        pair([vec![], vec![put]], 0, &[0, 1, 3]),
        pair([vec![], vec![]], 1, &[2]),
        pair([vec![Edit::Octet { at: 59_999, octet: 0xAB }], vec![Edit::Lend(61_999)]], 1, &[258]),
    ];
    let records = [
        &[1, 1, 0, 5, 3, 2, 1, 0x02, 0x0A, 0x0B, 0x0C, 0x0D, 0x0E, 0, 0, 19][..],
        lldpdu,
        &[4, 0, 0, 0, 0, 0, 0, 0, 0, 0, 0, 0, 0, 0, 0, 0],
        &[4, 0, 0, 0, 0, 0, 0, 0, 0, 0, 0, 0, 0, 0, 0, 1],
        &[4, 0, 0, 0, 0, 0, 0, 0, 0, 0, 0, 0, 0, 0, 0, 3],
        &[5, 0, 0, 0, 0, 0, 0, 0, 0, 0, 0, 0, 0, 0, 0, 2],
        &[2, 0, 0, 0, 0xAB, 0, 0, 0, 0, 0, 0, 0, 0, 0, 0xEA, 0x5F],
        &[3, 1, 0, 0, 0, 0, 0, 0, 0, 0, 0, 0, 0, 0, 0xF2, 0x2F],
        &[5, 0, 0, 0, 0, 0, 0, 0, 0, 0, 0, 0, 0, 0, 1, 2],
    ];
    assert_eq!(case_file(&pairs), records.concat());
    let text = expected(&pairs);
    let lines: Vec<&str> = text.lines().collect();
    assert_eq!(
        lines[..4],
        ["2 refused 14", "3 refused 14 FF", "4 listed 1 02-05-FD", "5 listed 1 01-05"]
    );
    assert!(lines[4].starts_with("8 refused 1 FF-FE-FD-") && lines[4].ends_with("-01-00-FF-FE"));
}

/// A number of the case file.
fn number(octets: &[u8]) -> usize {
    octets.iter().fold(0, |number, &octet| 256 * number + usize::from(octet))
}

/// Whoever reads the case file alone gets the expected text.
#[test]
fn the_case_file_says_it_all() {
    let file = case_file(&stored().0);
    let mut sides = [Desk::new(), Desk::new()];
    let mut rest = &file[..];
    let mut lines = stored().1.lines();
    for count in 1.. {
        let Some((head, behind)) = rest.split_at_checked(16) else {
            break;
        };
        let (side, place, length) = (head[1], number(&head[2..4]), number(&head[13..16]));
        let desk = &mut sides[usize::from(side)];
        rest = behind;
        match head[0] {
            1 => {
                let octets = &behind[..length];
                rest = &behind[length..];
                desk.table.port[place] = head[4];
                desk.table.seconds[place] = number(&head[5..7]) as u16;
                desk.table.length[place] = length as u16;
                desk.table.sender[place].copy_from_slice(&head[7..13]);
                desk.store[1_500 * place..][..1_500].fill(0);
                desk.store[1_500 * place..][..length].copy_from_slice(octets);
            }
            2 => desk.store[length] = head[4],
            3 => desk.lent = length,
            6 => {
                let frame = behind[..length].to_vec();
                rest = &behind[length..];
                let answer = desk.act(&Event::Frame { port: usize::from(head[4]), frame });
                let line = answer.map(|answer| format!("{count} {answer}"));
                assert_eq!(lines.next(), line.as_deref());
            }
            7 => sides[usize::from(side)] = sides[1 - usize::from(side)].clone(),
            kind => {
                let mut list: Vec<u8> = (0..length).map(|j| 255 - (j % 256) as u8).collect();
                let [zero, one] = sides.each_ref().map(Desk::look);
                let answer = match kind {
                    4 => compare(zero, one, &mut list),
                    _ => compare(one, zero, &mut list),
                };
                let line = match answer {
                    Ok(entries) => format!("{count} listed {entries} {}", joined(&list)),
                    Err(refusal) => format!("{count} refused {refusal} {}", joined(&list)),
                };
                assert_eq!(lines.next(), Some(line.trim_end()));
            }
        }
    }
    assert!(rest.is_empty());
    assert_eq!(lines.next(), None);
}
