//! That E1 to E5 hold of every pair of frames in both orders, and that the pairs have what they are made
//! for: on both sides of each part of E2, each kind of frame, port and table is counted.

use super::*;
use crate::changes::{changes, Look};
use crate::events::Event;
use crate::looks::tests::stored;
use crate::looks::{at_each, case_file, expected, heard_event, Edit, Pair};
use crate::order::{held, is_asking, is_leaving, left, matters, Because};
use std::sync::OnceLock;

/// A pair of frames, the tables before them, and what became of them. Of a table that is not fit
/// nothing is counted.
struct Tried {
    pair: &'static Pair,
    ports: [u8; 2],
    fit: bool,
    /// Why the order matters by E2, told by the table of side 0 and by that of side 1.
    because: [Option<Because>; 2],
    /// How many common places are left, and how many the two ports hold.
    left: usize,
    held: [usize; 2],
    /// What the frames are; none on a port that there is not.
    kinds: [Option<Kind>; 2],
    asking: [bool; 2],
    leaving: [bool; 2],
    /// The answers to x and y on side 0, and on side 1.
    answers: [[String; 2]; 2],
    /// Those to x alone, and to y alone.
    alone: [String; 2],
    /// How many entries there are from side 0 to side 1 and from side 1 to side 0; none for a refusal.
    entries: [Option<usize>; 2],
    /// Whether the two sides had their records in other places before.
    apart: bool,
    /// Whether each order left the table as it was.
    unchanged: [bool; 2],
    /// Whether each order left what x alone leaves on side 0, and what y alone does: places and all octets.
    as_alone: [[bool; 2]; 2],
}

impl Tried {
    /// E1; asked only where the tables are fit.
    fn matters(&self) -> bool {
        self.answers[0] != self.answers[1] || self.entries != [Some(0); 2]
    }

    fn answers_are(&self, answers: [&str; 2]) -> bool {
        self.answers.iter().all(|two| two.each_ref().map(String::as_str) == answers)
    }

    /// Whether one of the frames is of the one kind on a port that holds so many, and the other one is of
    /// the other.
    fn is_of(&self, one: &Wanted, other: &Wanted) -> bool {
        let is = |i: usize, (kind, range): &Wanted| {
            self.kinds[i] == Some(*kind) && range.contains(&self.held[i])
        };
        (is(0, one) && is(1, other)) || (is(1, one) && is(0, other))
    }

    fn is_quiet(&self, i: usize) -> bool {
        self.kinds[i].is_some() && AT_MOST_ONE.contains(&self.held[i])
    }
}

fn tried() -> &'static [Tried] {
    static TRIED: OnceLock<Vec<Tried>> = OnceLock::new();
    TRIED.get_or_init(|| {
        let mut tried = Vec::new();
        at_each_start(|pair, starts| tried.push(hear(pair, starts)));
        tried
    })
}

/// Looks at the two sides of each pair before its frames.
fn at_each_start(mut look: impl FnMut(&'static Pair, [&Desk; 2])) {
    let mut sides = [Desk::new(), Desk::new()];
    for pair in &stored().0 {
        let mut steps = pair.steps();
        let frames = steps.split_off(steps.len() - 4 * usize::from(pair.frames.is_some()));
        for (side, edit) in steps {
            edit.make(side, &mut sides);
        }
        if pair.frames.is_some() {
            look(pair, sides.each_ref());
        }
        for (side, edit) in frames {
            edit.make(side, &mut sides);
        }
    }
}

/// The frames are heard once more, from their octets alone.
fn hear(pair: &'static Pair, starts: [&Desk; 2]) -> Tried {
    let frames = pair.frames.as_ref().expect("it has frames").each_ref();
    let events = frames.map(heard_event);
    let heard = |desk: &mut Desk, i: usize| desk.act(&events[i]).expect("a frame is a call");
    let mut sides = starts.map(Desk::clone);
    let [x, y] = [0, 1].map(|i| heard(&mut sides[0], i));
    let [y_first, x_last] = [1, 0].map(|i| heard(&mut sides[1], i));
    let lone = [0, 1].map(|i| {
        let mut desk = starts[0].clone();
        (heard(&mut desk, i), desk)
    });
    let fit = starts.map(|desk| desk.table.breaches(desk.buffer()).is_empty());
    assert_eq!(fit[0], fit[1]);
    let look = starts[0].look();
    let counted = |number: fn(Look, &Heard) -> usize| {
        frames.map(|heard| if fit[0] { number(look, heard) } else { 0 })
    };
    let is = |is_one: fn(Look, &Heard) -> bool| frames.map(|heard| fit[0] && is_one(look, heard));
    let kind = |heard: &Heard| {
        let in_range = usize::from(heard.port) < PORTS;
        (fit[0] && in_range).then(|| Kind::of(starts[0], heard))
    };
    Tried {
        pair,
        ports: frames.map(|heard| heard.port),
        fit: fit[0],
        because: starts.map(|desk| if fit[0] { matters(desk.look(), frames) } else { None }),
        left: if fit[0] { left(look) } else { 0 },
        held: counted(held),
        kinds: frames.map(kind),
        asking: is(is_asking),
        leaving: is(is_leaving),
        answers: [[x, y], [x_last, y_first]],
        alone: lone.each_ref().map(|(answer, _)| answer.clone()),
        entries: [[0, 1], [1, 0]]
            .map(|[one, other]: [usize; 2]| entries(&sides[one], &sides[other])),
        apart: starts[0].table != starts[1].table || starts[0].buffer() != starts[1].buffer(),
        unchanged: [0, 1].map(|side| is_same(starts[side], &sides[side])),
        as_alone: [0, 1].map(|side| [0, 1].map(|i: usize| is_same(&sides[side], &lone[i].1))),
    }
}

fn entries(first: &Desk, second: &Desk) -> Option<usize> {
    changes(first.look(), second.look()).ok().map(|changes| changes.len())
}

fn is_same(one: &Desk, other: &Desk) -> bool {
    one.table == other.table && one.store == other.store && one.lent == other.lent
}

/// There are so many pairs of this kind, or more.
fn some(least: usize, what: &str, is_one: impl Fn(&Tried) -> bool) {
    let count = tried().iter().filter(|tried| is_one(tried)).count();
    println!("{what}: {count}");
    assert!(count >= least, "{what}: {count}");
}

fn fit() -> impl Iterator<Item = &'static Tried> {
    tried().iter().filter(|tried| tried.fit)
}

/// E2 in both directions, and by the tables of both sides (E5).
#[test]
fn the_order_matters_exactly_when_the_rule_says_so() {
    for tried in fit() {
        assert_ne!(tried.ports[0], tried.ports[1]);
        assert_eq!(tried.because[0], tried.because[1]);
        assert_eq!(tried.because[0].is_some(), tried.matters());
        assert_eq!(tried.entries, [Some(tried.pair.entries); 2]);
        assert!(2 * tried.pair.entries <= tried.pair.lists[0]);
    }
}

/// In (a) the frame that is first is recorded, and the other one gets 8. In (b) the goodbye is gone in
/// both orders; the other frame is recorded behind it and gets 8 before it (E2).
#[test]
fn what_becomes_of_the_two() {
    for Tried { because, answers, entries, leaving, .. } in fit() {
        let answers = answers.each_ref().map(|two| two.each_ref().map(String::as_str));
        let (due, listed) = match (because[0], leaving) {
            (None, _) => continue,
            (Some(Because::LastPlace), _) => {
                ([["recorded", "refused 8"], ["refused 8", "recorded"]], 2)
            }
            (Some(Because::FreedPlace), [true, _]) => {
                ([["gone", "recorded"], ["gone", "refused 8"]], 1)
            }
            (Some(Because::FreedPlace), _) => ([["refused 8", "gone"], ["recorded", "gone"]], 1),
        };
        assert_eq!((answers, *entries), (due, [Some(listed); 2]));
    }
}

/// An asking frame is recorded or refused with 7 or 8 in either order, a leaving one is gone, one that
/// gets 13 or a refusal of the reader gets it in both orders, and so on (E2).
#[test]
fn what_each_kind_of_frame_gets() {
    for tried in fit() {
        for i in [0, 1] {
            let answers = [0, 1].map(|side: usize| tried.answers[side][i].as_str());
            let among: &[&str] = match tried.kinds[i] {
                None => &["refused 2"],
                Some(Kind::New) => &["recorded", "refused 7", "refused 8"],
                Some(Kind::Known) => &["refreshed"],
                Some(Kind::Goodbye) => &["gone"],
                Some(Kind::UnknownGoodbye) => &["unknown goodbye"],
                Some(Kind::Refused(3)) => &["refused 3"],
                Some(Kind::Refused(4)) => &["refused 4"],
                Some(Kind::Refused(5)) => &["refused 5"],
                Some(Kind::Refused(_)) => &["refused 6"],
                Some(Kind::Loud) => &["refused 13"],
            };
            assert!(answers.iter().all(|answer| among.contains(answer)));
            assert_eq!(tried.asking[i], tried.kinds[i] == Some(Kind::New));
            assert_eq!(tried.leaving[i], tried.kinds[i] == Some(Kind::Goodbye));
        }
    }
}

/// Where one of the two ports holds at most one, or both do, the order does not matter (E3).
#[test]
fn ports_that_hold_at_most_one() {
    for tried in fit() {
        if tried.is_quiet(0) || tried.is_quiet(1) {
            assert!(!tried.matters());
            assert_eq!(tried.because, [None; 2]);
        }
    }
    some(500, "one of the ports holds at most one, or both do", |tried| {
        tried.is_quiet(0) || tried.is_quiet(1)
    });
    some(150, "x alone is on such a port", |tried| tried.is_quiet(0) && tried.held[1] >= SURE);
    some(150, "y alone is on such a port", |tried| tried.is_quiet(1) && tried.held[0] >= SURE);
    some(150, "both are", |tried| tried.is_quiet(0) && tried.is_quiet(1));
    for held in [0, 1] {
        some(200, &format!("a port that holds {held}"), |tried| {
            [0, 1].iter().any(|&i| tried.is_quiet(i) && tried.held[i] == held)
        });
    }
    for left in [0, 1, 2] {
        some(150, &format!("{left} common places are left"), |tried| {
            tried.left == left && (tried.is_quiet(0) || tried.is_quiet(1))
        });
    }
}

/// Each kind of x with each kind of y, where it is possible: no chassis holds three on a port that holds
/// at most one (N13). So where x is on such a port and y is not, where y is and x is not, and where
/// both are.
#[test]
fn no_two_kinds_are_missing_beside_at_most_one() {
    let mut combinations = 0;
    for quiet in [[true, false], [false, true], [true, true]] {
        for x in KINDS {
            for y in KINDS {
                let kinds = [x, y];
                if [0, 1].iter().any(|&i| quiet[i] && kinds[i] == Kind::Loud) {
                    continue;
                }
                combinations += 1;
                some(1, &format!("{x:?} and {y:?}, at most one held: {quiet:?}"), |tried| {
                    tried.kinds == kinds.map(Some) && [0, 1].map(|i| tried.is_quiet(i)) == quiet
                });
            }
        }
    }
    assert_eq!(combinations, 72 + 72 + 64);
}

/// A frame on a port that there is not gets 2 in both orders, and the other one gets the answer and
/// leaves the table that it would alone. Two such frames get 2 and change nothing (E4).
#[test]
fn ports_that_there_are_not() {
    let none = |tried: &Tried| tried.ports.map(|port| usize::from(port) >= PORTS);
    for tried in fit() {
        match none(tried) {
            [false, false] => continue,
            [true, true] => {
                assert!(tried.answers_are(["refused 2"; 2]));
                assert_eq!(tried.unchanged, [true; 2]);
            }
            [_, y_is_none] => {
                let [one, other] = if y_is_none { [1, 0] } else { [0, 1] };
                for side in [0, 1] {
                    assert_eq!(tried.answers[side][one], "refused 2");
                    assert_eq!(tried.answers[side][other], tried.alone[other]);
                    assert!(tried.as_alone[side][other]);
                }
            }
        }
        assert!(!tried.matters());
    }
    for port in [PORTS as u8, 255] {
        some(10, &format!("x on port {port}, y on a port"), |tried| {
            tried.fit && tried.ports[0] == port && none(tried) == [true, false]
        });
        some(10, &format!("y on port {port}, x on a port"), |tried| {
            tried.fit && tried.ports[1] == port && none(tried) == [false, true]
        });
    }
    some(10, "both are on no port", |tried| tried.fit && none(tried) == [true; 2]);
    for ports in [[PORTS as u8, 255], [255, PORTS as u8]] {
        some(2, &format!("on ports {ports:?}"), |tried| tried.fit && tried.ports == ports);
    }
    for kind in KINDS {
        for i in [0, 1] {
            some(2, &format!("{kind:?} beside none, frame {i}"), |tried| {
                tried.kinds[i] == Some(kind) && none(tried)[1 - i]
            });
        }
    }
}

/// On a table that is not fit both frames get 1 in both orders, nothing changes (E4), and compare gives 1
/// (D4). Each way to be wrong occurs.
#[test]
fn tables_that_are_not_fit() {
    let mut wrong = Vec::new();
    at_each_start(|_, [start, _]| wrong.push(start.table.breaches(start.buffer())));
    assert_eq!(wrong.len(), tried().len());
    for (tried, wrong) in tried().iter().zip(&wrong) {
        assert_eq!(tried.fit, wrong.is_empty());
        if !tried.fit {
            assert!(tried.answers_are(["refused 1"; 2]));
            assert_eq!((tried.unchanged, tried.entries), ([true; 2], [None; 2]));
            assert!(!tried.apart);
        }
    }
    for letter in 'a'..='g' {
        let count = wrong.iter().filter(|wrong| wrong[..] == [letter]).count();
        println!("N5 ({letter}): {count}");
        assert!(count >= 3, "N5 ({letter}): {count}");
    }
    some(80, "not fit", |tried| !tried.fit);
}

/// Two tables with the same records answer alike and stay alike: each frame first and last, seconds
/// passed and a lost link, and behind each of these how many every port holds (E5).
#[test]
fn tables_with_the_same_records() {
    at_each_start(|pair, starts| {
        if starts[0].table.breaches(starts[0].buffer()).is_empty() {
            let [x, y] = pair.frames.as_ref().expect("it has frames").each_ref().map(heard_event);
            let seconds = starts[0].table.seconds.iter().copied().max().unwrap_or(0) / 2;
            let port = starts[0].table.used().next().map_or(0, |place| starts[0].table.port[place]);
            let lost = Event::Lost { port: usize::from(port) };
            stay_alike(starts, &[x.clone(), y.clone(), Event::Seconds(seconds), lost.clone()]);
            stay_alike(starts, &[y, x, lost, Event::Seconds(seconds)]);
        }
    });
    let apart = |tried: &Tried| tried.fit && tried.apart;
    some(400, "records in other places", apart);
    some(60, "and (a)", |tried| apart(tried) && tried.because[0] == Some(Because::LastPlace));
    some(60, "and (b)", |tried| apart(tried) && tried.because[0] == Some(Because::FreedPlace));
    some(150, "and a port that holds at most one", |tried| {
        apart(tried) && (tried.is_quiet(0) || tried.is_quiet(1))
    });
    some(600, "records in the same places", |tried| tried.fit && !tried.apart);
    some(100, "both sides go on from the pair before", |tried| {
        tried.pair.edits.iter().all(Vec::is_empty)
    });
}

fn stay_alike(starts: [&Desk; 2], events: &[Event]) {
    let mut sides = starts.map(Desk::clone);
    for event in events {
        let [one, other] = sides.each_mut().map(|desk| desk.act(event));
        assert_eq!(one, other);
        assert_eq!(entries(&sides[0], &sides[1]), Some(0));
        for port in 0..=PORTS {
            let [one, other] = sides.each_mut().map(|desk| desk.act(&Event::HowMany { port }));
            assert_eq!(one, other);
        }
    }
}

/// Both parts of E2.
#[test]
fn orders_that_matter() {
    let last = |tried: &Tried| tried.because[0] == Some(Because::LastPlace);
    let freed = |tried: &Tried| tried.because[0] == Some(Because::FreedPlace);
    some(250, "(a)", last);
    some(250, "(b)", freed);
    some(100, "(b), x leaves", |tried| freed(tried) && tried.leaving[0]);
    some(100, "(b), y leaves", |tried| freed(tried) && tried.leaving[1]);
    for held in TWO_TO_FIVE {
        for i in [0, 1] {
            some(20, &format!("(a) with {held} held, frame {i}"), |tried| {
                last(tried) && tried.held[i] == held
            });
            some(10, &format!("(b) with {held} held, frame {i} asks"), |tried| {
                freed(tried) && tried.asking[i] && tried.held[i] == held
            });
        }
    }
    for held in THREE_OR_MORE {
        some(20, &format!("(b) with {held} held, and one leaves"), |tried| {
            freed(tried) && [0, 1].iter().any(|&i| tried.leaving[i] && tried.held[i] == held)
        });
    }
    for port in [0, PORTS as u8 - 1] {
        some(20, &format!("(a) on port {port}"), |tried| {
            last(tried) && tried.ports.contains(&port)
        });
        some(20, &format!("(b) on port {port}"), |tried| {
            freed(tried) && tried.ports.contains(&port)
        });
    }
    some(10, "(a) with the same frame twice", |tried| {
        let frames = tried.pair.frames.as_ref().expect("it has frames");
        last(tried) && frames[0].frame == frames[1].frame
    });
}

/// One thing alone is missing, with the one frame as x and as y.
#[test]
fn near_misses() {
    for (left, one, other) in &NEAR_MISSES {
        some(12, &format!("{left} left, {one:?}, {other:?}"), |tried| {
            tried.left == *left && tried.is_of(one, other) && !tried.matters()
        });
    }
    // The port has room, and the chassis has not.
    for (left, other) in [(1, (Kind::New, TWO_TO_FIVE)), (0, (Kind::Goodbye, THREE_OR_MORE))] {
        some(4, &format!("{left} left, 13 with three to five held, {other:?}"), |tried| {
            tried.left == left && tried.is_of(&(Kind::Loud, 3..=5), &other)
        });
    }
}

/// The three of B26.
#[test]
fn the_shown_ones() {
    let [one, other] = [HALF as u8, HALF as u8 + 1];
    for (tried, (because, left, ports, held)) in tried().iter().zip([
        (Some(Because::LastPlace), 1, [one, other], [2, 2]),
        (Some(Because::FreedPlace), 0, [0, one], [6, 2]),
        (None, 0, [0, other], [6, 1]),
    ]) {
        assert_eq!((tried.because[0], tried.left), (because, left));
        assert_eq!((tried.ports, tried.held), (ports, held));
    }
    let mut answers = Vec::new();
    at_each(&stored().0, |pair, steps, _, _| {
        if pair.frames.is_some() && answers.len() < 3 {
            let heard: Vec<String> = steps.into_iter().flatten().collect();
            let (before, last) = heard.split_at(heard.len() - 4);
            assert!(before.iter().all(|answer| answer == "recorded"));
            answers.push(last.join(", "));
        }
    });
    assert_eq!(
        answers,
        [
            "recorded, refused 8, recorded, refused 8",
            "gone, recorded, refused 8, gone",
            "gone, recorded, recorded, gone",
        ]
    );
}

/// Kinds 6 and 7 of the case file, and the lines of the frames.
#[test]
fn the_case_file_and_the_text() {
    let goodbye = b"\xFF\xFF\xFF\xFF\xFF\xFF\x02\0\0\0\x03\x01\x88\xCC\
        \x02\x07\x04\x02\0\0\0\x03\x01\x04\x02\x07\x31\x06\x02\0\0\0\0";
    assert_eq!(plain(3, 0, 0), Heard { port: 3, frame: goodbye.to_vec() });
    let heard = Heard { port: 200, frame: vec![0xAB; 258] };
    let pair = Pair {
        edits: [vec![Edit::Hear(plain(3, 0, 120))], vec![Edit::Copy]],
        frames: Some([plain(3, 0, 0), heard]),
        first: 0,
        lists: vec![2],
        entries: 0,
        older: false,
    };
    let back = Pair { edits: [vec![Edit::Copy], vec![]], frames: None, ..pair.clone() };
    let none = [0; 8];
    let record = |kind: u8, side: u8, port: u8, length: u16| {
        [&[kind, side, 0, 0, port], &none[..], &[0], &length.to_be_bytes()].concat()
    };
    let announced = plain(3, 0, 120).frame;
    let records = [
        [record(6, 0, 3, 33), announced].concat(),
        record(7, 1, 0, 0),
        [record(6, 0, 3, 33), goodbye.to_vec()].concat(),
        [record(6, 0, 200, 258), vec![0xAB; 258]].concat(),
        [record(6, 1, 200, 258), vec![0xAB; 258]].concat(),
        [record(6, 1, 3, 33), goodbye.to_vec()].concat(),
        record(4, 0, 0, 2),
        record(7, 0, 0, 0),
        record(4, 0, 0, 2),
    ];
    let pairs = [pair, back];
    assert_eq!(case_file(&pairs), records.concat());
    assert_eq!(
        expected(&pairs),
        "1 recorded\n3 gone\n4 refused 2\n5 refused 2\n6 gone\n7 listed 0 FF-FE\n9 listed 0 FF-FE\n"
    );
}
