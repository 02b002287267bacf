//! The looks: pairs of tables that are compared. They come from histories, or differ in one thing
//! alone; records stand in other places, and tables are spoiled. At last two frames are heard in both
//! orders, and what they leave is compared. The case file and the text that is expected for it are made
//! here.

mod alone;
mod histories;
mod maker;
mod orders;
#[cfg(test)]
pub(crate) mod tests;
mod unfit;

use crate::capture::joined;
use crate::changes::{compare, Look};
use crate::events::desk::Desk;
use crate::events::Event;
use crate::frames::two_octets;
use crate::order::Heard;
use crate::reader::Address;
use maker::Maker;

/// Two tables stand beside each other. Edits make them what they are to be, frames may come in both
/// orders, and then the one is compared with the other, with a list of each length.
#[derive(Clone, Debug, PartialEq, Eq)]
pub struct Pair {
    /// Those of side 0, and then those of side 1.
    pub edits: [Vec<Edit>; 2],
    /// Frames x and y, which come behind the edits: x and then y on side 0, y and then x on side 1 (E1).
    pub frames: Option<[Heard; 2]>,
    /// The side of the first table.
    pub first: usize,
    pub lists: Vec<usize>,
    /// How many entries are due, or would be if no table were spoiled. It is not in the file.
    pub entries: usize,
    /// Whether the second table is the older look. It is not in the file; the tests count by it.
    pub older: bool,
}

#[derive(Clone, Debug, PartialEq, Eq)]
pub enum Edit {
    /// A place gets its numbers, its sender and its octets; zeros follow them.
    Put {
        place: usize,
        port: u8,
        seconds: u16,
        sender: Address,
        octets: Vec<u8>,
    },
    Octet {
        at: usize,
        octet: u8,
    },
    /// From here on the buffer is the first so many octets of the store.
    Lend(usize),
    /// A frame comes, and its answer has a line.
    Hear(Heard),
    /// The side becomes a copy of the other one, with its store and what of it is lent.
    Copy,
}

impl Edit {
    /// The answer to a frame; the others have none.
    fn make(&self, side: usize, sides: &mut [Desk; 2]) -> Option<String> {
        let desk = &mut sides[side];
        match *self {
            Edit::Put { place, port, seconds, sender, ref octets } => {
                desk.table.put(&mut desk.store, place, port, seconds, sender, octets);
            }
            Edit::Octet { at, octet } => desk.store[at] = octet,
            Edit::Lend(octets) => desk.lent = octets,
            Edit::Hear(ref heard) => return desk.act(&heard_event(heard)),
            Edit::Copy => sides[side] = sides[1 - side].clone(),
        }
        None
    }

    /// Its record in the case file.
    fn record(&self, side: u8) -> Vec<u8> {
        let head = Head { side, ..Head::default() };
        match *self {
            Edit::Put { place, port, seconds, sender, ref octets } => {
                let [place, length] = [place, octets.len()];
                let head = Head { kind: 1, place, port, seconds, sender, length, ..head };
                [&head.octets(), &octets[..]].concat()
            }
            Edit::Octet { at, octet } => Head { kind: 2, port: octet, length: at, ..head }.octets(),
            Edit::Lend(length) => Head { kind: 3, length, ..head }.octets(),
            Edit::Hear(Heard { port, ref frame }) => {
                let head = Head { kind: 6, port, length: frame.len(), ..head };
                [&head.octets(), &frame[..]].concat()
            }
            Edit::Copy => Head { kind: 7, ..head }.octets(),
        }
    }
}

fn heard_event(Heard { port, frame }: &Heard) -> Event {
    Event::Frame { port: usize::from(*port), frame: frame.clone() }
}

impl Pair {
    /// What happens before the tables are compared, with the side that it happens to.
    pub fn steps(&self) -> Vec<(usize, Edit)> {
        let edits = (0..).zip(&self.edits);
        let mut steps: Vec<_> = edits
            .flat_map(|(side, edits)| edits.iter().map(move |edit| (side, edit.clone())))
            .collect();
        if let Some(frames) = &self.frames {
            let [x, y] = frames.each_ref().map(|heard| Edit::Hear(heard.clone()));
            steps.extend([(0, x.clone()), (0, y.clone()), (1, y), (1, x)]);
        }
        steps
    }
}

/// All pairs, always the same ones.
pub fn pairs() -> Vec<Pair> {
    let mut maker = Maker::new();
    maker.one_thing_alone();
    maker.histories();
    maker.other_places();
    maker.full_tables();
    maker.unfit_tables();
    maker.both_orders();
    maker.pairs
}

/// What a record of the case file begins with. What it has no use for is 0.
#[derive(Default)]
struct Head {
    kind: u8,
    side: u8,
    place: usize,
    port: u8,
    seconds: u16,
    sender: Address,
    length: usize,
}

impl Head {
    /// Kind (1 octet), side (1), place (2), port (1), seconds (2), sender (6) and length (3), each with
    /// its high octet first.
    fn octets(&self) -> Vec<u8> {
        let Head { kind, side, place, port, seconds, sender, length } = *self;
        let [_, length @ ..] = (length as u32).to_be_bytes();
        let seconds = seconds.to_be_bytes();
        [&[kind, side], &two_octets(place)[..], &[port], &seconds, &sender, &length].concat()
    }
}

/// The case file: for each pair its edits and its frames in both orders, then a record for each list,
/// with its length.
pub fn case_file(pairs: &[Pair]) -> Vec<u8> {
    let mut file = Vec::new();
    for pair in pairs {
        file.extend(pair.steps().iter().flat_map(|(side, edit)| edit.record(*side as u8)));
        for &length in &pair.lists {
            // 4 where the first table is that of side 0, and 5 where it is that of side 1.
            file.extend(Head { kind: 4 + pair.first as u8, length, ..Head::default() }.octets());
        }
    }
    file
}

/// The expected text: a line for each frame, with the number of its record (from 1) and the answer, and
/// one for each list, which has the octets of the list too.
pub fn expected(pairs: &[Pair]) -> String {
    let mut number = 0;
    let mut text = String::new();
    at_each(pairs, |pair, answers, first, second| {
        for answer in answers {
            number += 1;
            if let Some(answer) = answer {
                text += &format!("{number} {answer}\n");
            }
        }
        for &length in &pair.lists {
            number += 1;
            let mut list = untouched(length);
            let answer = match compare(first, second, &mut list) {
                Ok(entries) => format!("listed {entries}"),
                Err(refusal) => format!("refused {refusal}"),
            };
            let octets =
                if list.is_empty() { String::new() } else { format!(" {}", joined(&list)) };
            text += &format!("{number} {answer}{octets}\n");
        }
    });
    text
}

/// A list before a call: each octet differs from those beside it.
fn untouched(length: usize) -> Vec<u8> {
    (0..=255).rev().cycle().take(length).collect()
}

/// Looks at the answers to the steps of each pair, and at its first and its second table.
pub fn at_each<'p>(
    pairs: &'p [Pair],
    mut look: impl FnMut(&'p Pair, Vec<Option<String>>, Look, Look),
) {
    let mut sides = [Desk::new(), Desk::new()];
    for pair in pairs {
        let steps = pair.steps();
        let answers = steps.iter().map(|(side, edit)| edit.make(*side, &mut sides)).collect();
        let [first, second] = [pair.first, 1 - pair.first].map(|side| sides[side].look());
        look(pair, answers, first, second);
    }
}
