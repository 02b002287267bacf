//! The maker gathers pairs. Histories happen at the desk of a maker of events, and looks at that desk
//! are compared. It knows what the two sides have, so that only what changed is written again.

use super::{Edit, Pair};
use crate::changes::changes;
use crate::events::desk::{Desk, STORE_OCTETS};
use crate::events::maker::Maker as EventMaker;
use crate::events::Event;
use crate::frames::blocks::{headed, padded, EVERYONE, LLDP};
use crate::order::Heard;
use crate::reader::Address;
use crate::rng::{self, Rng};
use crate::table::{octets_of, BUFFER_OCTETS, PLACES, PLACE_OCTETS, PORTS};

/// A list for the records of two full tables has 16n octets, and one in so many pairs has it.
const LONG: usize = 4 * PLACES;
const SELDOM: usize = 24;

/// More than two frames need: at most two identities can differ behind them.
const SHORT: usize = 8;

pub struct Maker {
    pub events: EventMaker,
    /// What the two sides have after the last pair.
    sides: [Desk; 2],
    pub pairs: Vec<Pair>,
}

impl Maker {
    pub fn new() -> Self {
        let events = EventMaker::seeded(rng::LOOKS);
        Maker { events, sides: [Desk::new(), Desk::new()], pairs: Vec::new() }
    }

    pub fn rng(&mut self) -> &mut Rng {
        self.events.rng()
    }

    pub fn call(&mut self, event: Event) {
        self.events.call(event);
    }

    /// The table as it is now.
    pub fn look(&self) -> Desk {
        self.events.desk.clone()
    }

    /// The history goes on from there.
    pub fn return_to(&mut self, look: &Desk) {
        self.events.desk = look.clone();
    }

    /// A new table with so many neighbours, on any ports. Their seconds last for a while.
    pub fn begin_with(&mut self, neighbours: usize) {
        self.call(Event::Start);
        self.hear_new_ones(neighbours);
    }

    pub fn hear_new_ones(&mut self, neighbours: usize) {
        for _ in 0..neighbours {
            let port = self.rng().below(PORTS);
            self.events.hear_somebody_new(port);
        }
    }

    pub fn hear_from(&mut self, source: Address, port: usize, lldpdu: Vec<u8>) {
        self.events.hear_behind(&headed(EVERYONE, source, LLDP, &[]), port, lldpdu);
    }

    /// The record of a place is announced once more, with the same octets.
    pub fn hear_again(&mut self, place: usize, source: Address) {
        let Desk { table, .. } = &self.events.desk;
        let port = usize::from(table.port[place]);
        let octets = &self.events.desk.store[octets_of(place)][..usize::from(table.length[place])];
        self.hear_from(source, port, octets.to_vec());
    }

    /// The same from a source that differs in a bit of one octet, but not in the bit of group addresses
    /// (F4).
    pub fn hear_from_another(&mut self, place: usize, octet: usize) {
        let mut source = self.events.desk.table.sender[place];
        source[octet] ^= 1 << self.rng().between(1, 7);
        self.hear_again(place, source);
    }

    /// Two fit tables. The second is not the older one.
    pub fn pair(&mut self, first: &Desk, second: &Desk) {
        self.add(due(first, second), false, first, second);
    }

    /// Two fit tables of which the second is the older one.
    pub fn pair_back(&mut self, first: &Desk, second: &Desk) {
        self.add(due(first, second), true, first, second);
    }

    /// The one or the other.
    pub fn pair_either_way(&mut self, older: &Desk, newer: &Desk) {
        if self.rng().once_in(2) {
            self.pair(older, newer);
        } else {
            self.pair_back(newer, older);
        }
    }

    pub fn pair_with_now(&mut self, before: &Desk) {
        let now = self.look();
        self.pair_either_way(before, &now);
    }

    /// Two tables of which one is spoiled, or both. If none were, so many entries would be due.
    pub fn pair_unfit(&mut self, entries: usize, first: &Desk, second: &Desk) {
        self.add(entries, false, first, second);
    }

    /// The first table comes to the side that makes the file shorter.
    fn add(&mut self, entries: usize, older: bool, first: &Desk, second: &Desk) {
        let [straight, crossed] = [[first, second], [second, first]].map(|goals| self.edits(goals));
        let octets = |[zero, one]: &[Vec<Edit>; 2]| octets_in_file(zero) + octets_in_file(one);
        let (side, edits) =
            if octets(&straight) <= octets(&crossed) { (0, straight) } else { (1, crossed) };
        let mut lists = lengths(entries);
        if self.pairs.len().is_multiple_of(SELDOM) && !lists.contains(&LONG) {
            lists.push(LONG);
        }
        self.push(Pair { edits, frames: None, first: side, lists, entries, older });
    }

    fn push(&mut self, pair: Pair) {
        for (side, edit) in pair.steps() {
            edit.make(side, &mut self.sides);
        }
        self.pairs.push(pair);
    }

    /// The frames come in both orders on this table. Side 1 becomes a copy of side 0.
    pub fn pair_heard(&mut self, start: &Desk, frames: [Heard; 2]) {
        let made = edits_of(&self.sides[0], start);
        self.push_heard([made, vec![Edit::Copy]], frames);
    }

    /// The frames come in both orders, and each side has a table of its own, with the same records (E5).
    pub fn pair_heard_apart(&mut self, starts: [&Desk; 2], frames: [Heard; 2]) {
        let [made, own] = self.edits(starts);
        let copied = [vec![Edit::Copy], edits_of(starts[0], starts[1])].concat();
        let shorter = if octets_in_file(&own) <= octets_in_file(&copied) { own } else { copied };
        self.push_heard([made, shorter], frames);
    }

    /// The frames come in both orders on a table that these made, from an empty one on.
    pub fn pair_heard_behind(&mut self, before: Vec<Heard>, frames: [Heard; 2]) {
        let mut made = edits_of(&self.sides[0], &Desk::new());
        made.extend(before.into_iter().map(Edit::Hear));
        self.push_heard([made, vec![Edit::Copy]], frames);
    }

    /// Behind two frames few entries are due; a table that is not fit gives refusal 1.
    fn push_heard(&mut self, edits: [Vec<Edit>; 2], frames: [Heard; 2]) {
        let frames = Some(frames);
        self.push(Pair { edits, frames, first: 0, lists: vec![SHORT], entries: 0, older: false });
        let [first, second] = self.sides.each_ref().map(Desk::look);
        let entries = changes(first, second).map_or(0, |changes| changes.len());
        self.pairs.last_mut().expect("one was pushed").entries = entries;
    }

    /// The tables of the two sides as the last pair left them.
    pub fn sides(&self) -> [Desk; 2] {
        self.sides.clone()
    }

    /// What makes the two sides these tables.
    fn edits(&self, goals: [&Desk; 2]) -> [Vec<Edit>; 2] {
        [0, 1].map(|side| edits_of(&self.sides[side], goals[side]))
    }
}

/// How many entries are due between two fit tables.
pub fn due(first: &Desk, second: &Desk) -> usize {
    changes(first.look(), second.look()).expect("both tables are fit").len()
}

/// None, one octet, and from three too few to three too many.
fn lengths(entries: usize) -> Vec<usize> {
    let right = 2 * entries;
    let about = right.saturating_sub(3)..=right + 3;
    let mut lengths: Vec<usize> = [0, 1].into_iter().chain(about).collect();
    lengths.sort_unstable();
    lengths.dedup();
    lengths
}

/// What makes the one table the other.
fn edits_of(from: &Desk, to: &Desk) -> Vec<Edit> {
    let mut edits: Vec<Edit> = (0..PLACES).flat_map(|place| edits_at(from, to, place)).collect();
    let behind = BUFFER_OCTETS..STORE_OCTETS;
    edits.extend(one_by_one(BUFFER_OCTETS, &from.store[behind.clone()], &to.store[behind]));
    if from.lent != to.lent {
        edits.push(Edit::Lend(to.lent));
    }
    edits
}

/// The same for a place: all of it is put there, or the octets that differ are written one by one,
/// whichever is shorter in the file.
fn edits_at(from: &Desk, to: &Desk, place: usize) -> Vec<Edit> {
    let [numbers_before, numbers] = [from, to].map(|Desk { table, .. }| {
        (table.port[place], table.seconds[place], table.length[place], table.sender[place])
    });
    let [before, goal] = [from, to].map(|desk| &desk.store[octets_of(place)]);
    let start = octets_of(place).start;
    let (port, seconds, length, sender) = numbers;
    let octets = goal[..usize::from(length)].to_vec();
    // What stands behind the length is written over the zeros.
    let behind = one_by_one(start, &padded(&octets, PLACE_OCTETS), goal);
    let put = Edit::Put { place, port, seconds, sender, octets };
    let whole = [vec![put], behind].concat();
    let parts = one_by_one(start, before, goal);
    if numbers_before == numbers && octets_in_file(&parts) < octets_in_file(&whole) {
        parts
    } else {
        whole
    }
}

/// The octets that differ; the first of them all is this one of the store.
fn one_by_one(start: usize, from: &[u8], to: &[u8]) -> Vec<Edit> {
    let differing = (start..).zip(from.iter().zip(to)).filter(|(_, (from, to))| from != to);
    differing.map(|(at, (_, &octet))| Edit::Octet { at, octet }).collect()
}

fn octets_in_file(edits: &[Edit]) -> usize {
    edits.iter().map(|edit| edit.record(0).len()).sum()
}
