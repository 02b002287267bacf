//! Pairs of which the first table, the second or both are not fit, in every way that the file can say
//! (N5). The lists are those of the tables before they were spoiled: 1 goes before 14 (D4).

use super::maker::{due, Maker};
use crate::events::desk::Desk;
use crate::events::maker::Maker as EventMaker;
use crate::events::{Event, Way};
use crate::table::{BUFFER_OCTETS, PORTS};

/// How many pairs of small tables are spoiled, and of those that have a port with six, or the common
/// places taken.
const SMALL: usize = 27;
const CROWDED: usize = 4;

/// Whether the first table and the second are spoiled, by turns.
const TURNS: [[bool; 2]; 3] = [[true, false], [false, true], [true, true]];

impl Maker {
    pub fn unfit_tables(&mut self) {
        for round in 0..SMALL {
            self.begin_with(round % 5);
            let first = self.look();
            self.hear_new_ones(1);
            self.little_happens();
            let second = self.look();
            let looks = [&first, &second];
            self.spoiled_in_each_way(round, looks);
            for (limit, turn) in (0..3).zip(round..) {
                self.pair_spoiled(TURNS[turn % 3], looks, |_, _, look| {
                    Some(edited(look, &[passed_by_one(look, limit)?]))
                });
            }
        }
        for _ in 0..CROWDED {
            self.spoiled_in_a_crowd(Way::SevenOnAPort, EventMaker::end_with_six);
            self.spoiled_in_a_crowd(Way::OneBeyondTheCommon, EventMaker::end_with_the_common_taken);
        }
    }

    /// Two are spoiled in the same way or each in its own. Last the same spoiled table is both.
    fn spoiled_in_each_way(&mut self, round: usize, looks: [&Desk; 2]) {
        let ways: Vec<Way> = Way::ALL.into_iter().map(|(way, ..)| way).filter(is_said).collect();
        for (&way, turn) in ways.iter().zip(round..) {
            let turn = TURNS[turn % 3];
            let other = if turn == [true; 2] { self.rng().pick(&ways) } else { way };
            let mut two = self.rng().pick(&[[way, way], [way, other]]);
            self.rng().shuffle(&mut two);
            self.pair_spoiled(turn, looks, |maker, i, look| maker.spoiled(look, two[i]));
        }
        if let Some(spoiled) = self.spoiled(looks[1], ways[round % ways.len()]) {
            self.pair_unfit(0, &spoiled, &spoiled);
        }
    }

    /// Tables that can be spoiled in this way because they are crowded.
    fn spoiled_in_a_crowd(&mut self, way: Way, crowd: fn(&mut EventMaker)) {
        self.begin_with(0);
        crowd(&mut self.events);
        let first = self.look();
        self.little_happens();
        crowd(&mut self.events);
        let second = self.look();
        for turn in TURNS {
            self.pair_spoiled(turn, [&first, &second], |maker, _, look| maker.spoiled(look, way));
        }
    }

    /// The tables whose turn it is are spoiled. There is no pair where one cannot be.
    fn pair_spoiled(
        &mut self,
        turn: [bool; 2],
        looks: [&Desk; 2],
        spoiled: impl Fn(&mut Maker, usize, &Desk) -> Option<Desk>,
    ) {
        let desks = [0, 1].map(|i| match turn[i] {
            true => spoiled(self, i, looks[i]),
            false => Some(looks[i].clone()),
        });
        if let [Some(first), Some(second)] = desks {
            self.pair_unfit(due(looks[0], looks[1]), &first, &second);
        }
    }

    pub fn spoiled(&mut self, look: &Desk, way: Way) -> Option<Desk> {
        self.return_to(look);
        Some(edited(look, &self.events.edits(way)?))
    }
}

/// The file has no length that is above that of a place.
pub fn is_said(way: &Way) -> bool {
    *way != Way::LengthAbove1500
}

/// A limit of N5 is passed by one: the octets of the buffer on both sides, or the ports. There is none
/// where no place is used.
fn passed_by_one(look: &Desk, limit: usize) -> Option<Event> {
    let port = |place| Event::SetPort { place, port: PORTS as u8 };
    match limit {
        0 => Some(Event::Lend(BUFFER_OCTETS - 1)),
        1 => Some(Event::Lend(BUFFER_OCTETS + 1)),
        _ => look.table.used().last().map(port),
    }
}

fn edited(look: &Desk, edits: &[Event]) -> Desk {
    let mut desk = look.clone();
    for edit in edits {
        desk.act(edit);
    }
    desk
}
