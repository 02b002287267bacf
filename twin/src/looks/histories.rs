//! Looks of random histories: neighbours join, are heard again, change, go and are lost, and time
//! passes. Some tables have their records in other places, and some are full.

use super::maker::Maker;
use crate::events::desk::Desk;
use crate::events::Event;
use crate::table::{octets_of, LAST_PORT, PLACES, PORTS};

const HISTORIES: usize = 48;
const LOOKS: usize = 20;

/// How many tables have their records in other places, and how many are full.
const MOVES: usize = 64;
const FULL: usize = 5;

/// The most that happens between two looks, mostly and now and then.
const LITTLE: usize = 4;
const MUCH: usize = 12;

impl Maker {
    /// One look behind the other. In every third history the older one comes second, and now and then
    /// a look is compared with itself.
    pub fn histories(&mut self) {
        for round in 0..HISTORIES {
            let (neighbours, most) = if round % 5 == 4 { (9, MUCH) } else { (round % 6, LITTLE) };
            self.begin_with(neighbours);
            let mut before = self.look();
            for _ in 0..LOOKS {
                self.things_happen(most);
                let now = self.look();
                match (self.rng().below(10), round % 3) {
                    (0, _) => self.pair(&now, &now),
                    (_, 2) => self.pair_back(&now, &before),
                    _ => self.pair(&before, &now),
                }
                before = now;
            }
        }
    }

    fn things_happen(&mut self, most: usize) {
        for _ in 0..self.rng().between(1, most) {
            self.something_happens();
        }
    }

    pub fn little_happens(&mut self) {
        self.things_happen(LITTLE);
    }

    /// Somebody comes, a known one or one much like it is heard, time passes, or a link is lost.
    fn something_happens(&mut self) {
        let Some(place) = self.events.any_used() else {
            return self.hear_new_ones(1);
        };
        let Desk { table, .. } = &self.events.desk;
        let (port, sender) = (usize::from(table.port[place]), table.sender[place]);
        match self.rng().below(20) {
            0..=3 => self.hear_new_ones(1),
            4..=8 => {
                let frame = self.events.random_frame(&[port, 0, LAST_PORT]);
                self.call(frame);
            }
            9 | 10 => self.hear_again(place, sender),
            11 | 12 => {
                let octet = self.rng().below(6);
                self.hear_from_another(place, octet);
            }
            13 | 14 => {
                let later = self.events.light_later();
                let seconds = self.rng().between(1, 400) as u16;
                let lldpdu = self.events.agent_at(place).announcement(seconds, &later);
                self.hear_from(sender, port, lldpdu);
            }
            15 => {
                let goodbye = self.events.agent_at(place).announcement(0, &[]);
                self.hear_from(sender, port, goodbye);
            }
            16 | 17 => {
                let seconds = self.rng().between(1, 40) as u16;
                self.call(Event::Seconds(seconds));
            }
            18 => {
                let seconds = self.events.random_seconds_passed();
                self.call(Event::Seconds(seconds));
            }
            _ => self.call(Event::Lost { port }),
        }
    }

    /// The same records stand in other places. Then time passes, little happens, or much.
    pub fn other_places(&mut self) {
        for round in 0..MOVES {
            self.begin_with(1 + round % 8);
            let before = self.look();
            let moved = self.moved(&before, round % 4);
            self.pair_either_way(&before, &moved);
            for (seconds, most) in [(20, None), (0, Some(LITTLE)), (1, Some(MUCH))] {
                self.return_to(&moved);
                self.call(Event::Seconds(seconds));
                if let Some(most) = most {
                    self.things_happen(most);
                }
                self.pair_with_now(&before);
            }
        }
    }

    /// The records at other places: any, the next, in the order from behind, or two that are changed
    /// over. The table stays fit.
    pub fn moved(&mut self, look: &Desk, way: usize) -> Desk {
        let mut places: Vec<usize> = (0..PLACES).collect();
        match way {
            0 => self.rng().shuffle(&mut places),
            1 => places.rotate_left(1),
            2 => places.reverse(),
            _ => {
                let used: Vec<usize> = look.table.used().collect();
                let [one, other] = [used[0], self.rng().below(PLACES)];
                places.swap(one, other);
            }
        }
        let Desk { table, store, .. } = look;
        let mut moved = Desk::new();
        for place in table.used() {
            let octets = &store[octets_of(place)][..usize::from(table.length[place])];
            let (port, seconds, sender) =
                (table.port[place], table.seconds[place], table.sender[place]);
            moved.table.put(&mut moved.store, places[place], port, seconds, sender, octets);
        }
        moved
    }

    /// All places are taken: something happens, the records stand in other places, time passes, half of
    /// the neighbours go and others come, or all of them are others.
    pub fn full_tables(&mut self) {
        for round in 0..FULL {
            self.begin_full();
            let before = self.look();
            for _ in 0..3 {
                self.little_happens();
                self.pair_with_now(&before);
            }
            let moved = self.moved(&before, round % 3);
            self.return_to(&moved);
            self.pair_with_now(&before);
            self.call(Event::Seconds(1));
            self.pair_with_now(&before);
            self.return_to(&before);
            for port in 0..PORTS / 2 {
                self.call(Event::Lost { port });
            }
            self.pair_with_now(&before);
            self.events.fill_all_places();
            self.pair_with_now(&before);
            self.begin_full();
            self.pair_with_now(&before);
        }
    }

    fn begin_full(&mut self) {
        self.begin_with(0);
        self.events.fill_all_places();
    }
}
