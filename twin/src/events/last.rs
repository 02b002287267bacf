//! Every port and every place, the last ones above all: who sees an address at the end of a full
//! table (N11), numbers that are no port (R2), and buffers that are no table's (N5, N6).

use super::desk::WRONG_LENGTHS;
use super::maker::{Agent, Maker};
use super::random::long_announcement;
use super::Event;
use crate::frames::blocks::*;
use crate::table::{
    BUFFER_OCTETS, LAST_PLACE, LAST_PORT, MOST, OF_EACH_PORT, PLACES, PLACE_OCTETS, PORTS,
};

/// Numbers that are no port, alone or with low bits that are one (R2).
pub const NO_PORTS: [usize; 7] =
    [PORTS, PORTS + 1, 255, 256, 65_536, (1 << 32) + LAST_PORT, usize::MAX];

impl Maker {
    pub fn last_ports_and_places(&mut self) {
        self.call(Event::Start);
        self.all_places_are_taken();
        self.the_last_place_is_filled();
        self.the_first_place_is_freed();
        self.the_last_place_is_freed();
        self.each_link_is_lost();
        self.each_port_alone();
        self.the_first_place_alone();
        self.the_last_place_alone();
    }

    fn all_places_are_taken(&mut self) {
        for place in 0..PLACES {
            self.hear_neighbour(place, 600);
        }
        self.starts_around_the_end();
        self.spoils();
        self.no_room_on_any_port();
        self.numbers_that_are_no_port();
        self.buffers_of_a_wrong_length();
    }

    /// The neighbour that takes this place where all are heard in turn, so that the last places are
    /// those of the last two ports. Only theirs see the address that is sought.
    pub fn hear_neighbour(&mut self, place: usize, seconds: u16) {
        let port = place / OF_EACH_PORT;
        let number = place as u8;
        let seen = if port + 2 < PORTS { neighbour(1) } else { SOUGHT };
        let later = link(&[number], &[0, number], &[seen]);
        self.hear(port, agent_of(place).announcement(seconds, &[later]));
    }

    /// The last starts have low bits that are the last place.
    fn starts_around_the_end(&mut self) {
        let near = [0, PLACES - 2, LAST_PLACE, PLACES, PLACES + 1];
        let far = [256 + LAST_PLACE, (1 << 32) + LAST_PLACE, usize::MAX];
        for from in near.into_iter().chain(far) {
            self.call(Event::WhoSees { address: SOUGHT, from });
        }
    }

    /// Each port holds more than its sure places, and the common ones are taken: 8 (N12).
    fn no_room_on_any_port(&mut self) {
        for port in 0..PORTS {
            self.hear_somebody_new(port);
            self.call(Event::HowMany { port });
        }
    }

    fn numbers_that_are_no_port(&mut self) {
        for port in NO_PORTS {
            self.hear_somebody_new(port);
            self.call(Event::Lost { port });
            self.call(Event::HowMany { port });
        }
    }

    /// Each of the six calls is refused, Start too (R1).
    fn buffers_of_a_wrong_length(&mut self) {
        for octets in WRONG_LENGTHS {
            self.call(Event::Lend(octets));
            self.hear_neighbour(LAST_PLACE, 600);
            self.call(Event::Seconds(600));
            self.call(Event::Lost { port: LAST_PORT });
            self.call(Event::HowMany { port: LAST_PORT });
            self.call(Event::WhoSees { address: SOUGHT, from: LAST_PLACE });
            self.call(Event::Start);
            self.call(Event::Lend(BUFFER_OCTETS));
        }
    }

    /// Up to the last octet of the buffer; then zeros follow a shorter LLDPDU.
    fn the_last_place_is_filled(&mut self) {
        self.hear(LAST_PORT, long_announcement(&agent_of(LAST_PLACE), PLACE_OCTETS));
        self.starts_around_the_end();
        self.hear_neighbour(LAST_PLACE, 600);
    }

    /// By a goodbye, and no other place is free, so that what is spoiled of a free place is spoiled
    /// there; then it is taken again.
    fn the_first_place_is_freed(&mut self) {
        self.hear_neighbour(0, 0);
        self.spoils();
        self.hear_neighbour(0, 600);
    }

    /// By a goodbye; then it is taken again, and freed when its seconds have passed.
    fn the_last_place_is_freed(&mut self) {
        self.hear_neighbour(LAST_PLACE, 0);
        self.starts_around_the_end();
        self.hear_neighbour(LAST_PLACE, 60);
        for seconds in [59, 1] {
            self.call(Event::Seconds(seconds));
            self.starts_around_the_end();
        }
    }

    /// From the first port to the last, until no place is used.
    fn each_link_is_lost(&mut self) {
        for port in 0..PORTS {
            self.call(Event::Lost { port });
            self.call(Event::HowMany { port });
            self.call(Event::WhoSees { address: SOUGHT, from: 0 });
        }
    }

    /// The four replies (N7), none to six and a seventh (N10, R7), and the link is lost (N9).
    fn each_port_alone(&mut self) {
        for port in 0..PORTS {
            for seconds in [0, 600, 600, 0] {
                self.hear_neighbour(port * OF_EACH_PORT, seconds);
            }
            for _ in 0..=MOST {
                self.call(Event::HowMany { port });
                self.hear_somebody_new(port);
            }
            self.call(Event::Lost { port });
        }
    }

    /// A smaller cell could hold this too: nothing but the length of the buffer is wrong.
    fn the_first_place_alone(&mut self) {
        self.hear_neighbour(0, 600);
        self.buffers_of_a_wrong_length();
    }

    /// The last one lives longest, so that what is spoiled of a record is spoiled there.
    fn the_last_place_alone(&mut self) {
        for place in 0..PLACES {
            self.hear_neighbour(place, if place < LAST_PLACE { 600 } else { 700 });
        }
        self.call(Event::Seconds(600));
        self.starts_around_the_end();
        self.spoils();
    }
}

fn agent_of(place: usize) -> Agent {
    Agent::of(address(&[2, 0, 0, 0, 0x40, place as u8]))
}
