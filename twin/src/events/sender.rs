//! Senders: each record has the source of the frame that its LLDPDU came in (N3).
//! A refresh replaces them, they go with their place, and what is refused leaves them; the digests
//! show it.

use super::bench::six_octets;
use super::maker::{Agent, Maker};
use super::Event;
use crate::frames::blocks::*;
use crate::reader::Address;
use crate::table::{LAST_PLACE, OF_EACH_PORT, PLACES};

/// Three headers of different sources.
type Headers = [Vec<u8>; 3];

impl Maker {
    pub fn senders(&mut self) {
        for headers in headers() {
            self.one_neighbour(&headers);
            self.neighbours_and_ports(&headers);
            self.places_change_hands(&headers);
            self.answers_to_another_source(&headers);
        }
        self.senders_that_are_set();
        self.call(Event::Start);
    }

    /// The sender is no part of the identity (N2). The same octets from another source change the
    /// sender alone, other octets the record too, and a third source says goodbye.
    fn one_neighbour(&mut self, [first, second, third]: &Headers) {
        self.call(Event::Start);
        let same = announced(1, 120);
        for header in [first, second, first, first] {
            self.hear_behind(header, 1, same.clone());
        }
        self.call(Event::Seconds(20));
        let longer = numbered(1).announcement(90, &[category(), model_number()]);
        let goodbye = announced(1, 0);
        for (header, lldpdu) in [
            (second, longer),
            (first, same.clone()),
            (third, goodbye.clone()),
            (second, goodbye),
            (third, same),
        ] {
            self.hear_behind(header, 1, lldpdu);
        }
    }

    /// Two neighbours from one source, and one of them on two ports from two sources. Each is then
    /// refreshed by itself, and the others keep their senders.
    fn neighbours_and_ports(&mut self, [first, second, third]: &Headers) {
        self.call(Event::Start);
        for (header, port, number, seconds) in [
            (first, 1, 1, 120),
            (first, 1, 2, 120),
            (second, 2, 1, 120),
            (third, 1, 1, 120),
            (first, 2, 1, 120),
            (second, 1, 2, 120),
            (third, 2, 1, 0),
            (third, 2, 1, 120),
        ] {
            self.hear_behind(header, port, announced(number, seconds));
        }
    }

    /// A place is freed by a goodbye, by time, and by a lost link. Each time another neighbour takes
    /// it from another source (N4).
    fn places_change_hands(&mut self, [first, second, third]: &Headers) {
        self.call(Event::Start);
        self.hear_behind(first, 1, announced(1, 600));
        self.hear_behind(second, 2, announced(2, 60));
        self.hear_behind(third, 3, announced(3, 600));
        self.hear_behind(first, 1, announced(1, 0));
        self.hear_behind(second, 1, announced(4, 600));
        self.call(Event::Seconds(60));
        self.hear_behind(third, 2, announced(5, 600));
        self.call(Event::Lost { port: 3 });
        self.hear_behind(first, 3, announced(6, 600));
        self.call(Event::Lost { port: 1 });
        self.call(Event::Seconds(600));
    }

    /// The records are from another source than these frames. What is refused leaves their senders
    /// (Q2), and an unknown goodbye does (N7).
    fn answers_to_another_source(&mut self, [_, second, _]: &Headers) {
        self.ports_of_b13(six_octets);
        self.each_answer_to(&from_a_group(second.clone()));
        self.each_answer_to(second);
    }

    /// A used place may have any sender but a group address (N5): with another one the table is
    /// still fit, and calls are answered as usual.
    fn senders_that_are_set(&mut self) {
        self.call(Event::Start);
        for place in 0..PLACES {
            self.hear_neighbour(place, 600);
        }
        let places = [LAST_PLACE, 0, PLACES / 2];
        for (place, sender) in places.into_iter().cycle().zip(stations()) {
            let port = place / OF_EACH_PORT;
            self.call(Event::SetSender { place, sender });
            self.call(Event::HowMany { port });
            self.call(Event::WhoSees { address: SOUGHT, from: place });
            self.call(Event::Seconds(1));
            self.hear_somebody_new(port);
            // The record beside it is refreshed; then it is itself, or it is gone and back.
            self.hear_neighbour(place ^ 1, 600);
            if sender[0] == 0 {
                self.hear_neighbour(place, 0);
            }
            self.hear_neighbour(place, 600);
        }
    }
}

fn numbered(number: u8) -> Agent {
    Agent::of(address(&chassis_of(number)))
}

fn announced(number: u8, seconds: u16) -> Vec<u8> {
    numbered(number).announcement(seconds, &[])
}

fn chassis_of(number: u8) -> Address {
    [2, 0, 0, 0, 0x50, number]
}

/// Sources that are the address of the first neighbour's chassis or differ from it in an octet, that
/// have no bit, one bit or all but one, and that have the same octets in another order. Both
/// destinations come in each three: never is one the source (F2, F4).
fn headers() -> [Headers; 3] {
    let [near, mut far] = [2, 1].map(chassis_of);
    far[0] = 6;
    [
        (EVERYONE, NEAREST, [chassis_of(1), near, far]),
        (NEAREST, EVERYONE, [[0; 6], [0, 0, 0, 0, 0, 1], [0xFE, 0xFF, 0xFF, 0xFF, 0xFF, 0xFF]]),
        (EVERYONE, NEAREST, [[2, 4, 6, 8, 10, 12], [12, 10, 8, 6, 4, 2], [4, 2, 6, 8, 10, 12]]),
    ]
    .map(|(one, other, [first, second, third])| {
        [(one, first), (other, second), (one, third)]
            .map(|(destination, source)| headed(destination, source, LLDP, &[]))
    })
}
