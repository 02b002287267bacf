//! Records with extension link information, and who sees an address by them (A4, N11).
//! It stands alone, beside basic link information in either order, well formed and not.

use super::maker::{Agent, Maker};
use super::Event;
use crate::frames::blocks::*;
use crate::frames::shape::*;
use crate::id::Id;
use crate::reader::Address;
use crate::table::{LAST_PLACE, LAST_PORT, MOST, PLACES, PLACE_OCTETS, PORTS};

/// The addresses that the histories ask for: the first two are named often, the last never.
const ASKED: [Address; 4] = [SOUGHT, [2, 0, 0, 0, 0x20, 1], [2, 0, 0, 0, 0x20, 11], NEAREST];

impl Maker {
    pub fn extensions(&mut self) {
        self.each_record_alone();
        self.all_records_together();
        self.records_that_change();
        self.at_the_end_of_a_place();
        self.random_sightings();
    }

    /// Who sees each address, from the first place on and from some others.
    fn who_sees_each(&mut self, starts: &[usize]) {
        for address in ASKED {
            for &from in starts {
                self.call(Event::WhoSees { address, from });
            }
        }
    }

    /// One record at a time, HTIP or not, and gone again.
    fn each_record_alone(&mut self) {
        for (tlvs, number) in records().into_iter().zip(1..) {
            self.call(Event::Start);
            let agent = numbered(number);
            let port = usize::from(number) % PORTS;
            let device = if number % 2 == 0 { vec![] } else { vec![category(), model_number()] };
            self.hear(port, agent.announcement(120, &[device, tlvs].concat()));
            self.who_sees_each(&[0, 1]);
            self.hear(port, agent.announcement(0, &[]));
            self.call(Event::WhoSees { address: SOUGHT, from: 0 });
        }
    }

    /// At most two on each port, asked for from every place on; then ports lose their links, and the
    /// next place that sees an address is another one.
    fn all_records_together(&mut self) {
        self.call(Event::Start);
        let records = records();
        let count = records.len().min(2 * PORTS);
        for (tlvs, number) in records[..count].iter().zip(0..) {
            let seconds = 100 + 10 * number;
            let announcement = numbered(number as u8).announcement(seconds, tlvs);
            self.hear(usize::from(number) % PORTS, announcement);
        }
        let starts: Vec<usize> = (0..=count).chain([LAST_PLACE, PLACES, 1 << 32]).collect();
        self.who_sees_each(&starts);
        for port in [0, 3, 5] {
            self.call(Event::Lost { port });
            self.who_sees_each(&[0, 2, 9]);
        }
        self.call(Event::Seconds(140));
        self.who_sees_each(&[0, 5, 9]);
        // New ones on the last port take the freed places, the lowest first. It holds some
        // already, so that not all of them find room (R7).
        for (tlvs, number) in records[records.len() - MOST..].iter().zip(50..) {
            self.hear(LAST_PORT, numbered(number).announcement(300, tlvs));
            self.who_sees_each(&[0, 4]);
        }
        self.call(Event::HowMany { port: LAST_PORT });
    }

    /// A refresh brings other fields, and a goodbye with fields frees the place all the same (N7).
    fn records_that_change(&mut self) {
        self.call(Event::Start);
        self.hear(2, numbered(9).announcement(500, &[link(&[9], &[9], &[SOUGHT])]));
        for (tlvs, number) in records().into_iter().zip(1..) {
            self.hear(1, numbered(1).announcement(60 + number, &tlvs));
            self.call(Event::WhoSees { address: SOUGHT, from: 0 });
            self.call(Event::WhoSees { address: ASKED[1], from: 1 });
        }
        self.call(Event::Seconds(60));
        self.call(Event::HowMany { port: 1 });
        for seconds in [0, 0, 70] {
            self.hear(1, numbered(1).announcement(seconds, &[rich_shape().tlv()]));
            self.call(Event::WhoSees { address: SOUGHT, from: 0 });
            self.call(Event::WhoSees { address: SOUGHT, from: 1 });
        }
    }

    /// The field is the last before the End in an LLDPDU that fills its place, or leaves an octet;
    /// the next place begins right behind it.
    fn at_the_end_of_a_place(&mut self) {
        self.call(Event::Start);
        for (octets, number) in [PLACE_OCTETS, PLACE_OCTETS - 1].into_iter().zip(1..) {
            let agent = numbered(number);
            let field = Shape::at(&[number], &[0, number]).naming(&[SOUGHT]).of_length(507).tlv();
            let without = agent.announcement(600, std::slice::from_ref(&field)).len();
            let fillers = [500, octets - without - 500].map(|size| tlv(9, &vec![0x55; size - 2]));
            let later = [&fillers[..], &[field]].concat();
            self.hear(usize::from(number), agent.announcement(600, &later));
        }
        self.hear(3, numbered(3).announcement(600, &[rich_shape().tlv()]));
        self.who_sees_each(&[0, 1, 2, 3]);
        // It counts one item more than it has: it is not well formed any longer.
        let mut wrong = rich_shape().of_length(507);
        wrong.d += 1;
        self.hear(1, numbered(1).announcement(600, &[wrong.tlv()]));
        self.who_sees_each(&[0, 1, 2]);
    }

    /// Few agents on two ports, each with several fields of both kinds.
    fn random_sightings(&mut self) {
        for _ in 0..6 {
            self.call(Event::Start);
            for _ in 0..24 {
                let agent = numbered(self.rng().between(1, 7) as u8);
                let port = self.rng().below(2);
                let seconds = self.rng().pick(&[0, 5, 120, 300, 300]);
                let later = self.random_tables();
                self.hear(port, agent.announcement(seconds, &later));
                for _ in 0..2 {
                    let address = neighbour(self.rng().between(1, 7) as u8);
                    let from = self.random_start();
                    self.call(Event::WhoSees { address, from });
                }
                if self.rng().once_in(8) {
                    self.call(Event::Seconds(5));
                }
            }
        }
    }

    /// One to three fields; they name few addresses.
    fn random_tables(&mut self) -> Vec<Tlv> {
        let count = self.rng().between(1, 3);
        let table = |_| {
            if self.rng().once_in(3) {
                self.frames.random_link(&pool())
            } else {
                self.frames.random_extension(&pool())
            }
        };
        (0..count).map(table).collect()
    }
}

fn numbered(number: u8) -> Agent {
    Agent {
        chassis: address(&[2, 0, 0, 0, 0x30, number]),
        port: Id { subtype: 7, octets: b"1".to_vec() },
    }
}

/// The fields of one record each.
fn records() -> Vec<Vec<Tlv>> {
    let one = neighbour(1);
    let basic = link(&[1], &[0, 1], &[SOUGHT]);
    let other_basic = link(&[2], &[2], &[one]);
    let naming = Shape::at(&[0x0A, 0x01], &[3]).naming(&[SOUGHT]);
    let with_items = Shape::at(&[0x0B], &[0, 0, 4])
        .entry(&one, &items(2, 0x20))
        .entry(&SOUGHT, &items(2, 0x40))
        .pairing(&neighbour(11))
        .port_items(&items(2, 0x60));
    let paired = Shape::at(&[0x0C], &[5]).naming(&[one]).pairing(&SOUGHT);
    let pairing_only = Shape::at(&[0x0D], &[6]).pairing(&SOUGHT).pairing(&one);
    let no_address = Shape { c: 9, ..Shape::at(&[0x0E], &[7]) };
    let data = Shape::at(&[0x0F], &[8]).entry(&one, &[item(&SOUGHT)]);
    let behind = ttc(4, &[naming.body(), vec![0]].concat());
    let too_long = naming.clone().port_items(&[item_claiming(2, &[7])]).tlv();
    let miscounted = Shape { k: 2, ..naming.clone() }.tlv();
    let no_octets = Shape { p: 0, ..naming.clone() }.tlv();
    let wrong_basic = link_claiming(&[3], &[3], 2, &SOUGHT);
    let another_subtype = ttc(5, &naming.body());
    let [naming, with_items, paired, pairing_only, no_address, data, eight, single] =
        [naming, with_items, paired, pairing_only, no_address, data, eight_shape(), single_shape()]
            .map(|shape| shape.tlv());
    vec![
        vec![naming.clone()],
        vec![basic.clone(), naming.clone()],
        vec![naming.clone(), basic.clone()],
        vec![other_basic.clone(), with_items.clone(), basic.clone()],
        vec![with_items.clone(), other_basic.clone()],
        vec![eight.clone()],
        vec![eight, basic.clone()],
        vec![pairing_only.clone()],
        vec![pairing_only, list(&[SOUGHT]), other_basic.clone()],
        vec![behind.clone(), with_items.clone()],
        vec![miscounted, naming.clone(), with_items.clone()],
        vec![paired, no_address.clone(), naming.clone()],
        vec![too_long, other_basic],
        vec![no_octets, wrong_basic, naming],
        vec![data, another_subtype.clone(), with_items],
        vec![single, no_address],
        vec![behind, basic],
        vec![another_subtype],
    ]
}
