//! Cases for extension link information of a description (W1, W3, W5, W7): its form and its place.
//! What is broken is broken by construction: no well-formed octets begin other well-formed ones.

use super::maker::{Maker, LONGEST_LLDPDU};
use super::plan::{Field, Plan};
use super::rules::leave_out;
use crate::frames::blocks::*;
use crate::frames::shape::*;
use crate::id::Id;
use crate::writer::Part;

impl Maker {
    pub fn extensions(&mut self) {
        self.combinations_of_tables();
        self.well_formed_extensions();
        self.malformed_extensions();
        self.lengths_of_extensions();
        self.goodbyes_of_extensions();
        self.totals_of_extensions();
        self.places_of_extensions();
        self.parts_in_an_extension();
        self.rooms_for_extensions();
        self.random_of_extensions();
    }

    /// Little else, and these octets behind the subtype.
    fn plain_extended(&mut self, body: Vec<u8>) -> Plan {
        let plan = self.plain();
        extended(plan, body)
    }

    /// Some of everything else, and these octets behind the subtype.
    fn some_extended(&mut self, body: Vec<u8>) -> Plan {
        let plan = self.some();
        let plan = self.with_some_system(plan);
        extended(plan, body)
    }

    /// Any well-formed one.
    pub fn any_shape(&mut self) -> Shape {
        random_shape(&mut self.rng, &pool())
    }

    /// The three tables present and absent, with addresses and without: it stands behind link
    /// information and before the address list (W1, A3).
    fn combinations_of_tables(&mut self) {
        let bodies =
            [None, Some(Shape::plain()), Some(bench_shape())].map(|shape| shape.map(|s| s.body()));
        for link in 0..3 {
            for list in 0..3 {
                for body in &bodies {
                    let mut plan = self.full();
                    leave_out(&mut plan, link, list);
                    plan.extension = body.clone();
                    self.sound(&plan);
                }
            }
        }
    }

    /// Counts and lengths of all sizes (T11), those of later editions among them (T13).
    fn well_formed_extensions(&mut self) {
        for shape in samples() {
            let plan = self.plain_extended(shape.body());
            self.sound(&plan);
            let plan = self.some_extended(shape.body());
            self.sound(&plan);
        }
        for count in 0..=12 {
            let shape = Shape::at(&[71], &[count as u8])
                .entry(&neighbour(1), &items(count, 0x10))
                .entry(&SOUGHT, &items(count, 0x30));
            for d in [0, 2, 12 - count] {
                let plan = self.plain_extended(shape.clone().port_items(&items(d, 0x50)).body());
                self.sound(&plan);
            }
        }
        for n in 1..=4 {
            for m in 1..=4 {
                let interface = self.rng.octets(n);
                let number = self.rng.octets(m);
                let shape = Shape::at(&interface, &number).naming(&[SOUGHT]);
                let plan = self.plain_extended(shape.body());
                self.sound(&plan);
            }
        }
        for p in [1, 2, 5, 7, 8, 100, 255] {
            for shape in [
                Shape::plain().entry(&vec![0xEE; p], &[]),
                Shape::plain().pairing(&vec![0xEE; p]),
                Shape { p: p as u8, c: p as u8, ..Shape::plain() },
            ] {
                let plan = self.plain_extended(shape.body());
                self.sound(&plan);
            }
        }
        for (p, c) in [(0, 0), (0, 255), (6, 255), (255, 2)] {
            let plan = self.plain_extended(Shape { p, c, ..Shape::plain() }.body());
            self.sound(&plan);
        }
        let empty = vec![item(&[]); 255];
        for shape in [
            Shape::plain().entry(&SOUGHT, &empty),
            Shape::plain().port_items(&empty),
            Shape { p: 1, k: 255, entries: vec![7; 255], ..Shape::plain() },
            Shape { p: 1, q: 255, pairings: vec![7; 255], ..Shape::plain() },
            Shape::plain().entry(&SOUGHT, &[item(&[9; 255])]).port_items(&[item(&[8; 100])]),
        ] {
            let plan = self.plain_extended(shape.body());
            self.sound(&plan);
        }
    }

    /// Every way of not being well formed gives 9 (W7).
    fn malformed_extensions(&mut self) {
        let mut bodies = vec![vec![], vec![0], vec![0; 9], vec![0xFF; 9], vec![0xEE; 30]];
        for shape in samples() {
            bodies.extend(malformed(&shape));
        }
        // Every prefix, whatever stands behind it in the text.
        for shape in [bench_shape(), pairing_shape()] {
            let body = shape.body();
            bodies.extend((1..body.len()).map(|length| body[..length].to_vec()));
        }
        for (n, m) in [(0, 1), (1, 0), (0, 0), (5, 1), (1, 5), (5, 5), (4, 255), (255, 4)] {
            let shape = Shape::at(&vec![1; n], &vec![2; m]).naming(&[SOUGHT]);
            bodies.push(shape.body());
        }
        for (k, q) in [(1, 0), (0, 1), (3, 2), (255, 255)] {
            bodies.push(Shape { p: 0, k, q, ..Shape::plain() }.body());
        }
        for count in [127, 255] {
            for wrong in [
                Shape { p: count, ..rich_shape() },
                Shape { k: count, ..rich_shape() },
                Shape { c: count, ..rich_shape() },
                Shape { d: count, ..rich_shape() },
                Shape { q: count, ..rich_shape() },
            ] {
                bodies.push(wrong.body());
            }
        }
        for (body, number) in bodies.into_iter().zip(0..) {
            let plan = match number % 3 {
                0 => self.some_extended(body),
                _ => self.plain_extended(body),
            };
            self.broken(&plan);
        }
        // The octets of the other tables are none of these.
        for body in [link(&[6], &[3], &[SOUGHT]), list(&[SOUGHT])].map(body_of) {
            let plan = self.plain_extended(body);
            self.broken(&plan);
        }
    }

    /// At most 507 octets (W5). Some lengths look right in eight or nine bits only.
    fn lengths_of_extensions(&mut self) {
        for shape in [Shape::plain(), rich_shape(), eight_shape()] {
            for octets in [255, 256, 257, 506, 507, 508, 509, 512, 763] {
                let plan = self.plain_extended(shape.clone().of_length(octets).body());
                self.judged(&plan, octets <= LONGEST_BODY);
            }
        }
        let plan = self.plain_extended(bench_shape().of_length(1019).body());
        self.broken(&plan);
        // Only addresses, and only pairing addresses: 83 of six octets fit.
        for many in [82, 83, 84, 85] {
            let octets = self.addresses(many);
            let k = many as u8;
            for shape in [
                Shape { k, entries: octets.clone(), ..Shape::plain() },
                Shape { q: k, pairings: octets, ..Shape::plain() },
            ] {
                let plan = self.plain_extended(shape.body());
                self.judged(&plan, many <= 83);
            }
        }
    }

    /// With seconds 0 it breaks a rule by being present (W3).
    fn goodbyes_of_extensions(&mut self) {
        let bodies = samples().map(|shape| shape.body());
        for body in bodies.into_iter().chain([vec![], vec![0], vec![0xFF; 20]]) {
            let plan = self.goodbye();
            self.broken(&extended(plan, body));
        }
        let mut plan = self.full();
        plan.seconds = 0;
        self.broken(&extended(plan, bench_shape().body()));
        // Without it the same is sound.
        let plan = self.goodbye();
        self.sound(&plan);
    }

    /// Around 1,500 octets (R9): it is the one field too many, or not.
    fn totals_of_extensions(&mut self) {
        let ids = [address(&characters(6)), address(&characters(8)), local(&characters(20))];
        for (id, octets) in ids.iter().zip([9, 100, LONGEST_BODY]) {
            for total in [1499, 1500, 1501] {
                let mut plan = self.of_length_with(id, total - 6 - octets);
                plan.extension = Some(Shape::plain().of_length(octets).body());
                assert_eq!(plan.length(), total);
                self.judged(&plan, total <= LONGEST_LLDPDU);
            }
        }
        // With system fields besides; one octet more in it makes the whole too long.
        let mut plan = self.of_length_with(&ids[0], 1200);
        plan = self.with_system(plan);
        let rest = LONGEST_LLDPDU - plan.length() - 6;
        for octets in [rest, rest + 1] {
            plan.extension = Some(rich_shape().of_length(octets).body());
            self.judged(&plan, octets == rest);
        }
    }

    /// Its part lies in the text, outside it, and over others (W7).
    fn places_of_extensions(&mut self) {
        for shape in [Shape::plain(), bench_shape(), rich_shape()] {
            let plan = self.full();
            let plan = extended(self.with_system(plan), shape.body());
            self.at_the_end(plan.clone(), Field::Extension);
            self.far_outside(plan, Field::Extension);
        }
        // An empty part is not well formed, wherever it lies; an absent one lies nowhere.
        for start in [0, 1, 5, 1 << 63, u64::MAX] {
            let plan = self.plain();
            let (mut description, text) = self.laid_out(&plan);
            description.extension = Some(Part { start, len: 0 });
            self.add((description, text), plan.length() + 20, Err(9));
        }
    }

    /// Other strings lie in its octets, and it lies in theirs.
    fn parts_in_an_extension(&mut self) {
        let body = rich_shape().body();
        let whole = Part { start: 0, len: body.len() as u64 };
        for step in 0..6 {
            let mut plan = self.full();
            plan.chassis = address(&[0; 6]);
            plan.port = Id { subtype: 7, octets: body[..3].to_vec() };
            plan.words = vec![];
            plan.category = body.clone();
            plan = extended(plan, body.clone());
            let (mut description, _) = plan.laid_out(&[], |_, _| Part::default());
            let part = |start: u64, string: &[u8]| Part { start, len: string.len() as u64 };
            description.chassis.octets = part(2 * step, &plan.chassis.octets);
            description.port.octets = part(0, &plan.port.octets);
            description.category = whole;
            description.manufacturer = part(step, &plan.manufacturer);
            description.model_name = part(3 + step, &plan.model_name);
            description.model_number = part(4, &plan.model_number);
            let strings = plan.link.as_ref().expect("it is full");
            let link = description.link.as_mut().expect("it is full");
            link.interface = part(1, &strings.interface);
            link.number = part(step, &strings.number);
            link.addresses = part(3, &strings.addresses);
            description.list = Some(part(9, plan.list.as_ref().expect("it is full")));
            description.extension = Some(whole);
            self.add_sound((description.clone(), body.clone()), plan.length(), plan.length());
            // With one octet less in the text, what reached its end lies outside.
            let cut = body[..body.len() - 1].to_vec();
            self.add((description.clone(), cut), plan.length(), Err(9));
            // The part is one octet too short or begins one octet too late.
            for (start, len) in [(0, whole.len - 1), (1, whole.len - 1)] {
                description.extension = Some(Part { start, len });
                self.add((description.clone(), body.clone()), plan.length(), Err(9));
            }
        }
    }

    /// Buffers that are too short by little, exact and longer; 9 goes before 10 (R10, Q1, W4).
    fn rooms_for_extensions(&mut self) {
        for body in [Shape::plain().body(), rich_shape().body()] {
            let plan = self.some_extended(body.clone());
            let length = plan.length();
            for room in [0, 1, length - 2, length - 1, length, length + 1, length + 60] {
                self.sound_in(&plan, room);
            }
            let plan = self.plain_extended([body, vec![0]].concat());
            let length = plan.length();
            for room in [0, length - 1, length, length + 40] {
                self.broken_in(&plan, room);
            }
        }
    }
}

/// The plan with these octets behind the subtype.
fn extended(mut plan: Plan, body: Vec<u8>) -> Plan {
    plan.extension = Some(body);
    plan
}

/// Octets much like those of a well-formed shape: too many, too few, or miscounted.
pub fn malformed(shape: &Shape) -> Vec<Vec<u8>> {
    let body = shape.body();
    let mut bodies = vec![
        [&body[..], &[0]].concat(),
        [&body[..], &[1, 0]].concat(),
        [&body[..], &body].concat(),
        body[..body.len() - 1].to_vec(),
        Shape { interface: vec![], ..shape.clone() }.body(),
        Shape { interface: vec![1; 5], ..shape.clone() }.body(),
        Shape { number: vec![], ..shape.clone() }.body(),
        Shape { number: vec![1; 5], ..shape.clone() }.body(),
        // One item more is counted than there is, or the last one is too long by one.
        Shape { d: shape.d + 1, ..shape.clone() }.body(),
        shape.clone().port_items(&[item_claiming(4, &[1, 2, 3])]).body(),
        shape.clone().port_items(&[item_claiming(2, &[1, 2, 3])]).body(),
        shape.clone().port_items(&[item_claiming(255, &[])]).body(),
    ];
    if shape.d > 0 {
        bodies.push(Shape { d: shape.d - 1, ..shape.clone() }.body());
    }
    if shape.k > 0 || shape.q > 0 {
        let no_octets = Shape { p: 0, entries: vec![], pairings: vec![], c: 0, ..shape.clone() };
        bodies.push(no_octets.body());
    }
    bodies
}
