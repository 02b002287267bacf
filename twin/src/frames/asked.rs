//! Cases for what extension link information says: who sees an address (A4), and its numbers (A6).
//! It stands beside basic link information, beside others of its kind, and beside anything else.

use super::blocks::*;
use super::maker::Maker;
use super::shape::*;
use super::Kind;
use crate::reader::Address;

impl Maker {
    pub fn asked_extensions(&mut self) {
        self.both_kinds_of_links();
        self.several_extensions();
        self.asked_of_extensions();
        self.asked_numbers();
        self.later_editions();
        self.verdicts_beside_extensions();
        self.subtypes_of_extensions();
        self.where_extensions_stand();
    }

    /// Every two of them in either order: the first that names the address decides (A4).
    fn both_kinds_of_links(&mut self) {
        let eight = [&SOUGHT[..], &[0, 0]].concat();
        let naming = Shape::at(&[0x0A], &[1]).naming(&[neighbour(1), SOUGHT]);
        let halves = Shape::at(&[0x0E], &[5]).entry(&SOUGHT[..3], &[]).entry(&SOUGHT[3..], &[]);
        let tables = [
            link(&[1], &[1], &[SOUGHT, neighbour(2)]),
            link(&[2], &[1, 2], &[neighbour(2)]),
            link_claiming(&[3], &[3], 2, &SOUGHT),
            list(&[SOUGHT]),
            naming.tlv(),
            Shape::at(&[0, 0x0B], &[2]).entry(&SOUGHT, &[item(b"i")]).tlv(),
            Shape::at(&[0x0C], &[3]).naming(&[neighbour(2)]).pairing(&SOUGHT).tlv(),
            Shape::at(&[0x0D], &[4]).entry(&eight, &[]).tlv(),
            halves.tlv(),
            Shape::at(&[0x0F], &[6]).entry(&neighbour(1), &[item(&SOUGHT)]).tlv(),
            ttc(4, &[naming.body(), vec![0]].concat()),
            Shape::at(&[0x10], &[7]).tlv(),
        ];
        for (one, number) in tables.iter().zip(0..) {
            for other in &tables {
                let row = [one.clone(), other.clone()];
                self.extended(&row, SOUGHT, (0, 0));
                // Naming does not depend on the verdict.
                if number % 3 == 0 {
                    self.bare(lldpdu(&leading(), &row));
                }
                if number % 4 == 0 {
                    self.extended(&row, neighbour(2), (1, 0));
                }
            }
        }
        for _ in 0..60 {
            let mut row = tables.to_vec();
            self.rng.shuffle(&mut row);
            row.truncate(self.rng.between(3, 5));
            let asked = self.rng.pick(&[SOUGHT, SOUGHT, neighbour(1), neighbour(2)]);
            self.extended(&row, asked, (0, 0));
        }
    }

    /// The first well-formed one is read (A2), be it without addresses or not (A3).
    fn several_extensions(&mut self) {
        let mut wrong = rich_shape();
        wrong.d += 1;
        let rows = samples().map(|shape| shape.tlv());
        for (one, i) in rows.iter().zip(0..) {
            for other in &rows[..3] {
                self.extended(&[one.clone(), other.clone()], SOUGHT, (i % 3, i % 2));
                let row = [wrong.tlv(), one.clone(), wrong.tlv(), other.clone()];
                self.extended(&row, neighbour(1), (i % 2, 1));
            }
            self.extended(&[wrong.tlv(), one.clone()], SOUGHT, (0, 0));
            self.extended(&[one.clone(), wrong.tlv()], SOUGHT, (0, 0));
            self.extended(&[ttc(4, &[]), one.clone()], SOUGHT, (0, 1));
        }
        let crowd: Vec<Tlv> =
            (0..20).map(|i| Shape::at(&[i], &[i; 2]).naming(&[neighbour(i)]).tlv()).collect();
        for number in [0, 10, 19, 20] {
            self.extended(&crowd, neighbour(number), (0, 0));
        }
    }

    /// Every six octets that lie in the field, or share an octet with it: of them only whole
    /// addresses of six octets are named, and no pairing address is (A4).
    fn asked_of_extensions(&mut self) {
        for shape in [rich_shape(), eight_shape(), single_shape(), pairing_shape()] {
            let field = shape.tlv();
            let inside = lldpdu(&leading(), &[category(), field.clone(), model_number()]);
            let start = leading().concat().len() + category().len();
            for place in start..start + field.len() {
                let asked = std::array::from_fn(|i| inside[place + i]);
                self.frame_extended(inside.clone(), asked, (1, 1));
            }
        }
        // First, middle and last of many, all of them with items; and one octet is another one.
        let many = (1..=9).fold(Shape::at(&[1, 2], &[3]), |shape, number| {
            shape.entry(&neighbour(number), &items(3, 0x10 * number))
        });
        let paired = many.pairing(&neighbour(20)).port_items(&items(2, 0x90));
        for number in [0, 1, 5, 9, 10, 20] {
            self.extended(&[paired.tlv()], neighbour(number), (number, 2));
        }
        for place in 0..6 {
            let mut asked = neighbour(5);
            asked[place] ^= 0x10;
            self.extended(&[paired.tlv()], asked, (place as u8, 1));
        }
        // Longer and shorter ones that begin or end with the address.
        for p in [1, 2, 5, 7, 8, 12, 255] {
            let mut address = padded(&SOUGHT, p);
            self.extended(&[Shape::plain().entry(&address, &[]).tlv()], SOUGHT, (0, 0));
            address.reverse();
            let asked: Address = std::array::from_fn(|i| SOUGHT[5 - i]);
            self.extended(&[Shape::plain().entry(&address, &[]).tlv()], asked, (0, 0));
        }
    }

    /// Numbers that are there, the first that is not, and far ones (A6).
    fn asked_numbers(&mut self) {
        for shape in samples() {
            let from_0 = |count: u8| (0..=count + 1).chain([128, 255]);
            for i in from_0(shape.k.max(shape.q)) {
                for j in from_0(shape.c.max(shape.d)) {
                    self.extended(&[shape.tlv()], SOUGHT, (i, j));
                }
            }
        }
        // Octets that are not well formed are not read, and so not asked (A2).
        for numbers in [(0, 0), (1, 1), (255, 255)] {
            let wrong = Shape { q: 3, ..rich_shape() };
            self.extended(&[wrong.tlv()], SOUGHT, numbers);
            self.extended(&[wrong.tlv(), bench_shape().tlv()], SOUGHT, numbers);
        }
    }

    /// The same field as a later edition may have it: items are added behind the others (T13). Each
    /// item that was there before is asked for again.
    fn later_editions(&mut self) {
        for (c, d) in [(0, 0), (2, 2), (9, 3)] {
            for (more_c, more_d) in [(0, 0), (1, 0), (0, 1), (3, 2), (11, 11)] {
                let of_address = |first: u8| [items(c, first), items(more_c, 0xC0)].concat();
                let shape = Shape::at(&[71], &[1])
                    .entry(&neighbour(1), &of_address(0x20))
                    .entry(&SOUGHT, &of_address(0x40))
                    .pairing(&neighbour(11))
                    .port_items(&[items(d, 0x60), items(more_d, 0xD0)].concat());
                for j in 0..=c.max(1) as u8 {
                    self.extended(&[shape.tlv()], SOUGHT, (1, j));
                }
            }
        }
    }

    /// The verdict does not know it, well formed or not (H1).
    fn verdicts_beside_extensions(&mut self) {
        let right = rich_shape();
        let fields = [
            right.tlv(),
            ttc(4, &[]),
            ttc(4, &[right.body(), vec![0]].concat()),
            ttc(4, &right.body()[..9]),
            Shape { p: 0, ..right.clone() }.tlv(),
            ttc(4, &[0xFF; 20]),
            ttc(5, &right.body()),
        ];
        let verdicts = [
            vec![category(), model_number()],
            vec![category()],
            vec![category(), category(), model_number()],
            vec![category(), model_number(), link(&[], &[3], &[SOUGHT])],
            vec![category(), model_number(), list_claiming(1, &[7; 7])],
            vec![category(), model_number(), description(b"a&b")],
        ];
        for others in verdicts {
            for field in &fields {
                let mut later = [others.clone(), vec![field.clone()]].concat();
                self.rng.shuffle(&mut later);
                self.both(lldpdu(&leading(), &later));
            }
        }
        self.with(&fields);
        // A goodbye may carry it (N7).
        for field in &fields {
            let first_three = [chassis(), port(), tlv(3, &[0, 0])];
            self.frame_extended(lldpdu(&first_three, std::slice::from_ref(field)), SOUGHT, (1, 2));
        }
    }

    /// Its octets behind another subtype, or behind the code of another organization (T1, T9).
    fn subtypes_of_extensions(&mut self) {
        let body = rich_shape().body();
        for subtype in [0, 1, 2, 3, 5, 6, 8, 12, 20, 36, 68, 132, 255] {
            self.extended(&[ttc(subtype, &body)], SOUGHT, (1, 1));
            self.extended(&[ttc(subtype, &body), bench_shape().tlv()], SOUGHT, (0, 0));
        }
        for place in 2..5 {
            let mut other = rich_shape().tlv();
            other[place] ^= 0x01;
            self.extended(&[other], SOUGHT, (1, 1));
        }
        // The octets of the other fields behind its subtype.
        for field in every_field().iter().filter(|field| field[0] == 0xFE) {
            let mut other = field.clone();
            other[5] = 4;
            self.extended(&[other], SOUGHT, (0, 0));
        }
    }

    /// Among all other fields, in other TLVs, and behind the End (L8, L9).
    fn where_extensions_stand(&mut self) {
        let field = rich_shape().tlv();
        for place in 0..=8 {
            let mut later = every_field().to_vec();
            later.insert(place, field.clone());
            self.frame_extended(lldpdu(&leading(), &later), neighbour(3), (2, 1));
        }
        for kind in [4, 5, 6, 8, 9, 126] {
            self.extended(&[tlv(kind, &field), tlv(kind, &field[2..])], neighbour(3), (0, 0));
        }
        for fault in [chassis(), port(), seconds(), tlv(0, &[0]), tlv(127, &TTC)] {
            self.extended(&[field.clone(), fault.clone()], SOUGHT, (0, 0));
            self.extended(&[fault, field.clone()], SOUGHT, (0, 0));
        }
        let inside = self.beside(&[link(&[6], &[3], &[neighbour(1)])]);
        self.both([inside.clone(), field.clone()].concat());
        self.both([inside, field, end()].concat());
    }

    /// Whole LLDPDUs put together at random, and fields in which one octet is another one.
    pub fn random_extensions(&mut self) {
        let from = self.cases.len();
        self.random(Maker::random_later_of_extensions, 120, 80);
        for place in from..self.cases.len() {
            (self.cases[place].i, self.cases[place].j) = self.few();
        }
        for round in 0..400 {
            let pool = pool();
            let mut body = random_shape(&mut self.rng, &pool[..3]).body();
            if round % 3 > 0 {
                self.change(&mut body);
            }
            let asked = self.rng.pick(&pool[..3]);
            let numbers = self.few();
            match round % 5 {
                0 => {
                    let inside = lldpdu(&leading(), &[ttc(4, &body)]);
                    self.add_asking(Kind::Bare, inside, asked, numbers);
                }
                _ => self.extended(&[ttc(4, &body)], asked, numbers),
            }
        }
    }

    /// One octet becomes another one, mostly by little.
    fn change(&mut self, body: &mut [u8]) {
        let place = self.rng.below(body.len());
        body[place] = match self.rng.below(4) {
            0 => self.rng.octet(),
            1 => self.rng.pick(&[0, 1, 6, 255]),
            _ => body[place].wrapping_add(self.rng.pick(&[1, 0xFF])),
        };
    }
}
