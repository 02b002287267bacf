//! Cases for the form of extension link information (T11): counts, lengths, and where it ends.
//! None of them touches the verdict (H1). The address asked for is often among those named.

use super::blocks::*;
use super::maker::Maker;
use super::shape::*;
use super::Kind;
use crate::reader::Address;

impl Maker {
    pub fn extensions(&mut self) {
        self.bench_extensions();
        self.counts_of_items();
        self.lengths_of_items();
        self.lengths_of_addresses();
        self.as_many_as_fit();
        self.without_addresses();
        self.hostile_counts();
        self.interface_and_number();
        self.cut_extensions();
        self.octets_behind();
        self.longest_extensions();
        self.believed_beyond();
        self.asked_extensions();
        self.random_extensions();
    }

    /// A frame that is HTIP but for the given TLVs, with what is asked of it.
    pub(super) fn extended(&mut self, tlvs: &[Tlv], asked: Address, numbers: (u8, u8)) {
        let inside = self.beside(tlvs);
        self.frame_extended(inside, asked, numbers);
    }

    /// A frame with a right header around the LLDPDU, with what is asked of it.
    pub(super) fn frame_extended(&mut self, inside: Vec<u8>, asked: Address, numbers: (u8, u8)) {
        let frame = [self.header(), inside].concat();
        self.add_asking(Kind::Frame, frame, asked, numbers);
    }

    /// Few numbers, so that they are often there and often just not.
    pub(super) fn few(&mut self) -> (u8, u8) {
        (self.rng.below(4) as u8, self.rng.below(4) as u8)
    }

    fn shaped(&mut self, shape: &Shape) {
        self.shaped_as(&shape.body());
    }

    /// The same by the octets behind the subtype.
    fn shaped_as(&mut self, body: &[u8]) {
        let numbers = self.few();
        self.extended(&[ttc(4, body)], SOUGHT, numbers);
    }

    /// B21 to B24 in frame A, with each address of theirs and with several numbers.
    fn bench_extensions(&mut self) {
        let nine = [2, 0, 0, 0, 0, 9];
        let ten_items = [vec![item(&[0x32])], vec![item(&[]); 9]].concat();
        let rows = [
            bench_shape(),
            Shape { items: item_claiming(2, &[0x07]), ..bench_shape() },
            Shape::plain().entry(&[2, 0, 0, 0, 0, 9, 0, 0], &[]),
            Shape::plain().entry(&nine, &ten_items),
        ];
        for shape in rows {
            let later = [category(), model_number(), shape.tlv()];
            let frame = headed(EVERYONE, [2, 0, 0, 0, 0, 1], LLDP, &lldpdu(&leading(), &later));
            for asked in [nine, [2, 0, 0, 0, 0, 0x0A]] {
                for numbers in [(0, 0), (0, 1), (0, 9), (0, 10), (1, 0), (255, 255)] {
                    self.add_asking(Kind::Frame, frame.clone(), asked, numbers);
                }
            }
        }
    }

    /// c and d from 0 to 12: later editions have more items than this one, and none is refused for
    /// it (T12, T13).
    fn counts_of_items(&mut self) {
        for c in 0..=12 {
            for d in 0..=12 {
                let mut shape = Shape::at(&[71], &[c as u8, d as u8])
                    .entry(&neighbour(1), &items(c, 0x10))
                    .port_items(&items(d, 0x50));
                if c % 2 == 0 {
                    shape = shape.entry(&SOUGHT, &items(c, 0x80));
                }
                if d % 3 == 0 {
                    shape = shape.pairing(&neighbour(11));
                }
                let numbers = (self.rng.below(3) as u8, self.rng.pick(&[c, d, 0, 1, 8]) as u8);
                self.extended(&[shape.tlv()], SOUGHT, numbers);
                if (c + d) % 5 == 0 {
                    self.miscounted(&shape);
                }
            }
        }
    }

    /// Each count one too large, and one too small, which makes 255 of 0.
    fn miscounted(&mut self, shape: &Shape) {
        let counts: [fn(&mut Shape) -> &mut u8; 5] = [
            |shape| &mut shape.p,
            |shape| &mut shape.k,
            |shape| &mut shape.c,
            |shape| &mut shape.d,
            |shape| &mut shape.q,
        ];
        for count in counts {
            for change in [1, 0xFF] {
                let mut wrong = shape.clone();
                *count(&mut wrong) = count(&mut wrong).wrapping_add(change);
                self.shaped(&wrong);
            }
        }
    }

    /// Every length of an item, of an address and of the port, the first and the last one; and a
    /// length that states one octet more than there is, or one fewer.
    fn lengths_of_items(&mut self) {
        for length in (0..=20).chain([100, 255]) {
            let data = self.rng.octets(length);
            for claimed in length.saturating_sub(1)..=(length + 1).min(255) {
                let long = item_claiming(claimed, &data);
                let short = item(b"s");
                let rows = [[long.clone(), short.clone()], [short, long]];
                for (row, j) in rows.iter().zip([0, 1]) {
                    let plain = Shape::plain();
                    let of_address = plain.clone().entry(&SOUGHT, row).port_items(&items(2, 0x30));
                    self.extended(&[of_address.tlv()], SOUGHT, (0, j));
                    let of_port = plain.naming(&[SOUGHT]).port_items(row);
                    self.extended(&[of_port.tlv()], SOUGHT, (0, j));
                }
            }
        }
    }

    /// p with few addresses and pairing addresses. Where p is 0 there must be none (T11).
    fn lengths_of_addresses(&mut self) {
        for p in [0, 1, 2, 5, 6, 7, 8, 16, 100, 255] {
            for (k, q) in [(0, 0), (1, 0), (0, 1), (1, 1), (2, 1), (1, 2), (3, 2)] {
                for c in [0, 1, 2] {
                    let mut shape = Shape { p: p as u8, c: c as u8, ..Shape::plain() };
                    for number in 0..k {
                        let address = padded(&neighbour(number), p);
                        shape = shape.entry(&address, &items(c, number));
                    }
                    for number in 0..q {
                        shape = shape.pairing(&padded(&neighbour(10 + number), p));
                    }
                    let shape = shape.port_items(&items(c, 0x70));
                    if shape.body().len() <= LONGEST_BODY {
                        let numbers = self.few();
                        self.extended(&[shape.tlv()], neighbour(0), numbers);
                    }
                }
            }
        }
        for shape in samples() {
            self.miscounted(&shape);
        }
    }

    /// As many addresses, pairing addresses and items as there is room for, and one more (L2).
    fn as_many_as_fit(&mut self) {
        for p in [1, 2, 6, 8, 255] {
            let most = ((LONGEST_BODY - 9) / p).min(255);
            let octets = crowd(83).concat()[..p * most].to_vec();
            let many = most as u8;
            let p = p as u8;
            let plain = Shape { p, ..Shape::plain() };
            let all = Shape { k: many, entries: octets.clone(), ..plain.clone() };
            let paired = Shape { q: many, pairings: octets.clone(), ..plain };
            for (shape, asked) in [(&all, neighbour(0)), (&all, SOUGHT), (&paired, neighbour(0))] {
                for numbers in [(0, 0), (many - 1, 0), (many, 0)] {
                    self.extended(&[shape.tlv()], asked, numbers);
                }
            }
            for shape in [
                Shape { k: many.wrapping_add(1), ..all.clone() },
                Shape { k: many - 1, ..all },
                Shape { q: many.wrapping_add(1), ..paired.clone() },
                Shape { q: many - 1, ..paired },
            ] {
                self.shaped(&shape);
            }
        }
        // As many items as can be counted, all of them empty.
        let empty = vec![item(&[]); 255];
        for shape in [
            Shape::plain().entry(&SOUGHT, &empty),
            Shape::plain().naming(&[SOUGHT]).port_items(&empty),
            Shape::plain().entry(&SOUGHT, &empty[..200]).port_items(&empty[..200]),
        ] {
            for numbers in [(0, 0), (0, 199), (0, 254), (0, 255)] {
                self.extended(&[shape.tlv()], SOUGHT, numbers);
            }
            let mut body = shape.body();
            body.push(0);
            self.shaped_as(&body);
            self.shaped_as(&body[..body.len() - 2]);
        }
    }

    /// With k = 0 any c and any p will do, and with q = 0 besides even p = 0 (T11).
    fn without_addresses(&mut self) {
        for p in [0, 1, 6, 8, 255] {
            for c in [0, 1, 2, 9, 255] {
                for d in [0, 2] {
                    let shape = Shape { p, c, ..Shape::plain() };
                    self.shaped(&shape.port_items(&items(d, 0x20)));
                }
                if p > 0 {
                    let shape = Shape { c, ..Shape::plain() };
                    self.shaped(&shape.pairing(&vec![p; usize::from(p)]));
                }
            }
        }
        // With p = 0 it is well formed but for this one rule, whatever stands around it.
        for (k, q) in [(1, 0), (0, 1), (2, 3), (255, 0), (0, 255), (255, 255)] {
            for c in [0, 1] {
                let entries = vec![0; usize::from(c) * usize::from(k)];
                let shape = Shape { p: 0, k, c, q, entries, ..Shape::plain() };
                self.shaped(&shape);
                self.shaped(&shape.port_items(&items(2, 0x20)));
            }
        }
    }

    /// Counts that promise far more than there is, before few octets and before many (L2).
    fn hostile_counts(&mut self) {
        for shape in [bench_shape(), rich_shape(), pairing_shape()] {
            for count in [127, 128, 254, 255] {
                for wrong in [
                    Shape { p: count, ..shape.clone() },
                    Shape { k: count, ..shape.clone() },
                    Shape { c: count, ..shape.clone() },
                    Shape { d: count, ..shape.clone() },
                    Shape { q: count, ..shape.clone() },
                    Shape { k: count, c: count, ..shape.clone() },
                    Shape { d: count, q: count, ..shape.clone() },
                ] {
                    self.shaped(&wrong);
                }
            }
        }
        for filling in [0x00, 0x01, 0xFF] {
            for (p, k, c) in [
                (0, 255, 255),
                (1, 255, 255),
                (1, 255, 0),
                (6, 255, 255),
                (6, 1, 255),
                (6, 0, 255),
                (255, 1, 255),
                (255, 255, 255),
            ] {
                let body = [&[1, 0x47, 1, 0, p, k, c], &[filling; 60][..]].concat();
                self.shaped_as(&body);
                if k == 255 {
                    self.shaped_as(&[&body[..7], &[filling; LONGEST_BODY - 7]].concat());
                }
            }
        }
    }

    /// n and m (T7, T11), and n and m that reach the last octet or go beyond it.
    fn interface_and_number(&mut self) {
        for n in 0..=5 {
            for m in 0..=5 {
                let interface = self.rng.octets(n);
                let number = self.rng.octets(m);
                self.shaped(&Shape::at(&interface, &number).naming(&[neighbour(1), SOUGHT]));
            }
        }
        // Leading zeros count as octets (A4).
        let numbers: [&[u8]; 4] = [&[0], &[0, 6], &[0xFF; 4], &[0x80, 0, 0, 0]];
        for octets in numbers {
            self.shaped(&Shape::at(octets, &[1, 2]).naming(&[SOUGHT]));
            self.shaped(&Shape::at(&[6], octets).naming(&[SOUGHT]));
        }
        let body = bench_shape().body();
        for (place, octet) in [(0, 2), (0, 5), (0, 255), (0, 0x81), (2, 2), (2, 4), (2, 255)] {
            let mut wrong = body.clone();
            wrong[place] = octet;
            self.shaped_as(&wrong);
        }
    }

    /// Every prefix of the octets behind the subtype, with a TLV behind it that would complete it;
    /// and every prefix of an LLDPDU (R5).
    fn cut_extensions(&mut self) {
        for shape in samples() {
            let body = shape.body();
            for length in 0..body.len() {
                let numbers = self.few();
                self.extended(&[ttc(4, &body[..length]), tlv(9, &[1; 12])], SOUGHT, numbers);
            }
        }
        for shape in [bench_shape(), eight_shape()] {
            let before = [leading().concat(), category(), model_number()].concat();
            let whole = [before.clone(), shape.tlv(), end()].concat();
            for length in before.len()..=whole.len() {
                self.frame_extended(whole[..length].to_vec(), SOUGHT, (0, 0));
            }
            // L says more or less than there is.
            let right = shape.tlv();
            let value = &right[2..];
            for claimed in [value.len() - 1, value.len() + 1, value.len() + 2, 511] {
                let field = tlv_claiming(127, claimed, value);
                self.both(lldpdu(&leading(), &[category(), model_number(), field]));
            }
        }
    }

    /// An octet or more behind the last item (T11).
    fn octets_behind(&mut self) {
        for shape in samples() {
            for behind in [&[0x00][..], &[0x01], &[0xFF], &[0x00, 0x00], &[0x01, 0x00]] {
                self.shaped_as(&[&shape.body(), behind].concat());
            }
            self.shaped_as(&[shape.body(), shape.body()].concat());
        }
    }

    /// L = 4, and L at its greatest and near it.
    fn longest_extensions(&mut self) {
        for next in [tlv(9, &[1; 12]), bench_shape().tlv(), ttc(4, &[]), tlv(127, &[0; 256])] {
            self.extended(&[ttc(4, &[]), next], SOUGHT, (0, 0));
        }
        for shape in samples() {
            for octets in [LONGEST_BODY - 1, LONGEST_BODY] {
                let shape = shape.clone().of_length(octets);
                self.extended(&[shape.tlv()], SOUGHT, (1, shape.d - 1));
            }
        }
        let longest = rich_shape().of_length(LONGEST_BODY).body();
        let mut wrong = longest.clone();
        wrong[LONGEST_BODY - 1] = 0;
        self.shaped_as(&wrong);
        self.shaped_as(&longest[..LONGEST_BODY - 1]);
        let almost = rich_shape().of_length(LONGEST_BODY - 1).body();
        self.shaped_as(&[&almost[..], &[0]].concat());
        // L is right but for its ninth bit.
        self.shaped_as(&[bench_shape().body(), vec![0; 256]].concat());
        self.shaped(&bench_shape().of_length(260));
        // The longest ones in the longest frame, and one octet more.
        let fields = [rich_shape(), eight_shape()].map(|shape| shape.of_length(LONGEST_BODY).tlv());
        for length in [1500, 1501] {
            let inside = self.beside(&fields);
            let filled = self.filled_up(inside, length);
            self.frame_extended(filled, SOUGHT, (1, 2));
        }
    }

    /// A count or a length is believed beyond L: what it wants stands in the next TLV, header and
    /// all.
    fn believed_beyond(&mut self) {
        let next = [0x12, 0x04, 0x00, 0x00, 0x10, 0x51];
        let named = Shape::plain().naming(&[neighbour(1)]);
        for shape in [
            Shape { q: 1, ..named.clone() },
            named.clone().port_items(&[item_claiming(6, &[])]),
            named.clone().port_items(&[item_claiming(7, &[1])]),
            Shape { d: 1, ..named.clone() },
            Shape { d: 2, ..named.clone() },
        ] {
            for asked in [next, neighbour(1)] {
                self.extended(&[shape.tlv(), next.to_vec()], asked, (0, 0));
            }
        }
        // Without its last two octets, which would be in the next header: a TLV of type 0 or 9.
        let body = named.body();
        for header in [[0x12, 0x00], [0x00, 0x00]] {
            let short = ttc(4, &body[..body.len() - 2]);
            let later = [category(), model_number(), short, header.to_vec()];
            self.frame_extended(lldpdu(&leading(), &later), neighbour(1), (0, 0));
        }
    }
}
