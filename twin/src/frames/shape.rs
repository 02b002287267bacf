//! Shapes of extension link information (T11), well formed or not, for frames, texts and events.
//! Every count of a shape is what it states; what stands there is put in apart from it.

use super::blocks::*;
use crate::reader::Address;
use crate::rng::Rng;

/// An item as it stands: its length and its data.
pub type Item = Vec<u8>;

/// What stands behind the subtype, in its order. n and m are as many octets as there are.
#[derive(Clone, Debug)]
pub struct Shape {
    pub interface: Vec<u8>,
    pub number: Vec<u8>,
    pub p: u8,
    pub k: u8,
    pub c: u8,
    /// The addresses, each with its items.
    pub entries: Vec<u8>,
    pub d: u8,
    pub q: u8,
    pub pairings: Vec<u8>,
    pub items: Vec<u8>,
}

pub fn item(data: &[u8]) -> Item {
    item_claiming(data.len(), data)
}

/// An item that states this length, whatever data it has.
pub fn item_claiming(length: usize, data: &[u8]) -> Item {
    assert!(length < 256);
    [&[length as u8], data].concat()
}

/// That many items, of which no two near each other have the same data or the same length.
pub fn items(count: usize, first: u8) -> Vec<Item> {
    let of_number = |number: u8| item(&vec![first.wrapping_add(number); usize::from(number % 3)]);
    (1..).take(count).map(of_number).collect()
}

impl Shape {
    /// Neither addresses nor items, seen at this interface type and port number.
    pub fn at(interface: &[u8], number: &[u8]) -> Shape {
        Shape {
            interface: interface.to_vec(),
            number: number.to_vec(),
            p: 6,
            k: 0,
            c: 0,
            entries: vec![],
            d: 0,
            q: 0,
            pairings: vec![],
            items: vec![],
        }
    }

    /// The same at an interface type and a port number of one octet each.
    pub fn plain() -> Shape {
        Shape::at(&[0x47], &[0x00])
    }

    /// One more address with its items. All addresses of a well-formed one have as many octets, and
    /// as many items.
    pub fn entry(mut self, address: &[u8], items: &[Item]) -> Shape {
        self.p = address.len() as u8;
        self.k += 1;
        self.c = items.len() as u8;
        self.entries.extend(address);
        self.entries.extend(items.concat());
        self
    }

    /// Addresses without items.
    pub fn naming(self, addresses: &[Address]) -> Shape {
        addresses.iter().fold(self, |shape, address| shape.entry(address, &[]))
    }

    /// One more pairing address.
    pub fn pairing(mut self, address: &[u8]) -> Shape {
        self.p = address.len() as u8;
        self.q += 1;
        self.pairings.extend(address);
        self
    }

    /// More items of the port.
    pub fn port_items(mut self, items: &[Item]) -> Shape {
        self.d += items.len() as u8;
        self.items.extend(items.concat());
        self
    }

    pub fn body(&self) -> Vec<u8> {
        let n = [self.interface.len() as u8];
        let m = [self.number.len() as u8];
        [
            &n,
            self.interface.as_slice(),
            &m,
            &self.number,
            &[self.p, self.k, self.c],
            &self.entries,
            &[self.d, self.q],
            &self.pairings,
            &self.items,
        ]
        .concat()
    }

    pub fn tlv(&self) -> Tlv {
        ttc(4, &self.body())
    }

    /// The same with items of the port added, so that the body has exactly that many octets.
    pub fn of_length(self, octets: usize) -> Shape {
        let missing = octets - self.body().len();
        match missing {
            0 => self,
            1..=256 => self.port_items(&[item(&vec![0xAB; missing - 1])]),
            _ => self.port_items(&[item(&[0xCD; 199])]).of_length(octets),
        }
    }
}

/// That of B21: one address with two items, one pairing address, one item of the port.
pub fn bench_shape() -> Shape {
    Shape::plain()
        .entry(&[2, 0, 0, 0, 0, 9], &[item(&[0x32]), item(&[])])
        .pairing(&[2, 0, 0, 0, 0, 0x0A])
        .port_items(&[item(&[0x07])])
}

/// Addresses, pairing addresses and items, several of each and all of them different.
pub fn rich_shape() -> Shape {
    Shape::at(&[0, 6], &[1, 2, 3])
        .entry(&neighbour(1), &[item(b"ab"), item(b""), item(b"c")])
        .entry(&SOUGHT, &[item(b"d"), item(b"ef"), item(b"ghi")])
        .entry(&neighbour(3), &[item(b""), item(b"jkl"), item(b"")])
        .pairing(&neighbour(11))
        .pairing(&neighbour(12))
        .port_items(&[item(b"mn"), item(b"o")])
}

/// All items that edition 3.0 names (T12).
pub fn edition_shape() -> Shape {
    Shape::at(&[0, 0, 0, 71], &[9])
        .entry(&neighbour(1), &items(9, 0x20))
        .entry(&SOUGHT, &items(9, 0x40))
        .pairing(&neighbour(11))
        .port_items(&items(3, 0x60))
}

/// Addresses of eight octets, which begin with addresses of six.
pub fn eight_shape() -> Shape {
    let eight = |address: Address| [&address[..], &[0, 0]].concat();
    Shape::plain()
        .entry(&eight(neighbour(1)), &[item(b"x")])
        .entry(&eight(SOUGHT), &[item(b"yz")])
        .pairing(&eight(neighbour(11)))
}

/// Addresses of one octet; the octets of one that is asked for stand in a row.
pub fn single_shape() -> Shape {
    let shape = SOUGHT.iter().fold(Shape::plain(), |shape, octet| shape.entry(&[*octet], &[]));
    shape.pairing(&[0x0B]).pairing(&[0x0C]).port_items(&[item(b"p")])
}

/// Pairing addresses and items of the port, but no address.
pub fn pairing_shape() -> Shape {
    let shape = Shape { c: 9, ..Shape::at(&[71], &[0, 1]) };
    shape.pairing(&SOUGHT).pairing(&neighbour(12)).port_items(&items(3, 0x60))
}

/// Well-formed shapes that differ much.
pub fn samples() -> [Shape; 7] {
    [
        Shape::plain(),
        bench_shape(),
        rich_shape(),
        edition_shape(),
        eight_shape(),
        single_shape(),
        pairing_shape(),
    ]
}

/// A well-formed shape that fits into a TLV. Its addresses are of the pool, or begin like one.
pub fn random_shape(rng: &mut Rng, pool: &[Address]) -> Shape {
    loop {
        let shape = any_shape(rng, pool);
        if shape.body().len() <= LONGEST_BODY {
            return shape;
        }
    }
}

fn any_shape(rng: &mut Rng, pool: &[Address]) -> Shape {
    let [n, m] = [0; 2].map(|_| rng.between(1, 4));
    let shape = Shape::at(&rng.octets(n), &rng.octets(m));
    let p = rng.pick(&[6, 6, 6, 6, 6, 6, 8, 8, 1, 2, 5, 7, 12]);
    let counts = [0, 0, 1, 1, 2, 2, 3, 4, 9, 10];
    let [c, d] = [0; 2].map(|_| rng.pick(&counts));
    // Without addresses they are kept as they are (T11).
    let mut shape = Shape { p: rng.pick(&[0, 1, 6, 8, 255]), c: rng.octet(), ..shape };
    for _ in 0..rng.pick(&[0, 1, 1, 2, 2, 3, 5]) {
        let items = random_items(rng, c);
        shape = shape.entry(&random_address(rng, pool, p), &items);
    }
    for _ in 0..rng.pick(&[0, 0, 0, 1, 2, 3]) {
        let address = random_address(rng, pool, p);
        shape = shape.pairing(&address);
    }
    let items = random_items(rng, d);
    shape.port_items(&items)
}

fn random_items(rng: &mut Rng, count: usize) -> Vec<Item> {
    let lengths: Vec<usize> = (0..count)
        .map(|_| if rng.once_in(20) { rng.between(7, 40) } else { rng.below(4) })
        .collect();
    lengths.into_iter().map(|length| item(&rng.octets(length))).collect()
}

/// An address of the pool, cut or filled up to that many octets.
fn random_address(rng: &mut Rng, pool: &[Address], octets: usize) -> Vec<u8> {
    padded(&rng.pick(pool), octets)
}
