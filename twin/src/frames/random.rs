//! Random cases: whole LLDPDUs put together at random, HTIP or not, and damaged ones.
//! They look for what nobody thought of; the rules themselves have cases of their own.

use super::blocks::*;
use super::maker::Maker;
use super::shape::random_shape;
use super::Kind;
use crate::id::Id;
use crate::reader::Address;

/// Makes the TLVs between the third and the End, with addresses of the pool, spoilt or not.
type Later = fn(&mut Maker, &[Address], bool) -> Vec<Tlv>;

impl Maker {
    /// Random composition: so many that are HTIP or not, and so many that are damaged.
    pub fn random(&mut self, later: Later, whole: usize, damaged: usize) {
        for round in 0..whole {
            let (lldpdu, asked) = self.random_lldpdu(later, round % 2 == 1);
            match round % 10 {
                0 | 1 => self.add(Kind::Bare, lldpdu, asked),
                _ => self.frame_asking(lldpdu, asked),
            }
        }
        for round in 0..damaged {
            let (lldpdu, asked) = self.random_lldpdu(later, round % 4 == 3);
            let kind = if round % 5 == 0 { Kind::Bare } else { Kind::Frame };
            // One time in eight the header may be damaged too, else only what stands behind it. One
            // time in eight the source is a group address, and the damage is not looked at (F4).
            let (kept, mut octets) = match kind {
                Kind::Bare => (vec![], lldpdu),
                Kind::Frame if round % 8 == 1 => (vec![], [self.header(), lldpdu].concat()),
                Kind::Frame if round % 8 == 5 => (from_a_group(self.header()), lldpdu),
                Kind::Frame => (self.header(), lldpdu),
            };
            for _ in 0..self.rng.between(1, 3) {
                self.damage(&mut octets);
            }
            self.add(kind, [kept, octets].concat(), asked);
        }
    }

    /// Flips a bit, changes, inserts or deletes an octet, or cuts the rest off.
    pub fn damage(&mut self, octets: &mut Vec<u8>) {
        if octets.is_empty() {
            return;
        }
        let place = self.rng.below(octets.len());
        match self.rng.below(9) {
            0..=2 => octets[place] ^= 1 << self.rng.below(8),
            3 => octets[place] = self.rng.octet(),
            4 => octets[place] = octets[place].wrapping_add(self.rng.pick(&[1, 0xFF])),
            5 => octets.insert(place, self.rng.pick(&[0x00, 0x01, 0xFF])),
            6 | 7 => {
                octets.remove(place);
            }
            _ => octets.truncate(place),
        }
    }

    /// A valid LLDPDU with padding, and an address to ask for. It is HTIP exactly if not spoilt.
    fn random_lldpdu(&mut self, later: Later, spoilt: bool) -> (Vec<u8>, Address) {
        let pool = pool();
        let chassis = random_chassis(&mut self.rng);
        let subtype = self.rng.between(1, 7) as u8;
        let length = self.rng.between(1, 12);
        let port = Id { subtype, octets: self.rng.octets(length) };
        let seconds = u16::from_be_bytes([self.rng.octet(), self.rng.octet()]);
        let later = later(self, &pool, spoilt);
        let inside = lldpdu(&leading_of(&chassis, &port, seconds), &later);
        ([inside, self.random_padding()].concat(), self.rng.pick(&pool))
    }

    /// The TLVs between the third and the End, with addresses of the pool.
    pub fn random_later(&mut self, pool: &[Address], spoilt: bool) -> Vec<Tlv> {
        let mut later = vec![self.random_device(1, 255), self.random_device(4, 31)];
        if self.rng.once_in(2) {
            later.push(self.random_device(2, 6));
        }
        if self.rng.once_in(2) {
            later.push(self.random_device(3, 31));
        }
        if self.rng.once_in(2) {
            let length = if self.rng.once_in(8) { 255 } else { self.rng.between(0, 20) };
            let text = self.rng.picks(CHARACTERS, length);
            later.push(description(&text));
        }
        if self.rng.once_in(3) {
            let id = self.rng.pick(&[0, 5, 20, 23, 27, 50, 54, 80, 128, 254, 255]);
            later.push(self.random_device(id, 255));
        }
        if self.rng.once_in(3) {
            let kind = self.rng.between(5, 126) as u8;
            let length = self.rng.between(0, 9);
            let value = self.rng.octets(length);
            later.push(tlv(kind, &value));
        }
        for _ in 0..self.rng.between(0, 3) {
            later.push(self.random_link(pool));
        }
        for _ in 0..self.rng.between(0, 2) {
            let members = self.random_members(pool);
            later.push(list(&members));
        }
        if spoilt {
            self.spoil(&mut later, pool);
        }
        self.rng.shuffle(&mut later);
        later
    }

    /// The same with system fields among them, often several of a type. They spoil nothing (H1).
    pub fn random_later_of_systems(&mut self, pool: &[Address], spoilt: bool) -> Vec<Tlv> {
        let mut later = self.random_later(pool, spoilt);
        for _ in 0..self.rng.between(1, 8) {
            later.push(self.random_system_field());
        }
        self.rng.shuffle(&mut later);
        later
    }

    /// The same with extension link information among them, mostly well formed (T11).
    pub fn random_later_of_extensions(&mut self, pool: &[Address], spoilt: bool) -> Vec<Tlv> {
        let mut later = self.random_later(pool, spoilt);
        for _ in 0..self.rng.between(1, 3) {
            later.push(self.random_extension(pool));
        }
        self.rng.shuffle(&mut later);
        later
    }

    /// One time in four an octet is another one, or it ends too soon or too late.
    pub fn random_extension(&mut self, pool: &[Address]) -> Tlv {
        let mut body = random_shape(&mut self.rng, pool).body();
        if self.rng.once_in(4) {
            self.damage(&mut body);
        }
        body.truncate(LONGEST_BODY);
        ttc(4, &body)
    }

    /// Mostly of a right length, and often at the limits (S1 to S3).
    fn random_system_field(&mut self) -> Tlv {
        let kind = self.rng.pick(&[5, 6, 7, 8, 8, 8]);
        let length = match (kind, self.rng.below(8)) {
            (5 | 6, 0) => self.rng.pick(&[255, 256, 256, 257]),
            (5 | 6, _) => self.rng.between(0, 12),
            (7, 0 | 1) => self.rng.pick(&[0, 2, 3, 5, 6, 8]),
            (7, _) => 4,
            (_, 0) => self.rng.pick(&[9, 166, 167, 168]),
            (_, 1 | 2) => self.rng.between(0, 8),
            _ => self.rng.between(9, 20),
        };
        // Now and then no bit is set: of capabilities, no flag (A3).
        let value = if self.rng.once_in(4) { vec![0; length] } else { self.rng.octets(length) };
        tlv(kind, &value)
    }

    /// What may follow the End (L8).
    pub fn random_padding(&mut self) -> Vec<u8> {
        let length = self.rng.pick(&[0, 0, 1, 5, 30]);
        if self.rng.once_in(2) {
            vec![0; length]
        } else {
            self.rng.octets(length)
        }
    }

    /// The shortest and the longest strings come often.
    fn random_device(&mut self, id: u8, longest: usize) -> Tlv {
        let length = match self.rng.below(8) {
            0 => 1,
            1 => longest,
            _ => self.rng.between(1, longest.min(12)),
        };
        let string = self.rng.octets(length);
        device(id, &string)
    }

    fn random_members(&mut self, pool: &[Address]) -> Vec<Address> {
        let count = self.rng.between(0, 4);
        self.rng.picks(pool, count)
    }

    pub fn random_link(&mut self, pool: &[Address]) -> Tlv {
        let n = self.rng.between(1, 4);
        let m = self.rng.between(1, 4);
        let interface = self.rng.octets(n);
        let number = self.rng.octets(m);
        let members = self.random_members(pool);
        link(&interface, &number, &members)
    }

    /// Breaks one condition of the verdict (H1); the LLDPDU stays valid. The category stands first,
    /// the model number second.
    fn spoil(&mut self, later: &mut Vec<Tlv>, pool: &[Address]) {
        match self.rng.below(13) {
            0 => drop(later.remove(0)),
            1 => drop(later.remove(1)),
            2 => later.push(self.random_device(1, 5)),
            3 => later.push(self.random_device(4, 5)),
            4 => later.extend([device(2, b"A1"), device(2, b"B2")]),
            5 => later[0] = device(1, &[]),
            6 => later[1] = device(4, &[]),
            7 => later[1] = device(4, &[0; 32]),
            8 => later.push(device_claiming(20, 9, &[1; 8])),
            9 => later.push(link_claiming(&[6], &[1], 1, &pool.concat())),
            10 => later.push(list_claiming(6, &[0; 35])),
            11 => later.push(description(&[b'x'; 256])),
            _ => later.push(description(b"semi;colon\nline")),
        }
    }
}
