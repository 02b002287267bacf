//! The maker gathers cases and lends its generator to those who make them.
//! Its calls put TLVs into an LLDPDU, and an LLDPDU into a frame.

use super::blocks::*;
use super::{Case, Kind};
use crate::reader::Address;
use crate::rng::Rng;

pub struct Maker {
    pub rng: Rng,
    pub cases: Vec<Case>,
}

impl Maker {
    pub fn add(&mut self, kind: Kind, octets: Vec<u8>, asked: Address) {
        self.add_asking(kind, octets, asked, (0, 0));
    }

    /// The numbers i and j are asked of extension link information too (A6).
    pub fn add_asking(&mut self, kind: Kind, octets: Vec<u8>, asked: Address, (i, j): (u8, u8)) {
        assert!(octets.len() <= 2000);
        self.cases.push(Case { kind, asked, i, j, octets });
    }

    /// A frame as it stands, header and all.
    pub fn raw(&mut self, frame: Vec<u8>) {
        self.add(Kind::Frame, frame, SOUGHT);
    }

    /// A frame with a right header around the LLDPDU.
    pub fn frame(&mut self, lldpdu: Vec<u8>) {
        self.frame_asking(lldpdu, SOUGHT);
    }

    pub fn frame_asking(&mut self, lldpdu: Vec<u8>, asked: Address) {
        let frame = [self.header(), lldpdu].concat();
        self.add(Kind::Frame, frame, asked);
    }

    pub fn bare(&mut self, lldpdu: Vec<u8>) {
        self.add(Kind::Bare, lldpdu, SOUGHT);
    }

    /// The LLDPDU in a frame and by itself.
    pub fn both(&mut self, lldpdu: Vec<u8>) {
        self.frame(lldpdu.clone());
        self.bare(lldpdu);
    }

    /// A right header: either destination, and any source but a group address (F2, F4).
    pub fn header(&mut self) -> Vec<u8> {
        let destination = self.rng.pick(&[EVERYONE, NEAREST]);
        from_a_station(headed(destination, self.rng.address(), LLDP, &[]))
    }

    /// A frame that is HTIP but for the given TLVs.
    pub fn with(&mut self, tlvs: &[Tlv]) {
        let inside = self.beside(tlvs);
        self.frame(inside);
    }

    /// As `with`, but category or model number is left out where it would repeat the ID.
    pub fn with_id(&mut self, id: u8, tlvs: &[Tlv]) {
        let inside = self.among(&others_than(id), tlvs);
        self.frame(inside);
    }

    /// A frame that is HTIP but for the given TLVs, and a bare LLDPDU that has them alone and so is
    /// not HTIP.
    pub fn htip_and_not(&mut self, tlvs: &[Tlv]) {
        self.with(tlvs);
        self.bare(lldpdu(&leading(), tlvs));
    }

    /// An LLDPDU that is HTIP but for the given TLVs.
    pub fn beside(&mut self, tlvs: &[Tlv]) -> Vec<u8> {
        self.among(&[category(), model_number()], tlvs)
    }

    /// The TLVs stand together, and not always in the same place: what lies behind them differs.
    fn among(&mut self, others: &[Tlv], tlvs: &[Tlv]) -> Vec<u8> {
        let (before, behind) = others.split_at(self.rng.below(others.len() + 1));
        lldpdu(&leading(), &[before, tlvs, behind].concat())
    }
}
