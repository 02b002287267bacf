//! Cases for the chassis ID (L3): its kinds, their limits from both sides, what stands behind it.
//! The rest of an LLDPDU is right, or has a fault that decides exactly if the chassis is right.

use super::blocks::*;
use super::maker::Maker;
use crate::id::Id;

impl Maker {
    pub fn chassis_ids(&mut self) {
        self.right_and_wrong();
        self.characters();
        self.lengths_that_are_not_true();
        self.behind_each_length();
        self.looks_like_headers();
        self.two_faults();
        self.prefixes_of_kinds();
    }

    /// Each chassis ID whole, and without its last octet: 5, whatever L, subtype and characters are
    /// (Q1).
    fn right_and_wrong(&mut self) {
        for id in [right_chassis(), wrong_chassis()].concat() {
            let whole = id_tlv(1, &id);
            self.bare(whole[..whole.len() - 1].to_vec());
            self.led_by(0, whole);
        }
        // Not even a subtype.
        self.led_by(0, tlv(1, &[]));
    }

    /// Every octet as a character, in the first or the second place of a pair.
    fn characters(&mut self) {
        for octet in 0..=255 {
            let pair = if octet % 2 == 0 { [octet, b'0'] } else { [b'F', octet] };
            self.bare(lldpdu(&leading_with(&local(&pair)), &[]));
        }
    }

    /// L says more or less than the octets that stand there, and the next header is read askew.
    fn lengths_that_are_not_true(&mut self) {
        for id in [address(&characters(6)), address(&characters(8)), local(&characters(4))] {
            let value = id_tlv(1, &id)[2..].to_vec();
            for claimed in [3, 5, 6, 7, 8, 9, 10, 11, 65] {
                self.led_by(0, tlv_claiming(1, claimed, &value));
            }
        }
        // The LLDPDU ends before L does.
        for (subtype, claimed) in [(4, 7), (4, 8), (4, 9), (7, 7), (7, 8), (7, 65), (7, 67), (5, 7)]
        {
            let value = [&[subtype], characters(5).as_slice()].concat();
            self.both(tlv_claiming(1, claimed, &value));
            self.both(tlv_claiming(1, claimed, &[]));
        }
    }

    /// Port ID, seconds and every field are found by the L of the chassis ID (L4).
    fn behind_each_length(&mut self) {
        let mut kinds = vec![address(&[4; 6]), address(&[4; 8])];
        kinds.extend((1..=32).map(|pairs| local(&characters(2 * pairs))));
        for (id, number) in kinds.iter().zip(1..) {
            let port = Id { subtype: number % 7 + 1, octets: vec![number; 3] };
            let first_three = leading_of(id, &port, 0x0100 + u16::from(number));
            self.frame(lldpdu(&first_three, &[link(&[number], &[0, 3], &[SOUGHT])]));
        }
        for id in [&kinds[1], &kinds[2], &kinds[33]] {
            self.frame(lldpdu(&leading_with(id), &every_field()));
        }
    }

    /// Octets of a chassis that would be a header, or the rest of an LLDPDU, if it were looked for
    /// elsewhere: behind six octets, behind eight, or behind none.
    fn looks_like_headers(&mut self) {
        let port_and_seconds = [0x04, 0x02, 0x07, 0x32, 0x06, 0x02, 0x00, 0x79];
        for octets in [
            &[0x00; 6][..],
            &[0x00; 8],
            &[0x04, 0x02, 0x07, 0x31, 0x06, 0x02],
            &port_and_seconds,
            &[0xFE, 0x07, 0xE0, 0x27, 0x1A, 0x01, 0x01, 0x01],
            &[0x02, 0x00, 0x00, 0x00, 0x00, 0x01, 0x00, 0x00],
            &[0x02, 0x00, 0x00, 0x00, 0x00, 0x01, 0x06, 0x02],
            &[0x02, 0x00, 0x00, 0x00, 0x00, 0x01, 0xFE, 0x07],
        ] {
            self.led_by(0, id_tlv(1, &address(octets)));
        }
        for characters in [&b"00"[..], b"0000", b"020704020000", b"04020731060200780000", b"FE07"] {
            self.led_by(0, id_tlv(1, &local(characters)));
        }
        // Behind six of these eight octets a port ID and seconds would stand, up to the true ones.
        let askew = address(&[0x02, 0x00, 0x00, 0x00, 0x00, 0x01, 0x04, 0x02]);
        let port = Id { subtype: 6, octets: vec![0x02, 0x00, 0x79] };
        self.frame(lldpdu(&leading_of(&askew, &port, 120), &[category(), model_number()]));
        // They and an End would stand in the port ID, from the octet on that is behind eight octets
        // of a chassis, or behind six; the subtype is the first of them or comes before them.
        for (id, before) in [
            (address(&[0x02, 0x00, 0x00, 0x00, 0x00, 0x01]), &[][..]),
            (local(b"AF"), &[0x07, 0x31, 0x31, 0x31]),
            (local(b"AF"), &[0x07, 0x31]),
        ] {
            let value = [before, &port_and_seconds, &end()].concat();
            let first_two = [id_tlv(1, &id), tlv(2, &value)].concat();
            self.frame(lldpdu(&[first_two, seconds()], &[category(), model_number()]));
        }
    }

    /// A fault behind the chassis ID: it decides exactly if the chassis is right (Q1).
    fn two_faults(&mut self) {
        let faults = [
            vec![],
            end(),
            vec![0x04],
            tlv_claiming(2, 2, &[7]),
            [tlv(2, &[0, 0x31]), seconds(), end()].concat(),
            [port(), tlv_claiming(3, 2, &[0])].concat(),
            [port(), tlv(3, &[0; 3]), end()].concat(),
            [port(), seconds()].concat(),
            [port(), seconds(), chassis(), end()].concat(),
            [port(), seconds(), tlv(127, &TTC), end()].concat(),
        ];
        let right = [address(&[2; 6]), address(&[2; 8]), local(b"AF"), local(&characters(64))];
        for id in right {
            for fault in &faults {
                self.bare([id_tlv(1, &id), fault.clone()].concat());
            }
        }
        for (id, fault) in wrong_chassis().iter().zip(faults.iter().cycle()) {
            self.bare([id_tlv(1, id), fault.clone()].concat());
        }
        // A chassis once more, of each kind (R6).
        for id in [address(&[2; 8]), local(b"AF"), local(&characters(64))] {
            self.with(&[id_tlv(1, &id)]);
            self.frame(lldpdu(&leading_with(&id), &[category(), chassis(), model_number()]));
        }
    }

    /// Every prefix of an LLDPDU with eight octets, and of one with local characters (R5).
    fn prefixes_of_kinds(&mut self) {
        for id in [address(&characters(8)), local(&characters(6))] {
            let whole = lldpdu(&leading_with(&id), &[]);
            for length in 0..=whole.len() {
                self.bare(whole[..length].to_vec());
            }
        }
    }
}
