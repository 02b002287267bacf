//! Cases for the rules: each rule and each boundary from both sides, made on purpose.
//! One call makes the cases of one group; a case breaks one thing and leaves the rest right.

use super::blocks::*;
use super::maker::Maker;
use super::Kind;
use crate::reader::Address;

impl Maker {
    pub fn rules(&mut self) {
        self.frame_lengths();
        self.frame_headers();
        self.sources();
        self.faults_besides_the_source();
        self.other_group_addresses();
        self.leading_tlvs();
        self.chassis_ids();
        self.prefixes();
        self.cuts();
        self.order_of_refusals();
        self.later_tlvs();
        self.organizations();
        self.subtypes();
        self.device_ids();
        self.string_lengths();
        self.repeats();
        self.links();
        self.lists();
        self.several_tables();
        self.descriptions();
        self.skipped_types();
        self.padding();
        self.asked_addresses();
        self.long_bare();
    }

    /// Lengths around 14 and around 1,514 (F1), with valid content cut, padded or filled to them.
    fn frame_lengths(&mut self) {
        let whole = [self.header(), typical()].concat();
        for length in [0, 1, 12, 13, 14, 15] {
            self.raw(whole[..length].to_vec());
        }
        // Too short, and of a wrong destination as well.
        for length in [12, 13] {
            let mut wrong = whole[..length].to_vec();
            wrong[0] ^= 1;
            self.raw(wrong);
        }
        for length in [1513, 1514, 1515, 1516, 1770, 2000] {
            self.raw(padded(&whole, length));
            // The LLDPDU itself reaches the last octet.
            let filled = self.filled(length - HEADER);
            self.frame(filled);
        }
        for length in [1513, 1514, 1515] {
            let noise = self.rng.octets(length - whole.len());
            self.raw([whole.clone(), noise].concat());

            // Without the last octet of the LLDPDU its End is missing.
            let filled = self.filled(length - HEADER + 1);
            self.frame(filled[..filled.len() - 1].to_vec());

            // The length is judged before a wrong first TLV and before a wrong later one (Q1).
            for inside in [end(), lldpdu(&leading(), &[seconds()])] {
                let frame = [self.header(), inside].concat();
                self.raw(padded(&frame, length));
            }
        }
    }

    /// A valid LLDPDU of exactly that many octets.
    fn filled(&mut self, length: usize) -> Vec<u8> {
        self.filled_up(typical(), length)
    }

    /// The LLDPDU filled up with skipped TLVs to exactly that many octets.
    pub(super) fn filled_up(&mut self, mut inside: Vec<u8>, length: usize) -> Vec<u8> {
        inside.truncate(inside.len() - end().len());
        let mut missing = length - end().len() - inside.len();
        while missing > 0 {
            // A filler takes two octets at least, so a single one must never be left over.
            let size = if missing <= 500 { missing } else { 498 };
            let value = self.rng.octets(size - 2);
            inside.extend(tlv(9, &value));
            missing -= size;
        }
        inside.extend(end());
        inside
    }

    /// Destination and type (F2, F3), and the header before the TLVs.
    fn frame_headers(&mut self) {
        let inside = self.beside(&[link(&[6], &[3], &[SOUGHT])]);
        let types =
            [0x88CB, 0x88CD, 0x87CC, 0x89CC, 0x0800, 0x8100, 0xCC88, 0x0000].map(u16::to_be_bytes);
        for destination in [EVERYONE, NEAREST] {
            let right = headed(destination, SOUGHT, LLDP, &inside);
            self.raw(right.clone());
            for place in 0..6 {
                for change in [0x01, 0x80] {
                    let mut wrong = right.clone();
                    wrong[place] ^= change;
                    self.raw(wrong);
                }
            }
            for kind in types {
                self.raw(headed(destination, SOUGHT, kind, &inside));
            }
        }
        // Half of one destination and half of the other, near ones, none, and a unicast one.
        for destination in [
            [0xFF, 0xFF, 0xFF, 0x00, 0x00, 0x0E],
            [0x01, 0x80, 0xC2, 0xFF, 0xFF, 0xFF],
            [0x01, 0x80, 0xC2, 0x00, 0x00, 0x00],
            [0x01, 0x80, 0xC2, 0x00, 0x00, 0x03],
            [0x00; 6],
            SOUGHT,
        ] {
            self.raw(headed(destination, SOUGHT, LLDP, &inside));
        }
        // A wrong type or source goes before wrong TLVs (F3, F4, Q1).
        for inside in [vec![], end(), lldpdu(&leading(), &[chassis()]), leading().concat()] {
            self.raw(headed(EVERYONE, SOUGHT, [0x88, 0xCD], &inside));
            self.raw(headed(EVERYONE, NO_STATION, LLDP, &inside));
            self.raw(headed(EVERYONE, SOUGHT, LLDP, &inside));
        }
    }

    /// Sources of frames that have no other fault (F4).
    fn sources(&mut self) {
        for destination in [EVERYONE, NEAREST] {
            for source in GROUPS {
                self.raw(headed(destination, source, LLDP, &typical()));
            }
        }
        let group = headed(EVERYONE, NO_STATION, LLDP, &typical());
        for length in [group.len() + 9, 1514] {
            self.raw(padded(&group, length));
        }
        for (destination, source) in [EVERYONE, NEAREST].into_iter().cycle().zip(stations()) {
            self.raw(headed(destination, source, LLDP, &typical()));
        }
    }

    /// A group address as source of frames of a wrong length, destination or type (F1 to F4).
    fn faults_besides_the_source(&mut self) {
        let whole = headed(EVERYONE, NO_STATION, LLDP, &typical());
        self.raw(whole[..13].to_vec());
        self.raw(padded(&whole, 1515));
        self.raw(headed(SOUGHT, NO_STATION, LLDP, &typical()));
        self.raw(headed(EVERYONE, NO_STATION, [0x08, 0x00], &typical()));
    }

    /// Group addresses that are no source: the chassis, and what link information and address list
    /// name (F4).
    fn other_group_addresses(&mut self) {
        for group in [&NO_STATION[..], &[0x03, 0x00, 0x00, 0xFF, 0xFE, 0x00, 0x00, 0x01]] {
            let first_three = leading_with(&address(group));
            let announced = lldpdu(&first_three, &[category(), model_number()]);
            self.raw(headed(EVERYONE, SOUGHT, LLDP, &announced));
        }
        let fields = [category(), model_number(), link(&[6], &[3], &[NEAREST]), list(&[EVERYONE])];
        let naming = headed(NEAREST, SOUGHT, LLDP, &lldpdu(&leading(), &fields));
        self.add(Kind::Frame, naming, NEAREST);
    }

    /// The first three TLVs (L3 to L6): which, in what order, with what types, lengths and
    /// subtypes.
    fn leading_tlvs(&mut self) {
        // Missing, swapped, doubled. A doubled third one is already a later TLV (R6).
        let orders: [&[usize]; 17] = [
            &[],
            &[0],
            &[1],
            &[2],
            &[1, 2],
            &[0, 2],
            &[0, 1],
            &[0, 2, 1],
            &[1, 0, 2],
            &[1, 2, 0],
            &[2, 0, 1],
            &[2, 1, 0],
            &[0, 0, 1, 2],
            &[0, 1, 1, 2],
            &[0, 1, 2, 2],
            &[0, 1, 2, 0],
            &[0, 1, 2, 1],
        ];
        for order in orders {
            let tlvs: Vec<Tlv> = order.iter().map(|&place| leading()[place].clone()).collect();
            self.both(lldpdu(&tlvs, &[category(), model_number()]));
        }
        for place in 0..3 {
            let right = leading()[place].clone();
            let value = &right[2..];
            for kind in [0, 1, 2, 3, 4, 5, 9, 65, 66, 67, 126, 127] {
                self.led_by(place, tlv(kind, value));
            }
            // What a later TLV would be refused for, or what would end the LLDPDU.
            self.led_by(place, end());
            self.led_by(place, tlv(127, &[]));
            // L one off while the octets stay as they are, so that the next header is read askew.
            for claimed in [value.len() - 1, value.len() + 1] {
                self.led_by(place, tlv_claiming(right[0] >> 1, claimed, value));
            }
        }
        for subtype in [0, 1, 2, 3, 4, 5, 6, 7, 8, 9, 128, 255] {
            self.led_by(1, tlv(2, &[subtype, 0x31]));
        }
        for length in [0, 1, 2, 3, 255, 256, 257, 258, 511] {
            self.led_by(1, tlv(2, &vec![7; length]));
        }
        // Octets that look like an End are part of the port ID all the same.
        self.led_by(1, tlv(2, &[1, 0, 0]));
        for length in [0, 1, 2, 3, 4, 258] {
            self.led_by(2, tlv(3, &vec![1; length]));
        }
        for value in [0u16, 1, 255, 256, 257, 32767, 32768, 65534, 65535] {
            self.led_by(2, tlv(3, &value.to_be_bytes()));
        }
    }

    /// One of the first three TLVs is replaced.
    pub(super) fn led_by(&mut self, place: usize, replacement: Tlv) {
        let mut first = leading();
        first[place] = replacement;
        self.frame(lldpdu(&first, &[category(), model_number()]));
    }

    /// Every prefix: each TLV without its header, with half of it, with a part of its body (R5).
    fn prefixes(&mut self) {
        let whole = typical();
        let frame = [self.header(), whole.clone()].concat();
        for length in 0..=frame.len() {
            self.raw(frame[..length].to_vec());
        }
        for length in 0..=whole.len() {
            self.bare(whole[..length].to_vec());
        }
    }

    /// The LLDPDU ends within a TLV that is wrong besides, or right behind it (R5, Q1).
    fn cuts(&mut self) {
        for place in 0..3 {
            let before = leading()[..place].concat();
            let right = leading()[place].clone();
            let own = right[0] >> 1;
            let length = right.len() - 2;
            for (kind, length) in [
                (own, length - 1),
                (own, length),
                (own, length + 1),
                (own, 511),
                (0, length),
                (5, length),
                (127, length),
            ] {
                let value = padded(&right[2..], length);
                self.cut_and_whole(&before, tlv(kind, &value));
            }
            // A wrong subtype, or wrong seconds, in a body that is not there to its end.
            self.frame([before.clone(), tlv_claiming(own, length, &[0])].concat());
            self.frame([before.clone(), tlv_claiming(own, length, &[])].concat());
            for half in [own << 1, 0x0A, 0xFE] {
                self.frame([before.clone(), vec![half]].concat());
            }
        }
        // The lengths of a port ID around its limits, each without its last octet.
        for length in [1, 256, 257] {
            self.cut_and_whole(&chassis(), tlv(2, &vec![7; length]));
        }
        let before = [leading().concat(), category(), model_number()].concat();
        for (kind, length) in [
            (0, 1),
            (0, 2),
            (0, 256),
            (0, 511),
            (1, 7),
            (2, 2),
            (3, 2),
            (4, 1),
            (4, 256),
            (9, 300),
            (126, 511),
            (127, 1),
            (127, 2),
            (127, 3),
            (127, 4),
            (127, 7),
        ] {
            self.cut_and_whole(&before, tlv(kind, &vec![0; length]));
        }
        for half in [0x00, 0x01, 0x02, 0x06, 0x08, 0xFE, 0xFF] {
            self.both([before.clone(), vec![half]].concat());
        }
    }

    /// The LLDPDU ends one octet before the end of this TLV, and exactly there.
    pub(super) fn cut_and_whole(&mut self, before: &[u8], last: Tlv) {
        let whole = [before, &last].concat();
        self.frame(whole[..whole.len() - 1].to_vec());
        self.frame(whole);
    }

    /// Two faults in one LLDPDU: the earlier TLV decides (Q1).
    fn order_of_refusals(&mut self) {
        let cut = tlv_claiming(9, 20, &[0; 19]);
        let without_subtype = tlv(127, &TTC);
        for fault in [
            [tlv(1, &[4; 6]), port(), seconds()],
            [chassis(), tlv(2, &[0, 1]), seconds()],
            [chassis(), port(), tlv(3, &[0; 3])],
        ] {
            for later in [cut.clone(), vec![0xFE], without_subtype.clone(), seconds(), vec![]] {
                self.frame([fault.concat(), category(), later].concat());
            }
        }
        // Wrong, then cut, both among the first three.
        self.frame([tlv(1, &[4; 8]), tlv_claiming(2, 2, &[7])].concat());
        self.frame([chassis(), tlv(2, &[7]), tlv_claiming(3, 2, &[0])].concat());
        self.frame([port(), vec![0x04]].concat());
        for fault in
            [chassis(), port(), seconds(), without_subtype, tlv(0, &[0]), tlv(0, &[0; 256])]
        {
            for later in [cut.clone(), vec![0x00], vec![]] {
                self.frame([leading().concat(), category(), fault.clone(), later].concat());
            }
        }
    }

    /// Later TLVs that are refused, and their neighbours that are not (R6).
    fn later_tlvs(&mut self) {
        let values: [&[u8]; 4] = [&[], &[0x07, 0x31], &[4, 2, 0, 0, 0, 0, 1], &[0; 300]];
        for kind in [1, 2, 3] {
            for value in values {
                self.with(&[tlv(kind, value)]);
            }
            // Right behind the three, and right before the End.
            let again = leading()[usize::from(kind) - 1].clone();
            self.both(lldpdu(&leading(), &[again.clone(), category()]));
            self.both(lldpdu(&leading(), &[category(), model_number(), again]));
        }
        for length in [0, 1, 2, 3, 255, 256, 257, 511] {
            self.with(&[tlv(0, &vec![0; length])]);
        }
        for length in 0..=5 {
            let own = [0xE0, 0x27, 0x1A, 0x01, 0xFF];
            let other = [0x00, 0x80, 0xC2, 0x01, 0xFF];
            for value in [own, other, [0; 5]] {
                self.with(&[tlv(127, &value[..length])]);
            }
        }
        // The ninth bit of L counts too.
        for length in [256, 257, 258, 259, 260] {
            let value = self.rng.octets(length);
            self.with(&[tlv(127, &value)]);
        }
        // Nothing but the three.
        self.both(lldpdu(&leading(), &[]));
    }

    /// Other organization codes: their TLVs neither give values nor spoil the verdict (T1).
    fn organizations(&mut self) {
        let mut codes = vec![[0x1A, 0x27, 0xE0], [0x00, 0x80, 0xC2], [0x00, 0x12, 0x0F]];
        for place in 0..3 {
            for change in [0x01, 0xFF] {
                let mut code = TTC;
                code[place] = code[place].wrapping_add(change);
                codes.push(code);
            }
        }
        for code in codes {
            let recoded = |tlv: Tlv| [&tlv[..2], &code, &tlv[5..]].concat();
            self.with(&[recoded(ttc(1, &[1]))]);
            self.with(&[recoded(link(&[6], &[3], &[SOUGHT])), recoded(list(&[SOUGHT]))]);
            self.frame(lldpdu(&leading(), &[recoded(category()), model_number()]));
        }
    }

    /// TTC subtypes: 1 to 3 are judged, behind 4 nothing here is well formed (T11), and the others
    /// are skipped (T9).
    fn subtypes(&mut self) {
        let bodies = [
            vec![],
            body_of(device(3, b"Lamp")),
            body_of(link(&[6], &[3], &[SOUGHT])),
            body_of(list(&[SOUGHT])),
            vec![0xFF; 9],
        ];
        for subtype in [0, 1, 2, 3, 4, 5, 129, 255] {
            for body in &bodies {
                self.with(&[ttc(subtype, body)]);
            }
        }
    }

    /// Every ID with L = 6 + s, with L one too small and one too large, and with no s at all (T2).
    fn device_ids(&mut self) {
        for id in 0..=255 {
            let s = 1 + usize::from(id) % 6;
            let string = self.rng.octets(s + 1);
            self.with_id(id, &[device_claiming(id, s, &string[..s - 1])]);
            self.with_id(id, &[device_claiming(id, s, &string)]);
            self.with_id(id, &[ttc(1, &[id])]);
        }
        for id in 1..=4 {
            self.with_id(id, &[device(id, b"right")]);
        }
        // Of the other IDs a few right ones share a frame: any one misjudged spoils its verdict.
        let others: Vec<u8> = (0..=255).filter(|id| !(1..=4).contains(id)).collect();
        for ids in others.chunks(4) {
            let tlvs: Vec<Tlv> = ids.iter().map(|&id| device(id, &[id; 3])).collect();
            self.with(&tlvs);
        }
        // The edges of the groups of IDs, with the shortest and the longest strings.
        for id in [0, 5, 19, 20, 27, 28, 49, 50, 54, 55, 79, 80, 81, 254, 255] {
            self.with(&[device(id, &[])]);
            self.with(&[device(id, &[id; 255])]);
            self.with(&[device_claiming(id, 0, &[0])]);
        }
        // No ID at all (L = 4); the header behind it would be an ID and a string length.
        for next in [
            tlv(4, b"port"),
            tlv(10, &[0; 20]),
            tlv(25, &[]),
            tlv(40, &[0; 40]),
            tlv(63, &[0; 126]),
            device(2, b"0A"),
            tlv(127, &[0; 256]),
            ttc(1, &[]),
        ] {
            self.with(&[ttc(1, &[]), next]);
        }
        self.frame(lldpdu(&leading(), &[category(), model_number(), ttc(1, &[])]));
        // For the vendor's own ID any octets do (T6).
        let bodies: [&[u8]; 4] = [&[255], &[255, 0], &[255, 200, 1], &[255; 300]];
        for body in bodies {
            self.with(&[ttc(1, body)]);
        }
    }

    /// The string lengths of IDs 1 to 4 (T3) from both sides, and string lengths that point beyond
    /// L.
    fn string_lengths(&mut self) {
        for id in 1..=4 {
            for s in [0, 1, 5, 6, 7, 30, 31, 32, 254, 255] {
                let string = self.rng.octets(s);
                self.with_id(id, &[device(id, &string)]);
            }
            // s takes in the next TLV: its header, its middle, its end, and what is behind it.
            for s in [2, 3, 5, 9, 10] {
                self.with_id(id, &[device_claiming(id, s, b"A"), tlv(9, b"behind")]);
            }
            // No string; the End, or the padding behind it, would be one.
            for s in [0, 1, 2, 4] {
                let mut tlvs = others_than(id);
                tlvs.push(device_claiming(id, s, &[]));
                self.frame([lldpdu(&leading(), &tlvs), vec![0; 9]].concat());
            }
        }
        // L = 6 + s but for the ninth bit of L.
        for id in [1, 2, 3, 4, 20, 30, 255] {
            self.with_id(id, &[device_claiming(id, 1, &[id; 257])]);
        }
        self.with(&[device_claiming(20, 0, &[0; 256])]);
        self.with(&[device_claiming(100, 0, &[0; 256])]);
    }

    /// IDs 1 to 4 twice, with malformed twins, and not at all (H1, A2).
    fn repeats(&mut self) {
        for id in 1..=4 {
            let one = device(id, b"one");
            let two = device(id, b"two");
            // ID 1 has no string that is too long; an empty one stands for it.
            let wrong_length = match id {
                1 => 0,
                2 => 7,
                _ => 32,
            };
            let malformed = [
                ttc(1, &[id]),
                device_claiming(id, 5, b"four"),
                device_claiming(id, 3, b"four"),
                device(id, &vec![b'L'; wrong_length]),
            ];
            for bad in &malformed {
                self.with_id(id, &[bad.clone(), one.clone()]);
                self.with_id(id, &[one.clone(), bad.clone()]);
            }
            let bad = &malformed[1];
            self.with_id(id, &[]);
            self.with_id(id, &[one.clone(), one.clone()]);
            self.with_id(id, &[one.clone(), two.clone()]);
            self.with_id(id, &[bad.clone(), bad.clone()]);
            self.with_id(id, &[bad.clone(), one.clone(), two.clone()]);
            self.with_id(id, &[one.clone(), bad.clone(), two.clone()]);
            // The twins stand at the far ends.
            self.frame(lldpdu(&leading(), &[vec![one], others_than(id), vec![two]].concat()));
        }
        // Other IDs may come as often as they like (H1).
        for id in [0, 5, 20, 54, 80, 100, 255] {
            self.with(&[device(id, b"x"), device(id, b"x"), device(id, b"")]);
        }
        // Some of IDs 1 to 4, and none.
        let rows: [&[u8]; 7] = [&[1, 2, 3, 4], &[2, 3], &[1, 2, 3], &[2, 3, 4], &[1], &[4], &[]];
        for row in rows {
            let tlvs: Vec<Tlv> = row.iter().map(|&id| device(id, &[b'0' + id])).collect();
            self.frame(lldpdu(&leading(), &tlvs));
        }
    }

    /// Link information: counts, lengths, and counts that point beyond L (T7).
    fn links(&mut self) {
        for n in 0..=5 {
            for m in 0..=5 {
                let interface = self.rng.octets(n);
                let number = self.rng.octets(m);
                self.with(&[link(&interface, &number, &[neighbour(1), SOUGHT])]);
            }
        }
        // Leading zeros count as octets; the largest value is read whole (A4).
        let numbers: [&[u8]; 5] = [&[0], &[0, 6], &[0, 0, 0, 6], &[0xFF; 4], &[0x80, 0, 0, 0]];
        for octets in numbers {
            self.with(&[link(octets, &[1, 2], &[SOUGHT])]);
            self.with(&[link(&[6], octets, &[SOUGHT])]);
        }
        // k as it is, one octet long and one short, k one too large and one too small.
        for (n, m, k) in [
            (1, 1, 0),
            (1, 1, 1),
            (1, 1, 2),
            (1, 1, 82),
            (1, 1, 83),
            (2, 4, 83),
            (4, 2, 83),
            (4, 4, 0),
            (4, 4, 2),
            (4, 4, 82),
        ] {
            let interface = self.rng.octets(n);
            let number = self.rng.octets(m);
            let addresses = crowd(k).concat();
            for (k, octets) in off_by_one(k, &addresses) {
                let body = link_body(&interface, &number, k, &octets);
                // With n + m = 6 and 83 addresses L is 511, and no longer string can be had.
                if body.len() <= LONGEST_BODY {
                    self.with(&[ttc(2, &body)]);
                }
            }
        }
        // 84 addresses never fit, and some counts look right in eight or nine bits only.
        for (k, length) in [(84, 502), (43, 2), (86, 4), (128, 0), (129, 6), (171, 2), (255, 502)] {
            self.with(&[link_claiming(&[6], &[3], k, &vec![0; length])]);
        }
        // Every prefix of an information string, with a TLV behind it that would complete it.
        let body = link_body(&[0, 6], &[3], 1, &SOUGHT);
        for length in 0..=body.len() {
            self.with(&[ttc(2, &body[..length]), tlv(9, &[1; 12])]);
        }
        // n and m that reach the last octet, or go beyond it.
        let bodies: [&[u8]; 9] = [
            &[4],
            &[1, 6, 4, 1],
            &[1, 6, 1, 3],
            &[4, 1, 1, 1],
            &[255, 1, 1, 1, 0],
            &[1, 6, 255, 3, 0],
            &[0x81, 6, 1, 3, 0],
            &[1, 6, 1, 3, 0, 0],
            &[2, 6, 1, 3, 0],
        ];
        for body in bodies {
            self.with(&[ttc(2, body)]);
        }
        // k is believed beyond L: the second address would be header and value of the next TLV.
        let behind = [0x12, 0x04, 0x00, 0x00, 0x10, 0x51];
        for k in [1, 2] {
            let table = link_claiming(&[6], &[3], k, &neighbour(1));
            let inside = lldpdu(&leading(), &[table, behind.to_vec(), category(), model_number()]);
            self.frame_asking(inside.clone(), behind);
            self.frame_asking(inside, neighbour(1));
        }
    }

    /// Address lists: k as it is, one octet long and one short, and k that points beyond L (T8).
    fn lists(&mut self) {
        for k in [0, 1, 2, 42, 83, 84] {
            for (k, octets) in off_by_one(k, &crowd(k).concat()) {
                self.with(&[list_claiming(k, &octets)]);
            }
        }
        // 85 addresses never fit, and some counts look right in eight or nine bits only.
        for (k, length) in [(85, 506), (43, 2), (86, 4), (128, 0), (129, 6), (171, 2), (255, 506)] {
            self.with(&[list_claiming(k, &vec![0; length])]);
        }
        // No k; and k that would take in the next TLV whole.
        self.with(&[ttc(3, &[]), tlv(9, &[1; 4])]);
        for k in [1, 2] {
            self.with(&[list_claiming(k, &neighbour(1)), tlv(9, &[1; 4])]);
        }
    }

    /// Several link tables and lists (A2, A4): the first well-formed one is read; naming looks at
    /// all.
    fn several_tables(&mut self) {
        let other = link(&[1], &[1, 1], &[neighbour(1), neighbour(2)]);
        let naming = link(&[2], &[2, 2], &[neighbour(3), SOUGHT]);
        let again = link(&[3, 3], &[3], &[SOUGHT]);
        let empty = link(&[4], &[4], &[]);
        let bad = link_claiming(&[5], &[5], 3, &[neighbour(4), SOUGHT].concat());
        let no_interface = link(&[], &[5], &[SOUGHT]);
        let long_number = link(&[5], &[5; 5], &[SOUGHT]);
        let rows: [&[&Tlv]; 18] = [
            &[&other, &naming],
            &[&naming, &other],
            &[&naming, &again],
            &[&again, &naming],
            &[&empty, &naming],
            &[&empty, &other],
            &[&other, &other, &again],
            &[&bad],
            &[&bad, &naming],
            &[&bad, &other],
            &[&other, &bad],
            &[&other, &bad, &naming],
            &[&naming, &bad],
            &[&no_interface, &again],
            &[&no_interface, &other],
            &[&long_number, &naming],
            &[&long_number, &other],
            &[&bad, &no_interface, &long_number, &empty, &other, &again],
        ];
        // Naming does not depend on the verdict.
        for row in rows {
            self.htip_and_not(&cloned(row));
        }
        let one = list(&[neighbour(1)]);
        let two = list(&[neighbour(2), SOUGHT]);
        let none = list(&[]);
        let bad = list_claiming(1, &[7; 7]);
        let no_k = ttc(3, &[]);
        let rows: [&[&Tlv]; 11] = [
            &[&one, &two],
            &[&two, &one],
            &[&none, &two],
            &[&two, &none],
            &[&bad],
            &[&bad, &two],
            &[&bad, &none, &two],
            &[&one, &bad],
            &[&no_k, &one],
            &[&two, &naming, &one],
            &[&naming, &bad, &two],
        ];
        for row in rows {
            self.with(&cloned(row));
        }
    }

    /// Port descriptions: every octet, the lengths, and several of them (T10).
    fn descriptions(&mut self) {
        for octet in 0..=255 {
            self.with(&[description(&[octet])]);
        }
        for length in [0, 1, 2, 254, 255, 256, 257, 511] {
            let text = self.rng.picks(CHARACTERS, length);
            self.with(&[description(&text)]);
        }
        // One foreign octet at the front, in the middle, at the end.
        for length in [20, 255] {
            for place in [0, length / 2, length - 1] {
                for foreign in [0x00, 0x5B, 0xC3] {
                    let mut text = self.rng.picks(CHARACTERS, length);
                    text[place] = foreign;
                    self.with(&[description(&text)]);
                }
            }
        }
        let empty = description(b"");
        let one = description(b"one");
        let two = description(b"two");
        let foreign = description(b"a&b");
        let too_long = description(&[b'x'; 256]);
        let rows: [&[&Tlv]; 13] = [
            &[&one, &two],
            &[&two, &one],
            &[&empty, &one],
            &[&empty, &empty],
            &[&one, &empty],
            &[&foreign, &one],
            &[&one, &foreign],
            &[&foreign, &empty, &one],
            &[&foreign, &foreign],
            &[&empty, &foreign],
            &[&too_long, &one],
            &[&one, &too_long],
            &[&too_long, &foreign, &two, &one],
        ];
        for row in rows {
            self.with(&cloned(row));
        }
    }

    /// Types that are skipped, whatever their information string looks like (L9). The system fields
    /// before them spoil nothing either, and are not looked into (S1 to S3).
    fn skipped_types(&mut self) {
        let looks_like = link(&[6], &[3], &[SOUGHT])[2..].to_vec();
        for kind in [5, 6, 7, 8, 9, 63, 64, 125, 126] {
            for value in [vec![], vec![1], looks_like.clone()] {
                self.with(&[tlv(kind, &value)]);
            }
        }
        for kind in [5, 9, 126] {
            for length in [255, 256, 511] {
                let value = self.rng.octets(length);
                self.with(&[tlv(kind, &value), description(b"behind")]);
            }
        }
        let every: Vec<Tlv> = (5..127).map(|kind| tlv(kind, &[kind; 3])).collect();
        self.with(&every);
    }

    /// What follows the End is ignored, even if it looks like something (L8).
    fn padding(&mut self) {
        let inside = self.beside(&[link(&[6], &[3], &[neighbour(1)])]);
        for count in [1, 2, 3, 9, 46] {
            self.frame([inside.clone(), vec![0; count]].concat());
            let noise = self.rng.octets(count);
            self.frame([inside.clone(), noise].concat());
        }
        for behind in [
            link(&[7], &[8], &[SOUGHT]),
            list(&[SOUGHT]),
            device(2, b"0A1B"),
            category(),
            description(b"behind"),
            description(b"a&b"),
            chassis(),
            seconds(),
            tlv(127, &[]),
            tlv(0, &[1, 2]),
            tlv_claiming(9, 500, &[1]),
            vec![0xFE],
        ] {
            self.frame([inside.clone(), behind.clone()].concat());
            self.bare([inside.clone(), behind, end()].concat());
        }
        // An End in the middle hides the rest, the model number among it.
        self.both([leading().concat(), category(), end(), model_number(), end()].concat());
    }

    /// Addresses asked for (A4): in a table, in another one, across two, in the list alone,
    /// nowhere.
    fn asked_addresses(&mut self) {
        let members: Vec<Address> = (1..=5).map(neighbour).collect();
        let tables = self.beside(&[
            link(&[6], &[0, 1], &members),
            link_claiming(&[8], &[8], 2, &neighbour(30)),
            link(&[71], &[2], &[neighbour(3), neighbour(20)]),
            list(&[neighbour(10), neighbour(11)]),
        ]);
        // First, middle, last; in the second table; in the malformed one; in the list; nowhere.
        for number in [1, 3, 5, 20, 30, 10, 11, 99] {
            self.frame_asking(tables.clone(), neighbour(number));
            self.add(Kind::Bare, tables.clone(), neighbour(number));
        }
        // Every six octets that lie within the first table, or share an octet with it.
        let start = tables
            .windows(6)
            .position(|window| window == neighbour(1))
            .expect("the first table is there");
        for place in start - 5..start + 30 {
            let asked = std::array::from_fn(|i| tables[place + i]);
            self.frame_asking(tables.clone(), asked);
        }
        // One octet of the address is another one.
        for place in 0..6 {
            let mut asked = neighbour(3);
            asked[place] ^= 0x10;
            self.frame_asking(tables.clone(), asked);
        }
        // The chassis and the destinations are in no table.
        for asked in [[0x02, 0, 0, 0, 0, 1], EVERYONE, NEAREST] {
            self.frame_asking(tables.clone(), asked);
        }
        // First and last in the longest table.
        for asked in [neighbour(0), SOUGHT] {
            self.frame_asking(lldpdu(&leading(), &[link(&[6], &[3], &crowd(83))]), asked);
        }
    }

    /// Bare LLDPDUs have no longest length (A1).
    fn long_bare(&mut self) {
        for length in [1499, 1500, 1501, 1502, 1514, 1515, 2000] {
            let filled = self.filled(length);
            self.bare(filled[..length - 1].to_vec());
            self.bare(filled);
        }
        self.bare(padded(&typical(), 1999));
        // A frame's header is no part of it.
        let frame = [self.header(), typical()].concat();
        self.bare(frame);
    }
}

/// A count with its octets as they are, one octet long and one short, and the count off by one.
fn off_by_one(k: usize, octets: &[u8]) -> [(usize, Vec<u8>); 5] {
    let short = &octets[..octets.len().saturating_sub(1)];
    [
        (k, octets.to_vec()),
        (k, [octets, &[0]].concat()),
        (k, short.to_vec()),
        (k + 1, octets.to_vec()),
        (k.saturating_sub(1), octets.to_vec()),
    ]
}

pub(super) fn cloned(row: &[&Tlv]) -> Vec<Tlv> {
    row.iter().map(|&tlv| tlv.clone()).collect()
}
