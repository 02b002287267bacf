//! Cases for the system fields (S1 to S5): lengths, which of several are read, where they stand.
//! They do not touch the verdict (H1): they are put into what is HTIP and into what is not.

use super::blocks::*;
use super::maker::Maker;
use super::rules::cloned;

/// The types of system fields. The first three are each read from one TLV alone (S4).
const KINDS: [u8; 4] = [5, 6, 7, 8];

impl Maker {
    pub fn system_fields(&mut self) {
        self.system_lengths();
        self.flags();
        self.any_octets();
        self.first_of_each_type();
        self.management_addresses();
        self.orders_of_types();
        self.spoilt_besides();
        self.goodbyes();
        self.cut_system_fields();
        self.faults_besides_system_fields();
        self.types_like_those_of_systems();
        self.system_fields_as_padding();
        self.longest_system_fields();
    }

    /// Each length at its limits (S1 to S3), and lengths that are right in eight bits only.
    fn system_lengths(&mut self) {
        let of_text = &[0, 1, 2, 254, 255, 256, 257, 258, 511];
        let rows: [(u8, &[usize]); 4] = [
            (5, of_text),
            (6, of_text),
            (7, &[0, 1, 2, 3, 4, 5, 6, 8, 255, 256, 260, 511]),
            (8, &[0, 1, 7, 8, 9, 10, 11, 166, 167, 168, 169, 255, 256, 265, 423, 511]),
        ];
        for (kind, lengths) in rows {
            for &length in lengths {
                let value = self.rng.octets(length);
                self.htip_and_not(&[tlv(kind, &value)]);
            }
        }
    }

    /// Capabilities: no flag, all flags, each flag by itself, and sets that do not suit each other
    /// (S2, A3).
    fn flags(&mut self) {
        for sets in [0, u32::MAX, 0x0014_0004, 0x0004_0014, 0x0000_FFFF, 0xFFFF_0000, 0x0102_0304] {
            self.htip_and_not(&[tlv(7, &u32::to_be_bytes(sets))]);
        }
        for flag in 0..32 {
            self.with(&[tlv(7, &u32::to_be_bytes(1 << flag))]);
        }
    }

    /// Nothing inside a system field is looked at, whatever it looks like (S1, S3).
    fn any_octets(&mut self) {
        for first in [0, 1] {
            let every: Vec<u8> = (first..first + 255).map(|octet: u16| octet as u8).collect();
            self.with(&[tlv(5, &every), tlv(6, &every[first as usize..]), tlv(8, &every[90..250])]);
        }
        for looks_like in [
            end(),
            seconds(),
            chassis(),
            category(),
            device(2, b"0A"),
            description(b"a&b"),
            link(&[6], &[3], &[SOUGHT]),
            list(&[SOUGHT]),
            [system_field(5, 1), system_field(8, 1), end()].concat(),
            tlv_claiming(5, 511, b"more"),
        ] {
            for kind in [5, 6] {
                self.htip_and_not(&[tlv(kind, &looks_like), description(b"behind")]);
            }
            self.htip_and_not(&[tlv(7, &padded(&looks_like, 4)), description(b"behind")]);
            self.htip_and_not(&[tlv(8, &padded(&looks_like, 18)), description(b"behind")]);
        }
        // The first octet of a management address, and the one that stands behind what it counts.
        for (first, counted) in [(5, 0), (5, 255), (0, 0), (1, 1), (31, 1), (32, 1), (255, 255)] {
            let address = [first, 1, 192, 0, 2, 1, 2, 0, 0, 0, 1, counted];
            self.htip_and_not(&[tlv(8, &address)]);
        }
    }

    /// Several of type 5, 6 or 7: the first decides, be it right, wrong or empty (S4).
    fn first_of_each_type(&mut self) {
        for kind in [5, 6, 7] {
            let one = system_field(kind, 1);
            let two = system_field(kind, 2);
            let wrong = wrong_system_field(kind, 3);
            // Capabilities of no octets are wrong; with no flag set they are not.
            let none = tlv(kind, &[]);
            let zeros = tlv(kind, &[0; 4]);
            let rows: [&[&Tlv]; 16] = [
                &[&one, &two],
                &[&two, &one],
                &[&one, &one],
                &[&wrong, &one],
                &[&one, &wrong],
                &[&wrong, &wrong],
                &[&wrong, &two, &one],
                &[&one, &wrong, &two],
                &[&none, &one],
                &[&one, &none],
                &[&none, &none],
                &[&none, &wrong, &one],
                &[&wrong, &none, &one],
                &[&zeros, &one],
                &[&one, &zeros],
                &[&wrong, &zeros],
            ];
            for row in rows {
                self.htip_and_not(&cloned(row));
            }
            // Far apart.
            for (first, last) in [(&one, &two), (&wrong, &one), (&none, &one)] {
                let mut tlvs = every_field().to_vec();
                tlvs.insert(0, first.clone());
                tlvs.push(last.clone());
                self.frame(lldpdu(&leading(), &tlvs));
            }
            // A wrong one does not stand for those of other types.
            for other in KINDS {
                if other != kind {
                    self.with(&[wrong.clone(), system_field(other, 4)]);
                    self.with(&[system_field(other, 4), wrong.clone()]);
                }
            }
        }
        for length in [0, 2, 3, 6] {
            self.with(&[tlv(7, &vec![1; length]), system_field(7, 1)]);
        }
        // A crowd of each type.
        for kind in [5, 6, 7] {
            let crowd: Vec<Tlv> = (0..30).map(|tag| system_field(kind, tag)).collect();
            self.with(&crowd);
        }
    }

    /// None to six of a right length, and wrong ones at each place among them (S5).
    fn management_addresses(&mut self) {
        let right: Vec<Tlv> = (1..=6).map(|tag| system_field(8, tag)).collect();
        for count in 0..=6 {
            self.htip_and_not(&right[..count]);
            let reversed: Vec<Tlv> = right[..count].iter().rev().cloned().collect();
            self.with(&reversed);
        }
        for count in 1..=6 {
            for place in 0..=count {
                for length in [8, 168] {
                    let mut row = right[..count].to_vec();
                    row.insert(place, tlv(8, &vec![0xBB; length]));
                    self.with(&row);
                }
            }
        }
        let wrong = wrong_system_field(8, 9);
        let none = tlv(8, &[]);
        for before in [&wrong, &none] {
            // As many wrong ones as could be read if they were right, or one more.
            for count in [4, 5] {
                self.htip_and_not(&vec![before.clone(); count]);
                self.htip_and_not(&[vec![before.clone(); count], right.clone()].concat());
            }
            let in_turn: Vec<Tlv> =
                right.iter().flat_map(|right| [before.clone(), right.clone()]).collect();
            self.htip_and_not(&in_turn);
        }
        // The same one again is one more.
        for (first, second) in [(4, 1), (3, 2), (1, 4), (5, 0)] {
            let row = [vec![right[0].clone(); first], vec![right[1].clone(); second]].concat();
            self.with(&row);
        }
        // Each of another length, and the longest.
        for lengths in [[9, 10, 11, 12, 13], [167, 9, 167, 9, 167], [168, 167, 166, 9, 8]] {
            let row = lengths.map(|length| {
                let value = self.rng.octets(length);
                tlv(8, &value)
            });
            self.htip_and_not(&row);
        }
        let crowd: Vec<Tlv> = (0..40).map(|tag| system_field(8, tag)).collect();
        self.with(&crowd);
    }

    /// System fields before, behind and between the others, and in every order of their types.
    fn orders_of_types(&mut self) {
        let system = every_system_field();
        let reversed: Vec<Tlv> = system.iter().rev().cloned().collect();
        let others = every_field();
        for system in [&system[..], &reversed] {
            self.frame(lldpdu(&leading(), &[system, &others].concat()));
            self.frame(lldpdu(&leading(), &[&others, system].concat()));
            let mut between = others.to_vec();
            for (tlv, place) in system.iter().zip(1..) {
                between.insert(2 * place - 1, tlv.clone());
            }
            self.frame(lldpdu(&leading(), &between));
            self.bare(lldpdu(&leading(), &between[1..]));
        }
        for number in 0..24 {
            let mut left = KINDS.to_vec();
            let order =
                [number % 4, number / 4 % 3, number / 12, 0].map(|place| left.remove(place));
            self.htip_and_not(&order.map(|kind| system_field(kind, 1)));
        }
    }

    /// The verdict is spoilt, or not, by other TLVs alone (H1).
    fn spoilt_besides(&mut self) {
        let right = every_system_field().to_vec();
        let wrong = KINDS.map(|kind| wrong_system_field(kind, 3)).to_vec();
        let twice = [right.clone(), right.clone()].concat();
        let no_flag = vec![tlv(7, &[0; 4])];
        let verdicts = [
            vec![category(), model_number()],
            vec![category()],
            vec![model_number()],
            vec![category(), category(), model_number()],
            vec![category(), model_number(), link(&[], &[3], &[SOUGHT])],
            vec![category(), model_number(), list_claiming(1, &[7; 7])],
            vec![category(), model_number(), description(b"a&b")],
        ];
        for others in verdicts {
            for system in [&right, &wrong, &twice, &no_flag] {
                let mut later = [others.clone(), system.clone()].concat();
                self.rng.shuffle(&mut later);
                self.both(lldpdu(&leading(), &later));
            }
        }
    }

    /// Seconds 0, with system fields alone and with others beside them (N7).
    fn goodbyes(&mut self) {
        let first_three = [chassis(), port(), tlv(3, &[0, 0])];
        for kind in KINDS {
            for field in [system_field(kind, 1), wrong_system_field(kind, 1)] {
                self.both(lldpdu(&first_three, &[field]));
            }
        }
        self.both(lldpdu(&first_three, &every_system_field()));
        let all = [&every_field()[..], &every_system_field()].concat();
        self.both(lldpdu(&first_three, &all));
    }

    /// A system field that is not there to its end gives 5, whatever its length (R5).
    fn cut_system_fields(&mut self) {
        let whole = lldpdu(&leading(), &every_system_field());
        for length in leading().concat().len()..=whole.len() {
            self.both(whole[..length].to_vec());
        }
        let before = [leading().concat(), category(), model_number()].concat();
        for (kind, length) in [
            (5, 0),
            (5, 1),
            (5, 255),
            (5, 256),
            (6, 0),
            (6, 255),
            (6, 511),
            (7, 0),
            (7, 3),
            (7, 4),
            (7, 5),
            (8, 0),
            (8, 8),
            (8, 9),
            (8, 167),
            (8, 168),
        ] {
            self.cut_and_whole(&before, tlv(kind, &vec![kind; length]));
        }
        // L takes in the End, and more than there is.
        for (kind, claimed) in [(5, 5), (5, 7), (6, 256), (7, 4), (7, 5), (8, 9), (8, 168)] {
            let field = tlv_claiming(kind, claimed, b"abc");
            self.both(lldpdu(&leading(), &[category(), model_number(), field]));
        }
    }

    /// What is refused is refused beside system fields too, and they in place of the first three
    /// (R4, R6, Q1).
    fn faults_besides_system_fields(&mut self) {
        let faults = [chassis(), port(), seconds(), tlv(0, &[0]), tlv(127, &TTC)];
        for fault in faults {
            for field in [system_field(5, 1), wrong_system_field(7, 1), system_field(8, 1)] {
                self.with(&[field.clone(), fault.clone()]);
                self.bare(lldpdu(&leading(), &[fault.clone(), field]));
            }
        }
        for kind in KINDS {
            for place in 0..3 {
                self.led_by(place, system_field(kind, 1));
            }
        }
        for first_three in [
            [tlv(1, &[4; 6]), port(), seconds()],
            [chassis(), tlv(2, &[0, 1]), seconds()],
            [chassis(), port(), tlv(3, &[0; 3])],
        ] {
            self.both(lldpdu(&first_three, &every_system_field()));
        }
    }

    /// Types near those of system fields, or alike in most of their bits: they are skipped, and are
    /// not the first of a type (L9).
    fn types_like_those_of_systems(&mut self) {
        for kind in [9, 10, 13, 14, 15, 16, 21, 37, 40, 69, 70, 71, 72, 126] {
            let alike: Vec<Tlv> =
                KINDS.iter().map(|&like| tlv(kind, &system_field(like, 1)[2..])).collect();
            self.htip_and_not(&alike);
            let wrong = tlv(kind, &[1; 5]);
            self.with(&[&[wrong], &every_system_field()[..]].concat());
        }
    }

    /// What follows the End is not read (L8).
    fn system_fields_as_padding(&mut self) {
        let inside = self.beside(&[]);
        for behind in every_system_field() {
            self.both([inside.clone(), behind].concat());
        }
        let inside = self.beside(&[system_field(8, 1)]);
        self.both([inside, every_system_field().concat(), end()].concat());
    }

    /// As long as they may be, in the longest frame, and in an LLDPDU too long for a frame.
    fn longest_system_fields(&mut self) {
        let mut fields: Vec<Tlv> = Vec::new();
        for (kind, length) in [(8, 167), (5, 255), (8, 167), (7, 4), (8, 167), (6, 255), (8, 167)] {
            let value = self.rng.octets(length);
            fields.push(tlv(kind, &value));
        }
        let inside = self.beside(&fields);
        for length in [1500, 1501] {
            let filled = self.filled_up(inside.clone(), length);
            self.both(filled);
        }
    }
}
