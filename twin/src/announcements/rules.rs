//! Cases for the rules of the writer: each rule and each boundary from both sides, made on purpose.
//! One call makes the cases of one group; a case breaks one thing and leaves the rest sound.

use super::maker::{Maker, LONGEST_LLDPDU};
use super::plan::{Field, Plan};
use crate::frames::blocks::*;
use crate::id::Id;
use crate::writer::LinkStrings;

impl Maker {
    pub fn rules(&mut self) {
        self.combinations();
        self.chassis_ids();
        self.port_ids();
        self.words_of_ports();
        self.device_strings();
        self.link_lengths();
        self.link_addresses();
        self.lists();
        self.pieces_of_addresses();
        self.goodbyes();
        self.seconds();
        self.totals();
    }

    /// Everything that may be left out, present and absent; tables are also present and empty (W1,
    /// A3).
    fn combinations(&mut self) {
        for present in 0..8 {
            for link in 0..3 {
                for list in 0..3 {
                    let mut plan = self.full();
                    let fields = [Field::Words, Field::Manufacturer, Field::ModelName];
                    for (field, bit) in fields.into_iter().zip([1, 2, 4]) {
                        if present & bit == 0 {
                            plan.at(field).clear();
                        }
                    }
                    leave_out(&mut plan, link, list);
                    self.sound(&plan);
                }
            }
        }
    }

    /// One string gets each of these lengths in turn.
    fn lengths(&mut self, field: Field, allowed: &[usize], refused: &[usize]) {
        self.lengths_in(Maker::some_with_link, field, allowed, refused);
    }

    fn some_with_link(&mut self) -> Plan {
        let mut plan = self.some();
        plan.link.get_or_insert(self.link(1));
        plan
    }

    /// One string of plans that are made so gets each of these lengths in turn.
    pub fn lengths_in(
        &mut self,
        made: fn(&mut Maker) -> Plan,
        field: Field,
        allowed: &[usize],
        refused: &[usize],
    ) {
        for (lengths, is_sound) in [(allowed, true), (refused, false)] {
            for &length in lengths {
                let mut plan = made(self);
                *plan.at(field) = self.string(field, length);
                self.judged(&plan, is_sound);
            }
        }
    }

    /// Subtype, number and characters of the chassis (L3), with seconds 0 too.
    fn chassis_ids(&mut self) {
        for (ids, is_sound) in [(right_chassis(), true), (wrong_chassis(), false)] {
            for (id, number) in ids.into_iter().zip(0..) {
                let mut plan = self.plain();
                plan.chassis = id.clone();
                self.judged(&plan, is_sound);
                if is_sound || number % 4 == 0 {
                    let mut plan = self.goodbye();
                    plan.chassis = id;
                    self.judged(&plan, is_sound);
                }
            }
        }
        // Any octets will do in an address, also such as look like an End or like a header.
        for octets in [&[0xEE; 6][..], &[0xEE; 8], &[0xFE, 0x07, 0x00, 0x00, 0x04, 0x02]] {
            let mut plan = self.full();
            plan.chassis = address(octets);
            self.sound(&plan);
        }
    }

    /// Subtype and octets of the port ID (L4), with seconds 0 too.
    fn port_ids(&mut self) {
        for subtype in [0, 1, 2, 3, 4, 5, 6, 7, 8, 9, 128, 255] {
            let mut plan = self.some();
            plan.port.subtype = subtype;
            self.judged(&plan, (1..=7).contains(&subtype));
        }
        // 257 and 512 look right in eight or nine bits only.
        self.lengths(Field::Port, &[1, 2, 254, 255], &[0, 256, 257, 511, 512]);
        for (subtype, length) in [(0, 1), (1, 1), (7, 1), (8, 1), (3, 0), (3, 255), (3, 256)] {
            let mut plan = self.goodbye();
            plan.port = Id { subtype, octets: self.rng.octets(length) };
            self.judged(&plan, (1..=7).contains(&subtype) && (1..=255).contains(&length));
        }
        // Any octets will do, also such as look like an End or like a header.
        for octets in [vec![0, 0], vec![0xFE, 0x07], vec![0xEE; 3], vec![0xFF; 255]] {
            let mut plan = self.some();
            plan.port.octets = octets;
            self.sound(&plan);
        }
    }

    /// The port description: lengths and characters (T10).
    fn words_of_ports(&mut self) {
        self.lengths(Field::Words, &[0, 1, 2, 254, 255], &[256, 257, 511, 512]);
        let all = CHARACTERS.to_vec();
        let edges = [" ", "A", "Z", "a", "z", "0", "9", "-", "%", "_"].map(|c| c.into());
        for words in edges.into_iter().chain([all]) {
            let mut plan = self.some();
            plan.words = words;
            self.sound(&plan);
        }
        // Every sign that is not allowed, controls, and octets above 127.
        for &foreign in b"\"&<>[\\]^`{|}~\x00\x01\x09\x0A\x0D\x1F\x7F\x80\xA0\xC3\xE9\xFF" {
            let mut plan = self.some();
            let length = self.rng.between(1, 6);
            plan.words = self.words(length);
            plan.words[self.rng.below(length)] = foreign;
            self.broken(&plan);
        }
        for length in [20, 255] {
            for place in [0, length / 2, length - 1] {
                let mut plan = self.some();
                plan.words = self.words(length);
                plan.words[place] = self.rng.pick(b"&\x00\xC3");
                self.broken(&plan);
            }
        }
    }

    /// IDs 1 to 4: lengths (T3, W2), and any octets. 256 and more look right in eight bits only.
    fn device_strings(&mut self) {
        self.lengths(Field::Category, &[1, 2, 254, 255], &[0, 256, 257, 511, 512]);
        self.lengths(Field::Manufacturer, &[0, 1, 2, 5, 6], &[7, 8, 255, 256, 262]);
        self.lengths(Field::ModelName, &[0, 1, 2, 30, 31], &[32, 33, 255, 256, 287]);
        self.lengths(Field::ModelNumber, &[1, 2, 30, 31], &[0, 32, 33, 255, 256, 287]);
        for field in [Field::Category, Field::Manufacturer, Field::ModelName, Field::ModelNumber] {
            for octets in [&b"\x00"[..], b"&<\xC3\x28", b"\xEE\xFF"] {
                let mut plan = self.some();
                *plan.at(field) = octets.to_vec();
                self.sound(&plan);
            }
        }
        for first in [0, 1] {
            let mut plan = self.some();
            plan.category = (first..first + 255).map(|octet: u16| octet as u8).collect();
            self.sound(&plan);
        }
    }

    /// Interface type and port number (T7).
    fn link_lengths(&mut self) {
        for n in 0..=5 {
            for m in 0..=5 {
                let plan = self.with_link(n, m, 1);
                self.judged(&plan, (1..=4).contains(&n) && (1..=4).contains(&m));
            }
        }
        for wrong in [256, 257, 260] {
            for (n, m) in [(wrong, 1), (1, wrong)] {
                let plan = self.with_link(n, m, 2);
                self.broken(&plan);
            }
        }
        // Leading zeros stay: 00 06 is not 06.
        for zeros in 1..=3 {
            let mut plan = self.with_link(1, 1, 1);
            *plan.at(Field::Interface) = [vec![0; zeros], vec![6]].concat();
            *plan.at(Field::Number) = vec![0; zeros];
            self.sound(&plan);
        }
    }

    fn with_link(&mut self, n: usize, m: usize, count: usize) -> Plan {
        let mut plan = self.plain();
        plan.link = Some(LinkStrings {
            interface: self.rng.octets(n),
            number: self.rng.octets(m),
            addresses: self.addresses(count),
        });
        plan
    }

    /// As many addresses as L has room for, at every n and m (W5).
    fn link_addresses(&mut self) {
        for n in 1..=4 {
            for m in 1..=4 {
                for count in [0, 1, 2, 82, 83, 84, 85] {
                    let plan = self.with_link(n, m, count);
                    self.judged(&plan, 7 + n + m + 6 * count <= 511);
                }
            }
        }
        // Counts and lengths that look small in eight or nine bits only.
        for count in [86, 128, 171, 256, 300] {
            let plan = self.with_link(1, 1, count);
            self.broken(&plan);
        }
    }

    fn with_list(&mut self, octets: usize) -> Plan {
        let mut plan = self.plain();
        plan.list = Some(self.rng.octets(octets));
        plan
    }

    /// The address list (T8, W5).
    fn lists(&mut self) {
        for count in [0, 1, 2, 82, 83, 84] {
            let plan = self.with_list(6 * count);
            self.sound(&plan);
        }
        for count in [85, 86, 128, 171, 256, 300] {
            let plan = self.with_list(6 * count);
            self.broken(&plan);
        }
    }

    /// Address octets that are no whole addresses (W7).
    fn pieces_of_addresses(&mut self) {
        for octets in [1, 5, 7, 11, 491, 497, 499] {
            let mut plan = self.with_link(1, 1, 0);
            *plan.at(Field::LinkAddresses) = self.rng.octets(octets);
            self.broken(&plan);
        }
        for octets in [1, 5, 7, 11, 497, 503, 505, 506] {
            let plan = self.with_list(octets);
            self.broken(&plan);
        }
        // The pieces of both tables make up a whole address.
        let mut plan = self.full();
        *plan.at(Field::LinkAddresses) = self.rng.octets(9);
        *plan.at(Field::ListAddresses) = self.rng.octets(9);
        self.broken(&plan);
    }

    /// Seconds 0 (W3): alone, and with each of the things that must then be absent.
    fn goodbyes(&mut self) {
        for _ in 0..8 {
            let plan = self.goodbye();
            self.sound(&plan);
        }
        for field in [
            Field::Words,
            Field::Category,
            Field::Manufacturer,
            Field::ModelName,
            Field::ModelNumber,
        ] {
            for length in [1, 6] {
                let mut plan = self.goodbye();
                *plan.at(field) = self.string(field, length);
                self.broken(&plan);
            }
        }
        for count in [0, 1] {
            let mut plan = self.goodbye();
            plan.link = Some(self.link(count));
            self.broken(&plan);
            let mut plan = self.goodbye();
            plan.list = Some(self.addresses(count));
            self.broken(&plan);
        }
        for mut plan in [self.plain(), self.full()] {
            plan.seconds = 0;
            self.broken(&plan);
        }
    }

    /// Seconds above 0 with and without what must then be there (W2, L5).
    fn seconds(&mut self) {
        for seconds in [1, 2, 120, 255, 256, 257, 32_767, 32_768, 65_280, 65_534, 65_535] {
            let mut plan = self.some();
            plan.seconds = seconds;
            self.sound(&plan);
        }
        for seconds in [1, 256, 65_535] {
            let missing: [&[Field]; 3] =
                [&[Field::Category], &[Field::ModelNumber], &[Field::Category, Field::ModelNumber]];
            for fields in missing {
                let mut plan = self.some();
                plan.seconds = seconds;
                for &field in fields {
                    plan.at(field).clear();
                }
                self.broken(&plan);
            }
        }
    }

    /// Around 1,500 octets (R9), reached in several ways and with each kind of chassis.
    fn totals(&mut self) {
        let [six, eight] = [6, 8].map(|count| address(&characters(count)));
        let [two, twenty, most] = [2, 20, 64].map(|count| local(&characters(count)));
        for id in [&six, &eight, &two, &twenty, &most] {
            for total in [1499, 1500, 1501] {
                let plan = self.of_length_with(id, total);
                self.judged(&plan, total <= LONGEST_LLDPDU);
            }
        }
        // One rest for several chassis: with the last two it is too long.
        let mut plan = self.of_length_with(&six, LONGEST_LLDPDU);
        for (id, total) in [(&two, 1496), (&six, 1500), (&eight, 1502), (&most, 1558)] {
            plan.chassis = id.clone();
            assert_eq!(plan.length(), total);
            self.judged(&plan, total <= LONGEST_LLDPDU);
        }
        for total in [1502, 1506, 1600] {
            let plan = self.of_length(total);
            self.broken(&plan);
        }
        // All that a description can hold, and more than any frame.
        let plan = self.fullest(&most);
        self.broken(&plan);
        let plan = self.of_length(1501);
        for room in [0, 1500, 1600] {
            self.broken_in(&plan, room);
        }
    }

    /// Every string as long as its own rule allows; only the whole is too long.
    fn fullest(&mut self, chassis: &Id) -> Plan {
        let mut plan = self.full();
        plan.chassis = chassis.clone();
        // With 83 addresses that leaves L at 511 (T7).
        let (n, m) = self.rng.pick(&[(2, 4), (3, 3), (4, 2)]);
        for &(field, longest) in Field::BASIC_BEHIND_CHASSIS {
            let length = match field {
                Field::Interface => n,
                Field::Number => m,
                _ => longest,
            };
            *plan.at(field) = self.string(field, length);
        }
        plan
    }

    /// A plan whose LLDPDU would have exactly that many octets, and that breaks no other rule.
    pub fn of_length(&mut self, total: usize) -> Plan {
        let chassis = random_chassis(&mut self.rng);
        self.of_length_with(&chassis, total)
    }

    /// The same with this chassis.
    pub fn of_length_with(&mut self, chassis: &Id, total: usize) -> Plan {
        let mut plan = self.fullest(chassis);
        self.shorten(&mut plan, Field::BASIC_BEHIND_CHASSIS, total);
        plan
    }

    /// Takes octets from these strings until the LLDPDU would have exactly that many.
    pub fn shorten(&mut self, plan: &mut Plan, fields: &[(Field, usize)], total: usize) {
        while plan.length() > total {
            let too_many = plan.length() - total;
            let (field, _) = self.rng.pick(fields);
            // Something is left of each, so that no header goes with the last of it.
            let (least, step) = field.least_and_step();
            let length = plan.at(field).len();
            let steps = (too_many.min(length - least) / step).min(self.rng.between(1, 40));
            plan.at(field).truncate(length - steps * step);
        }
    }
}

/// Each of the two tables becomes absent (0), stays and becomes empty (1), or stays as it is (A3).
pub fn leave_out(plan: &mut Plan, link: usize, list: usize) {
    match link {
        0 => plan.link = None,
        1 => plan.at(Field::LinkAddresses).clear(),
        _ => {}
    }
    match list {
        0 => plan.list = None,
        1 => plan.at(Field::ListAddresses).clear(),
        _ => {}
    }
}
