//! Cases for where things lie: parts in the text and outside it, and output buffers of all sizes.
//! A part that lies outside is wrong by its numbers alone; the octets of the text are sound.

use super::maker::Maker;
use super::plan::{append, part, Field, Plan};
use crate::frames::blocks::{address, local, CHARACTERS, HEX};
use crate::id::Id;
use crate::writer::{Description, LinkStrings, Management, Part};

impl Maker {
    pub fn places(&mut self) {
        for &(field, _) in Field::BASIC {
            let plan = self.full();
            self.at_the_end(plan, field);
            let plan = self.full();
            self.far_outside(plan, field);
        }
        self.absent_strings(&Field::BASIC[Field::Words as usize..=Field::ModelNumber as usize]);
        self.empty_texts();
        self.shared_octets();
        self.windows();
        self.rooms_for_sound();
        self.rooms_for_broken();
    }

    /// The field stands last in the text; a gap before each string lets no part begin at 0. The
    /// plan has all strings up to this one.
    fn with_last(&mut self, plan: &Plan, field: Field) -> (Description, Vec<u8>) {
        let last = field as usize;
        let mut order = plan.numbers();
        order.retain(|&number| number != last);
        self.rng.shuffle(&mut order);
        order.push(last);
        plan.laid_out(&order, |text, string| {
            text.push(self.rng.octet());
            append(text, string)
        })
    }

    /// A part that ends where the text ends, or one octet behind it (W7).
    pub fn at_the_end(&mut self, mut plan: Plan, field: Field) {
        let (mut description, text) = self.with_last(&plan, field);
        let room = self.enough_for(&plan);
        let end = text.len() as u64;
        let Part { start, len } = *description.at(field);
        assert!(start > 0 && start + len == end);
        self.add_sound((description.clone(), text.clone()), plan.length(), room);
        for (start, len) in [(start + 1, len), (start, len + 1), (end, 1), (end + 1, 0)] {
            *description.at(field) = Part { start, len };
            self.add((description.clone(), text.clone()), room, Err(9));
        }
        // Nothing, at the very end, lies inside.
        *description.at(field) = Part { start: end, len: 0 };
        plan.at(field).clear();
        let room = self.enough_for(&plan);
        let meant = if field.may_be_empty() { Ok(plan.length()) } else { Err(9) };
        self.add((description, text), room, meant);
    }

    /// Numbers that are huge, right in their low bits only, or whose sum wraps to a small one (W7).
    pub fn far_outside(&mut self, plan: Plan, field: Field) {
        let (mut description, text) = self.with_last(&plan, field);
        let Part { start, len } = *description.at(field);
        for (start, len) in [
            (start + (1 << 32), len),
            (1 << 63, len),
            (1 << 63, 1 << 63),
            (u64::MAX, 0),
            (u64::MAX, len),
            (u64::MAX - len + 1, len),
            (start, len + (1 << 32)),
            (start, 1 << 63),
            (start, u64::MAX),
            (start, u64::MAX - start + 1),
        ] {
            *description.at(field) = Part { start, len };
            let room = self.enough_for(&plan);
            self.add((description.clone(), text.clone()), room, Err(9));
        }
    }

    /// Strings that seconds 0 wants absent, and that yet have to begin in the text (W3, W7).
    pub fn absent_strings(&mut self, fields: &[(Field, usize)]) {
        let plan = self.goodbye();
        let (mut description, mut text) = plan.in_order();
        text.extend(self.rng.octets(2));
        let end = text.len() as u64;
        for start in [0, 1, end] {
            for &(field, _) in fields {
                *description.at(field) = Part { start, len: 0 };
            }
            let room = self.enough_for(&plan);
            self.add_sound((description.clone(), text.clone()), plan.length(), room);
        }
        for &(field, _) in fields {
            let mut description = description.clone();
            *description.at(field) = Part { start: end + 1, len: 0 };
            self.add((description, text.clone()), plan.length(), Err(9));
        }
    }

    /// A text of no octets has no chassis and no port ID, though an empty part lies in it (L3, L4,
    /// W7).
    fn empty_texts(&mut self) {
        for mut plan in [self.goodbye(), self.plain()] {
            for field in [Field::Chassis, Field::Port, Field::Category, Field::ModelNumber] {
                plan.at(field).clear();
            }
            let (mut description, text) = plan.in_order();
            self.add((description.clone(), text.clone()), 40, Err(9));
            description.port.octets.len = 1;
            self.add((description.clone(), text.clone()), 40, Err(9));
            description.chassis.octets.len = 6;
            self.add((description, text), 40, Err(9));
        }
    }

    /// Parts that are the same, or that lie in one another, made by hand.
    fn shared_octets(&mut self) {
        // A text of one pair; all strings are this pair, and the empty parts stand behind it.
        let mut plan = self.plain();
        plan.chassis = local(b"AF");
        for field in [Field::Port, Field::Category, Field::ModelNumber] {
            *plan.at(field) = b"AF".to_vec();
        }
        let whole = Part { start: 0, len: 2 };
        let nothing = Part { start: 2, len: 0 };
        let mut description = plan
            .with(|string| Some(if string.is_empty() { nothing } else { whole }))
            .expect("each string has its part");
        self.add_sound((description.clone(), b"AF".to_vec()), plan.length(), plan.length());
        plan.words = b"AF".to_vec();
        description.words = whole;
        self.add_sound((description, b"AF".to_vec()), plan.length(), plan.length());

        // Both tables have the same addresses, or addresses that lie askew in one another; the
        // other strings lie in them as well, and so does each kind of chassis.
        for (first, second, subtype, chassis) in [
            ((0, 18), (0, 18), 4, (12, 6)),
            ((0, 12), (3, 12), 4, (7, 8)),
            ((5, 6), (0, 18), 7, (0, 18)),
        ] {
            let part = |(start, len)| Part { start, len };
            let mut description = Description {
                chassis: Id { subtype, octets: part(chassis) },
                port: Id { subtype: 7, octets: part((17, 1)) },
                seconds: 120,
                words: part((1, 9)),
                category: part((0, 18)),
                manufacturer: part((6, 6)),
                model_name: part((2, 15)),
                model_number: part((3, 14)),
                link: Some(LinkStrings {
                    interface: part((5, 1)),
                    number: part((5, 4)),
                    addresses: part(first),
                }),
                list: Some(part(second)),
                system_name: Part::default(),
                system_description: Part::default(),
                capabilities: None,
                management: Management::default(),
                extension: None,
            };
            let text = self.rng.picks(HEX, 18);
            let strings = description.with(|part| Some(vec![0; part.len as usize]));
            let length = strings.expect("each string has its octets").length();
            self.add_sound((description.clone(), text.clone()), length, length);
            // With one octet less in the text, what reached its end lies outside.
            self.add((description.clone(), text[..17].to_vec()), length, Err(9));
            description.port.octets = part((18, 1));
            self.add((description, text), length, Err(9));
        }
    }

    /// Every part is some window of a short text, so that parts overlap in all ways.
    fn windows(&mut self) {
        for _ in 0..18 {
            let plan = self.some();
            self.in_windows(plan);
        }
    }

    pub fn in_windows(&mut self, mut plan: Plan) {
        // The shortest text has room for so many.
        plan.chassis.octets.truncate(12);
        let count = self.rng.between(12, 40);
        let laid = self.over_one_another(&plan, count);
        let room = self.enough_for(&plan);
        self.add_sound(laid, plan.length(), room);
    }

    /// The plan in a text of so many octets, each string anywhere in it. It is as long as the
    /// plan's own; the octets are the text's.
    pub fn over_one_another(&mut self, plan: &Plan, octets: usize) -> (Description, Vec<u8>) {
        // What may stand in a local chassis may stand in all other strings too.
        let among = if plan.chassis.subtype == 7 { HEX } else { CHARACTERS };
        let text = self.rng.picks(among, octets);
        let (description, _) = plan.laid_out(&plan.numbers(), |_, string| {
            part(self.rng.between(0, text.len() - string.len()), string)
        });
        (description, text)
    }

    /// Buffers that are empty, too short by little, exact and longer (R10, W4).
    fn rooms_for_sound(&mut self) {
        let mut frame_a = self.plain();
        frame_a.chassis = address(&[2, 0, 0, 0, 0, 1]);
        frame_a.port = Id { subtype: 7, octets: b"1".to_vec() };
        frame_a.seconds = 120;
        frame_a.category = b"A".to_vec();
        frame_a.model_number = b"7".to_vec();
        // Frame A of the bench has 37 octets behind its header.
        for room in 0..=39 {
            self.sound_in(&frame_a, room);
        }
        // B14 has two octets more, B15 four fewer.
        for (id, length) in [(address(&[2, 0, 0, 0xFF, 0xFE, 0, 0, 1]), 39), (local(b"AF"), 33)] {
            frame_a.chassis = id;
            assert_eq!(frame_a.length(), length);
            for room in [0, 32, 33, 36, 37, 38, 39, 40] {
                self.sound_in(&frame_a, room);
            }
        }
        let plans = [self.goodbye(), self.some(), self.full(), self.of_length(700)];
        for plan in plans {
            let length = plan.length();
            for room in [0, 1, length - 2, length - 1, length, length + 1, length + 60] {
                self.sound_in(&plan, room);
            }
        }
        let longest = self.of_length(1500);
        for room in [0, 1498, 1499, 1500, 1501, 1600] {
            self.sound_in(&longest, room);
        }
    }

    /// The same for descriptions that break a rule: 9 goes before 10 (Q1).
    fn rooms_for_broken(&mut self) {
        let mut plans = vec![self.full(); 11];
        plans[0].port.subtype = 8;
        plans[1].port.octets.clear();
        plans[2].words.push(b'&');
        plans[3].category.clear();
        plans[4].model_number = vec![b'L'; 32];
        *plans[5].at(Field::Number) = vec![1; 5];
        plans[6].at(Field::ListAddresses).pop();
        plans[7].seconds = 0;
        plans[8].chassis = address(&[2; 7]);
        plans[9].chassis = local(b"af");
        plans[10].chassis.subtype = 5;
        for plan in plans {
            let length = plan.length();
            for room in [0, length - 1, length, length + 40] {
                self.broken_in(&plan, room);
            }
        }
        // Too many addresses, with room for fewer.
        let mut plan = self.plain();
        plan.list = Some(self.addresses(85));
        for room in [0, plan.length() - 1, plan.length(), 1600] {
            self.broken_in(&plan, room);
        }
    }
}
