//! Random cases: sound plans, and plans in which one or two things are broken, in random rooms.
//! They look for what nobody thought of; the rules themselves have cases of their own.

use super::extension::malformed;
use super::maker::{Maker, LONGEST_LLDPDU};
use super::plan::{Field, Plan};
use crate::frames::blocks::{wrong_chassis, LONGEST_BODY};
use crate::writer::Part;

impl Maker {
    pub fn random(&mut self) {
        self.compositions(60, 40, Maker::random_plan, Maker::break_a_rule);
        for _ in 0..20 {
            let plan = self.random_plan(false);
            self.part_too_far(plan, &Field::BASIC[..=Field::ModelNumber as usize]);
        }
    }

    /// The same with system fields.
    pub fn random_of_systems(&mut self) {
        self.compositions(40, 28, Maker::random_plan_of_systems, Maker::break_any_rule);
        for _ in 0..12 {
            let plan = self.some();
            let plan = self.with_system(plan);
            self.part_too_far(plan, Field::SYSTEM);
        }
    }

    /// The same with extension link information.
    pub fn random_of_extensions(&mut self) {
        self.compositions(70, 50, Maker::random_plan_of_extensions, Maker::break_extension);
        for _ in 0..10 {
            let mut plan = self.some();
            plan.extension = Some(self.any_shape().body());
            self.part_too_far(plan, &[(Field::Extension, LONGEST_BODY)]);
        }
    }

    /// So many sound plans, and so many in which something is broken.
    fn compositions(
        &mut self,
        sound: usize,
        broken: usize,
        random_plan: fn(&mut Maker, bool) -> Plan,
        break_a_rule: fn(&mut Maker, &mut Plan),
    ) {
        for round in 0..sound {
            let plan = random_plan(self, round % 10 == 9);
            let length = plan.length();
            let room = match round % 4 {
                0 => self.rng.below(length),
                1 => length + self.rng.below(40),
                _ => self.enough_for(&plan),
            };
            if length <= LONGEST_LLDPDU {
                self.sound_in(&plan, room);
            } else {
                self.broken_in(&plan, room.min(1600));
            }
        }
        for round in 0..broken {
            let mut plan = random_plan(self, false);
            for _ in 0..self.rng.between(1, 2) {
                break_a_rule(self, &mut plan);
            }
            let room = match round % 4 {
                0 => self.rng.below(plan.length().min(1600)),
                _ => self.enough_for(&plan),
            };
            self.broken_in(&plan, room);
        }
    }

    /// A sound plan, but that its LLDPDU may be too long where the strings are long.
    fn random_plan(&mut self, long: bool) -> Plan {
        let mut plan = self.some();
        if self.rng.once_in(6) {
            plan = self.goodbye();
        }
        let fields = &Field::BASIC[Field::Port as usize..=Field::ModelNumber as usize];
        self.random_strings(&mut plan, fields, long);
        let most = if long { 82 } else { 4 };
        if plan.link.is_some() {
            let count = self.rng.between(0, most);
            plan.link = Some(self.link(count));
        }
        if plan.list.is_some() {
            let count = self.rng.between(0, most);
            plan.list = Some(self.addresses(count));
        }
        plan
    }

    /// The same with system fields, and only they may be long. A goodbye has none (W3).
    fn random_plan_of_systems(&mut self, long: bool) -> Plan {
        if self.rng.once_in(8) {
            return self.goodbye();
        }
        let plan = self.some();
        let mut plan = self.with_some_system(plan);
        self.random_strings(&mut plan, Field::SYSTEM, long);
        plan
    }

    /// The same with extension link information, long or short. A goodbye has none (W3).
    fn random_plan_of_extensions(&mut self, long: bool) -> Plan {
        if self.rng.once_in(10) {
            return self.goodbye();
        }
        let plan = self.some();
        let mut plan = self.with_some_system(plan);
        let shape = self.any_shape();
        let shape = if long { shape.of_length(LONGEST_BODY) } else { shape };
        plan.extension = Some(shape.body());
        plan
    }

    /// As `break_a_rule`, but mostly that of extension link information (W7). On a goodbye it is
    /// broken by being there (W3).
    fn break_extension(&mut self, plan: &mut Plan) {
        if self.rng.once_in(4) {
            return self.break_a_rule(plan);
        }
        let wrong = malformed(&self.any_shape());
        plan.extension = Some(wrong[self.rng.below(wrong.len())].clone());
    }

    /// Those of the strings that have octets get others, of any length that is allowed.
    fn random_strings(&mut self, plan: &mut Plan, fields: &[(Field, usize)], long: bool) {
        for &(field, longest) in fields {
            if !plan.at(field).is_empty() {
                let (least, _) = field.least_and_step();
                let length = match self.rng.below(8) {
                    0 => longest,
                    1 => self.rng.between(least, longest),
                    _ if long => longest,
                    _ => self.rng.between(least, longest.min(12)),
                };
                *plan.at(field) = self.string(field, length);
            }
        }
    }

    /// As `break_a_rule`, but mostly a rule of the system fields (W7).
    fn break_any_rule(&mut self, plan: &mut Plan) {
        let more = self.rng.between(1, 9);
        match self.rng.below(8) {
            0 => plan.system_name = self.rng.octets(255 + more),
            1 => plan.system_description = self.rng.octets(255 + more),
            2 | 3 => {
                let count = self.rng.between(1, 4);
                plan.management = self.management(count);
                let length = if self.rng.once_in(2) { 9 - more } else { 167 + more };
                plan.management.slots[self.rng.below(count)] = self.rng.octets(length);
            }
            4 => plan.management.count = 4 + more as u64,
            5 => plan.management.count = self.rng.word() | 1 << 63,
            _ => self.break_a_rule(plan),
        }
    }

    /// Breaks one rule; a second one broken on top of it cannot mend the first.
    fn break_a_rule(&mut self, plan: &mut Plan) {
        let more = self.rng.between(1, 9);
        match self.rng.below(17) {
            0 => plan.port.octets = vec![],
            1 => plan.port.octets = self.rng.octets(255 + more),
            2 => plan.port.subtype = self.rng.pick(&[0, 8, 16, 129, 255]),
            3 => plan.words = self.words(255 + more),
            4 => plan.words = self.rng.pick(&["a&b", "line\n", "[x]", "\u{E9}"]).into(),
            5 => plan.category = self.rng.octets(255 + more),
            6 => plan.manufacturer = self.rng.octets(6 + more),
            7 => plan.model_name = self.rng.octets(31 + more),
            8 => plan.model_number = self.rng.octets(31 + more),
            // Without seconds too much is there, with seconds too little (W2, W3).
            9 if plan.seconds == 0 => plan.category = self.short(9),
            9 => plan.category = vec![],
            10 if plan.seconds == 0 => plan.model_number = self.short(9),
            10 => plan.model_number = vec![],
            11 => {
                plan.link = Some(self.link(1));
                let wrong = self.rng.pick(&[Field::Interface, Field::Number]);
                let length = self.rng.pick(&[0, 5, 6, 9]);
                *plan.at(wrong) = self.rng.octets(length);
            }
            12 => plan.link = Some(self.link(84)),
            13..=15 => {
                let wrong = wrong_chassis();
                plan.chassis = wrong[self.rng.below(wrong.len())].clone();
            }
            _ => {
                let piece = self.rng.between(1, 5);
                plan.list = Some(self.rng.octets(6 * more + piece));
            }
        }
    }

    /// One part of a sound description is moved or stretched at random, and always too far (W7).
    fn part_too_far(&mut self, plan: Plan, fields: &[(Field, usize)]) {
        let (mut description, text) = plan.in_order();
        let (field, _) = self.rng.pick(fields);
        let part = description.at(field);
        let far = self.rng.word() >> self.rng.below(56);
        let far = far.max(text.len() as u64 + 1);
        *part = match self.rng.below(3) {
            0 => Part { start: far, len: part.len },
            1 => Part { start: part.start, len: far },
            _ => Part { start: far, len: far.wrapping_neg() },
        };
        let room = self.enough_for(&plan);
        self.add((description, text), room, Err(9));
    }
}
