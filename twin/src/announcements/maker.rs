//! The maker gathers cases and lends its generator to those who make them.
//! It makes sound plans, lays plans out in texts, and says of each case what it is meant to give.

use super::plan::{append, share, Field, Plan};
use super::Case;
use crate::frames::blocks::{random_chassis, CHARACTERS};
use crate::id::Id;
use crate::reader::{Capabilities, Refusal};
use crate::rng::Rng;
use crate::writer::{Description, LinkStrings, Management};

pub const LONGEST_LLDPDU: usize = 1500;
const LONGEST_TEXT: usize = 2000;
const LONGEST_ROOM: usize = 1600;

pub struct Maker {
    pub rng: Rng,
    pub cases: Vec<Case>,
}

impl Maker {
    pub fn add(
        &mut self,
        (description, text): (Description, Vec<u8>),
        room: usize,
        meant: Result<usize, Refusal>,
    ) {
        assert!(text.len() <= LONGEST_TEXT && room <= LONGEST_ROOM);
        self.cases.push(Case { description, text, room, meant });
    }

    /// A plan that breaks no rule, with the exact room or a few octets more.
    pub fn sound(&mut self, plan: &Plan) {
        let room = self.enough_for(plan);
        self.sound_in(plan, room);
    }

    pub fn sound_in(&mut self, plan: &Plan, room: usize) {
        let laid = self.laid_out(plan);
        self.add_sound(laid, plan.length(), room);
    }

    /// With too little room, and only then, a sound description gives 10.
    pub fn add_sound(&mut self, laid: (Description, Vec<u8>), length: usize, room: usize) {
        assert!(length <= LONGEST_LLDPDU);
        self.add(laid, room, if length <= room { Ok(length) } else { Err(10) });
    }

    /// A plan that breaks a rule, with room for what a writer that does not mind would write.
    pub fn broken(&mut self, plan: &Plan) {
        let room = self.enough_for(plan);
        self.broken_in(plan, room);
    }

    pub fn broken_in(&mut self, plan: &Plan, room: usize) {
        let laid = self.laid_out(plan);
        self.add(laid, room, Err(9));
    }

    pub fn judged(&mut self, plan: &Plan, is_sound: bool) {
        if is_sound {
            self.sound(plan);
        } else {
            self.broken(plan);
        }
    }

    pub fn enough_for(&mut self, plan: &Plan) -> usize {
        let spare = self.rng.pick(&[0, 0, 0, 1, 2, 5]);
        (plan.length() + spare).min(LONGEST_ROOM)
    }

    /// In order, in some order with gaps and a rest, or sharing octets.
    pub fn laid_out(&mut self, plan: &Plan) -> (Description, Vec<u8>) {
        let mut order = plan.numbers();
        match self.rng.below(4) {
            0 => plan.in_order(),
            1 => {
                let strings = plan.strings();
                order.sort_by_key(|&place| strings[place].len());
                order.reverse();
                plan.laid_out(&order, share)
            }
            _ => {
                self.rng.shuffle(&mut order);
                let (description, mut text) = plan.laid_out(&order, |text, string| {
                    text.extend(self.noise());
                    append(text, string)
                });
                text.extend(self.noise());
                (description, text)
            }
        }
    }

    /// A few octets, often none.
    pub fn noise(&mut self) -> Vec<u8> {
        let count = self.rng.pick(&[0, 0, 1, 2, 3]);
        self.rng.octets(count)
    }

    /// A sound plan with nothing that may be left out.
    pub fn plain(&mut self) -> Plan {
        Plan {
            chassis: random_chassis(&mut self.rng),
            port: Id { subtype: self.rng.between(1, 7) as u8, octets: self.short(3) },
            seconds: self.rng.between(1, 65_535) as u16,
            words: vec![],
            category: self.short(3),
            manufacturer: vec![],
            model_name: vec![],
            model_number: self.short(3),
            link: None,
            list: None,
            system_name: vec![],
            system_description: vec![],
            capabilities: None,
            management: Management::default(),
            extension: None,
        }
    }

    /// A sound plan in which nothing is absent or empty but the system fields.
    pub fn full(&mut self) -> Plan {
        let mut plan = self.plain();
        let length = self.rng.between(1, 5);
        plan.words = self.words(length);
        plan.manufacturer = self.short(6);
        plan.model_name = self.short(4);
        let count = self.rng.between(1, 2);
        plan.link = Some(self.link(count));
        let count = self.rng.between(1, 2);
        plan.list = Some(self.addresses(count));
        plan
    }

    /// A sound plan with some of the things that may be left out.
    pub fn some(&mut self) -> Plan {
        let mut plan = self.full();
        for field in [Field::Words, Field::Manufacturer, Field::ModelName] {
            if self.rng.once_in(2) {
                plan.at(field).clear();
            }
        }
        plan.link = plan.link.filter(|_| self.rng.once_in(2));
        plan.list = plan.list.filter(|_| self.rng.once_in(2));
        plan
    }

    /// The plan with every system field there can be.
    pub fn with_system(&mut self, mut plan: Plan) -> Plan {
        plan.system_name = self.short(4);
        plan.system_description = self.short(4);
        plan.capabilities = Some(self.capabilities());
        plan.management = self.management(4);
        plan
    }

    /// The plan with some of the system fields.
    pub fn with_some_system(&mut self, plan: Plan) -> Plan {
        let mut plan = self.with_system(plan);
        for field in [Field::SystemName, Field::SystemDescription] {
            if self.rng.once_in(3) {
                plan.at(field).clear();
            }
        }
        plan.capabilities = plan.capabilities.filter(|_| !self.rng.once_in(3));
        plan.management.count = self.rng.between(0, 4) as u64;
        plan
    }

    /// A sound plan of seconds 0: chassis and port ID alone (W3).
    pub fn goodbye(&mut self) -> Plan {
        let mut plan = self.plain();
        plan.seconds = 0;
        plan.category.clear();
        plan.model_number.clear();
        plan
    }

    pub fn link(&mut self, count: usize) -> LinkStrings<Vec<u8>> {
        LinkStrings {
            interface: self.short(4),
            number: self.short(4),
            addresses: self.addresses(count),
        }
    }

    pub fn addresses(&mut self, count: usize) -> Vec<u8> {
        self.rng.octets(6 * count)
    }

    /// Any two sets (S2).
    pub fn capabilities(&mut self) -> Capabilities {
        Capabilities { can: self.rng.word() as u16, enabled: self.rng.word() as u16 }
    }

    /// So many management addresses, at most four, and all of them short.
    pub fn management(&mut self, count: usize) -> Management<Vec<u8>> {
        let lengths: Vec<usize> = (0..count).map(|_| self.rng.between(9, 12)).collect();
        Management::of(lengths.into_iter().map(|length| self.rng.octets(length)).collect())
    }

    /// One octet up to that many.
    pub fn short(&mut self, longest: usize) -> Vec<u8> {
        let length = self.rng.between(1, longest);
        self.rng.octets(length)
    }

    /// Characters that a port description may have (T10).
    pub fn words(&mut self, length: usize) -> Vec<u8> {
        self.rng.picks(CHARACTERS, length)
    }

    /// Octets that the field may have, so that only their number can be wrong.
    pub fn string(&mut self, field: Field, length: usize) -> Vec<u8> {
        match field {
            Field::Words => self.words(length),
            _ => self.rng.octets(length),
        }
    }
}
