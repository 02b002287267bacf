//! Cases for the system fields of a description (W1, W3, W7): each limit from both sides.
//! What the slots behind the count have is no part of a description, and is anything here.

use super::maker::{Maker, LONGEST_LLDPDU};
use super::plan::{Field, Plan};
use crate::frames::blocks::{address, characters, local};
use crate::id::Id;
use crate::reader::Capabilities;
use crate::writer::{Management, Part};

/// Capabilities with no flag set, which are not absent ones (A3).
const NO_FLAG: Capabilities = Capabilities { can: 0, enabled: 0 };

impl Maker {
    pub fn system_fields(&mut self) {
        self.combinations_of_systems();
        self.system_lengths();
        self.flags();
        self.counts();
        self.unused_slots();
        self.goodbyes_of_systems();
        self.totals_of_systems();
        self.one_field_too_many();
        self.places_of_systems();
        self.rooms_for_systems();
    }

    /// Each system field present and absent, beside some of the others (W1, A3).
    fn combinations_of_systems(&mut self) {
        for present in 0..4 {
            for flags in 0..3 {
                for count in [0, 1, 4] {
                    let plan = self.some();
                    let mut plan = self.with_system(plan);
                    let fields = [Field::SystemName, Field::SystemDescription];
                    for (field, bit) in fields.into_iter().zip([1, 2]) {
                        if present & bit == 0 {
                            plan.at(field).clear();
                        }
                    }
                    match flags {
                        0 => plan.capabilities = None,
                        1 => plan.capabilities = Some(NO_FLAG),
                        _ => {}
                    }
                    plan.management.count = count;
                    self.sound(&plan);
                }
            }
        }
    }

    /// A sound plan with all system fields and little else.
    fn plain_with_system(&mut self) -> Plan {
        let plan = self.plain();
        self.with_system(plan)
    }

    /// Name, description and each management address (S1, S3). Some lengths look right in eight or
    /// nine bits only.
    fn system_lengths(&mut self) {
        for field in [Field::SystemName, Field::SystemDescription] {
            let refused = &[256, 257, 511, 512];
            self.lengths_in(Maker::plain_with_system, field, &[0, 1, 2, 254, 255], refused);
        }
        let refused = &[0, 1, 8, 168, 169, 265, 423, 521];
        let field = Field::FirstManagement;
        self.lengths_in(Maker::plain_with_system, field, &[9, 10, 166, 167], refused);
        for field in [Field::SecondManagement, Field::ThirdManagement, Field::FourthManagement] {
            self.lengths_in(Maker::plain_with_system, field, &[9, 167], &[0, 8, 168]);
        }
        // Any octets will do, also such as look like an End or like a header.
        for octets in [&[0x00; 9][..], &[0xEE; 9], b"\xFE\x07\xE0\x27\x1A\x01\x01\x01\x42"] {
            let mut plan = self.plain_with_system();
            for &(field, _) in Field::SYSTEM {
                *plan.at(field) = octets.to_vec();
            }
            self.sound(&plan);
        }
    }

    /// Two sets of flags: none, all, each flag, and sets that do not suit each other (S2).
    fn flags(&mut self) {
        let sets = [(0, 0), (65_535, 65_535), (1, 2), (2, 1), (256, 1), (1, 256), (20, 4), (4, 20)];
        let each = (0..16).map(|flag| (1 << flag, 1 << ((flag + 5) % 16)));
        for (can, enabled) in sets.into_iter().chain(each) {
            let mut plan = self.plain();
            plan.capabilities = Some(Capabilities { can, enabled });
            self.sound(&plan);
        }
    }

    /// None to four management addresses, and more: few, and so many that their low bits look right
    /// (W7).
    fn counts(&mut self) {
        for count in 0..=4 {
            let mut plan = self.plain();
            plan.management = self.management(count);
            self.sound(&plan);
        }
        let few = [5, 6, 8, 255, 256, 257, 260];
        let many = [1 << 16, (1 << 16) + 1, 1 << 32, (1 << 32) + 4, 1 << 63, (1 << 63) + 2];
        let most = [u64::MAX - 3, u64::MAX];
        for count in few.into_iter().chain(many).chain(most) {
            let mut plan = self.plain();
            plan.management = Management { count, ..self.management(4) };
            self.broken(&plan);
        }
        // More than four, of which no slot has one.
        for count in [5, u64::MAX] {
            let mut plan = self.plain();
            plan.management.count = count;
            self.broken(&plan);
        }
    }

    /// What the slots at or behind the count have does not matter.
    fn unused_slots(&mut self) {
        for count in 0..4 {
            let mut plan = self.plain();
            plan.management = self.management(count);
            self.with_unused_slots(&plan);
        }
        let plan = self.goodbye();
        self.with_unused_slots(&plan);
        // A slot within the count matters, though the ones behind it do not.
        for count in 1..4 {
            let mut plan = self.plain();
            plan.management = self.management(count);
            let (mut description, text) = self.laid_out(&plan);
            let outside = Part { start: text.len() as u64 + 1, len: 9 };
            description.management.slots[count - 1..].fill(outside);
            self.add((description, text), plan.length(), Err(9));
        }
    }

    /// The sound plan with the unused slots outside the text, and inside it.
    fn with_unused_slots(&mut self, plan: &Plan) {
        let (laid, text) = self.laid_out(plan);
        let end = text.len() as u64;
        for (start, len) in
            [(end + 1, 0), (0, end + 1), (u64::MAX, u64::MAX), (u64::MAX - 8, 9), (0, 9), (0, 8)]
        {
            let mut description = laid.clone();
            let used = plan.management.count as usize;
            description.management.slots[used..].fill(Part { start, len });
            let room = self.enough_for(plan);
            self.add_sound((description, text.clone()), plan.length(), room);
        }
    }

    /// With seconds 0 each system field that is present breaks a rule by itself (W3).
    fn goodbyes_of_systems(&mut self) {
        for field in [Field::SystemName, Field::SystemDescription] {
            for length in [1, 6, 255, 256] {
                let mut plan = self.goodbye();
                *plan.at(field) = self.string(field, length);
                self.broken(&plan);
            }
        }
        let some = self.capabilities();
        for present in [NO_FLAG, Capabilities { can: 65_535, enabled: 65_535 }, some] {
            let mut plan = self.goodbye();
            plan.capabilities = Some(present);
            self.broken(&plan);
        }
        for count in 1..=4 {
            let mut plan = self.goodbye();
            plan.management = self.management(count);
            self.broken(&plan);
        }
        // No slot has what is counted.
        for count in [1, 4, 5, 256, 1 << 32, u64::MAX] {
            let mut plan = self.goodbye();
            plan.management.count = count;
            self.broken(&plan);
        }
        let plan = self.goodbye();
        let plan = self.with_system(plan);
        self.broken(&plan);
        // Absent ones have to begin in the text all the same.
        self.absent_strings(&Field::SYSTEM[..=1]);
    }

    /// Around 1,500 octets (R9), with everything that there can be, and each string of any length.
    fn totals_of_systems(&mut self) {
        for id in [address(&characters(6)), address(&characters(8)), local(&characters(20))] {
            for total in [1500, 1501] {
                let plan = self.of_length_with_system(&id, total);
                self.judged_over_one_another(&plan, total);
            }
        }
    }

    /// A plan with all system fields whose LLDPDU would have exactly that many octets.
    fn of_length_with_system(&mut self, chassis: &Id, total: usize) -> Plan {
        let plan = self.of_length_with(chassis, 1500);
        let mut plan = self.with_system(plan);
        for &(field, longest) in Field::SYSTEM {
            *plan.at(field) = self.string(field, longest);
        }
        self.shorten(&mut plan, Field::BEHIND_CHASSIS, total);
        plan
    }

    /// The strings lie over one another: the text is shorter than the LLDPDU.
    fn judged_over_one_another(&mut self, plan: &Plan, total: usize) {
        assert_eq!(plan.length(), total);
        let laid = self.over_one_another(plan, 520);
        let room = self.enough_for(plan);
        let meant = if total <= LONGEST_LLDPDU { Ok(total) } else { Err(9) };
        self.add(laid, room, meant);
    }

    /// Without this one field the LLDPDU would be short enough; with it, it is or it is not (R9).
    fn one_field_too_many(&mut self) {
        let id = address(&characters(6));
        for (besides, length) in [(1489, 9), (1490, 9), (1489, 10), (1331, 167), (1332, 167)] {
            let mut plan = self.of_length_with(&id, besides);
            plan.management = Management::of(vec![self.rng.octets(length)]);
            self.judged_over_one_another(&plan, besides + 2 + length);
        }
        // Three there are already; the others are shorter by as much.
        for besides in [1489, 1490] {
            let mut plan = self.of_length_with(&id, besides);
            plan.management = self.management(3);
            self.shorten(&mut plan, Field::BASIC_BEHIND_CHASSIS, besides);
            plan.management.count = 4;
            *plan.at(Field::FourthManagement) = self.rng.octets(9);
            self.judged_over_one_another(&plan, besides + 11);
        }
        for besides in [1497, 1498] {
            for field in [Field::SystemName, Field::SystemDescription] {
                let mut plan = self.of_length_with(&id, besides);
                *plan.at(field) = self.string(field, 1);
                self.judged_over_one_another(&plan, besides + 3);
            }
        }
        for besides in [1494, 1495] {
            let mut plan = self.of_length_with(&id, besides);
            plan.capabilities = Some(self.capabilities());
            self.judged_over_one_another(&plan, besides + 6);
        }
    }

    /// Parts that lie in the text, outside it, and over one another (W7).
    fn places_of_systems(&mut self) {
        for &(field, _) in Field::SYSTEM {
            let plan = self.full_with_system();
            self.at_the_end(plan, field);
        }
        for field in [Field::SystemName, Field::SystemDescription, Field::FourthManagement] {
            let plan = self.full_with_system();
            self.far_outside(plan, field);
        }
        for _ in 0..10 {
            let plan = self.some();
            let plan = self.with_some_system(plan);
            self.in_windows(plan);
        }
    }

    fn full_with_system(&mut self) -> Plan {
        let plan = self.full();
        self.with_system(plan)
    }

    /// Buffers that are too short by little, exact and longer; 9 goes before 10 (R10, Q1, W4).
    fn rooms_for_systems(&mut self) {
        let plan = self.full_with_system();
        let length = plan.length();
        for room in [0, 1, length - 2, length - 1, length, length + 1, length + 60] {
            self.sound_in(&plan, room);
        }
        // One system field alone.
        let mut plans = vec![self.plain(); 4];
        plans[0].system_name = b"n".to_vec();
        plans[1].system_description = b"d".to_vec();
        plans[2].capabilities = Some(NO_FLAG);
        plans[3].management = self.management(1);
        for plan in plans {
            for room in [plan.length() - 1, plan.length()] {
                self.sound_in(&plan, room);
            }
        }
        let mut plans = vec![self.plain_with_system(); 5];
        plans[0].system_name = vec![b'n'; 256];
        plans[1].system_description = vec![b'd'; 256];
        plans[2].management.count = 5;
        plans[3].management.slots[1].truncate(8);
        plans[4].seconds = 0;
        for plan in plans {
            let length = plan.length();
            for room in [0, length - 1, length] {
                self.broken_in(&plan, room);
            }
        }
    }
}
