//! A plan: a description that has the octets of its strings itself, and need not be sound.
//! It is laid out in a text to become a case, and what was read back becomes a plan again.

use crate::reader::Reading;
use crate::writer::{Description, LinkStrings, Management, Part};

pub type Plan = Description<Vec<u8>>;

/// The strings of a description, in its order. Those of the system fields stand behind the others,
/// and extension link information last.
#[derive(Clone, Copy, Debug, PartialEq, Eq)]
pub enum Field {
    Chassis,
    Port,
    Words,
    Category,
    Manufacturer,
    ModelName,
    ModelNumber,
    Interface,
    Number,
    LinkAddresses,
    ListAddresses,
    SystemName,
    SystemDescription,
    FirstManagement,
    SecondManagement,
    ThirdManagement,
    FourthManagement,
    Extension,
}

use Field::*;

impl Field {
    /// All but extension link information, whose octets have to suit each other (T11). Each has the
    /// most octets that its own rule allows (L3, L4, T10, T3, T7, T8, S1, S3).
    const BUT_EXTENSION: [(Field, usize); 17] = [
        (Chassis, 64),
        (Port, 255),
        (Words, 255),
        (Category, 255),
        (Manufacturer, 6),
        (ModelName, 31),
        (ModelNumber, 31),
        (Interface, 4),
        (Number, 4),
        (LinkAddresses, 6 * 83),
        (ListAddresses, 6 * 84),
        (SystemName, 255),
        (SystemDescription, 255),
        (FirstManagement, 167),
        (SecondManagement, 167),
        (ThirdManagement, 167),
        (FourthManagement, 167),
    ];

    /// All but those of the system fields.
    pub const BASIC: &[(Field, usize)] = Field::BUT_EXTENSION.split_at(SystemName as usize).0;

    /// Those of the system fields.
    pub const SYSTEM: &[(Field, usize)] = Field::BUT_EXTENSION.split_at(SystemName as usize).1;

    /// All but that and the chassis, whose number of octets depends on its subtype (L3).
    pub const BEHIND_CHASSIS: &[(Field, usize)] = Field::BUT_EXTENSION.split_at(1).1;

    /// Those of them that are no system fields.
    pub const BASIC_BEHIND_CHASSIS: &[(Field, usize)] = Field::BASIC.split_at(1).1;

    /// Whether it may have no octets with seconds above 0 (L3, L4, W1, W2, T7, T8, S3).
    pub fn may_be_empty(self) -> bool {
        let by_choice = [Words, Manufacturer, ModelName, SystemName, SystemDescription];
        by_choice.contains(&self) || matches!(self, LinkAddresses | ListAddresses)
    }

    /// The fewest octets that it has where it has any, and how many more it can have at a time: a
    /// table has whole addresses (T7, T8), and a management address is never short (S3).
    pub fn least_and_step(self) -> (usize, usize) {
        match self {
            LinkAddresses | ListAddresses => (6, 6),
            FirstManagement | SecondManagement | ThirdManagement | FourthManagement => (9, 1),
            _ => (1, 1),
        }
    }
}

impl<S> Description<S> {
    /// One of the strings; where it is one of a table's, the table is present.
    pub(super) fn at(&mut self, field: Field) -> &mut S {
        match field {
            Chassis => &mut self.chassis.octets,
            Port => &mut self.port.octets,
            Words => &mut self.words,
            Category => &mut self.category,
            Manufacturer => &mut self.manufacturer,
            ModelName => &mut self.model_name,
            ModelNumber => &mut self.model_number,
            Interface => &mut self.link_strings().interface,
            Number => &mut self.link_strings().number,
            LinkAddresses => &mut self.link_strings().addresses,
            ListAddresses => self.list.as_mut().expect("the address list is present"),
            SystemName => &mut self.system_name,
            SystemDescription => &mut self.system_description,
            FirstManagement => &mut self.management.slots[0],
            SecondManagement => &mut self.management.slots[1],
            ThirdManagement => &mut self.management.slots[2],
            FourthManagement => &mut self.management.slots[3],
            Extension => self.extension.as_mut().expect("extension link information is present"),
        }
    }

    fn link_strings(&mut self) -> &mut LinkStrings<S> {
        self.link.as_mut().expect("link information is present")
    }
}

impl Plan {
    /// The description that a reading amounts to (W6).
    pub fn read_back(reading: &Reading) -> Plan {
        Plan {
            chassis: reading.outline.chassis.clone(),
            port: reading.outline.port.clone(),
            seconds: reading.outline.seconds,
            words: reading.description.clone(),
            category: reading.category.clone(),
            manufacturer: reading.manufacturer.clone(),
            model_name: reading.model_name.clone(),
            model_number: reading.model_number.clone(),
            link: reading.link.as_ref().map(|link| LinkStrings {
                interface: link.interface.clone(),
                number: link.number.clone(),
                addresses: link.addresses.concat(),
            }),
            list: reading.list.as_ref().map(|addresses| addresses.concat()),
            system_name: reading.system_name.clone(),
            system_description: reading.system_description.clone(),
            capabilities: reading.capabilities,
            management: Management::of(reading.management.clone()),
            extension: reading.extension.clone(),
        }
    }

    /// How many octets the LLDPDU would have (W1), from the lengths of the strings alone: the two
    /// octets of each header, and L by L3 to L5, T2, T7, T8, T11 and S1 to S3.
    pub(super) fn length(&self) -> usize {
        let [chassis, port] = [&self.chassis, &self.port].map(|id| 2 + 1 + id.octets.len());
        let if_any = |besides, strings: &[&Vec<u8>]| -> usize {
            let there = strings.iter().filter(|string| !string.is_empty());
            there.map(|string| besides + string.len()).sum()
        };
        let texts = if_any(2, &[&self.words, &self.system_name, &self.system_description]);
        let capabilities = self.capabilities.map_or(0, |_| 2 + 4);
        let management: usize =
            self.management.given().iter().map(|address| 2 + address.len()).sum();
        let devices = if_any(
            2 + 6,
            &[&self.category, &self.manufacturer, &self.model_name, &self.model_number],
        );
        let link = self.link.as_ref().map_or(0, |LinkStrings { interface, number, addresses }| {
            2 + 7 + interface.len() + number.len() + addresses.len()
        });
        let list = self.list.as_ref().map_or(0, |addresses| 2 + 5 + addresses.len());
        let extension = self.extension.as_ref().map_or(0, |octets| 2 + 4 + octets.len());
        let first_three = chassis + port + (2 + 2);
        let tables = link + extension + list;
        first_three + texts + capabilities + management + devices + tables + 2
    }

    /// All strings that are there, in the order of the description.
    pub(super) fn strings(&self) -> Vec<Vec<u8>> {
        let mut strings = Vec::new();
        self.with(|string| {
            strings.push(string.clone());
            Some(())
        });
        strings
    }

    /// The strings that a text is made of, by their numbers. System fields that are not there, and
    /// extension link information of no octets, take no part in it.
    pub(super) fn numbers(&self) -> Vec<usize> {
        let strings = self.strings();
        let extension = usize::from(self.extension.is_some());
        let basic = strings.len() - 2 - self.management.given().len() - extension;
        (0..strings.len()).filter(|&i| i < basic || !strings[i].is_empty()).collect()
    }

    /// The strings stand in the text one behind the other, in their order.
    pub(super) fn in_order(&self) -> (Description, Vec<u8>) {
        self.laid_out(&self.numbers(), append)
    }

    /// The strings are put into the text in the given order. What is not put there has the empty
    /// part that begins at 0, which lies in any text.
    pub(super) fn laid_out(
        &self,
        order: &[usize],
        mut put: impl FnMut(&mut Vec<u8>, &[u8]) -> Part,
    ) -> (Description, Vec<u8>) {
        let strings = self.strings();
        let mut text = Vec::new();
        let mut parts = vec![Part::default(); strings.len()];
        for &place in order {
            parts[place] = put(&mut text, &strings[place]);
        }
        (self.in_parts(parts), text)
    }

    /// The description with these parts for its strings.
    fn in_parts(&self, parts: Vec<Part>) -> Description {
        let mut parts = parts.into_iter();
        self.with(|_| parts.next()).expect("each string has its part")
    }
}

/// Puts the string at the end of the text.
pub fn append(text: &mut Vec<u8>, string: &[u8]) -> Part {
    let start = text.len();
    text.extend(string);
    part(start, string)
}

/// Puts the string only where the text does not have it yet, so that parts overlap.
pub fn share(text: &mut Vec<u8>, string: &[u8]) -> Part {
    // An empty string has no window, and is put wherever the end is.
    let found = text.windows(string.len().max(1)).position(|window| window == string);
    match found {
        Some(start) => part(start, string),
        None => append(text, string),
    }
}

/// The part that a string is from `start` on.
pub fn part(start: usize, string: &[u8]) -> Part {
    Part { start: start as u64, len: string.len() as u64 }
}
