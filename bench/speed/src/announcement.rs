//! The announcement that is written: every field that an agent commonly has.
//! Its text has each string behind the one before it (X5).

use twin::id::Id;
use twin::reader::Capabilities;
use twin::writer::{Description, LinkStrings, Management, Part};

use crate::described::to_octets;

/// One description in both forms, and its text.
pub struct Announcement {
    pub description: Description,
    pub octets: Vec<u8>,
    pub text: Vec<u8>,
}

#[derive(Default)]
struct Text(Vec<u8>);

impl Text {
    fn part(&mut self, string: &[u8]) -> Part {
        let start = self.0.len() as u64;
        self.0.extend(string);
        Part { start, len: string.len() as u64 }
    }
}

impl Announcement {
    pub fn common() -> Announcement {
        let mut text = Text::default();
        let addresses: Vec<u8> = (0..4).flat_map(|i| [4, 0, 0, 0, 0, i]).collect();
        let description = Description {
            chassis: Id { subtype: 4, octets: text.part(&[2, 0, 0, 0, 0, 1]) },
            port: Id { subtype: 7, octets: text.part(b"1") },
            seconds: 120,
            words: text.part(b"port 1, behind the door"),
            category: text.part(b"AV_TV"),
            manufacturer: text.part(b"02E01A"),
            model_name: text.part(b"packer"),
            model_number: text.part(b"PK-1200/7"),
            link: Some(LinkStrings {
                interface: text.part(&[6]),
                number: text.part(&[1]),
                addresses: text.part(&addresses),
            }),
            list: Some(text.part(&addresses)),
            system_name: text.part(b"cell 4, arm 2"),
            system_description: text.part(b"drive of the second arm"),
            capabilities: Some(Capabilities { can: 20, enabled: 4 }),
            management: Management::of(vec![text.part(&[5, 1, 10, 0, 0, 1, 2, 0, 1])]),
            extension: None,
        };
        Announcement { octets: to_octets(&description), description, text: text.0 }
    }
}
