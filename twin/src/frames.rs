//! The cases: frames and bare LLDPDUs on both sides of every rule, and then random ones.
//! The case file and the text that is expected for it are made here.

mod asked;
pub(crate) mod blocks;
mod chassis;
mod extension;
pub(crate) mod maker;
mod random;
mod rules;
pub(crate) mod shape;
mod system;

use crate::extension::Extension;
use crate::id::Id;
use crate::reader::{
    name_link, outline_frame, outline_lldpdu, read_frame, read_lldpdu, Address, Capabilities,
    Naming, Outline, Reading, Refusal,
};
use crate::rng::{self, Rng};
use blocks::HEADER;
use maker::Maker;

#[derive(Clone, Copy, Debug, PartialEq, Eq)]
pub enum Kind {
    Frame,
    Bare,
}

#[derive(Clone, Debug, PartialEq, Eq)]
pub struct Case {
    pub kind: Kind,
    pub asked: Address,
    /// The numbers that extension link information is asked for (A6).
    pub i: u8,
    pub j: u8,
    pub octets: Vec<u8>,
}

/// All cases, always the same ones.
pub fn cases() -> Vec<Case> {
    let mut maker = Maker { rng: Rng::new(rng::FRAMES), cases: vec![] };
    maker.rules();
    maker.random(Maker::random_later, 160, 140);
    maker.system_fields();
    maker.random(Maker::random_later_of_systems, 120, 90);
    maker.extensions();
    maker.cases
}

/// The case file: kind, address asked for, i, j, length with its high octet first, octets.
pub fn case_file(cases: &[Case]) -> Vec<u8> {
    let mut file = Vec::new();
    for case in cases {
        file.push(match case.kind {
            Kind::Frame => 0,
            Kind::Bare => 1,
        });
        file.extend(case.asked);
        file.extend([case.i, case.j]);
        file.extend(two_octets(case.octets.len()));
        file.extend(&case.octets);
    }
    file
}

/// A length or a room, its high octet first.
pub(crate) fn two_octets(number: usize) -> [u8; 2] {
    u16::try_from(number).expect("cases have at most 2,000 octets").to_be_bytes()
}

/// The expected text: three lines for each case, numbered from 1, and one more where extension link
/// information is read.
pub fn expected(cases: &[Case]) -> String {
    let mut text = String::new();
    for (case, number) in cases.iter().zip(1..) {
        let octets = case.octets.as_slice();
        let (outline, reading, lldpdu) = match case.kind {
            Kind::Frame => (
                outline_frame(octets),
                read_frame(octets),
                // Naming is asked of what stands behind the header, even if the header is refused.
                octets.get(HEADER..).unwrap_or_default(),
            ),
            Kind::Bare => (outline_lldpdu(octets), read_lldpdu(octets), octets),
        };
        let naming = name_link(lldpdu, case.asked);
        let extension = reading.as_ref().ok().and_then(|reading| reading.extension.clone());
        text += &format!("{number} outline {}\n", or_refused(outline, outline_text));
        text += &format!("{number} reading {}\n", or_refused(reading, reading_text));
        if let Some(octets) = extension {
            let asked = extension_text(&Extension::asked(&octets), case.i, case.j);
            text += &format!("{number} extension {asked}\n");
        }
        text += &format!("{number} naming {}\n", or_refused(naming, naming_text));
    }
    text
}

pub(crate) fn or_refused<T>(answer: Result<T, Refusal>, text: fn(&T) -> String) -> String {
    match answer {
        Ok(value) => text(&value),
        Err(number) => format!("refused {number}"),
    }
}

fn outline_text(outline: &Outline) -> String {
    format!("valid {} {}", outline.length, identity_text(outline))
}

fn identity_text(outline: &Outline) -> String {
    format!("{} {} {}", id_text(&outline.chassis), id_text(&outline.port), outline.seconds)
}

/// The subtype as a number, then the octets.
fn id_text(id: &Id) -> String {
    format!("{} {}", id.subtype, hex(&id.octets))
}

pub(crate) fn reading_text(reading: &Reading) -> String {
    let link = match &reading.link {
        Some(link) => format!(
            "{}/{}/{}",
            hex(&link.interface),
            hex(&link.number),
            hex(&link.addresses.concat())
        ),
        None => "absent".to_string(),
    };
    let extension = match &reading.extension {
        Some(octets) => hex(octets),
        None => "absent".to_string(),
    };
    let list = match &reading.list {
        Some(addresses) => hex(&addresses.concat()),
        None => "absent".to_string(),
    };
    let capabilities = match reading.capabilities {
        Some(Capabilities { can, enabled }) => format!("{can}/{enabled}"),
        None => "absent".to_string(),
    };
    let management = match reading.management.as_slice() {
        [] => "none".to_string(),
        addresses => addresses.iter().map(|octets| hex(octets)).collect::<Vec<_>>().join("/"),
    };
    format!(
        "valid {} {} {} {} {} {} {} {} {link} {extension} {list} {} {} {capabilities} {management}",
        reading.outline.length,
        if reading.htip { "yes" } else { "no" },
        identity_text(&reading.outline),
        hex(&reading.description),
        hex(&reading.category),
        hex(&reading.manufacturer),
        hex(&reading.model_name),
        hex(&reading.model_number),
        hex(&reading.system_name),
        hex(&reading.system_description),
    )
}

/// All that it can be asked for (A6), with the numbers of the case.
fn extension_text(extension: &Extension, i: u8, j: u8) -> String {
    let [i, j] = [i, j].map(usize::from);
    format!(
        "{}/{} {} {} {} {} {} {} {} {} {}",
        hex(&extension.interface),
        hex(&extension.number),
        extension.p,
        extension.entries.len(),
        extension.c,
        extension.pairings.len(),
        extension.items.len(),
        hex(extension.address(i)),
        hex(extension.item(i, j)),
        hex(extension.pairing(i)),
        hex(extension.port_item(j)),
    )
}

fn naming_text(naming: &Option<Naming>) -> String {
    match naming {
        Some(Naming { interface, number }) => {
            format!("{} {} {} {}", interface.count, interface.value, number.count, number.value)
        }
        None => "none".to_string(),
    }
}

/// Two capital hex digits for each octet; a single dot for no octets, so that no field is empty.
pub(crate) fn hex(octets: &[u8]) -> String {
    if octets.is_empty() {
        return ".".to_string();
    }
    octets.iter().map(|octet| format!("{octet:02X}")).collect()
}

#[cfg(test)]
mod tests {
    use super::*;
    use blocks::{end, from_a_station, leading, lldpdu, typical};

    #[test]
    fn there_are_as_many_cases_as_promised() {
        let cases = cases();
        let frames = cases.iter().filter(|case| case.kind == Kind::Frame).count();
        let bare = cases.len() - frames;
        println!("{} cases, {frames} frames, {bare} bare", cases.len());
        assert!((4000..=9900).contains(&cases.len()));
        assert!(frames >= 3200);
        assert!(bare >= 1100);
    }

    /// A rule that hardly ever decides would hardly be compared.
    #[test]
    fn no_answer_is_rare() {
        let cases = cases();
        let text = expected(&cases);
        let lines = |wanted: &dyn Fn(&[&str]) -> bool| {
            text.lines().filter(|line| wanted(&line.split(' ').skip(1).collect::<Vec<_>>())).count()
        };
        let mut counts = vec![
            ("htip yes", lines(&|w| w[0] == "reading" && w.get(3) == Some(&"yes"))),
            ("htip no", lines(&|w| w[0] == "reading" && w.get(3) == Some(&"no"))),
            ("naming hit", lines(&|w| w[0] == "naming" && w.len() == 5)),
            ("naming none", lines(&|w| w == ["naming", "none"])),
            ("six octets", lines(&|w| w[..2] == ["outline", "valid"] && is_address(w, 6))),
            ("eight octets", lines(&|w| w[..2] == ["outline", "valid"] && is_address(w, 8))),
            ("local", lines(&|w| w[..2] == ["outline", "valid"] && w[3] == "7")),
            ("system name", lines(&|w| system_words(w).is_some_and(|s| s[0] != "."))),
            ("system description", lines(&|w| system_words(w).is_some_and(|s| s[1] != "."))),
            ("no flag set", lines(&|w| system_words(w).is_some_and(|s| s[2] == "0/0"))),
            ("flags", lines(&|w| system_words(w).is_some_and(|s| is_some_flag(s[2])))),
            ("extension", lines(&|w| w[0] == "extension" && w[2] == "6")),
            ("other addresses", lines(&|w| w[0] == "extension" && w[2] != "6" && w[3] != "0")),
            ("no addresses", lines(&|w| w[0] == "extension" && w[3] == "0")),
            ("an item", lines(&|w| w[0] == "extension" && w[8] != ".")),
            ("no item", lines(&|w| w[0] == "extension" && w[7] != "." && w[8] == ".")),
            ("a pairing address", lines(&|w| w[0] == "extension" && w[9] != ".")),
            ("no pairing address", lines(&|w| w[0] == "extension" && w[9] == ".")),
            ("an item of the port", lines(&|w| w[0] == "extension" && w[10] != ".")),
            ("no item of the port", lines(&|w| w[0] == "extension" && w[10] == ".")),
            ("seen by it", cases.iter().filter(|case| is_seen_by_extension(case)).count()),
        ];
        for count in 1..=4 {
            let so_many = |s: [&str; 4]| s[3] != "none" && s[3].split('/').count() == count;
            counts.push(("management", lines(&|w| system_words(w).is_some_and(so_many))));
        }
        for number in ["3", "4", "5", "6"] {
            counts.push((number, lines(&|w| w == ["reading", "refused", number])));
        }
        for number in ["4", "5", "6"] {
            counts.push((number, lines(&|w| w == ["naming", "refused", number])));
        }
        counts.push(("3 for the source", cases.iter().filter(|case| source_alone(case)).count()));
        println!("{counts:?}");
        assert!(counts.iter().all(|&(_, count)| count >= 20));
    }

    /// The system fields of a reading: the last four words of its line.
    fn system_words<'a>(words: &[&'a str]) -> Option<[&'a str; 4]> {
        words.last_chunk().filter(|_| words[..2] == ["reading", "valid"]).copied()
    }

    fn is_some_flag(capabilities: &str) -> bool {
        !["absent", "0/0"].contains(&capabilities)
    }

    /// With subtype 5 in place of 4 the address is seen elsewhere, or not at all (T9).
    fn is_seen_by_extension(case: &Case) -> bool {
        let start = if case.kind == Kind::Frame { HEADER } else { 0 };
        let lldpdu = case.octets.get(start..).unwrap_or_default();
        let mut other = lldpdu.to_vec();
        for place in 0..other.len().saturating_sub(3) {
            if other[place..place + 4] == [0xE0, 0x27, 0x1A, 4] {
                other[place + 3] = 5;
            }
        }
        name_link(lldpdu, case.asked) != name_link(&other, case.asked)
    }

    /// The chassis of an outline is an address of so many octets (L3).
    fn is_address(words: &[&str], octets: usize) -> bool {
        words[3] == "4" && words[4].len() == 2 * octets
    }

    /// The frame gets 3, and from another source it does not (F4).
    fn source_alone(case: &Case) -> bool {
        case.kind == Kind::Frame
            && case.octets.len() >= HEADER
            && outline_frame(&case.octets) == Err(3)
            && outline_frame(&from_a_station(case.octets.clone())) != Err(3)
    }

    #[test]
    fn a_reading_has_its_line() {
        let mut reading = read_lldpdu(&lldpdu(&leading(), &[])).expect("it is valid");
        let line =
            "valid 19 no 4 020000000001 7 31 120 . . . . . absent absent absent . . absent none";
        assert_eq!(reading_text(&reading), line);
        reading.system_name = b"sw1".to_vec();
        reading.system_description = vec![0x00, 0xFF];
        reading.capabilities = Some(Capabilities { can: 20, enabled: 4 });
        reading.management = vec![vec![0x0A; 9], vec![0x10, 0x20]];
        let line = "737731 00FF 20/4 0A0A0A0A0A0A0A0A0A/1020";
        assert!(reading_text(&reading).ends_with(&format!(" absent absent absent {line}")));
    }

    #[test]
    fn extension_link_information_has_its_line() {
        let octets =
            b"\x01\x47\x02\x00\x05\x01\x02\x01A\x01xB\x02yz\x03\x01C\x01u\x00\x01w".to_vec();
        let later = [blocks::ttc(4, &octets)];
        let octets = lldpdu(&leading(), &later);
        let mut case = Case { kind: Kind::Bare, asked: [0; 6], i: 0, j: 0, octets };
        let line =
            |case: &Case| expected(std::slice::from_ref(case)).lines().nth(2).map(String::from);
        let due = |words: &str| Some(format!("1 extension 47/0005 1 2 1 1 3 {words}"));
        assert_eq!(line(&case), due("41 78 43 75"));
        case.i = 1;
        assert_eq!(line(&case), due("42 797A . 75"));
        case.j = 2;
        assert_eq!(line(&case), due("42 . . 77"));
        (case.i, case.j) = (2, 1);
        assert_eq!(line(&case), due(". . . ."));
        // It stands between the link information and the address list in the line of the reading.
        let reading = expected(&[case]).lines().nth(1).map(String::from);
        assert_eq!(
            reading.as_deref(),
            Some(
                "1 reading valid 48 no 4 020000000001 7 31 120 . . . . . absent \
                 01470200050102014101784202797A0301430175000177 absent . . absent none"
            )
        );
    }

    /// What is called a right header is one (F1 to F4): the frame is judged as its LLDPDU is (A5).
    #[test]
    fn right_headers_are_right() {
        let mut maker = Maker { rng: Rng::new(rng::FRAMES), cases: vec![] };
        for lldpdu in [typical(), end(), leading().concat()] {
            for _ in 0..200 {
                let frame = [maker.header(), lldpdu.clone()].concat();
                assert_eq!(read_frame(&frame), read_lldpdu(&lldpdu));
            }
        }
    }
}
