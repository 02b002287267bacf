//! The announcements: descriptions on both sides of every rule of the writer, then random ones.
//! The case file and the text that is expected for it are made here.

mod extension;
mod maker;
mod places;
mod plan;
mod random;
mod rules;
mod system;

use crate::frames::{hex, reading_text, two_octets};
use crate::reader::{read_lldpdu, Refusal};
use crate::rng::{self, Rng};
use crate::writer::{write, Description, Part};
use maker::Maker;
use plan::Plan;

/// The octet that fills the output buffer before the call.
const UNTOUCHED: u8 = 0xEE;

#[derive(Clone, Debug, PartialEq, Eq)]
pub struct Case {
    pub description: Description,
    pub text: Vec<u8>,
    pub room: usize,
    /// What the case was made for: the length written, or the refusal. It is not in the file; the
    /// tests hold the writer against it.
    pub meant: Result<usize, Refusal>,
}

/// All cases, always the same ones.
pub fn cases() -> Vec<Case> {
    let mut maker = Maker { rng: Rng::new(rng::ANNOUNCEMENTS), cases: vec![] };
    maker.rules();
    maker.places();
    maker.random();
    maker.system_fields();
    maker.random_of_systems();
    maker.extensions();
    maker.cases
}

/// The case file: the description, the room, the text. Numbers have their high octet first.
pub fn case_file(cases: &[Case]) -> Vec<u8> {
    let mut file = Vec::new();
    for Case { description, text, room, .. } in cases {
        file.extend([description.chassis.subtype, description.port.subtype]);
        file.extend(description.seconds.to_be_bytes());
        for part in [
            description.chassis.octets,
            description.port.octets,
            description.words,
            description.category,
            description.manufacturer,
            description.model_name,
            description.model_number,
        ] {
            file.extend(part_octets(part));
        }
        let link = description.link.as_ref();
        let parts = link.map(|link| [link.interface, link.number, link.addresses]);
        file.extend(flagged(parts.map(|parts| parts.map(part_octets))));
        file.extend(flagged(description.list.map(|addresses| [part_octets(addresses)])));
        file.extend(part_octets(description.system_name));
        file.extend(part_octets(description.system_description));
        let sets = description
            .capabilities
            .map(|capabilities| [capabilities.can, capabilities.enabled].map(u16::to_be_bytes));
        file.extend(flagged(sets));
        // All four slots are in the file, whatever the count is.
        file.extend(description.management.count.to_be_bytes());
        file.extend(description.management.slots.map(part_octets).as_flattened());
        file.extend(flagged(description.extension.map(|octets| [part_octets(octets)])));
        file.extend(two_octets(*room));
        file.extend(two_octets(text.len()));
        file.extend(text);
    }
    file
}

fn part_octets(part: Part) -> [u8; 16] {
    ((u128::from(part.start) << 64) | u128::from(part.len)).to_be_bytes()
}

/// One octet that tells whether the numbers are present, then the numbers, or as many zeros.
fn flagged<const WIDTH: usize, const N: usize>(numbers: Option<[[u8; WIDTH]; N]>) -> Vec<u8> {
    match numbers {
        Some(numbers) => [&[1], numbers.as_flattened()].concat(),
        None => vec![0; 1 + WIDTH * N],
    }
}

/// The expected text: two lines for each case, numbered from 1, and two more where it wrote.
pub fn expected(cases: &[Case]) -> String {
    let mut text = String::new();
    for (case, number) in cases.iter().zip(1..) {
        let answer = write(&case.description, &case.text, case.room);
        // What is past the written octets stays as it was (W4); after a refusal all does (Q2).
        let mut output = vec![UNTOUCHED; case.room];
        match &answer {
            Ok(lldpdu) => {
                output[..lldpdu.len()].copy_from_slice(lldpdu);
                text += &format!("{number} wrote {}\n", lldpdu.len());
            }
            Err(refusal) => text += &format!("{number} refused {refusal}\n"),
        }
        // The octets at the end that have the filling value are counted and not spelled out.
        let touched =
            output.iter().rposition(|octet| *octet != UNTOUCHED).map_or(0, |last| last + 1);
        let rest = output.len() - touched;
        text += &format!("{number} output {} rest {rest}\n", hex(&output[..touched]));
        if let Ok(lldpdu) = answer {
            let reading = read_lldpdu(&lldpdu).expect("what is written is valid (W6)");
            let again = written_again(&Plan::read_back(&reading));
            text += &format!("{number} reading {}\n", reading_text(&reading));
            text += &format!("{number} again {} {}\n", again.len(), hex(&again));
        }
    }
    text
}

/// What was read back is written once more, with all the room there can be need of (W6).
fn written_again(read: &Plan) -> Vec<u8> {
    let (description, text) = read.in_order();
    write(&description, &text, 1500).expect("what was read back can be written (W6)")
}

#[cfg(test)]
mod tests {
    use super::*;
    use crate::frames::blocks::{headed, EVERYONE, LLDP, NEAREST, SOUGHT};
    use crate::reader::{read_frame, Capabilities, Reading};

    /// The cases that are written, with the octets and their reading.
    fn written() -> Vec<(Case, Vec<u8>, Reading)> {
        let written = |case: Case| {
            let lldpdu = write(&case.description, &case.text, case.room).ok()?;
            let reading = read_lldpdu(&lldpdu).expect("what is written is valid");
            Some((case, lldpdu, reading))
        };
        cases().into_iter().filter_map(written).collect()
    }

    /// A record has 312 octets besides its text, whatever is absent.
    #[test]
    fn the_case_file_has_records_of_known_length() {
        let cases = cases();
        let texts: usize = cases.iter().map(|case| case.text.len()).sum();
        assert_eq!(case_file(&cases).len(), 312 * cases.len() + texts);
    }

    /// Each number stands where it is looked for; the unused slots are there as well.
    #[test]
    fn the_head_of_a_record() {
        let part = |start, len| Part { start, len };
        let mut case = cases().remove(0);
        case.description.system_name = part(0x0102, 0x03);
        case.description.system_description = part(0x0405, 0x06);
        case.description.capabilities = Some(Capabilities { can: 0x0708, enabled: 0x090A });
        case.description.management.count = u64::MAX - 1;
        case.description.management.slots = [part(1, 9), part(2, 10), part(3, 11), part(4, 12)];
        case.description.extension = Some(part(5, 13));
        case.room = 0x0B0C;
        case.text = b"text".to_vec();
        let file = case_file(&[case.clone()]);
        let number = |at: usize, octets: usize| {
            file[at..at + octets].iter().fold(0u64, |number, &octet| number << 8 | u64::from(octet))
        };
        assert_eq!([182, 190].map(|at| number(at, 8)), [0x0102, 0x03]);
        assert_eq!([198, 206].map(|at| number(at, 8)), [0x0405, 0x06]);
        assert_eq!([number(214, 1), number(215, 2), number(217, 2)], [1, 0x0708, 0x090A]);
        assert_eq!(number(219, 8), u64::MAX - 1);
        assert_eq!([227, 243, 259, 275].map(|at| number(at, 8)), [1, 2, 3, 4]);
        assert_eq!([235, 251, 267, 283].map(|at| number(at, 8)), [9, 10, 11, 12]);
        assert_eq!([number(291, 1), number(292, 8), number(300, 8)], [1, 5, 13]);
        assert_eq!([308, 310].map(|at| number(at, 2)), [0x0B0C, 4]);
        assert_eq!(file[312..], *b"text");
        case.description.capabilities = None;
        case.description.extension = None;
        let file = case_file(&[case]);
        assert_eq!(file[214..219], [0; 5]);
        assert_eq!(file[291..308], [0; 17]);
    }

    /// A rule that hardly ever decides would hardly be compared.
    #[test]
    fn no_answer_is_rare() {
        let text = expected(&cases());
        let lines = |ending: &str| text.lines().filter(|line| line.ends_with(ending)).count();
        let wrote = text.lines().filter(|line| line.contains(" wrote ")).count();
        let counts = [wrote, lines(" refused 9"), lines(" refused 10")];
        println!("wrote, 9, 10: {counts:?}");
        assert!(counts[0] >= 300 && counts[1] >= 150 && counts[2] >= 60);
        assert_eq!(counts.iter().sum::<usize>(), cases().len());
        assert!((1400..=9900).contains(&cases().len()));
    }

    /// Each system field is written, at its shortest and at its longest, and left out (W1).
    #[test]
    fn no_system_field_is_rare() {
        let written = written();
        let announced = || written.iter().map(|(_, _, read)| read).filter(|read| read.htip);
        let count =
            |wanted: &dyn Fn(&Reading) -> bool| announced().filter(|read| wanted(read)).count();
        let mut counts = vec![
            count(&|read| read.capabilities.is_none()),
            count(&|read| read.capabilities == Some(Capabilities { can: 0, enabled: 0 })),
            count(&|read| read.capabilities.is_some_and(|sets| sets.can > 0 && sets.enabled > 0)),
        ];
        for addresses in 0..=4 {
            counts.push(count(&|read| read.management.len() == addresses));
        }
        for length in [0, 1, 255] {
            counts.push(count(&|read| read.system_name.len() == length));
            counts.push(count(&|read| read.system_description.len() == length));
        }
        for length in [9, 167] {
            counts.push(count(&|read| read.management.iter().any(|octets| octets.len() == length)));
        }
        println!("{counts:?}");
        assert!(counts.iter().all(|&count| count >= 5));
    }

    /// Extension link information is written with the other tables and without them, at its
    /// shortest and at its longest, and refused alone (W1, W5, W7).
    #[test]
    fn no_extension_is_rare() {
        let written = written();
        let count = |wanted: &dyn Fn(&Reading, usize) -> bool| {
            let is_wanted = |read: &Reading| {
                read.extension.as_ref().is_some_and(|octets| wanted(read, octets.len()))
            };
            written.iter().filter(|(_, _, read)| is_wanted(read)).count()
        };
        let mut counts = vec![
            count(&|read, _| read.link.is_some() && read.list.is_some()),
            count(&|read, _| read.link.is_some() && read.list.is_none()),
            count(&|read, _| read.link.is_none() && read.list.is_some()),
            count(&|read, _| read.link.is_none() && read.list.is_none()),
            count(&|_, octets| octets == 9),
            count(&|_, octets| octets == 507),
        ];
        let refused_alone = |case: &Case| {
            let without = Description { extension: None, ..case.description.clone() };
            case.meant == Err(9) && write(&without, &case.text, 1600).is_ok()
        };
        counts.push(cases().iter().filter(|case| refused_alone(case)).count());
        println!("{counts:?}");
        assert!(counts.iter().all(|&count| count >= 10));
    }

    /// Each kind of chassis (L3) is announced, and says goodbye.
    #[test]
    fn no_kind_of_chassis_is_rare() {
        let written = written();
        for (subtype, octets) in [(4, 6..=6), (4, 8..=8), (7, 2..=2), (7, 4..=62), (7, 64..=64)] {
            let of_kind = written.iter().filter(|(_, _, read)| {
                let chassis = &read.outline.chassis;
                chassis.subtype == subtype && octets.contains(&chassis.octets.len())
            });
            let (goodbyes, others): (Vec<_>, Vec<_>) =
                of_kind.partition(|(_, _, read)| read.outline.seconds == 0);
            println!("{subtype} {octets:?}: {} goodbyes, {}", goodbyes.len(), others.len());
            assert!(!goodbyes.is_empty() && others.len() >= 20);
        }
    }

    #[test]
    fn each_case_ends_as_it_was_meant_to() {
        for (case, number) in cases().iter().zip(1..) {
            let answer = write(&case.description, &case.text, case.room);
            assert_eq!(answer.map(|lldpdu| lldpdu.len()), case.meant, "case {number}: {case:?}");
        }
    }

    /// Strings, system fields, and tables that are absent, empty or full come back as they were
    /// (W6, A3).
    #[test]
    fn what_is_written_reads_back_as_the_description() {
        for (case, lldpdu, reading) in written() {
            let octets = |part: &Part| {
                let start = part.start as usize;
                Some(case.text[start..start + part.len as usize].to_vec())
            };
            assert_eq!(Some(Plan::read_back(&reading)), case.description.with(octets));
            assert_eq!(reading.outline.length, lldpdu.len());
            // The chassis would not do as the source: it may be a group address (F4).
            for destination in [EVERYONE, NEAREST] {
                let frame = headed(destination, SOUGHT, LLDP, &lldpdu);
                assert_eq!(read_frame(&frame).as_ref(), Ok(&reading));
            }
        }
    }

    #[test]
    fn what_is_written_is_htip_exactly_with_seconds_above_0() {
        let written = written();
        assert!(written.iter().all(|(case, _, read)| read.htip == (case.description.seconds > 0)));
        assert!(written.iter().filter(|(_, _, read)| !read.htip).count() >= 20);
    }

    #[test]
    fn what_was_read_back_gives_the_same_octets() {
        for (_, lldpdu, reading) in written() {
            assert_eq!(written_again(&Plan::read_back(&reading)), lldpdu);
        }
    }

    /// Not even one octet less of room will do, and no more is needed (R10).
    #[test]
    fn the_exact_room_is_enough() {
        for (case, lldpdu, _) in written() {
            let with_room = |room| write(&case.description, &case.text, room);
            assert_eq!(with_room(lldpdu.len() - 1), Err(10));
            assert_eq!(with_room(lldpdu.len()), Ok(lldpdu));
        }
    }

    /// A description that breaks a rule gives 9 whatever the room is (Q1).
    #[test]
    fn nine_does_not_depend_on_the_room() {
        for case in cases().iter().filter(|case| case.meant == Err(9)) {
            for room in [0, 1, 36, 37, 1499, 1500, 1600] {
                assert_eq!(write(&case.description, &case.text, room), Err(9));
            }
        }
    }
}
