//! The system fields: how they are read (S1 to S5, H1, A2, A3) and written (W1, W3, W6, W7).
//! Octets and expected values are typed from the rules page by hand, never taken from the program.

mod changed;
mod described;
mod page;

use changed::*;
use described::*;
use page::*;
use twin::reader::*;
use twin::writer::*;

/// Headers of system fields that have fewer than 256 octets: type 5 to 8, and the ninth bit of L
/// clear (L1).
const NAME: u8 = 0x0A;
const DESCRIPTION: u8 = 0x0C;
const CAPABILITIES: u8 = 0x0E;
const MANAGEMENT: u8 = 0x10;

/// A TLV whose header begins so; L from 256 on sets the lowest bit of that octet.
fn tlv(first: u8, value: &[u8]) -> Vec<u8> {
    let [high, low] = (value.len() as u16).to_be_bytes();
    [&[first | high, low], value].concat()
}

fn zeros(first: u8, length: usize) -> Vec<u8> {
    tlv(first, &vec![0x00; length])
}

/// A management address of nine octets, the last of them this one.
fn address(last: u8) -> Vec<u8> {
    vec![0x05, 0x01, 0xC0, 0x00, 0x02, 0x01, 0x02, 0x00, last]
}

fn flags(can: u16, enabled: u16) -> Option<Capabilities> {
    Some(Capabilities { can, enabled })
}

/// Frame A with these TLVs before its End; whatever they are, it is HTIP (H1).
fn with(tlvs: &[&[u8]]) -> Reading {
    let read = reading(&before_end(&tlvs.concat()));
    assert!(read.htip);
    read
}

/// What the page says of frame A with system fields before its End: its length is another (B17 to B20).
fn longer(length: usize) -> Reading {
    let mut reading = reading_of_a();
    reading.outline.length = length;
    reading
}

#[test]
fn b17_each_field_once() {
    let fields = [
        0x0A, 0x02, 0x73, 0x77, 0x0C, 0x01, 0x78, 0x0E, 0x04, 0x00, 0x14, 0x00, 0x04, 0x10, 0x09,
        0x05, 0x01, 0x0A, 0x00, 0x00, 0x01, 0x02, 0x00, 0x01,
    ];
    let due = Reading {
        system_name: vec![0x73, 0x77],
        system_description: vec![0x78],
        capabilities: flags(20, 4),
        management: vec![vec![0x05, 0x01, 0x0A, 0x00, 0x00, 0x01, 0x02, 0x00, 0x01]],
        ..longer(61)
    };
    assert_eq!(read_frame(&before_end(&fields)), Ok(due));
}

#[test]
fn b18_a_first_name_of_256() {
    let names = [&[0x0B, 0x00][..], &[0x41; 256], &[0x0A, 0x01, 0x42]].concat();
    assert_eq!(read_frame(&before_end(&names)), Ok(longer(298)));
}

#[test]
fn b19_first_capabilities_of_5() {
    let sets = [0x0E, 0x05, 0x00, 0x14, 0x00, 0x04, 0x00, 0x0E, 0x04, 0x00, 0x14, 0x00, 0x04];
    assert_eq!(read_frame(&before_end(&sets)), Ok(longer(50)));
}

#[test]
fn b20_the_first_four_addresses() {
    let by = |last| vec![0x05, 0x01, 0x0A, 0x00, 0x00, 0x01, 0x02, 0x00, last];
    let mut fields = zeros(MANAGEMENT, 8);
    for last in 1..=5 {
        fields.extend(tlv(MANAGEMENT, &by(last)));
    }
    let due = Reading { management: vec![by(1), by(2), by(3), by(4)], ..longer(102) };
    assert_eq!(read_frame(&before_end(&fields)), Ok(due));
}

#[test]
fn each_of_them_is_read() {
    let name = [0x0A, 0x03, 0x73, 0x77, 0x31];
    let description = [0x0C, 0x05, 0x48, 0x65, 0x6C, 0x6C, 0x6F];
    let capabilities = [0x0E, 0x04, 0x00, 0x14, 0x00, 0x04];
    let address = [0x10, 0x09, 0x05, 0x01, 0xC0, 0x00, 0x02, 0x01, 0x02, 0x00, 0x07];
    let mut expected = reading_of_a();
    // 37 + 5 + 7 + 6 + 11.
    expected.outline.length = 66;
    expected.system_name = b"sw1".to_vec();
    expected.system_description = b"Hello".to_vec();
    expected.capabilities = flags(20, 4);
    expected.management = vec![vec![0x05, 0x01, 0xC0, 0x00, 0x02, 0x01, 0x02, 0x00, 0x07]];
    let in_order = [&name[..], &description, &capabilities, &address].concat();
    let reversed = [&address[..], &capabilities, &description, &name].concat();
    for octets in [in_order, reversed] {
        // Right behind the first three, between the TTC fields, and before the End.
        for place in [CATEGORY, MODEL_NUMBER, END] {
            let frame = replaced(place, place, &octets);
            assert_eq!(read_frame(&frame), Ok(expected.clone()));
            assert_eq!(read_lldpdu(&frame[14..]), Ok(expected.clone()));
            assert_eq!(outline_frame(&frame), Ok(expected.outline.clone()));
        }
    }
    // Each in another place.
    let ttc = [&FRAME_A[CATEGORY..MODEL_NUMBER], &FRAME_A[MODEL_NUMBER..END]];
    let mixed = [&name, ttc[0], &address, &capabilities, ttc[1], &description].concat();
    assert_eq!(read_frame(&replaced(CATEGORY, END, &mixed)), Ok(expected));
}

#[test]
fn lengths_of_name_and_description() {
    for length in [0, 1, 2, 254, 255] {
        let text = vec![0xC3; length];
        assert_eq!(with(&[&tlv(NAME, &text)]).system_name, text);
        assert_eq!(with(&[&tlv(DESCRIPTION, &text)]).system_description, text);
    }
    for length in [256, 257, 300, 511] {
        let mut expected = reading_of_a();
        expected.outline.length = 37 + 2 + length;
        for first in [NAME, DESCRIPTION] {
            assert_eq!(with(&[&zeros(first, length)]), expected);
        }
    }
    // 256 octets make a header of 0B 00.
    assert_eq!(zeros(NAME, 256)[..2], [0x0B, 0x00]);
    // The two are told apart.
    let read = with(&[&tlv(DESCRIPTION, b"six"), &tlv(NAME, b"five")]);
    assert_eq!(read.system_name, b"five");
    assert_eq!(read.system_description, b"six");
}

#[test]
fn capabilities_have_four_octets() {
    let rows = [
        ([0x00, 0x00, 0x00, 0x00], flags(0, 0)),
        ([0xFF, 0xFF, 0xFF, 0xFF], flags(65_535, 65_535)),
        ([0x01, 0x02, 0x03, 0x04], flags(258, 772)),
        ([0x00, 0x01, 0x80, 0x00], flags(1, 32_768)),
        // What is enabled need not be among what it can do.
        ([0x00, 0x00, 0x00, 0x14], flags(0, 20)),
    ];
    for (value, expected) in rows {
        assert_eq!(with(&[&tlv(CAPABILITIES, &value)]).capabilities, expected);
    }
    for length in [0, 1, 2, 3, 5, 6, 8, 255, 256, 260, 511] {
        let mut expected = reading_of_a();
        expected.outline.length = 37 + 2 + length;
        assert_eq!(with(&[&zeros(CAPABILITIES, length)]), expected);
    }
    // Absent ones are not such with no flag set (A3).
    assert_eq!(reading_of_a().capabilities, None);
}

#[test]
fn lengths_of_management_addresses() {
    for length in [9, 10, 32, 166, 167] {
        let octets = vec![0xFF; length];
        assert_eq!(with(&[&tlv(MANAGEMENT, &octets)]).management, [octets]);
    }
    for length in [0, 1, 8, 168, 169, 255, 256, 265, 423, 511] {
        let mut expected = reading_of_a();
        expected.outline.length = 37 + 2 + length;
        assert_eq!(with(&[&zeros(MANAGEMENT, length)]), expected);
    }
}

#[test]
fn the_first_of_a_type_decides() {
    type Read = fn(&Reading) -> Vec<u8>;
    let texts: [(u8, Read); 2] = [
        (NAME, |read| read.system_name.clone()),
        (DESCRIPTION, |read| read.system_description.clone()),
    ];
    for (first, text) in texts {
        let [one, two, empty] = [&b"one"[..], b"two", b""].map(|value| tlv(first, value));
        let wrong = zeros(first, 256);
        assert_eq!(text(&with(&[&one, &two])), b"one");
        assert_eq!(text(&with(&[&two, &one])), b"two");
        assert_eq!(text(&with(&[&wrong, &one])), b"");
        assert_eq!(text(&with(&[&one, &wrong])), b"one");
        assert_eq!(text(&with(&[&wrong, &one, &two])), b"");
        assert_eq!(text(&with(&[&empty, &one])), b"");
        assert_eq!(text(&with(&[&one, &empty])), b"one");
        assert_eq!(text(&with(&[&empty, &wrong, &one])), b"");
    }
    let [one, two] = [[0, 1, 0, 2], [0, 3, 0, 4]].map(|value| tlv(CAPABILITIES, &value));
    let none_set = zeros(CAPABILITIES, 4);
    for wrong in [0, 3, 5, 260].map(|length| zeros(CAPABILITIES, length)) {
        assert_eq!(with(&[&wrong, &one]).capabilities, None);
        assert_eq!(with(&[&one, &wrong]).capabilities, flags(1, 2));
        assert_eq!(with(&[&wrong, &none_set]).capabilities, None);
    }
    assert_eq!(with(&[&one, &two]).capabilities, flags(1, 2));
    assert_eq!(with(&[&two, &one]).capabilities, flags(3, 4));
    assert_eq!(with(&[&none_set, &one]).capabilities, flags(0, 0));
    // A wrong one of another type is no first of this one.
    let read = with(&[&zeros(NAME, 256), &tlv(DESCRIPTION, b"d"), &zeros(CAPABILITIES, 3), &one]);
    assert_eq!(read.system_description, b"d");
    assert_eq!(read.capabilities, None);
    let read = with(&[&zeros(DESCRIPTION, 256), &tlv(NAME, b"n"), &zeros(MANAGEMENT, 8), &one]);
    assert_eq!(read.system_name, b"n");
    assert_eq!(read.capabilities, flags(1, 2));
}

#[test]
fn the_first_four_addresses_of_a_right_length() {
    let all: Vec<Vec<u8>> = (1..=6).map(address).collect();
    let tlvs: Vec<Vec<u8>> = all.iter().map(|octets| tlv(MANAGEMENT, octets)).collect();
    for count in 0..=6 {
        let read = with(&[&tlvs[..count].concat()]);
        assert_eq!(read.management, all[..count.min(4)]);
        // A wrong one is passed over, wherever it stands, and counts as none.
        for place in 0..=count {
            for wrong in [0, 8, 168].map(|length| zeros(MANAGEMENT, length)) {
                let row = [&tlvs[..place].concat(), &wrong[..], &tlvs[place..count].concat()];
                assert_eq!(with(&row).management, all[..count.min(4)]);
            }
        }
    }
    // Five wrong ones before five right ones.
    let wrong = zeros(MANAGEMENT, 168).repeat(5);
    assert_eq!(with(&[&wrong, &tlvs[..5].concat()]).management, all[..4]);
    // The same one again is another one; other TLVs between them do not matter.
    let read = with(&[&tlvs[1], &tlvs[0], &tlv(NAME, b"n"), &tlvs[1], &tlvs[1], &tlvs[2]]);
    assert_eq!(read.management, [2, 1, 2, 2].map(address));
}

#[test]
fn no_verdict_comes_from_them() {
    // Wrong ones of each type, and many right ones: frame A is HTIP as it was.
    let wrong = [
        zeros(NAME, 511),
        zeros(DESCRIPTION, 256),
        zeros(CAPABILITIES, 5),
        zeros(MANAGEMENT, 8),
        zeros(MANAGEMENT, 168),
    ];
    let mut expected = reading_of_a();
    expected.outline.length = 37 + 513 + 258 + 7 + 10 + 170;
    assert_eq!(with(&[&wrong.concat()]), expected);
    assert_eq!(with(&[&tlv(NAME, b"\x00&\xC3").repeat(9)]).system_name, b"\x00&\xC3");
    // Without the category it is not HTIP, and the system fields are read all the same (H2).
    let fields = [tlv(NAME, b"sw1"), tlv(MANAGEMENT, &address(1))].concat();
    let read = reading(&replaced(CATEGORY, MODEL_NUMBER, &fields));
    assert!(!read.htip);
    assert_eq!(read.system_name, b"sw1");
    assert_eq!(read.management, [address(1)]);
}

#[test]
fn nothing_inside_them_is_looked_at() {
    // A name that looks like the category once more, an address that looks like the seconds, and
    // capabilities that look like an End.
    let read = with(&[
        &tlv(NAME, &FRAME_A[CATEGORY..MODEL_NUMBER]),
        &zeros(CAPABILITIES, 4),
        &tlv(MANAGEMENT, &[0x06, 0x02, 0x00, 0x78, 0x00, 0x00, 0xFE, 0x03, 0x00]),
        &tlv(DESCRIPTION, b"behind"),
    ]);
    assert_eq!(read.system_name, FRAME_A[CATEGORY..MODEL_NUMBER]);
    assert_eq!(read.system_description, b"behind");
    assert_eq!(read.category, b"A");
}

#[test]
fn a_goodbye_may_carry_them() {
    let behind = [&[0x06, 0x02, 0x00, 0x00][..], &tlv(NAME, b"sw1"), &zeros(CAPABILITIES, 4)];
    let read = reading(&replaced(THIRD, END, &behind.concat()));
    assert!(!read.htip);
    assert_eq!(read.outline.seconds, 0);
    assert_eq!(read.system_name, b"sw1");
    assert_eq!(read.capabilities, flags(0, 0));
}

#[test]
fn refusals_beside_them() {
    let right = [tlv(NAME, b"sw1"), tlv(MANAGEMENT, &address(1))].concat();
    let wrong = [zeros(CAPABILITIES, 5), zeros(NAME, 256)].concat();
    for fields in [right, wrong] {
        // Cut short, up to where the End begins and within it (R5).
        let whole = before_end(&fields);
        for length in END..whole.len() {
            assert_eq!(read_frame(&whole[..length]), Err(5));
        }
        // A later TLV of type 1 to 3 behind them and before them (R6).
        for again in [&A[..9], &A[9..13], &A[13..17]] {
            assert_eq!(read_frame(&before_end(&[&fields, again].concat())), Err(6));
            assert_eq!(read_frame(&before_end(&[again, &fields].concat())), Err(6));
        }
        for chassis in wrong_chassis() {
            let first = first_tlv(chassis.subtype, &chassis.octets);
            assert_eq!(read_frame(&[&HEADER[..], &first, &A[9..35], &fields].concat()), Err(4));
        }
    }
    // They are none of the first three (R4).
    for (from, to) in [(FIRST, SECOND), (SECOND, THIRD), (THIRD, CATEGORY)] {
        for first in [NAME, DESCRIPTION, CAPABILITIES, MANAGEMENT] {
            assert_eq!(read_frame(&replaced(from, to, &zeros(first, 4))), Err(4));
        }
    }
}

#[test]
fn other_types_are_skipped() {
    // Types 9 and 126, and 13, 37 and 69 to 72, with what would suit types 5 to 8.
    for first in [0x12, 0xFC, 0x1A, 0x4A, 0x8A, 0x8C, 0x8E, 0x90] {
        let alike = [tlv(first, b"sw1"), zeros(first, 4), tlv(first, &address(1))].concat();
        let mut expected = reading_of_a();
        expected.outline.length = 37 + 5 + 6 + 11;
        assert_eq!(with(&[&alike]), expected);
    }
    // And all that stands behind the End.
    let behind = [tlv(NAME, b"sw1"), zeros(CAPABILITIES, 4), tlv(MANAGEMENT, &address(1))].concat();
    assert_eq!(read_frame(&[&FRAME_A, &behind[..]].concat()), Ok(reading_of_a()));
    assert_eq!(read_lldpdu(&[&A, &behind[..], &[0x00, 0x00]].concat()), Ok(reading_of_a()));
}

/// Frame A's LLDPDU with octets where the system fields are written: behind the first three.
fn a_with(fields: &[&[u8]]) -> Result<Vec<u8>, Refusal> {
    Ok([&A[..17], &fields.concat(), &A[17..]].concat())
}

/// Puts management addresses at the end of the text.
fn put_addresses(text: &mut Vec<u8>, addresses: &[Vec<u8>]) -> Management {
    Management::of(addresses.iter().map(|octets| put(text, octets)).collect())
}

#[test]
fn each_of_them_is_written() {
    let wrote = written(|description, text| description.system_name = put(text, b"sw1"));
    assert_eq!(wrote, a_with(&[&[0x0A, 0x03, 0x73, 0x77, 0x31]]));
    let wrote = written(|description, text| description.system_description = put(text, b"d"));
    assert_eq!(wrote, a_with(&[&[0x0C, 0x01, 0x64]]));
    for (can, enabled, octets) in [
        (0, 0, [0x00, 0x00, 0x00, 0x00]),
        (65_535, 65_535, [0xFF, 0xFF, 0xFF, 0xFF]),
        (1, 2, [0x00, 0x01, 0x00, 0x02]),
        (256, 1, [0x01, 0x00, 0x00, 0x01]),
    ] {
        let wrote = written(|description, _| description.capabilities = flags(can, enabled));
        assert_eq!(wrote, a_with(&[&[0x0E, 0x04], &octets]));
    }
    let wrote = written(|description, text| {
        description.management = put_addresses(text, &[address(2), address(1)]);
    });
    assert_eq!(wrote, a_with(&[&[0x10, 0x09], &address(2), &[0x10, 0x09], &address(1)]));
}

#[test]
fn they_stand_between_port_description_and_category() {
    // W1: type 4, then 5, 6, 7 and 8, then the TTC fields, the address list last.
    let wrote = written(|description, text| {
        description.words = put(text, b"p");
        description.system_name = put(text, b"n");
        description.system_description = put(text, b"d");
        description.capabilities = flags(20, 4);
        description.management = put_addresses(text, &[address(1), address(2)]);
        description.manufacturer = put(text, b"M");
        description.list = Some(part(0, 0));
    });
    let expected = [
        &A[..17],
        &[0x08, 0x01, 0x70],
        &[0x0A, 0x01, 0x6E],
        &[0x0C, 0x01, 0x64],
        &[0x0E, 0x04, 0x00, 0x14, 0x00, 0x04],
        &[0x10, 0x09, 0x05, 0x01, 0xC0, 0x00, 0x02, 0x01, 0x02, 0x00, 0x01],
        &[0x10, 0x09, 0x05, 0x01, 0xC0, 0x00, 0x02, 0x01, 0x02, 0x00, 0x02],
        &A[17..26],
        &[0xFE, 0x07, 0xE0, 0x27, 0x1A, 0x01, 0x02, 0x01, 0x4D],
        &A[26..35],
        &[0xFE, 0x05, 0xE0, 0x27, 0x1A, 0x03, 0x00],
        &A[35..],
    ]
    .concat();
    assert_eq!(wrote, Ok(expected));
}

#[test]
fn lengths_that_are_written() {
    type Choice = fn(&mut Description) -> &mut Part;
    let texts: [(Choice, u8); 2] = [
        (|description| &mut description.system_name, NAME),
        (|description| &mut description.system_description, DESCRIPTION),
    ];
    for (choice, first) in texts {
        let with_length = |length: usize| {
            written(|description, text| *choice(description) = put(text, &vec![0x00; length]))
        };
        assert_eq!(with_length(0), Ok(A.to_vec()));
        assert_eq!(with_length(1), a_with(&[&[first, 0x01, 0x00]]));
        assert_eq!(with_length(255), a_with(&[&[first, 0xFF], &[0x00; 255]]));
        for length in [256, 257, 511, 512] {
            assert_eq!(with_length(length), Err(9));
        }
    }
    // Each of four management addresses by itself, the others being right.
    for place in 0..4 {
        let with_length = |length: usize| {
            written(|description, text| {
                let mut addresses = [1, 2, 3, 4].map(address);
                addresses[place] = vec![0x00; length];
                description.management = put_addresses(text, &addresses);
            })
            .map(|lldpdu| lldpdu.len())
        };
        for length in [9, 10, 166, 167] {
            assert_eq!(with_length(length), Ok(37 + 3 * 11 + 2 + length));
        }
        for length in [0, 1, 8, 168, 169, 265, 521] {
            assert_eq!(with_length(length), Err(9));
        }
    }
}

#[test]
fn at_most_four_management_addresses() {
    let all = [1, 2, 3, 4].map(address);
    for count in 0..=4 {
        let wrote = written(|description, text| {
            description.management = put_addresses(text, &all[..count]);
        });
        let tlvs: Vec<Vec<u8>> = all[..count].iter().map(|octets| tlv(0x10, octets)).collect();
        assert_eq!(wrote, a_with(&[&tlvs.concat()]));
    }
    for count in [5, 6, 256, 260, 1 << 32, (1 << 32) + 4, u64::MAX] {
        for slots in [&all[..], &[]] {
            let wrote = written(|description, text| {
                description.management = put_addresses(text, slots);
                description.management.count = count;
            });
            assert_eq!(wrote, Err(9));
        }
    }
}

#[test]
fn slots_behind_the_count_are_no_part_of_it() {
    // Outside the text, huge, right, and too short.
    for slot in [part(19, 0), part(u64::MAX, u64::MAX), part(0, 9), part(0, 8)] {
        let wrote = written(|description, _| description.management.slots = [slot; 4]);
        assert_eq!(wrote, Ok(A.to_vec()));
        let bye = goodbye(|description, _| description.management.slots = [slot; 4]);
        assert_eq!(bye, Ok(goodbye_of_a()));
        let wrote = written(|description, text| {
            let first = put(text, &address(1));
            description.management = Management { count: 1, slots: [first, slot, slot, slot] };
        });
        assert_eq!(wrote, a_with(&[&[0x10, 0x09], &address(1)]));
    }
}

#[test]
fn parts_outside_the_text() {
    // The text of frame A has nine octets.
    for outside in [part(1, 9), part(0, 10), part(9, 1), part(10, 0), part(u64::MAX, 9)] {
        assert_eq!(written(|description, _| description.system_name = outside), Err(9));
        assert_eq!(written(|description, _| description.system_description = outside), Err(9));
        assert_eq!(goodbye(|description, _| description.system_name = outside), Err(9));
        assert_eq!(goodbye(|description, _| description.system_description = outside), Err(9));
        for place in 0..4 {
            let mut slots = [part(0, 9); 4];
            slots[place] = outside;
            let management = Management { count: 4, slots };
            assert_eq!(written(|description, _| description.management = management), Err(9));
        }
    }
    // Nothing, at the end of the text, lies in it; and one text may be all four addresses.
    let wrote = written(|description, _| {
        description.system_name = part(9, 0);
        description.system_description = part(9, 0);
        description.management = Management { count: 4, slots: [part(0, 9); 4] };
    });
    assert_eq!(wrote, a_with(&[&[&[0x10, 0x09], TEXT_OF_A].concat().repeat(4)]));
}

#[test]
fn seconds_0_want_them_absent() {
    assert_eq!(goodbye(|description, _| description.system_name = part(0, 1)), Err(9));
    assert_eq!(goodbye(|description, _| description.system_description = part(0, 1)), Err(9));
    // Capabilities with no flag set are present (W3).
    for capabilities in [flags(0, 0), flags(20, 4)] {
        assert_eq!(goodbye(|description, _| description.capabilities = capabilities), Err(9));
    }
    for count in [1, 4, 5, u64::MAX] {
        let management = Management { count, slots: [part(0, 9); 4] };
        assert_eq!(goodbye(|description, _| description.management = management), Err(9));
    }
}

#[test]
fn around_1500_octets() {
    // Frame A has 37 octets, one of them the port ID's. Name and description add 257 each, the
    // capabilities 6, four addresses of 167 octets 169 each, and the longest category 254: 1,487.
    let of_port = |length: usize, last: usize| {
        written(|description, text| {
            description.port.octets = put(text, &vec![0; length]);
            description.category = put(text, &[0; 255]);
            description.system_name = put(text, &[0; 255]);
            description.system_description = put(text, &[0; 255]);
            description.capabilities = flags(0, 0);
            let mut addresses = vec![vec![0; 167]; 4];
            addresses[3].truncate(last);
            addresses.retain(|octets| !octets.is_empty());
            description.management = put_addresses(text, &addresses);
        })
        .map(|lldpdu| lldpdu.len())
    };
    assert_eq!(of_port(13, 167), Ok(1499));
    assert_eq!(of_port(14, 167), Ok(1500));
    assert_eq!(of_port(15, 167), Err(9));
    // One octet less in an address makes up for it; and only the last address is too much.
    assert_eq!(of_port(15, 166), Ok(1500));
    assert_eq!(of_port(172, 9), Ok(1500));
    assert_eq!(of_port(173, 9), Err(9));
    assert_eq!(of_port(173, 0), Ok(1490));
}

#[test]
fn nine_before_ten() {
    // A name of one octet makes 40 octets of the 37, capabilities 43, an address of nine 48.
    let mut plans = [description_of_a(), description_of_a(), description_of_a()];
    plans[0].system_name = part(0, 1);
    plans[1].capabilities = flags(0, 0);
    plans[2].management = Management::of(vec![part(0, 9)]);
    for (plan, length) in plans.iter_mut().zip([40, 43, 48]) {
        for room in [0, 37, length - 1] {
            assert_eq!(write(plan, TEXT_OF_A, room), Err(10));
        }
        assert_eq!(write(plan, TEXT_OF_A, length).map(|lldpdu| lldpdu.len()), Ok(length));
        plan.management.count = 5;
        for room in [0, length - 1, length] {
            assert_eq!(write(plan, TEXT_OF_A, room), Err(9));
        }
    }
}

#[test]
fn what_is_written_reads_back() {
    for chassis in right_chassis() {
        let wrote = written(|description, text| {
            description.chassis = put_id(text, &chassis);
            description.system_name = put(text, b"n");
            description.system_description = put(text, &[0x00; 255]);
            description.capabilities = flags(0, 0);
            description.management = put_addresses(text, &[address(9), vec![0xFF; 167]]);
        })
        .expect("no rule is broken");
        let mut expected = reading_of_a();
        // A name of 3 octets, then 257, 6, 11 and 169; six of the 37 are the chassis.
        expected.outline.length = 31 + chassis.octets.len() + 3 + 257 + 6 + 11 + 169;
        expected.outline.chassis = id(chassis.subtype, &chassis.octets);
        expected.system_name = b"n".to_vec();
        expected.system_description = vec![0x00; 255];
        expected.capabilities = flags(0, 0);
        expected.management = vec![address(9), vec![0xFF; 167]];
        assert_eq!(read_frame(&[&HEADER[..], &wrote].concat()), Ok(expected));
    }
}
