//! The writer's rules (W1 to W7, R9 to Q2) and the readings of open points, as ordinary tests.
//! Octets and expected values are typed from the rules page by hand, never taken from the program.

mod described;
mod page;

use described::*;
use page::*;
use twin::id::Id;
use twin::reader::{read_frame, read_lldpdu, Capabilities, Link};
use twin::writer::*;

/// Puts the strings of link information there, with so many octets of addresses.
fn put_link(text: &mut Vec<u8>, interface: &[u8], number: &[u8], octets: usize) -> LinkStrings {
    LinkStrings {
        interface: put(text, interface),
        number: put(text, number),
        addresses: put(text, &vec![9; octets]),
    }
}

/// Frame A with link information of n, m and so many octets of addresses.
fn with_link(n: usize, m: usize, octets: usize) -> Result<Vec<u8>, u8> {
    written(|description, text| {
        description.link = Some(put_link(text, &vec![6; n], &vec![3; m], octets));
    })
}

/// Frame A with an address list of so many octets.
fn with_list(octets: usize) -> Result<Vec<u8>, u8> {
    written(|description, text| description.list = Some(put(text, &vec![9; octets])))
}

/// Frame A with another chassis.
fn with_chassis(chassis: &Id) -> Result<Vec<u8>, u8> {
    written(|description, text| description.chassis = put_id(text, chassis))
}

#[test]
fn frame_a_octet_for_octet() {
    assert_eq!(write(&description_of_a(), TEXT_OF_A, 37), Ok(A.to_vec()));
}

#[test]
fn everything_in_its_order() {
    // W1, each TLV typed by hand; one text for all, with octets that belong to nothing.
    let text = [
        &b"__eth0/1 TV0A1B2CLampX-9\x06\x00\x03"[..],
        b"\x02\x00\x00\x00\x00\x11\x02\x00\x00\x00\x00\x12_\xAA\xBB\xCC\xDD\xEE\xFF",
        b"sw1Lab\x05\x01\xC0\x00\x02\x01\x02\x00\x00",
        b"\x01\x47\x01\x00\x02\x01\x01AB\x01i\x01\x00\x00",
    ]
    .concat();
    let description = Description {
        chassis: Id { subtype: 4, octets: part(40, 6) },
        port: Id { subtype: 5, octets: part(2, 4) },
        seconds: 0x1234,
        words: part(6, 2),
        category: part(9, 2),
        manufacturer: part(11, 6),
        model_name: part(17, 4),
        model_number: part(21, 3),
        link: Some(LinkStrings {
            interface: part(24, 1),
            number: part(25, 2),
            addresses: part(27, 12),
        }),
        list: Some(part(33, 6)),
        system_name: part(46, 3),
        system_description: part(49, 3),
        capabilities: Some(Capabilities { can: 20, enabled: 4 }),
        management: Management::of(vec![part(52, 9), part(40, 12)]),
        extension: Some(part(61, 14)),
    };
    let expected = [
        &[0x02, 0x07, 0x04, 0xAA, 0xBB, 0xCC, 0xDD, 0xEE, 0xFF][..],
        &[0x04, 0x05, 0x05, 0x65, 0x74, 0x68, 0x30],
        &[0x06, 0x02, 0x12, 0x34],
        &[0x08, 0x02, 0x2F, 0x31],
        &[0x0A, 0x03, 0x73, 0x77, 0x31],
        &[0x0C, 0x03, 0x4C, 0x61, 0x62],
        &[0x0E, 0x04, 0x00, 0x14, 0x00, 0x04],
        &[0x10, 0x09, 0x05, 0x01, 0xC0, 0x00, 0x02, 0x01, 0x02, 0x00, 0x00],
        &[0x10, 0x0C, 0xAA, 0xBB, 0xCC, 0xDD, 0xEE, 0xFF, 0x73, 0x77, 0x31, 0x4C, 0x61, 0x62],
        &[0xFE, 0x08, 0xE0, 0x27, 0x1A, 0x01, 0x01, 0x02, 0x54, 0x56],
        &[0xFE, 0x0C, 0xE0, 0x27, 0x1A, 0x01, 0x02, 0x06, 0x30, 0x41, 0x31, 0x42, 0x32, 0x43],
        &[0xFE, 0x0A, 0xE0, 0x27, 0x1A, 0x01, 0x03, 0x04, 0x4C, 0x61, 0x6D, 0x70],
        &[0xFE, 0x09, 0xE0, 0x27, 0x1A, 0x01, 0x04, 0x03, 0x58, 0x2D, 0x39],
        &[0xFE, 0x16, 0xE0, 0x27, 0x1A, 0x02, 0x01, 0x06, 0x02, 0x00, 0x03, 0x02],
        &[0x02, 0x00, 0x00, 0x00, 0x00, 0x11, 0x02, 0x00, 0x00, 0x00, 0x00, 0x12],
        &[0xFE, 0x12, 0xE0, 0x27, 0x1A, 0x04, 0x01, 0x47, 0x01, 0x00, 0x02, 0x01, 0x01],
        &[0x41, 0x42, 0x01, 0x69, 0x01, 0x00, 0x00],
        &[0xFE, 0x0B, 0xE0, 0x27, 0x1A, 0x03, 0x01, 0x02, 0x00, 0x00, 0x00, 0x00, 0x12],
        &[0x00, 0x00],
    ]
    .concat();
    assert_eq!(write(&description, &text, expected.len()), Ok(expected.clone()));

    // Behind a header it reads back as the description, and it is HTIP (W6).
    let reading = read_frame(&[&HEADER[..], &expected].concat()).expect("the frame is valid");
    assert!(reading.htip);
    assert_eq!(reading.outline.length, 171);
    assert_eq!(reading.outline.chassis, id(4, &[0xAA, 0xBB, 0xCC, 0xDD, 0xEE, 0xFF]));
    assert_eq!(reading.outline.port, id(5, b"eth0"));
    assert_eq!(reading.outline.seconds, 0x1234);
    assert_eq!(reading.description, b"/1");
    assert_eq!(reading.category, b"TV");
    assert_eq!(reading.manufacturer, b"0A1B2C");
    assert_eq!(reading.model_name, b"Lamp");
    assert_eq!(reading.model_number, b"X-9");
    let addresses = vec![[0x02, 0, 0, 0, 0, 0x11], [0x02, 0, 0, 0, 0, 0x12]];
    assert_eq!(reading.list, Some(vec![addresses[1]]));
    assert_eq!(reading.link, Some(Link { interface: vec![6], number: vec![0, 3], addresses }));
    assert_eq!(reading.system_name, b"sw1");
    assert_eq!(reading.system_description, b"Lab");
    assert_eq!(reading.capabilities, Some(Capabilities { can: 20, enabled: 4 }));
    assert_eq!(reading.management, [&text[52..61], &text[40..52]]);
    assert_eq!(reading.extension, Some(text[61..75].to_vec()));
}

#[test]
fn nine_before_ten() {
    let mut broken = [description_of_a(), description_of_a(), description_of_a()];
    broken[0].port.subtype = 8;
    broken[1].chassis.subtype = 5;
    broken[2].chassis.octets.len = 5;
    for room in [0, 1, 36, 37, 1600] {
        assert!(broken.iter().all(|broken| write(broken, TEXT_OF_A, room) == Err(9)));
    }
    for room in [0, 1, 2, 35, 36] {
        assert_eq!(write(&description_of_a(), TEXT_OF_A, room), Err(10));
    }
    for room in [37, 38, 1600] {
        assert_eq!(write(&description_of_a(), TEXT_OF_A, room), Ok(A.to_vec()));
    }
}

#[test]
fn category_and_model_number_must_be_there() {
    assert_eq!(written(|description, _| description.category.len = 0), Err(9));
    assert_eq!(written(|description, _| description.model_number.len = 0), Err(9));
    for seconds in [1, 256, 65_535] {
        let alone = goodbye(|description, _| description.seconds = seconds);
        assert_eq!(alone, Err(9));
        let mut expected = A;
        expected[15..17].copy_from_slice(&seconds.to_be_bytes());
        assert_eq!(written(|description, _| description.seconds = seconds), Ok(expected.to_vec()));
    }
}

#[test]
fn seconds_0_and_nothing_else() {
    assert_eq!(goodbye(|_, _| {}), Ok(goodbye_of_a()));
    assert_eq!(goodbye(|description, _| description.words.len = 1), Err(9));
    assert_eq!(goodbye(|description, _| description.category.len = 1), Err(9));
    assert_eq!(goodbye(|description, _| description.manufacturer.len = 1), Err(9));
    assert_eq!(goodbye(|description, _| description.model_name.len = 1), Err(9));
    assert_eq!(goodbye(|description, _| description.model_number.len = 1), Err(9));
    assert_eq!(written(|description, _| description.seconds = 0), Err(9));
    // Tables are present even without addresses (W3).
    for count in [0, 1] {
        let link = goodbye(|description, text| {
            description.link = Some(put_link(text, &[6], &[3], 6 * count));
        });
        assert_eq!(link, Err(9));
        let list = goodbye(|description, text| {
            description.list = Some(put(text, &vec![9; 6 * count]));
        });
        assert_eq!(list, Err(9));
    }
    // What is written is valid, and it is not HTIP (W6).
    assert!(!read_lldpdu(&goodbye_of_a()).expect("a goodbye is valid").htip);
}

#[test]
fn seconds_0_keeps_the_rules_of_the_port_id() {
    assert_eq!(goodbye(|description, _| description.port.subtype = 0), Err(9));
    assert_eq!(goodbye(|description, _| description.port.subtype = 8), Err(9));
    assert_eq!(goodbye(|description, _| description.port.octets.len = 0), Err(9));
    let with_port = |octets: &[u8]| {
        goodbye(|description, text| description.port.octets = put(text, octets))
            .map(|lldpdu| lldpdu.len())
    };
    assert_eq!(with_port(&[0; 255]), Ok(19 + 254));
    assert_eq!(with_port(&[0; 256]), Err(9));
}

#[test]
fn each_kind_of_chassis() {
    for chassis in right_chassis() {
        let first = first_tlv(chassis.subtype, &chassis.octets);
        let wrote = with_chassis(&chassis).expect("the chassis is right");
        assert_eq!(wrote, [&first[..], &A[9..]].concat());
        let bye = goodbye(|description, text| description.chassis = put_id(text, &chassis));
        assert_eq!(bye, Ok([&first[..], &goodbye_of_a()[9..]].concat()));

        // It reads back, and what was read back gives the same octets (W6).
        let reading = read_frame(&[&HEADER[..], &wrote].concat()).expect("it is valid");
        assert_eq!(reading.outline.chassis, chassis);
        assert_eq!(reading.outline.port, id(7, &[0x31]));
        assert!(reading.htip);
        assert_eq!(with_chassis(&reading.outline.chassis), Ok(wrote));
    }
    // Characters are written as they are: AF is 41 46, not AF.
    let expected = [&[0x02, 0x03, 0x07, 0x41, 0x46][..], &A[9..]].concat();
    assert_eq!(with_chassis(&id(7, b"AF")), Ok(expected));
}

#[test]
fn no_other_chassis() {
    for chassis in wrong_chassis() {
        assert_eq!(with_chassis(&chassis), Err(9), "{chassis:?}");
        let bye = goodbye(|description, text| description.chassis = put_id(text, &chassis));
        assert_eq!(bye, Err(9));
    }
    // Numbers that are right in eight bits only.
    for (subtype, count) in [(4, 262), (4, 264), (7, 258), (7, 320)] {
        assert_eq!(with_chassis(&id(subtype, &vec![0x30; count])), Err(9));
    }
}

#[test]
fn port_subtypes_and_lengths() {
    for subtype in [1, 2, 3, 4, 5, 6, 7] {
        let mut expected = A;
        expected[11] = subtype;
        let wrote = written(|description, _| description.port.subtype = subtype);
        assert_eq!(wrote, Ok(expected.to_vec()));
    }
    for subtype in [0, 8, 128, 255] {
        assert_eq!(written(|description, _| description.port.subtype = subtype), Err(9));
    }
    let with_port =
        |octets: &[u8]| written(|description, text| description.port.octets = put(text, octets));
    for length in [0, 256, 257, 512] {
        assert_eq!(with_port(&vec![0x31; length]), Err(9));
    }
    // 255 octets make L = 256, and so a header of 05 00.
    let wrote = with_port(&[0; 255]);
    let expected = [&A[..9], &[0x05, 0x00, 0x07], &[0; 255], &A[13..]].concat();
    assert_eq!(wrote, Ok(expected));
}

#[test]
fn lengths_of_the_words() {
    let with_words = |length: usize| {
        written(|description, text| description.words = put(text, &vec![b'x'; length]))
    };
    assert_eq!(with_words(0), Ok(A.to_vec()));
    let expected = [&A[..17], &[0x08, 0x01, 0x78], &A[17..]].concat();
    assert_eq!(with_words(1), Ok(expected));
    let expected = [&A[..17], &[0x08, 0xFF], &[0x78; 255], &A[17..]].concat();
    assert_eq!(with_words(255), Ok(expected));
    for length in [256, 257, 511, 512] {
        assert_eq!(with_words(length), Err(9));
    }
}

#[test]
fn characters_of_the_words() {
    // 1 + 26 + 26 + 10 + 19 are allowed (T10).
    let with_octet =
        |octet: u8| written(|description, text| description.words = put(text, &[octet]));
    let allowed: Vec<u8> = (0..=255).filter(|&octet| with_octet(octet).is_ok()).collect();
    let mut expected = b" ABCDEFGHIJKLMNOPQRSTUVWXYZabcdefghijklmnopqrstuvwxyz0123456789".to_vec();
    expected.extend(b"-'()+,./:=?;!*#@$_%");
    expected.sort();
    assert_eq!(allowed, expected);
    assert_eq!(allowed.len(), 82);
    assert_eq!(with_octet(b'&'), Err(9));
    for words in [&b"&ab"[..], b"a&b", b"ab&", b"ab\n", b"ab\0", b"\xC3\xA9"] {
        assert_eq!(written(|description, text| description.words = put(text, words)), Err(9));
    }
}

#[test]
fn lengths_of_the_device_strings() {
    type Choice = fn(&mut Description) -> &mut Part;
    let strings: [(Choice, usize, usize); 4] = [
        (|description| &mut description.category, 36, 255),
        (|description| &mut description.manufacturer, 45, 6),
        (|description| &mut description.model_name, 45, 31),
        (|description| &mut description.model_number, 36, 31),
    ];
    for (choice, besides, longest) in strings {
        let with_length = |length: usize| {
            written(|description, text| *choice(description) = put(text, &vec![0xC3; length]))
                .map(|lldpdu| lldpdu.len())
        };
        assert_eq!(with_length(1), Ok(besides + 1));
        assert_eq!(with_length(longest), Ok(besides + longest));
        assert_eq!(with_length(longest + 1), Err(9));
        assert_eq!(with_length(longest + 256), Err(9));
    }
}

#[test]
fn the_longest_category() {
    // L = 6 + 255 = 261, and so a header of FF 05.
    let wrote = written(|description, text| description.category = put(text, &[0x00; 255]));
    let category = [&[0xFF, 0x05, 0xE0, 0x27, 0x1A, 0x01, 0x01, 0xFF][..], &[0x00; 255]].concat();
    assert_eq!(wrote, Ok([&A[..17], &category, &A[26..]].concat()));
}

#[test]
fn lengths_in_link_information() {
    for n in 0..=5 {
        for m in 0..=5 {
            let wrote = with_link(n, m, 6).map(|lldpdu| lldpdu.len());
            let allowed = (1..=4).contains(&n) && (1..=4).contains(&m);
            assert_eq!(wrote, if allowed { Ok(37 + 9 + n + m + 6) } else { Err(9) });
        }
    }
    assert_eq!(with_link(257, 1, 6), Err(9));
    assert_eq!(with_link(1, 257, 6), Err(9));
    // 00 06 is not 06 (T7).
    let wrote = written(|description, text| {
        description.link = Some(put_link(text, &[0x00, 0x06], &[0x00], 0));
    });
    let link = [0xFE, 0x0A, 0xE0, 0x27, 0x1A, 0x02, 0x02, 0x00, 0x06, 0x01, 0x00, 0x00];
    assert_eq!(wrote, Ok([&A[..35], &link, &A[35..]].concat()));
}

#[test]
fn as_many_addresses_as_fit() {
    // n = m = 1: 83 addresses, L = 507, a header of FF FB; 84 are too many (W5).
    let link = [0xFF, 0xFB, 0xE0, 0x27, 0x1A, 0x02, 0x01, 0x06, 0x01, 0x03, 83];
    let expected = [&A[..35], &link, &[9; 498], &A[35..]].concat();
    assert_eq!(with_link(1, 1, 6 * 83), Ok(expected));
    assert_eq!(with_link(1, 1, 6 * 84), Err(9));
    // n = m = 4: 82 addresses, L = 507; 83 are too many.
    let link = [0xFF, 0xFB, 0xE0, 0x27, 0x1A, 0x02, 4, 6, 6, 6, 6, 4, 3, 3, 3, 3, 82];
    let expected = [&A[..35], &link, &[9; 492], &A[35..]].concat();
    assert_eq!(with_link(4, 4, 6 * 82), Ok(expected));
    assert_eq!(with_link(4, 4, 6 * 83), Err(9));
    // n + m = 6: 83 addresses make L = 511, the largest; one octet more is too much.
    assert_eq!(with_link(2, 4, 6 * 83).map(|lldpdu| lldpdu.len()), Ok(37 + 513));
    assert_eq!(with_link(4, 2, 6 * 83).map(|lldpdu| lldpdu[35..37].to_vec()), Ok(vec![0xFF; 2]));
    assert_eq!(with_link(3, 4, 6 * 83), Err(9));
    // The list: 84 addresses, L = 509, a header of FF FD; 85 are too many.
    let list = [0xFF, 0xFD, 0xE0, 0x27, 0x1A, 0x03, 84];
    let expected = [&A[..35], &list, &[9; 504], &A[35..]].concat();
    assert_eq!(with_list(6 * 84), Ok(expected));
    assert_eq!(with_list(6 * 85), Err(9));
    // L and k that look small in nine and eight bits only.
    assert_eq!(with_list(6 * 171), Err(9));
    assert_eq!(with_list(6 * 256), Err(9));
}

#[test]
fn pieces_of_addresses() {
    for octets in [1, 2, 3, 4, 5, 7, 11, 497] {
        assert_eq!(with_link(1, 1, octets), Err(9));
        assert_eq!(with_list(octets), Err(9));
    }
}

#[test]
fn an_empty_table_is_not_an_absent_one() {
    let wrote = with_link(1, 1, 0).expect("an empty table is written");
    let link = [0xFE, 0x09, 0xE0, 0x27, 0x1A, 0x02, 0x01, 0x06, 0x01, 0x03, 0x00];
    assert_eq!(wrote, [&A[..35], &link, &A[35..]].concat());
    let reading = read_lldpdu(&wrote).expect("it is valid");
    assert_eq!(reading.link, Some(Link { interface: vec![6], number: vec![3], addresses: vec![] }));
    assert_eq!(reading.list, None);

    let wrote = with_list(0).expect("an empty list is written");
    let list = [0xFE, 0x05, 0xE0, 0x27, 0x1A, 0x03, 0x00];
    assert_eq!(wrote, [&A[..35], &list, &A[35..]].concat());
    let reading = read_lldpdu(&wrote).expect("it is valid");
    assert_eq!(reading.link, None);
    assert_eq!(reading.list, Some(vec![]));
}

#[test]
fn around_1500_octets() {
    // Frame A has 37 octets; 84 addresses in a list add 511, 83 in a table 509, and the longest
    // category and port ID 254 each, since one octet of each is there: 1,565. Six are the chassis.
    for chassis in right_chassis() {
        let longest = 1559 + chassis.octets.len();
        let of_length = |total: usize| {
            written(|description, text| {
                description.chassis = put_id(text, &chassis);
                description.list = Some(put(text, &[9; 504]));
                description.link = Some(put_link(text, &[6], &[3], 6 * 83));
                description.category = put(text, &[0; 255]);
                description.port.octets = put(text, &vec![0; 255 - (longest - total)]);
            })
            .map(|lldpdu| lldpdu.len())
        };
        assert_eq!(of_length(1499), Ok(1499));
        assert_eq!(of_length(1500), Ok(1500));
        assert_eq!(of_length(1501), Err(9));
        assert_eq!(of_length(longest), Err(9));
    }
}

#[test]
fn parts_outside_the_text() {
    let far = 1 << 63;
    let most = u64::MAX;
    for (start, len) in [
        (9, 1),
        (8, 2),
        (10, 0),
        (0, 10),
        (4, 6),
        (2, 8),
        (far, 0),
        (far, 1),
        (far, far),
        (most, 0),
        (most, 1),
        (most, 2),
        (1, most),
        (2, most),
        (0, far),
        (0, most),
        (1 << 32, 1),
        (0, (1 << 32) + 1),
    ] {
        let outside = part(start, len);
        for subtype in [4, 7] {
            let chassis = Id { subtype, octets: outside };
            assert_eq!(written(|description, _| description.chassis = chassis.clone()), Err(9));
            assert_eq!(goodbye(|description, _| description.chassis = chassis), Err(9));
        }
        assert_eq!(written(|description, _| description.port.octets = outside), Err(9));
        assert_eq!(written(|description, _| description.words = outside), Err(9));
        assert_eq!(written(|description, _| description.category = outside), Err(9));
        assert_eq!(written(|description, _| description.manufacturer = outside), Err(9));
        assert_eq!(written(|description, _| description.model_name = outside), Err(9));
        assert_eq!(written(|description, _| description.model_number = outside), Err(9));
        assert_eq!(written(|description, _| description.list = Some(outside)), Err(9));
        let nothing = part(9, 0);
        let one = part(0, 1);
        for (interface, number, addresses) in
            [(outside, one, nothing), (one, outside, nothing), (one, one, outside)]
        {
            let link = LinkStrings { interface, number, addresses };
            assert_eq!(written(|description, _| description.link = Some(link)), Err(9));
        }
        // With seconds 0 absent strings have to begin in the text too.
        assert_eq!(goodbye(|description, _| description.model_name = outside), Err(9));
    }
}

#[test]
fn nothing_at_the_end_of_the_text_is_inside() {
    let wrote = written(|description, _| {
        description.words = part(9, 0);
        description.manufacturer = part(9, 0);
        description.model_name = part(8, 0);
    });
    assert_eq!(wrote, Ok(A.to_vec()));
    let wrote = goodbye(|description, _| description.words = part(9, 0));
    assert_eq!(wrote, Ok(goodbye_of_a()));
    // In a text of no octets nothing is inside, but chassis and port ID have octets.
    assert_eq!(goodbye(|_, text| text.clear()), Err(9));
}

#[test]
fn parts_may_overlap() {
    // The text is one pair, and every string is this pair.
    let pair = part(0, 2);
    let whole = Id { subtype: 7, octets: pair };
    let description = Description {
        chassis: whole.clone(),
        port: whole,
        category: pair,
        model_number: pair,
        ..description_of_a()
    };
    let expected = [
        &[0x02, 0x03, 0x07, 0x41, 0x46][..],
        &[0x04, 0x03, 0x07, 0x41, 0x46],
        &[0x06, 0x02, 0x00, 0x78],
        &[0xFE, 0x08, 0xE0, 0x27, 0x1A, 0x01, 0x01, 0x02, 0x41, 0x46],
        &[0xFE, 0x08, 0xE0, 0x27, 0x1A, 0x01, 0x04, 0x02, 0x41, 0x46],
        &[0x00, 0x00],
    ]
    .concat();
    assert_eq!(write(&description, b"AF", 36), Ok(expected));
}
