//! The bench frames, the source (F4), the chassis (L3) and the readings of open points, as tests.
//! Octets and expected values are typed from the rules page by hand, never taken from the program.

mod changed;
mod page;

use changed::*;
use page::*;
use twin::reader::*;

/// The second destination (F2).
const NEAREST: Address = [0x01, 0x80, 0xC2, 0x00, 0x00, 0x0E];

/// The group address that F4 shows.
const NO_STATION: Address = [0x03, 0x00, 0x00, 0x00, 0x00, 0x01];

/// Frame A with another source.
fn sent_by(source: Address) -> Vec<u8> {
    replaced(6, 12, &source)
}

#[test]
fn p1_a_is_valid_and_htip() {
    assert_eq!(read_frame(&FRAME_A), Ok(reading_of_a()));
    assert_eq!(outline_frame(&FRAME_A), Ok(reading_of_a().outline));
    assert_eq!(read_lldpdu(&A), Ok(reading_of_a()));
    assert_eq!(outline_lldpdu(&A), Ok(reading_of_a().outline));
}

#[test]
fn p2_padding_changes_nothing() {
    assert_eq!(read_frame(&[&FRAME_A[..], &[0; 9]].concat()), Ok(reading_of_a()));
}

#[test]
fn p3_without_the_last_octet() {
    assert_eq!(read_frame(&FRAME_A[..50]), Err(5));
    assert_eq!(outline_frame(&FRAME_A[..50]), Err(5));
}

#[test]
fn p4_the_first_14_octets() {
    assert_eq!(read_frame(&FRAME_A[..14]), Err(5));
}

#[test]
fn p5_the_first_13_octets() {
    assert_eq!(read_frame(&FRAME_A[..13]), Err(3));
}

#[test]
fn p6_another_type() {
    assert_eq!(read_frame(&replaced(12, 14, &[0x08, 0x00])), Err(3));
}

#[test]
fn p7_short_first_tlv() {
    let first = [0x02, 0x06, 0x04, 0x02, 0x00, 0x00, 0x00, 0x00];
    assert_eq!(read_frame(&replaced(FIRST, SECOND, &first)), Err(4));
}

#[test]
fn p8_long_third_tlv() {
    let third = [0x06, 0x03, 0x00, 0x78, 0x00];
    assert_eq!(read_frame(&replaced(THIRD, CATEGORY, &third)), Err(4));
}

#[test]
fn p9_seconds_again() {
    assert_eq!(read_frame(&before_end(&[0x06, 0x02, 0x00, 0x78])), Err(6));
}

#[test]
fn p10_organization_without_subtype() {
    assert_eq!(read_frame(&before_end(&[0xFE, 0x03, 0xE0, 0x27, 0x1A])), Err(6));
}

#[test]
fn p11_category_without_string_length() {
    let category = [0xFE, 0x05, 0xE0, 0x27, 0x1A, 0x01, 0x01];
    let mut expected = reading_of_a();
    expected.outline.length = 35;
    expected.htip = false;
    expected.category = vec![];
    assert_eq!(read_frame(&replaced(CATEGORY, MODEL_NUMBER, &category)), Ok(expected));
}

#[test]
fn p12_string_length_beyond_the_tlv() {
    let category = [0xFE, 0x07, 0xE0, 0x27, 0x1A, 0x01, 0x01, 0x02, 0x41];
    let mut expected = reading_of_a();
    expected.htip = false;
    expected.category = vec![];
    assert_eq!(read_frame(&replaced(CATEGORY, MODEL_NUMBER, &category)), Ok(expected));
}

#[test]
fn p14_a_chassis_of_eight_octets() {
    let first = [0x02, 0x09, 0x04, 0x02, 0x00, 0x00, 0xFF, 0xFE, 0x00, 0x00, 0x01];
    let mut expected = reading_of_a();
    expected.outline.length = 39;
    expected.outline.chassis = id(4, &[0x02, 0x00, 0x00, 0xFF, 0xFE, 0x00, 0x00, 0x01]);
    let frame = replaced(FIRST, SECOND, &first);
    assert_eq!(read_frame(&frame), Ok(expected.clone()));
    assert_eq!(outline_lldpdu(&frame[14..]), Ok(expected.outline));
}

#[test]
fn p15_one_local_pair() {
    let first = [0x02, 0x03, 0x07, 0x41, 0x46];
    let mut expected = reading_of_a();
    expected.outline.length = 33;
    expected.outline.chassis = id(7, b"AF");
    let frame = replaced(FIRST, SECOND, &first);
    assert_eq!(read_frame(&frame), Ok(expected.clone()));
    assert_eq!(outline_lldpdu(&frame[14..]), Ok(expected.outline));
}

#[test]
fn p16_33_local_pairs() {
    let first = [&[0x02, 0x43, 0x07][..], &[0x30; 66]].concat();
    assert_eq!(read_frame(&replaced(FIRST, SECOND, &first)), Err(4));
    // 32 are not too many: L is 65.
    let first = [&[0x02, 0x41, 0x07][..], &[0x30; 64]].concat();
    assert_eq!(reading(&replaced(FIRST, SECOND, &first)).outline.length, 95);
}

/// Frame A with another chassis ID.
fn with_chassis(first: &[u8]) -> Vec<u8> {
    replaced(FIRST, SECOND, first)
}

#[test]
fn what_is_a_chassis() {
    for chassis in right_chassis() {
        let frame = with_chassis(&first_tlv(chassis.subtype, &chassis.octets));
        let mut expected = reading_of_a();
        expected.outline.length = 31 + chassis.octets.len();
        expected.outline.chassis = chassis;
        assert_eq!(read_frame(&frame), Ok(expected.clone()));
        assert_eq!(outline_frame(&frame), Ok(expected.outline));
    }
    for chassis in wrong_chassis() {
        let first = first_tlv(chassis.subtype, &chassis.octets);
        let frame = with_chassis(&first);
        assert_eq!(read_frame(&frame), Err(4), "{chassis:?}");
        assert_eq!(outline_lldpdu(&frame[14..]), Err(4));
        assert_eq!(name_link(&frame[14..], NO_STATION), Err(4));
        // 5 goes before 4 where the chassis ID is not there to its end (Q1).
        for cut in [1, first.len() - 2, first.len() - 1] {
            assert_eq!(read_frame(&frame[..14 + cut]), Err(5));
        }
        // What is wrong behind it does not decide.
        assert_eq!(read_frame(&frame[..14 + first.len()]), Err(4));
        assert_eq!(read_frame(&[&frame[..14 + first.len()], &[0x04, 0x02, 0x07]].concat()), Err(4));
    }
    // No subtype; and L that is right but for its ninth bit.
    assert_eq!(read_frame(&with_chassis(&[0x02, 0x00])), Err(4));
    for (low, subtype) in [(7u8, 4), (9, 4), (3, 7), (65, 7)] {
        let octets = vec![0x30; 256 + usize::from(low) - 1];
        assert_eq!(
            read_frame(&with_chassis(&[&[0x03, low, subtype], &octets[..]].concat())),
            Err(4)
        );
    }
}

#[test]
fn the_characters_of_a_local_chassis() {
    for octet in 0..=255 {
        let is_right = b"0123456789ABCDEF".contains(&octet);
        for octets in [[octet, b'7'], [b'B', octet]] {
            let due = if is_right { Ok(id(7, &octets)) } else { Err(4) };
            let read = outline_frame(&with_chassis(&first_tlv(7, &octets)));
            assert_eq!(read.map(|outline| outline.chassis), due);
        }
        // In an address any octet will do.
        let octets = [octet; 6];
        let read = outline_frame(&with_chassis(&first_tlv(4, &octets)));
        assert_eq!(read.map(|outline| outline.chassis), Ok(id(4, &octets)));
    }
}

#[test]
fn the_port_id_begins_where_the_chassis_id_ends() {
    for pairs in 1..=32 {
        let octets = vec![0x43; 2 * pairs];
        let read = reading(&with_chassis(&first_tlv(7, &octets)));
        assert_eq!(read.outline.port, id(7, &[0x31]));
        assert_eq!(read.outline.seconds, 120);
        assert_eq!(read.outline.length, 31 + 2 * pairs);
        assert!(read.htip);
    }
    // Behind six of the eight octets another port ID and other seconds would stand.
    let first = [0x02, 0x09, 0x04, 0x02, 0x00, 0x00, 0x00, 0x00, 0x01, 0x04, 0x02];
    let second = [0x04, 0x04, 0x06, 0x02, 0x00, 0x79];
    let read = reading(&replaced(FIRST, THIRD, &[&first[..], &second].concat()));
    assert_eq!(read.outline.chassis, id(4, &[0x02, 0x00, 0x00, 0x00, 0x00, 0x01, 0x04, 0x02]));
    assert_eq!(read.outline.port, id(6, &[0x02, 0x00, 0x79]));
    assert_eq!(read.outline.seconds, 120);
}

#[test]
fn a_second_chassis_of_any_kind() {
    for chassis in right_chassis() {
        let again = first_tlv(chassis.subtype, &chassis.octets);
        assert_eq!(read_frame(&before_end(&again)), Err(6));
        assert_eq!(read_frame(&[&FRAME_A[..END], &again[..again.len() - 1]].concat()), Err(5));
    }
}

#[test]
fn both_destinations_and_no_other() {
    assert_eq!(read_frame(&replaced(0, 6, &NEAREST)), Ok(reading_of_a()));
    let near = [0x01, 0x80, 0xC2, 0x00, 0x00, 0x00];
    assert_eq!(read_frame(&replaced(0, 6, &near)), Err(3));
}

#[test]
fn no_group_address_as_source() {
    let first_bit = [0x01, 0x00, 0x00, 0x00, 0x00, 0x00];
    for source in [NO_STATION, first_bit, NEAREST, [0xFF; 6]] {
        let to_the_nearest = [&NEAREST[..], &sent_by(source)[6..]].concat();
        for frame in [sent_by(source), to_the_nearest] {
            assert_eq!(read_frame(&frame), Err(3));
            assert_eq!(outline_frame(&frame), Err(3));
        }
    }
    let all_but_one_bit = [0xFE, 0xFF, 0xFF, 0xFF, 0xFF, 0xFF];
    let other_octets = [0x02, 0x01, 0x01, 0x01, 0x01, 0x01];
    for source in [all_but_one_bit, other_octets, [0x00; 6]] {
        assert_eq!(read_frame(&sent_by(source)), Ok(reading_of_a()));
        assert_eq!(outline_frame(&sent_by(source)), Ok(reading_of_a().outline));
    }
}

#[test]
fn an_odd_first_octet_makes_a_group_address() {
    for first in 0..=255 {
        let due = if first % 2 == 1 { Err(3) } else { Ok(reading_of_a()) };
        assert_eq!(read_frame(&sent_by([first, 0x00, 0x00, 0x00, 0x00, 0x01])), due);
    }
}

#[test]
fn the_source_goes_before_the_tlvs() {
    let whole = sent_by(NO_STATION);
    // No TLV, no End, half an End, an End as the first TLV, the seconds once more.
    let faults: [(usize, &[u8], Refusal); 5] = [
        (FIRST, &[], 5),
        (END, &[], 5),
        (END, &[0x00], 5),
        (FIRST, &[0x00, 0x00], 4),
        (END, &[0x06, 0x02, 0x00, 0x78, 0x00, 0x00], 6),
    ];
    for (kept, behind, due) in faults {
        assert_eq!(read_frame(&[&FRAME_A[..kept], behind].concat()), Err(due));
        assert_eq!(read_frame(&[&whole[..kept], behind].concat()), Err(3));
    }
    // Padding does not change it, up to the longest frame.
    for length in [60, 1514] {
        let mut padded = whole.clone();
        padded.resize(length, 0x00);
        assert_eq!(read_frame(&padded), Err(3));
    }
}

#[test]
fn only_the_source_must_be_no_group_address() {
    // As the chassis, in a frame and bare.
    let mut expected = reading_of_a();
    expected.outline.chassis = id(4, &NO_STATION);
    let frame = replaced(FIRST + 3, SECOND, &NO_STATION);
    assert_eq!(read_frame(&frame), Ok(expected.clone()));
    assert_eq!(read_lldpdu(&frame[14..]), Ok(expected));
    // In link information and in the address list.
    let link = [0xFE, 0x0F, 0xE0, 0x27, 0x1A, 0x02, 0x01, 0x06, 0x01, 0x03, 0x01];
    let list = [0xFE, 0x0B, 0xE0, 0x27, 0x1A, 0x03, 0x01];
    let frame = before_end(&[&link[..], &NO_STATION, &list, &NO_STATION].concat());
    let read = reading(&frame);
    assert!(read.htip);
    assert_eq!(read.link.expect("it is there").addresses, [NO_STATION]);
    assert_eq!(read.list, Some(vec![NO_STATION]));
    assert!(name_link(&frame[14..], NO_STATION).is_ok_and(|naming| naming.is_some()));
}

#[test]
fn a_bare_lldpdu_has_no_source() {
    // The seventh octet, where a frame's source begins, is in the chassis here.
    let mut bare = A;
    bare[6] = 0x03;
    let mut expected = reading_of_a();
    expected.outline.chassis = id(4, &[0x02, 0x00, 0x00, 0x03, 0x00, 0x01]);
    assert_eq!(read_lldpdu(&bare), Ok(expected.clone()));
    assert_eq!(outline_lldpdu(&bare), Ok(expected.outline));
}

#[test]
fn the_longest_frame() {
    let longest = [&FRAME_A[..], &[0; 1514 - 51]].concat();
    assert_eq!(read_frame(&longest), Ok(reading_of_a()));
    let too_long = [&FRAME_A[..], &[0; 1515 - 51]].concat();
    assert_eq!(read_frame(&too_long), Err(3));
    assert_eq!(read_lldpdu(&too_long[14..]), Ok(reading_of_a()));
}

#[test]
fn end_in_place_of_a_leading_tlv() {
    for place in [FIRST, SECOND, THIRD] {
        assert_eq!(read_frame(&[&FRAME_A[..place], &[0x00, 0x00]].concat()), Err(4));
        assert_eq!(read_frame(&FRAME_A[..place]), Err(5));
    }
}

#[test]
fn running_out_goes_before_wrong_at_one_tlv() {
    // Type 5 in the first place, and its body is not all there (Q1).
    assert_eq!(read_frame(&[&HEADER[..], &[0x0A, 0x07, 0x04]].concat()), Err(5));
    // Type 127 with L = 3 as the last thing, with two octets of body.
    assert_eq!(read_frame(&[&FRAME_A[..END], &[0xFE, 0x03, 0xE0, 0x27]].concat()), Err(5));
}

#[test]
fn the_earlier_tlv_decides() {
    let wrong_third = [0x06, 0x01, 0x78];
    assert_eq!(read_frame(&[&FRAME_A[..THIRD], &wrong_third, &[0xFE]].concat()), Err(4));
    let again = [0x06, 0x02, 0x00, 0x78];
    assert_eq!(read_frame(&[&FRAME_A[..END], &again, &[0xFE]].concat()), Err(6));
}

#[test]
fn the_first_description_counts_even_if_empty() {
    let read = reading(&before_end(&[0x08, 0x00, 0x08, 0x01, 0x61]));
    assert!(read.htip);
    assert_eq!(read.description, b"");
    let read = reading(&before_end(&[0x08, 0x01, 0x62, 0x08, 0x01, 0x61]));
    assert!(read.htip);
    assert_eq!(read.description, b"b");
}

#[test]
fn a_foreign_character_or_256_octets_spoil_the_verdict_only() {
    let read = reading(&before_end(&[0x08, 0x01, 0x26, 0x08, 0x01, 0x61]));
    assert!(!read.htip);
    assert_eq!(read.description, b"a");
    let longest = [&[0x08, 0xFF][..], &[0x61; 255]].concat();
    assert!(reading(&before_end(&longest)).htip);
    let too_long = [&[0x09, 0x00][..], &[0x61; 256]].concat();
    let read = reading(&before_end(&too_long));
    assert!(!read.htip);
    assert_eq!(read.description, b"");
}

#[test]
fn ttc_fields_with_nothing_behind_the_subtype() {
    for subtype in [1, 2, 3] {
        assert!(!reading(&before_end(&[0xFE, 0x04, 0xE0, 0x27, 0x1A, subtype])).htip);
    }
    for subtype in [0, 4, 255] {
        assert!(reading(&before_end(&[0xFE, 0x04, 0xE0, 0x27, 0x1A, subtype])).htip);
    }
}

#[test]
fn only_the_vendors_id_needs_no_string_length() {
    for id in [0, 2, 5, 20, 80, 254] {
        assert!(!reading(&before_end(&[0xFE, 0x05, 0xE0, 0x27, 0x1A, 0x01, id])).htip);
    }
    assert!(reading(&before_end(&[0xFE, 0x05, 0xE0, 0x27, 0x1A, 0x01, 255])).htip);
    assert!(reading(&before_end(&[0xFE, 0x06, 0xE0, 0x27, 0x1A, 0x01, 255, 9])).htip);
}

#[test]
fn any_string_length_includes_none() {
    for id in [0, 5, 20, 27, 50, 54, 80, 254] {
        assert!(reading(&before_end(&[0xFE, 0x06, 0xE0, 0x27, 0x1A, 0x01, id, 0])).htip);
    }
    for id in [2, 3] {
        assert!(!reading(&before_end(&[0xFE, 0x06, 0xE0, 0x27, 0x1A, 0x01, id, 0])).htip);
    }
}

#[test]
fn a_malformed_twin_leaves_the_well_formed_value() {
    let twin = [0xFE, 0x06, 0xE0, 0x27, 0x1A, 0x01, 0x01, 0x00];
    let read = reading(&replaced(CATEGORY, CATEGORY, &twin));
    assert!(!read.htip);
    assert_eq!(read.category, b"A");
}

#[test]
fn an_empty_table_is_not_an_absent_one() {
    let link = [0xFE, 0x09, 0xE0, 0x27, 0x1A, 0x02, 0x01, 0x06, 0x01, 0x03, 0x00];
    let list = [0xFE, 0x05, 0xE0, 0x27, 0x1A, 0x03, 0x00];
    let read = reading(&before_end(&[&link[..], &list].concat()));
    assert!(read.htip);
    assert_eq!(read.link, Some(Link { interface: vec![6], number: vec![3], addresses: vec![] }));
    assert_eq!(read.list, Some(vec![]));
}

#[test]
fn naming_passes_over_malformed_tables_and_keeps_leading_zeros() {
    let address = [0x02, 0x00, 0x00, 0x00, 0x00, 0x09];
    // n = 0 is not allowed (T7); the second table has interface type 00 06 and port number 01 00.
    let malformed = [0xFE, 0x0E, 0xE0, 0x27, 0x1A, 0x02, 0x00, 0x01, 0x07, 0x01];
    let table = [0xFE, 0x11, 0xE0, 0x27, 0x1A, 0x02, 0x02, 0x00, 0x06, 0x02, 0x01, 0x00, 0x01];
    let frame = before_end(&[&malformed[..], &address, &table, &address].concat());
    let interface = Counted { count: 2, value: 6 };
    let number = Counted { count: 2, value: 256 };
    assert_eq!(name_link(&frame[14..], address), Ok(Some(Naming { interface, number })));
    assert_eq!(name_link(&frame[14..], [0x02, 0x00, 0x00, 0x00, 0x00, 0x01]), Ok(None));
    assert_eq!(name_link(&frame[14..frame.len() - 1], address), Err(5));
    assert!(!reading(&frame).htip);
}
