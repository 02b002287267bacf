//! Extension link information as it is read (T9, T11 to T13, H1, A2 to A4, A6) and written (W1, W3,
//! W5 to W7). Octets and expected values are typed from the rules page by hand.

mod changed;
mod described;
mod extended;
mod page;

use changed::*;
use described::*;
use extended::*;
use page::*;
use twin::extension::Extension;
use twin::reader::*;
use twin::writer::*;

/// Frame A with these TLVs before its End. They do not touch the verdict (H1).
fn with(tlvs: &[&[u8]]) -> Reading {
    let read = reading(&before_end(&tlvs.concat()));
    assert!(read.htip);
    read
}

/// What the page says of frame A with such a field before its End: octets behind the subtype.
fn due(length: usize, extension: Option<&[u8]>) -> Reading {
    let mut due = reading_of_a();
    due.outline.length = length;
    due.extension = extension.map(|octets| octets.to_vec());
    due
}

/// Where frame A with these TLVs before its End has seen an address.
fn seen(tlvs: &[&[u8]], address: Address) -> Option<Naming> {
    name_link(&before_end(&tlvs.concat())[14..], address).expect("the frame is valid")
}

/// An interface type and a port number of one octet each.
fn at(interface: u32, number: u32) -> Option<Naming> {
    let counted = |value| Counted { count: 1, value };
    Some(Naming { interface: counted(interface), number: counted(number) })
}

fn is_well_formed(octets: &[u8]) -> bool {
    let read = with(&[&field(octets)]);
    assert!(read.extension.is_none() || read.extension.as_deref() == Some(octets));
    read.extension.is_some()
}

#[test]
fn b21_one_address_and_one_pairing_address() {
    let tlv = [
        0xFE, 0x1E, 0xE0, 0x27, 0x1A, 0x04, 0x01, 0x47, 0x01, 0x00, 0x06, 0x01, 0x02, 0x02, 0x00,
        0x00, 0x00, 0x00, 0x09, 0x01, 0x32, 0x00, 0x01, 0x01, 0x02, 0x00, 0x00, 0x00, 0x00, 0x0A,
        0x01, 0x07,
    ];
    assert_eq!(field(&B21), tlv);
    assert_eq!(read_frame(&before_end(&tlv)), Ok(due(69, Some(&B21))));
    assert_eq!(seen(&[&tlv], NINE), at(0x47, 0));
    assert_eq!(seen(&[&tlv], TEN), None);
}

#[test]
fn b22_the_last_item_runs_past_the_end() {
    let tlv = field(&b21_with(&[(24, 0x02)]));
    assert_eq!(tlv[30..], [0x02, 0x07]);
    assert_eq!(read_frame(&before_end(&tlv)), Ok(due(69, None)));
    assert_eq!(seen(&[&tlv], NINE), None);
}

#[test]
fn b23_an_address_of_eight_octets() {
    let tlv = [
        0xFE, 0x15, 0xE0, 0x27, 0x1A, 0x04, 0x01, 0x47, 0x01, 0x00, 0x08, 0x01, 0x00, 0x02, 0x00,
        0x00, 0x00, 0x00, 0x09, 0x00, 0x00, 0x00, 0x00,
    ];
    assert_eq!(read_frame(&before_end(&tlv)), Ok(due(60, Some(&tlv[6..]))));
    assert_eq!(seen(&[&tlv], NINE), None);
    let asked = Extension::asked(&tlv[6..]);
    assert_eq!((asked.p, asked.entries.len()), (8, 1));
    assert_eq!(asked.address(0), [0x02, 0x00, 0x00, 0x00, 0x00, 0x09, 0x00, 0x00]);
}

#[test]
fn b24_ten_items() {
    let tlv = [
        0xFE, 0x1E, 0xE0, 0x27, 0x1A, 0x04, 0x01, 0x47, 0x01, 0x00, 0x06, 0x01, 0x0A, 0x02, 0x00,
        0x00, 0x00, 0x00, 0x09, 0x01, 0x32, 0x00, 0x00, 0x00, 0x00, 0x00, 0x00, 0x00, 0x00, 0x00,
        0x00, 0x00,
    ];
    assert_eq!(read_frame(&before_end(&tlv)), Ok(due(69, Some(&tlv[6..]))));
    assert_eq!(seen(&[&tlv], NINE), at(0x47, 0));
    let asked = Extension::asked(&tlv[6..]);
    assert_eq!(asked.c, 10);
    assert_eq!(asked.item(0, 0), [0x32]);
    for j in (1..=10).chain([255]) {
        assert_eq!(asked.item(0, j), [0; 0]);
    }
}

#[test]
fn everything_can_be_asked_for() {
    assert!(is_well_formed(SMALL));
    let asked = Extension::asked(SMALL);
    assert_eq!(asked.interface, [0x00, 0x06]);
    assert_eq!(asked.number, [0x05]);
    assert_eq!((asked.p, asked.c), (2, 1));
    let counts = [asked.entries.len(), asked.pairings.len(), asked.items.len()];
    assert_eq!(counts, [3, 2, 4]);
    assert_eq!([0, 1, 2].map(|i| asked.address(i)), [b"AB", b"CD", b"EF"]);
    assert_eq!([0, 1, 2].map(|i| asked.item(i, 0)), [&b"i"[..], b"", b"jk"]);
    assert_eq!([0, 1].map(|i| asked.pairing(i)), [b"GH", b"IJ"]);
    assert_eq!([0, 1, 2, 3].map(|j| asked.port_item(j)), [&b"l"[..], b"", b"mno", b"p"]);
}

#[test]
fn a_number_that_there_is_not_gives_no_octets() {
    let asked = Extension::asked(SMALL);
    for far in [4, 5, 128, 255, 256, usize::MAX] {
        assert_eq!(asked.address(far), b"");
        assert_eq!(asked.pairing(far), b"");
        assert_eq!(asked.port_item(far), b"");
        for near in 0..3 {
            assert_eq!(asked.item(near, far), b"");
            assert_eq!(asked.item(far, near), b"");
        }
    }
    // The first that is not there: three addresses of one item, two pairing addresses.
    assert_eq!(asked.address(3), b"");
    assert_eq!(asked.item(3, 0), b"");
    assert_eq!(asked.item(0, 1), b"");
    assert_eq!(asked.item(1, 1), b"");
    assert_eq!(asked.pairing(2), b"");
    // Without addresses no item is there, though c says how many each would have.
    let asked = Extension::asked(&[0x01, 0x47, 0x01, 0x00, 0x06, 0x00, 0x09, 0x00, 0x00]);
    assert_eq!((asked.p, asked.c), (6, 9));
    assert_eq!(asked.item(0, 0), b"");
}

#[test]
fn octets_that_are_not_well_formed_say_nothing() {
    for octets in malformed() {
        let asked = Extension::asked(&octets);
        assert!(asked.interface.is_empty() && asked.number.is_empty());
        assert_eq!((asked.p, asked.c), (0, 0));
        assert!(asked.entries.is_empty() && asked.pairings.is_empty() && asked.items.is_empty());
        assert_eq!([asked.address(0), asked.pairing(0), asked.port_item(0)], [b""; 3]);
        assert_eq!(asked.item(0, 0), b"");
    }
}

#[test]
fn what_is_not_well_formed() {
    for octets in malformed() {
        assert!(!is_well_formed(&octets), "{octets:02X?}");
        assert_eq!(seen(&[&field(&octets)], NINE), None);
    }
    // What completes it stands in the next TLV, and is not believed (L2).
    let next = [0x12, 0x02, 0x00, 0x00];
    for cut in 1..=4 {
        let short = field(&B21[..26 - cut]);
        assert_eq!(with(&[&short, &next[..]]).extension, None);
        assert_eq!(seen(&[&short, &next[..]], NINE), None);
    }
}

#[test]
fn interface_type_and_port_number_have_one_to_four_octets() {
    for n in 0..=6 {
        for m in 0..=6 {
            let octets = [&[n as u8], &vec![7; n][..], &[m as u8], &vec![9; m], &B21[4..]].concat();
            let is_right = (1..=4).contains(&n) && (1..=4).contains(&m);
            assert_eq!(is_well_formed(&octets), is_right);
            assert_eq!(seen(&[&field(&octets)], NINE).is_some(), is_right);
        }
    }
    // 00 06 is not 06.
    let octets = [&[0x02, 0x00, 0x06, 0x04, 0x01, 0x02, 0x03, 0x04], &B21[4..]].concat();
    let naming = Naming {
        interface: Counted { count: 2, value: 6 },
        number: Counted { count: 4, value: 0x0102_0304 },
    };
    assert_eq!(seen(&[&field(&octets)], NINE), Some(naming));
}

#[test]
fn addresses_have_octets_where_there_are_any() {
    // Neither addresses nor pairing addresses: any p and any c will do, and they are kept.
    for p in [0, 1, 6, 8, 255] {
        for c in [0, 1, 2, 9, 255] {
            let octets = [0x01, 0x47, 0x01, 0x00, p, 0x00, c, 0x00, 0x00];
            assert!(is_well_formed(&octets));
            let asked = Extension::asked(&octets);
            assert_eq!((asked.p, asked.c), (p, c));
        }
    }
    // With p = 0 an address is wrong, with items and without, and so is a pairing address.
    for octets in [
        &[0x00, 0x01, 0x00, 0x00, 0x00][..],
        &[0x00, 0x01, 0x01, 0x01, 0x32, 0x00, 0x00],
        &[0x00, 0x02, 0x01, 0x00, 0x00, 0x00, 0x00],
        &[0x00, 0x00, 0x00, 0x00, 0x01],
        &[0x00, 0x00, 0x02, 0x01, 0x03, 0x01, 0x07],
        &[0x00, 0x01, 0x00, 0x00, 0x01],
    ] {
        assert!(!is_well_formed(&[&B21[..4], octets].concat()));
    }
    // With p = 0 and items of the port alone it is well formed.
    assert!(is_well_formed(&[&B21[..4], &[0x00, 0x00, 0x02, 0x01, 0x00, 0x01, 0x07]].concat()));
}

#[test]
fn c_counts_the_items_of_each_address() {
    // Two addresses with two items each; with four items in all for c = 4 it would be another one.
    let octets = b"\x01\x47\x01\x00\x01\x02\x02A\x01a\x01bB\x01c\x01d\x00\x00";
    assert!(is_well_formed(octets));
    let asked = Extension::asked(octets);
    assert_eq!([0, 1].map(|i| asked.address(i)), [b"A", b"B"]);
    let item = |i, j| asked.item(i, j);
    assert_eq!([item(0, 0), item(0, 1), item(1, 0), item(1, 1)], [b"a", b"b", b"c", b"d"]);
    assert_eq!([item(0, 2), item(0, 3), item(1, 2)], [b""; 3]);
    // Two addresses that share two items, and two that share four: not well formed.
    assert!(!is_well_formed(b"\x01\x47\x01\x00\x01\x02\x02A\x01aB\x01c\x00\x00"));
    assert!(!is_well_formed(b"\x01\x47\x01\x00\x01\x02\x04A\x01a\x01bB\x01c\x01d\x00\x00"));
}

#[test]
fn d_stands_before_q_and_the_items_behind_the_pairing_addresses() {
    // d = 2 and q = 1, and then d = 1 and q = 2: addresses of one octet, items of one.
    let two_items = b"\x01\x47\x01\x00\x01\x00\x00\x02\x01A\x01x\x01y";
    let two_pairings = b"\x01\x47\x01\x00\x01\x00\x00\x01\x02AB\x01x";
    assert!(is_well_formed(two_items) && is_well_formed(two_pairings));
    let asked = Extension::asked(two_items);
    assert_eq!(asked.pairings, [b"A"]);
    assert_eq!(asked.items, [b"x", b"y"]);
    let asked = Extension::asked(two_pairings);
    assert_eq!(asked.pairings, [b"A", b"B"]);
    assert_eq!(asked.items, [b"x"]);
    // The counts of the one before the octets of the other.
    assert!(!is_well_formed(&[&two_items[..9], b"AB\x01x"].concat()));
    assert!(!is_well_formed(&[&two_pairings[..9], b"A\x01x\x01y"].concat()));
}

#[test]
fn c_and_d_are_told_apart() {
    // One address; c = 3 and d = 1, and then c = 1 and d = 3.
    let of_address = b"\x01\x47\x01\x00\x01\x01\x03A\x01x\x01y\x01z\x01\x00\x01w";
    let of_port = b"\x01\x47\x01\x00\x01\x01\x01A\x01x\x03\x00\x01w\x01v\x01u";
    assert!(is_well_formed(of_address) && is_well_formed(of_port));
    let asked = Extension::asked(of_address);
    assert_eq!((asked.c, asked.items.len()), (3, 1));
    assert_eq!([asked.item(0, 2), asked.port_item(0), asked.port_item(1)], [&b"z"[..], b"w", b""]);
    let asked = Extension::asked(of_port);
    assert_eq!((asked.c, asked.items.len()), (1, 3));
    assert_eq!([asked.item(0, 0), asked.item(0, 1), asked.port_item(2)], [&b"x"[..], b"", b"u"]);
}

#[test]
fn any_number_of_items_will_do() {
    // c and d need not be 2, and may be more than edition 3.0 names (T11, T12).
    for c in [0, 1, 2, 3, 9, 10, 12, 100, 255] {
        for d in [0, 1, 2, 3, 4, 12, 100] {
            let octets = [
                &[0x01, 0x47, 0x01, 0x00, 0x06, 0x01, c as u8],
                &NINE[..],
                &vec![0x00; c],
                &[d as u8, 0x00],
                &vec![0x00; d],
            ]
            .concat();
            assert!(is_well_formed(&octets));
            let asked = Extension::asked(&octets);
            assert_eq!((usize::from(asked.c), asked.items.len()), (c, d));
            assert_eq!(seen(&[&field(&octets)], NINE), at(0x47, 0));
            // One item fewer, and one item more, than is counted.
            assert!(!is_well_formed(&octets[..octets.len() - 1]));
            assert!(!is_well_formed(&[&octets[..], &[0x00]].concat()));
        }
    }
}

#[test]
fn items_behind_those_of_the_edition_are_there_too() {
    // Edition 3.0 names nine items of an address and three of the port (T12); here are 12 and 5,
    // each with one octet of data, and two addresses of one octet.
    let twelve = b"\x01a\x01b\x01c\x01d\x01e\x01f\x01g\x01h\x01i\x01j\x01k\x01l";
    let five = b"\x01v\x01w\x01x\x01y\x01z";
    let head = b"\x01\x47\x01\x00\x01\x02\x0C";
    let octets = [&head[..], b"A", twelve, b"B", twelve, b"\x05\x01C", five].concat();
    assert!(is_well_formed(&octets));
    let asked = Extension::asked(&octets);
    assert_eq!([asked.address(0), asked.address(1), asked.pairing(0)], [b"A", b"B", b"C"]);
    for (j, letter) in b"abcdefghijkl".iter().enumerate() {
        assert_eq!([asked.item(0, j), asked.item(1, j)], [[*letter]; 2]);
    }
    for (j, letter) in b"vwxyz".iter().enumerate() {
        assert_eq!(asked.port_item(j), [*letter]);
    }
    assert_eq!([asked.item(0, 12), asked.item(1, 12), asked.port_item(5)], [b""; 3]);
    assert_eq!(wrote(&octets), a_with(&[&field(&octets)]));
}

#[test]
fn any_length_of_an_item_will_do() {
    for length in (0..=20).chain([100, 254, 255]) {
        let data = vec![0xC3; length];
        let of_address =
            [&B21[..6], &[0x01], &B21[7..13], &[length as u8], &data, &[0x00, 0x00]].concat();
        assert!(is_well_formed(&of_address));
        assert_eq!(Extension::asked(&of_address).item(0, 0), data);
        let of_port = [&B21[..24], &[length as u8], &data].concat();
        assert!(is_well_formed(&of_port));
        assert_eq!(Extension::asked(&of_port).port_item(0), data);
        assert_eq!(seen(&[&field(&of_port)], NINE), at(0x47, 0));
        // The last one, too long by one and too short by one.
        if length < 255 {
            let long = [&B21[..24], &[length as u8 + 1], &data].concat();
            assert!(!is_well_formed(&long));
        }
        if length > 0 {
            let short = [&B21[..24], &[length as u8 - 1], &data].concat();
            assert!(!is_well_formed(&short));
        }
    }
}

#[test]
fn the_shortest_and_the_longest_field() {
    // L = 4, and nine octets behind the subtype at least.
    assert_eq!(field(&[]), [0xFE, 0x04, 0xE0, 0x27, 0x1A, 0x04]);
    assert!(!is_well_formed(&[]));
    assert!(is_well_formed(&[0x01, 0x47, 0x01, 0x00, 0x00, 0x00, 0x00, 0x00, 0x00]));
    // L = 511: 83 addresses of six octets take 507 with the nine others.
    let many = [&[0x01, 0x47, 0x01, 0x00, 0x06, 83, 0x00], &NINE.repeat(83)[..], &[0, 0]].concat();
    assert_eq!(field(&many)[..2], [0xFF, 0xFF]);
    assert!(is_well_formed(&many));
    assert_eq!(Extension::asked(&many).address(82), NINE);
    assert_eq!(Extension::asked(&many).address(83), b"");
    let mut one_more = many.clone();
    one_more[5] = 84;
    assert!(!is_well_formed(&one_more));
    // 255 addresses and 240 pairing addresses of one octet.
    let singles =
        [&[0x01, 0x47, 0x01, 0x00, 0x01, 255, 0x00], &[7; 255][..], &[0, 240], &[8; 240]].concat();
    assert!(is_well_formed(&singles));
    assert_eq!(Extension::asked(&singles).address(254), [7]);
    assert_eq!(Extension::asked(&singles).pairing(239), [8]);
    assert_eq!(Extension::asked(&singles).pairing(240), b"");
}

#[test]
fn counts_that_promise_far_too_much() {
    for filling in [0x00, 0x01, 0xFF] {
        for counts in [[0, 255, 255], [1, 255, 255], [6, 255, 255], [255, 255, 255], [6, 255, 0]] {
            let octets = [&B21[..4], &counts, &[filling; 500]].concat();
            assert!(!is_well_formed(&octets));
        }
    }
}

#[test]
fn the_verdict_does_not_know_it() {
    // Beside what makes a frame HTIP each is HTIP; without the category none is (H1).
    let mut all = malformed();
    all.extend([B21.to_vec(), SMALL.to_vec()]);
    for octets in all {
        assert!(with(&[&field(&octets)]).htip);
        assert!(with(&[&field(&octets), &field(&octets)]).htip);
        let read = reading(&replaced(CATEGORY, MODEL_NUMBER, &field(&octets)));
        assert!(!read.htip);
        // Neither does it mend a verdict: k of the address list is not true.
        let list = [0xFE, 0x05, 0xE0, 0x27, 0x1A, 0x03, 0x01];
        let read = reading(&before_end(&[&field(&octets), &list[..]].concat()));
        assert!(!read.htip);
    }
    // What is not HTIP is read all the same (H2).
    let read = reading(&replaced(CATEGORY, MODEL_NUMBER, &field(&B21)));
    assert_eq!(read.extension.as_deref(), Some(&B21[..]));
}

#[test]
fn the_first_well_formed_one_is_read() {
    let [one, other] = [field(&B21), field(SMALL)];
    let none = field(&[0x01, 0x47, 0x01, 0x00, 0x06, 0x00, 0x02, 0x00, 0x00]);
    let read = |tlvs: &[&[u8]]| with(tlvs).extension;
    assert_eq!(read(&[&one, &other]), Some(B21.to_vec()));
    assert_eq!(read(&[&other, &one]), Some(SMALL.to_vec()));
    // One without addresses is not an absent one (A3).
    assert_eq!(read(&[&none, &one]), Some(none[6..].to_vec()));
    assert_eq!(read(&[]), None);
    for octets in malformed() {
        let wrong = field(&octets);
        assert_eq!(read(&[&wrong, &one, &other]), Some(B21.to_vec()));
        assert_eq!(read(&[&wrong, &wrong, &other]), Some(SMALL.to_vec()));
        assert_eq!(read(&[&one, &wrong]), Some(B21.to_vec()));
        assert_eq!(read(&[&wrong]), None);
    }
    // Basic link information and the address list are read beside it, and are none of it.
    let link = [0xFE, 0x09, 0xE0, 0x27, 0x1A, 0x02, 0x01, 0x06, 0x01, 0x03, 0x00];
    let list = [0xFE, 0x05, 0xE0, 0x27, 0x1A, 0x03, 0x00];
    for tlvs in [[&link[..], &one, &list], [&list, &one, &link]] {
        let read = with(&tlvs);
        assert_eq!(read.extension.as_deref(), Some(&B21[..]));
        assert_eq!(read.link.expect("it is there").interface, [0x06]);
        assert_eq!(read.list, Some(vec![]));
    }
    let read = with(&[&one]);
    assert_eq!((read.link, read.list), (None, None));
}

#[test]
fn other_subtypes_are_skipped() {
    for subtype in [0, 5, 6, 12, 36, 68, 132, 255] {
        assert_eq!(with(&[&field_of(subtype, &B21)]), due(69, None));
        assert_eq!(seen(&[&field_of(subtype, &B21)], NINE), None);
        let both = [&field_of(subtype, SMALL)[..], &field(&B21)];
        assert_eq!(with(&both).extension.as_deref(), Some(&B21[..]));
    }
    // Its octets are no device information, no link information and no address list.
    for subtype in [1, 2, 3] {
        let read = reading(&before_end(&field_of(subtype, &B21)));
        assert!(!read.htip);
        assert_eq!((read.extension, read.link, read.list), (None, None, None));
    }
    // Another organization, and what follows the End.
    let mut other = field(&B21);
    other[4] = 0x1B;
    assert_eq!(with(&[&other]), due(69, None));
    assert_eq!(read_frame(&[&FRAME_A[..], &field(&B21)].concat()), Ok(reading_of_a()));
}

/// Basic link information at interface type 06 and port number 03 that names the address.
fn basic(address: Address) -> Vec<u8> {
    [&[0xFE, 0x0F, 0xE0, 0x27, 0x1A, 0x02, 0x01, 0x06, 0x01, 0x03, 0x01][..], &address].concat()
}

#[test]
fn both_kinds_are_looked_at_in_the_order_of_the_tlvs() {
    let extension = field(&B21);
    assert_eq!(seen(&[&basic(NINE), &extension], NINE), at(6, 3));
    assert_eq!(seen(&[&extension, &basic(NINE)], NINE), at(0x47, 0));
    // One that does not name the address is passed over, and so is one that is not well formed.
    assert_eq!(seen(&[&basic(TEN), &extension], NINE), at(0x47, 0));
    assert_eq!(seen(&[&extension, &basic(TEN)], TEN), at(6, 3));
    let other = field(&b21_with(&[(1, 0x48), (12, 0x0B)]));
    assert_eq!(seen(&[&other, &extension, &basic(NINE)], NINE), at(0x47, 0));
    assert_eq!(seen(&[&other, &basic(NINE), &extension], NINE), at(6, 3));
    assert_eq!(seen(&[&extension, &other], [0x02, 0, 0, 0, 0, 0x0B]), at(0x48, 0));
    for octets in malformed() {
        let wrong = field(&octets);
        assert_eq!(seen(&[&wrong, &extension, &basic(NINE)], NINE), at(0x47, 0));
        assert_eq!(seen(&[&wrong, &basic(NINE), &extension], NINE), at(6, 3));
    }
    // The verdict does not matter; a refusal does.
    let frame = replaced(CATEGORY, END, &extension);
    assert_eq!(name_link(&frame[14..], NINE), Ok(at(0x47, 0)));
    assert_eq!(name_link(&frame[14..frame.len() - 1], NINE), Err(5));
}

#[test]
fn only_whole_addresses_of_six_octets_are_named() {
    let sees = |octets: &[u8]| {
        assert!(is_well_formed(octets));
        seen(&[&field(octets)], NINE)
    };
    let head = |p, k, c| [0x01, 0x47, 0x01, 0x00, p, k, c];
    // The first, one in the middle and the last of three, with an item each.
    for place in 0..3 {
        let mut addresses = [TEN; 3];
        addresses[place] = NINE;
        let entries: Vec<u8> =
            addresses.iter().flat_map(|a| [a, &[0x01, 0x32][..]].concat()).collect();
        assert_eq!(sees(&[&head(6, 3, 1), &entries[..], &[0, 0]].concat()), at(0x47, 0));
    }
    // It begins or ends an address of eight octets, or one of seven.
    assert_eq!(sees(&[&head(8, 1, 0), &NINE[..], &[0, 0], &[0, 0]].concat()), None);
    assert_eq!(sees(&[&head(8, 1, 0), &[0, 0][..], &NINE, &[0, 0]].concat()), None);
    assert_eq!(sees(&[&head(7, 1, 0), &NINE[..], &[0], &[0, 0]].concat()), None);
    // It is spread over six addresses of one octet, two of three, or three of two.
    assert_eq!(sees(&[&head(1, 6, 0), &NINE[..], &[0, 0]].concat()), None);
    assert_eq!(sees(&[&head(3, 2, 0), &NINE[..], &[0, 0]].concat()), None);
    assert_eq!(sees(&[&head(2, 3, 0), &NINE[..], &[0, 0]].concat()), None);
    // Its first octet alone, and its first five.
    assert_eq!(sees(&[&head(1, 1, 0), &NINE[..1], &[0, 0]].concat()), None);
    assert_eq!(sees(&[&head(5, 1, 0), &NINE[..5], &[0, 0]].concat()), None);
    // It is the data of an item, of an address or of the port.
    assert_eq!(sees(&[&head(6, 1, 1), &TEN[..], &[6], &NINE, &[0, 0]].concat()), None);
    assert_eq!(sees(&[&head(6, 1, 0), &TEN[..], &[1, 0, 6], &NINE].concat()), None);
    // It is a pairing address, alone or beside another address.
    assert_eq!(sees(&[&head(6, 0, 0), &[0, 1][..], &NINE].concat()), None);
    assert_eq!(sees(&[&head(6, 1, 0), &TEN[..], &[0, 1], &NINE].concat()), None);
    // It lies across two addresses.
    let across = [&[0x0A], &NINE[..], &[0x0B; 5]].concat();
    assert_eq!(sees(&[&head(6, 2, 0), &across[..], &[0, 0]].concat()), None);
}

/// Two addresses of one octet, with the first c of these items, and the first d for the port.
fn edition(c: usize, d: usize) -> Vec<u8> {
    let items = [&b"\x01a"[..], b"\x00", b"\x02bc", b"\x01d", b"\x03efg"];
    let port = [&b"\x02uv"[..], b"\x01w", b"\x00", b"\x01x"];
    [
        b"\x01\x47\x01\x00\x01\x02",
        &[c as u8][..],
        b"A",
        &items[..c].concat(),
        b"B",
        &items[..c].concat(),
        &[d as u8, 1],
        b"C",
        &port[..d].concat(),
    ]
    .concat()
}

#[test]
fn a_reader_that_knows_fewer_items_shows_the_same() {
    let items = [&b"a"[..], b"", b"bc", b"d", b"efg"];
    let port = [&b"uv"[..], b"w", b"", b"x"];
    for c in 0..=5 {
        for d in 0..=4 {
            let octets = edition(c, d);
            assert!(is_well_formed(&octets));
            let asked = Extension::asked(&octets);
            // Whatever comes behind them, items that are there show the same; others as none.
            for (j, &item) in items.iter().enumerate() {
                let due = if j < c { item } else { b"" };
                assert_eq!([asked.item(0, j), asked.item(1, j)], [due; 2]);
            }
            for (j, &item) in port.iter().enumerate() {
                assert_eq!(asked.port_item(j), if j < d { item } else { b"" });
            }
            assert_eq!([asked.address(0), asked.address(1), asked.pairing(0)], [b"A", b"B", b"C"]);
        }
    }
}

#[test]
fn refusals_beside_it() {
    for octets in [B21.to_vec(), b21_with(&[(24, 0x02)])] {
        // Cut short, up to where the End begins and within it (R5).
        let whole = before_end(&field(&octets));
        for length in END..whole.len() {
            assert_eq!(read_frame(&whole[..length]), Err(5));
        }
        // A later TLV of type 1 to 3 behind it and before it (R6).
        for again in [&A[..9], &A[9..13], &A[13..17]] {
            assert_eq!(read_frame(&before_end(&[&field(&octets), again].concat())), Err(6));
            assert_eq!(read_frame(&before_end(&[again, &field(&octets)].concat())), Err(6));
        }
        // It is none of the first three (R4).
        for (from, to) in [(FIRST, SECOND), (SECOND, THIRD), (THIRD, CATEGORY)] {
            assert_eq!(read_frame(&replaced(from, to, &field(&octets))), Err(4));
        }
    }
    for chassis in wrong_chassis() {
        let first = first_tlv(chassis.subtype, &chassis.octets);
        assert_eq!(read_frame(&[&HEADER[..], &first, &A[9..35], &field(&B21)].concat()), Err(4));
    }
}

#[test]
fn a_goodbye_may_carry_it() {
    let behind = [&[0x06, 0x02, 0x00, 0x00][..], &field(&B21)].concat();
    let read = reading(&replaced(THIRD, END, &behind));
    assert!(!read.htip);
    assert_eq!(read.outline.seconds, 0);
    assert_eq!(read.extension.as_deref(), Some(&B21[..]));
}

/// Frame A's LLDPDU with octets where extension link information is written: before the End.
fn a_with(tlvs: &[&[u8]]) -> Result<Vec<u8>, Refusal> {
    Ok([&A[..35], &tlvs.concat(), &A[35..]].concat())
}

/// Frame A's description with these octets behind the subtype, written.
fn wrote(octets: &[u8]) -> Result<Vec<u8>, Refusal> {
    written(|description, text| description.extension = Some(put(text, octets)))
}

#[test]
fn it_is_written_as_it_is() {
    assert_eq!(
        wrote(&B21),
        a_with(&[
            &[0xFE, 0x1E, 0xE0, 0x27, 0x1A, 0x04, 0x01, 0x47, 0x01, 0x00, 0x06, 0x01, 0x02],
            &[0x02, 0x00, 0x00, 0x00, 0x00, 0x09, 0x01, 0x32, 0x00, 0x01, 0x01],
            &[0x02, 0x00, 0x00, 0x00, 0x00, 0x0A, 0x01, 0x07],
        ])
    );
    assert_eq!(wrote(SMALL), a_with(&[&field(SMALL)]));
    // Without addresses, and with p and c that nothing counts (T11).
    for (p, c) in [(0, 0), (6, 2), (255, 255)] {
        let octets = [0x01, 0x47, 0x01, 0x00, p, 0x00, c, 0x00, 0x00];
        assert_eq!(wrote(&octets), a_with(&[&[0xFE, 0x0D, 0xE0, 0x27, 0x1A, 0x04], &octets]));
    }
    // As a later edition may have it.
    for (c, d) in [(0, 0), (2, 2), (5, 4)] {
        assert_eq!(wrote(&edition(c, d)), a_with(&[&field(&edition(c, d))]));
    }
    // Absent it is not written.
    assert_eq!(written(|_, _| {}), Ok(A.to_vec()));
}

#[test]
fn it_stands_between_link_information_and_address_list() {
    let wrote = written(|description, text| {
        description.link = Some(LinkStrings {
            interface: put(text, &[0x06]),
            number: put(text, &[0x03]),
            addresses: put(text, &TEN),
        });
        description.extension = Some(put(text, &B21));
        description.list = Some(put(text, &NINE));
        description.system_name = put(text, b"n");
    });
    let expected = [
        &A[..17],
        &[0x0A, 0x01, 0x6E],
        &A[17..35],
        &[0xFE, 0x0F, 0xE0, 0x27, 0x1A, 0x02, 0x01, 0x06, 0x01, 0x03, 0x01],
        &[0x02, 0x00, 0x00, 0x00, 0x00, 0x0A],
        &[0xFE, 0x1E, 0xE0, 0x27, 0x1A, 0x04],
        &B21,
        &[0xFE, 0x0B, 0xE0, 0x27, 0x1A, 0x03, 0x01, 0x02, 0x00, 0x00, 0x00, 0x00, 0x09],
        &A[35..],
    ]
    .concat();
    assert_eq!(wrote, Ok(expected));
}

#[test]
fn what_is_not_well_formed_is_not_written() {
    for octets in malformed() {
        assert_eq!(wrote(&octets), Err(9), "{octets:02X?}");
    }
    assert_eq!(wrote(&[0xFF; 20]), Err(9));
}

/// B21 with more items of the port, so that it has that many octets: 27 to 511 of them.
fn lengthened(octets: usize) -> Vec<u8> {
    let rest = octets - 26;
    let items = match rest {
        1..=256 => vec![rest - 1],
        _ => vec![228, rest - 230],
    };
    let mut longer = b21_with(&[(D, 1 + items.len() as u8)]);
    for length in items {
        longer.push(length as u8);
        longer.extend(vec![0xC3; length]);
    }
    assert_eq!(longer.len(), octets);
    longer
}

#[test]
fn at_most_507_octets() {
    for octets in [27, 255, 256, 257, 506, 507] {
        let longer = lengthened(octets);
        assert_eq!(wrote(&longer), a_with(&[&field(&longer)]));
    }
    // They are well formed but for their number; some look short in eight or nine bits only.
    for octets in [508, 509, 510, 511] {
        assert!(Extension::of(&lengthened(octets)).is_some());
        assert_eq!(wrote(&lengthened(octets)), Err(9));
    }
    // Two items of 255 octets, with their lengths, make 538 of the 26.
    let item = [&[0xFF][..], &[0xC3; 255]].concat();
    let longer = [b21_with(&[(D, 3)]), item.repeat(2)].concat();
    assert!(Extension::of(&longer).is_some());
    assert_eq!(wrote(&longer), Err(9));
}

#[test]
fn seconds_0_want_it_absent() {
    let none = [0x01, 0x47, 0x01, 0x00, 0x06, 0x00, 0x02, 0x00, 0x00];
    for octets in [&B21[..], SMALL, &none, &[], &[0xFF]] {
        let bye = goodbye(|description, text| description.extension = Some(put(text, octets)));
        assert_eq!(bye, Err(9));
    }
    assert_eq!(goodbye(|_, _| {}), Ok(goodbye_of_a()));
}

#[test]
fn a_part_outside_the_text() {
    // The text of frame A has nine octets, and B21 the 26 behind them.
    let with_part = |start, len| {
        written(|description, text| {
            put(text, &B21);
            description.extension = Some(part(start, len));
        })
    };
    assert_eq!(with_part(9, 26), a_with(&[&field(&B21)]));
    for (start, len) in [
        (10, 26),
        (9, 27),
        (35, 1),
        (36, 0),
        (9 + (1 << 32), 26),
        (9, 26 + (1 << 32)),
        (u64::MAX, 26),
        (u64::MAX - 25, 26),
        (9, u64::MAX),
    ] {
        assert_eq!(with_part(start, len), Err(9));
    }
    // Too short, one octet askew, or empty: it is not well formed.
    for (start, len) in [(9, 25), (8, 26), (10, 25), (0, 0), (9, 0), (35, 0)] {
        assert_eq!(with_part(start, len), Err(9));
    }
    // Its octets may be the category too.
    let wrote = written(|description, text| {
        let whole = put(text, &B21);
        description.category = whole;
        description.extension = Some(whole);
    });
    let category = [&[0xFE, 0x20, 0xE0, 0x27, 0x1A, 0x01, 0x01, 0x1A], &B21[..]].concat();
    let expected = [&A[..17], &category, &A[26..35], &field(&B21), &A[35..]].concat();
    assert_eq!(wrote, Ok(expected));
}

#[test]
fn around_1500_octets_with_it() {
    // Frame A has 37 octets, one of them the category's and one the port ID's. 507 octets behind
    // the subtype add 513, an address list of 84 addresses 511, and a category of 255 octets 254.
    let of_port = |length: usize, octets: usize| {
        written(|description, text| {
            description.port.octets = put(text, &vec![0; length]);
            description.category = put(text, &[0; 255]);
            description.list = Some(put(text, &[9; 504]));
            description.extension = Some(put(text, &lengthened(octets)));
        })
        .map(|lldpdu| lldpdu.len())
    };
    assert_eq!(of_port(1, 507), Ok(1315));
    assert_eq!(of_port(185, 507), Ok(1499));
    assert_eq!(of_port(186, 507), Ok(1500));
    assert_eq!(of_port(187, 507), Err(9));
    assert_eq!(of_port(187, 506), Ok(1500));
}

#[test]
fn nine_before_ten() {
    // The 32 octets of its TLV make 69 of the 37.
    let text = [TEXT_OF_A, &B21].concat();
    let mut description = description_of_a();
    description.extension = Some(part(9, 26));
    for room in [0, 37, 68] {
        assert_eq!(write(&description, &text, room), Err(10));
    }
    for room in [69, 70, 1600] {
        assert_eq!(write(&description, &text, room), a_with(&[&field(&B21)]));
    }
    description.extension = Some(part(9, 25));
    for room in [0, 37, 68, 69] {
        assert_eq!(write(&description, &text, room), Err(9));
    }
}

#[test]
fn what_is_written_reads_back() {
    let none = [0x01, 0x47, 0x01, 0x00, 0x06, 0x00, 0x02, 0x00, 0x00];
    for chassis in right_chassis() {
        for octets in [&B21[..], SMALL, &none, &lengthened(507)] {
            let wrote = written(|description, text| {
                description.chassis = put_id(text, &chassis);
                description.extension = Some(put(text, octets));
            })
            .expect("no rule is broken");
            // Six of the 37 octets are the chassis.
            let mut expected = due(31 + chassis.octets.len() + 6 + octets.len(), Some(octets));
            expected.outline.chassis = id(chassis.subtype, &chassis.octets);
            assert_eq!(read_frame(&[&HEADER[..], &wrote].concat()), Ok(expected));
        }
    }
}
