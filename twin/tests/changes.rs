//! What changed between two looks, D1 to D5, R14 and the order of refusals, as ordinary tests.
//! Octets and expected values are typed from the rules page by hand, never taken from the program.

mod placed;

use placed::Watch;
use std::collections::BTreeMap;
use twin::changes::{compare, Look};
use twin::id::Id;
use twin::looks;
use twin::reader::Refusal;
use twin::table::BUFFER_OCTETS;

/// An octet that no list has before a call writes there.
const UNTOUCHED: u8 = 0xEE;

const STATION: [u8; 6] = [0x02, 0x00, 0x00, 0x00, 0x00, 0x0A];
const OTHER_STATION: [u8; 6] = [0x02, 0x00, 0x00, 0x00, 0x00, 0x0B];

/// An LLDPDU of a neighbour by its number, with 120 seconds and these octets before its End.
fn lldpdu(number: u8, later: &[u8]) -> Vec<u8> {
    let leading = b"\x02\x07\x04\x02\x00\x00\x00\x00_\x04\x02\x07\x31\x06\x02\x00\x78";
    let mut octets = [&leading[..], later, &[0x00, 0x00]].concat();
    octets[8] = number;
    octets
}

/// A record: its place, port, seconds left and sender, and its LLDPDU.
#[derive(Clone)]
struct Record {
    place: usize,
    port: u8,
    seconds: u16,
    sender: [u8; 6],
    lldpdu: Vec<u8>,
}

/// The neighbour of a number at a place, on port 3 and with 60 seconds left.
fn neighbour(number: u8, place: usize) -> Record {
    Record { place, port: 3, seconds: 60, sender: STATION, lldpdu: lldpdu(number, &[]) }
}

impl Record {
    fn with_seconds(&self, seconds: u16) -> Record {
        Record { seconds, ..self.clone() }
    }

    fn with_sender(&self, sender: [u8; 6]) -> Record {
        Record { sender, ..self.clone() }
    }

    fn with_octets(&self, lldpdu: &[u8]) -> Record {
        Record { lldpdu: lldpdu.to_vec(), ..self.clone() }
    }

    fn on_port(&self, port: u8) -> Record {
        Record { port, ..self.clone() }
    }

    fn at(&self, place: usize) -> Record {
        Record { place, ..self.clone() }
    }
}

fn watch(records: &[&Record]) -> Watch {
    let mut watch = Watch::started();
    for Record { place, port, seconds, sender, lldpdu } in records {
        watch.write(*place, (*port, *seconds, *sender), lldpdu);
    }
    watch
}

impl Watch {
    fn look(&self) -> Look<'_> {
        Look { table: &self.table, buffer: &self.buffer }
    }
}

/// The answer, and the list of so many octets after the call.
fn listed(first: &Watch, second: &Watch, octets: usize) -> (Result<usize, Refusal>, Vec<u8>) {
    let mut list = vec![UNTOUCHED; octets];
    let answer = compare(first.look(), second.look(), &mut list);
    (answer, list)
}

/// These entries, kind and place, are what a long list gets; behind them it is as it was.
fn holds(first: &[&Record], second: &[&Record], entries: &[[u8; 2]]) {
    let (answer, list) = listed(&watch(first), &watch(second), 160);
    assert_eq!(answer, Ok(entries.len()));
    let (front, behind) = list.split_at(2 * entries.len());
    assert_eq!(front, entries.as_flattened());
    assert!(behind.iter().all(|&octet| octet == UNTOUCHED));
}

#[test]
fn left_names_the_place_in_the_first_table() {
    holds(&[&neighbour(1, 5)], &[], &[[1, 5]]);
    holds(&[&neighbour(1, 0), &neighbour(2, 39)], &[&neighbour(1, 0)], &[[1, 39]]);
}

#[test]
fn joined_names_the_place_in_the_second_table() {
    holds(&[], &[&neighbour(1, 5)], &[[2, 5]]);
    holds(&[&neighbour(2, 39)], &[&neighbour(1, 0), &neighbour(2, 39)], &[[2, 0]]);
}

#[test]
fn other_seconds_are_kind_3_more_or_fewer() {
    for seconds in [1, 59, 61, 120] {
        holds(&[&neighbour(1, 5)], &[&neighbour(1, 5).with_seconds(seconds)], &[[3, 5]]);
    }
}

/// The octets differ in one octet or in their number; those of the seconds are octets too.
#[test]
fn other_octets_are_kind_4_with_the_same_and_with_other_seconds() {
    let described = neighbour(1, 5).with_octets(&lldpdu(1, &[0x08, 0x01, 0x41]));
    let mut longer_to_live = lldpdu(1, &[]);
    longer_to_live[15] = 0x01;
    for lldpdu in [
        lldpdu(1, &[0x08, 0x01, 0x42]),
        lldpdu(1, &[0x08, 0x02, 0x41, 0x41]),
        lldpdu(1, &[]),
        longer_to_live,
    ] {
        for seconds in [60, 61] {
            let other = described.with_octets(&lldpdu).with_seconds(seconds);
            holds(&[&described], &[&other], &[[4, 5]]);
            holds(&[&other], &[&described], &[[4, 5]]);
        }
    }
}

#[test]
fn another_sender_alone_is_kind_4() {
    let other = neighbour(1, 5).with_sender(OTHER_STATION);
    holds(&[&neighbour(1, 5)], &[&other], &[[4, 5]]);
    holds(&[&neighbour(1, 5)], &[&other.with_seconds(61)], &[[4, 5]]);
    for octet in 0..6 {
        let mut sender = STATION;
        sender[octet] ^= 0x10;
        holds(&[&neighbour(1, 5)], &[&neighbour(1, 5).with_sender(sender)], &[[4, 5]]);
    }
}

#[test]
fn the_same_records_give_nothing() {
    holds(&[], &[], &[]);
    let records = [neighbour(1, 0), neighbour(2, 39), neighbour(3, 7).on_port(9)];
    holds(&records.each_ref(), &records.each_ref(), &[]);
}

#[test]
fn a_moved_place_with_the_same_record_gives_nothing() {
    holds(&[&neighbour(1, 5)], &[&neighbour(1, 39)], &[]);
    // Two change places with each other.
    let [one, other] = [neighbour(1, 0), neighbour(2, 1)];
    holds(&[&one, &other], &[&other.at(0), &one.at(1)], &[]);
}

#[test]
fn a_moved_place_with_other_seconds_gives_one_seconds_entry() {
    holds(&[&neighbour(1, 5)], &[&neighbour(1, 39).with_seconds(1)], &[[3, 39]]);
    holds(&[&neighbour(1, 39)], &[&neighbour(1, 5).with_seconds(1)], &[[3, 5]]);
}

#[test]
fn a_moved_place_with_another_record_gives_one_altered_entry() {
    let moved = neighbour(1, 39);
    holds(&[&neighbour(1, 5)], &[&moved.with_sender(OTHER_STATION)], &[[4, 39]]);
    let octets = lldpdu(1, &[0x08, 0x00]);
    holds(&[&neighbour(1, 5)], &[&moved.with_octets(&octets)], &[[4, 39]]);
}

/// Who joined has the place of who left.
#[test]
fn another_one_at_the_same_place_left_and_joined() {
    holds(&[&neighbour(1, 5)], &[&neighbour(2, 5)], &[[1, 5], [2, 5]]);
}

/// D2: by the places in the first table, whatever the places in the second are; then who joined, by
/// the places in the second.
#[test]
fn the_order_is_that_of_the_first_table_and_then_of_who_joined() {
    let one = [
        neighbour(1, 2).on_port(1),
        neighbour(2, 7).on_port(2),
        neighbour(3, 8).on_port(3),
        neighbour(4, 20).on_port(4),
        neighbour(5, 21).on_port(5),
        neighbour(6, 39).on_port(6),
    ];
    let other = [
        neighbour(9, 0).on_port(0),
        neighbour(6, 1).on_port(6).with_seconds(59),
        neighbour(4, 3).on_port(4).with_sender(OTHER_STATION),
        neighbour(3, 5).on_port(3),
        neighbour(8, 6).on_port(0),
        neighbour(2, 30).on_port(2).with_seconds(59),
        neighbour(7, 38).on_port(0),
    ];
    let [one, other] = [&one.each_ref()[..], &other.each_ref()];
    holds(one, other, &[[1, 2], [3, 30], [4, 3], [1, 21], [3, 1], [2, 0], [2, 6], [2, 38]]);
    holds(other, one, &[[1, 0], [3, 39], [4, 20], [1, 6], [3, 7], [1, 38], [2, 2], [2, 21]]);
}

/// N2: each differs in one part of the identity alone, and so is another one.
#[test]
fn identities_that_are_much_alike_are_two() {
    let known = neighbour(1, 5);
    for other in [
        known.on_port(4),
        neighbour(2, 5),
        // Eight octets that begin as the six do, the characters that spell them, and other port IDs.
        known.with_octets(
            b"\x02\x09\x04\x02\x00\x00\x00\x00\x01\x00\x00\x04\x02\x07\x31\x06\x02\x00\x78\x00\x00",
        ),
        known.with_octets(b"\x02\x0D\x07020000000001\x04\x02\x07\x31\x06\x02\x00\x78\x00\x00"),
        known.with_octets(
            b"\x02\x07\x04\x02\x00\x00\x00\x00\x01\x04\x02\x07\x32\x06\x02\x00\x78\x00\x00",
        ),
        known.with_octets(
            b"\x02\x07\x04\x02\x00\x00\x00\x00\x01\x04\x03\x07\x31\x00\x06\x02\x00\x78\x00\x00",
        ),
        known.with_octets(
            b"\x02\x07\x04\x02\x00\x00\x00\x00\x01\x04\x02\x05\x31\x06\x02\x00\x78\x00\x00",
        ),
    ] {
        holds(&[&known], &[&other], &[[1, 5], [2, 5]]);
        let beside = other.at(6);
        holds(&[&known, &beside], &[&known], &[[1, 6]]);
        holds(&[&known], &[&known, &beside], &[[2, 6]]);
    }
}

/// D4: one entry needs two octets. With fewer none is written; more of them stay as they were.
#[test]
fn a_list_that_is_too_short_gives_14_and_is_not_written() {
    let [first, second] = [watch(&[&neighbour(1, 5)]), watch(&[&neighbour(2, 6)])];
    for octets in 0..=3 {
        assert_eq!(listed(&first, &second, octets), (Err(14), vec![UNTOUCHED; octets]));
    }
    assert_eq!(listed(&first, &second, 4), (Ok(2), vec![1, 5, 2, 6]));
}

#[test]
fn a_list_may_be_longer_by_an_odd_number_of_octets() {
    let [first, second] = [watch(&[&neighbour(1, 5)]), watch(&[])];
    assert_eq!(listed(&first, &second, 3), (Ok(1), vec![1, 5, UNTOUCHED]));
    assert_eq!(listed(&first, &second, 5), (Ok(1), vec![1, 5, UNTOUCHED, UNTOUCHED, UNTOUCHED]));
}

#[test]
fn an_empty_list_will_do_for_no_entries_alone() {
    let [one, none] = [watch(&[&neighbour(1, 5)]), watch(&[])];
    assert_eq!(listed(&none, &none, 0), (Ok(0), vec![]));
    assert_eq!(listed(&one, &one, 0), (Ok(0), vec![]));
    assert_eq!(listed(&one, &one, 1), (Ok(0), vec![UNTOUCHED]));
    assert_eq!(listed(&one, &none, 0), (Err(14), vec![]));
}

/// Tables that break N5 in one thing each.
fn unfit() -> Vec<Watch> {
    let edited = |edit: fn(&mut Watch)| {
        let mut watch = watch(&[&neighbour(1, 5), &neighbour(2, 6)]);
        edit(&mut watch);
        watch
    };
    vec![
        edited(|watch| watch.buffer.truncate(BUFFER_OCTETS - 1)),
        edited(|watch| watch.buffer.push(0)),
        edited(|watch| watch.buffer.clear()),
        edited(|watch| watch.table.seconds[5] = 0),
        edited(|watch| watch.table.seconds[5] = 121),
        edited(|watch| watch.table.port[5] = 10),
        edited(|watch| watch.table.sender[5] = [0x03, 0x00, 0x00, 0x00, 0x00, 0x01]),
        edited(|watch| watch.table.length[5] = 18),
        edited(|watch| watch.buffer[1_500 * 5 + 19] = 1),
        edited(|watch| watch.buffer[1_500 * 5 + 1_499] = 1),
        edited(|watch| watch.buffer[1_500 * 6 + 8] = 1),
        edited(|watch| watch.table.port[39] = 1),
        edited(|watch| watch.table.seconds[39] = 1),
        edited(|watch| watch.table.sender[39][5] = 1),
        edited(|watch| watch.buffer[BUFFER_OCTETS - 1] = 1),
    ]
}

/// D4 and Q1: whichever of the two is not fit, with any list and also where nothing changed.
#[test]
fn an_unfit_table_gives_1_before_14_and_the_list_is_not_written() {
    let fit =
        [watch(&[]), watch(&[&neighbour(1, 5), &neighbour(2, 6)]), watch(&[&neighbour(3, 0)])];
    for unfit in unfit() {
        for octets in [0, 1, 2, 3, 4, 160] {
            let refused = (Err(1), vec![UNTOUCHED; octets]);
            for fit in &fit {
                assert_eq!(listed(&unfit, fit, octets), refused);
                assert_eq!(listed(fit, &unfit, octets), refused);
            }
            assert_eq!(listed(&unfit, &unfit, octets), refused);
        }
    }
}

/// Who was heard: port, chassis and port ID, of these the subtype and the octets (N2).
type Identity = (u8, (u8, Vec<u8>), (u8, Vec<u8>));

/// Seconds left, octets and sender.
type Said = (u16, Vec<u8>, [u8; 6]);

/// Who stands at a place, and what its record says.
fn record_at(Look { table, buffer }: Look, place: usize) -> (Identity, Said) {
    let outline = table.outline(buffer, place).expect("the table is fit");
    let [chassis, port] =
        [outline.chassis, outline.port].map(|Id { subtype, octets }| (subtype, octets));
    let octets = buffer[1_500 * place..][..outline.length].to_vec();
    let identity = (table.port[place], chassis, port);
    (identity, (table.seconds[place], octets, table.sender[place]))
}

fn records_of(look: Look) -> BTreeMap<Identity, Said> {
    look.table.used().map(|place| record_at(look, place)).collect()
}

/// D5: what the entries make of the records of the first table. Of that table only who stood where is
/// asked, for those who left.
fn applied(
    mut records: BTreeMap<Identity, Said>,
    stood: &BTreeMap<u8, Identity>,
    entries: &[[u8; 2]],
    second: Look,
) -> BTreeMap<Identity, Said> {
    for &[kind, place] in entries {
        if kind == 1 {
            assert!(records.remove(&stood[&place]).is_some());
            continue;
        }
        let (identity, said) = record_at(second, usize::from(place));
        match kind {
            2 => assert_eq!(records.insert(identity, said), None),
            3 => records.get_mut(&identity).expect("it is known").0 = said.0,
            4 => *records.get_mut(&identity).expect("it is known") = said,
            _ => panic!("there is no kind {kind}"),
        }
    }
    records
}

/// D4 and D5, on every pair of the stored looks that is fit.
#[test]
fn the_changes_turn_the_first_records_into_the_second_and_are_never_more_than_both() {
    let mut pairs = 0;
    looks::at_each(&looks::pairs(), |_, _, first, second| {
        let mut list = [UNTOUCHED; 160];
        let Ok(count) = compare(first, second, &mut list) else {
            return;
        };
        pairs += 1;
        assert!(count <= first.table.used().count() + second.table.used().count());
        let entries = &list.as_chunks::<2>().0[..count];
        let stood =
            first.table.used().map(|place| (place as u8, record_at(first, place).0)).collect();
        let [before, after] = [first, second].map(records_of);
        assert!(applied(before.clone(), &stood, entries, second) == after);
        assert_eq!(count == 0, before == after);
    });
    println!("{pairs} fit pairs");
    assert!(pairs >= 2_000);
}

/// D4: 8n, where nobody is known in both of two full tables.
#[test]
fn as_many_changes_as_two_full_tables_have_records() {
    let full = |from: u8| {
        let record = |place: u8| neighbour(from + place, usize::from(place)).on_port(place / 4);
        let records: Vec<Record> = (0..40).map(record).collect();
        watch(&records.iter().collect::<Vec<_>>())
    };
    let [first, second] = [full(0), full(100)];
    let entries: Vec<u8> =
        [1, 2].iter().flat_map(|&kind| (0..40).flat_map(move |place| [kind, place])).collect();
    assert_eq!(listed(&first, &second, 160), (Ok(80), entries));
    assert_eq!(listed(&first, &second, 159), (Err(14), vec![UNTOUCHED; 159]));
}
