//! The table's rules N1 to N12, R1 to Q2 and the run cases B13, as ordinary tests.
//! Octets and expected values are typed from the rules page by hand, never taken from the program,
//! but for the sizes that follow from the number of ports; one test holds those to the page.

mod page;
mod watch;

use page::*;
use twin::id::Id;
use twin::reader::{Counted, Naming, Refusal};
use twin::table::{
    buffer_octets, common, places, Reply, Sighting, Table, BUFFER_OCTETS, LAST_PLACE, LAST_PORT,
    PLACES, PORTS,
};
use watch::*;

use Reply::{Gone, Recorded, Refreshed, UnknownGoodbye};

/// The other destination than that of frame A (F2).
const NEAREST: [u8; 6] = [0x01, 0x80, 0xC2, 0x00, 0x00, 0x0E];

/// Where the high octet of the seconds stands in A.
const SECONDS: usize = 15;

/// The number of a port's neighbour: 10 x port + 1 and so on.
fn numbered(port: usize, number: u8) -> u8 {
    10 * port as u8 + number
}

impl Watch {
    /// Each of these ports holds so many neighbours, each of a chassis of its own.
    fn holding(ports: &[(usize, u8)]) -> Watch {
        let of_port = |&(port, count)| {
            (1..=count).map(move |number| (port, neighbour(numbered(port, number))))
        };
        Watch::hearing(ports.iter().flat_map(of_port))
    }

    /// The first half of the ports hold six each, the next one holds two (B13).
    fn of_b13() -> Watch {
        let first_half = (0..HALF).map(|port| (port, 6));
        Watch::crowded(&first_half.chain([(HALF, 2)]).collect::<Vec<_>>())
    }

    /// The place has these numbers and octets, and zeros behind them. It is from the source of frame
    /// A, or from nobody where it is free (N4).
    fn has(&self, place: usize, port: usize, seconds: u16, octets: &[u8]) {
        let sender = if octets.is_empty() { ZEROS } else { STATION };
        self.has_from(sender, place, port, seconds, octets);
    }

    fn has_from(&self, sender: [u8; 6], place: usize, port: usize, seconds: u16, octets: &[u8]) {
        assert_eq!(self.table.sender[place], sender);
        assert_eq!(usize::from(self.table.port[place]), port);
        assert_eq!(self.table.seconds[place], seconds);
        assert_eq!(usize::from(self.table.length[place]), octets.len());
        let (kept, behind) = self.buffer[1500 * place..1500 * (place + 1)].split_at(octets.len());
        assert_eq!(kept, octets);
        assert!(behind.iter().all(|&octet| octet == 0));
    }

    /// Hears A with another chassis and other seconds on port 3.
    fn hears(&mut self, chassis: &Id, seconds: u8) -> Result<Reply, Refusal> {
        self.frame(3, &[&HEADER[..], &announced(chassis, seconds)].concat())
    }
}

/// A table that holds one neighbour at place 0 becomes unfit by a change.
fn spoiled(change: impl Fn(&mut Watch)) {
    let mut watch = Watch::holding(&[(2, 1)]);
    assert!(watch.is_fit());
    change(&mut watch);
    watch.is_unfit();
    // Start looks at the length of the buffer alone (N6).
    assert_eq!(watch.start(), Ok(()));
    assert_eq!(watch, Watch::started());
}

/// A table that is fit is lent a buffer of another length: 1 for Start and for the other five.
fn lent(octets: usize, filler: u8) {
    let mut watch = Watch::holding(&[(1, 1)]);
    watch.buffer.resize(octets, filler);
    watch.refuses(1, |watch| watch.start().err());
    watch.is_unfit();
}

/// The table of N1 for several numbers of ports: places, octets of the buffer, common places.
#[test]
fn the_sizes_follow_from_the_number_of_ports() {
    for (ports, sizes) in [
        (1, (4, 6_000, 2)),
        (8, (32, 48_000, 16)),
        (10, (40, 60_000, 20)),
        (63, (252, 378_000, 126)),
    ] {
        assert_eq!((places(ports), buffer_octets(ports), common(ports)), sizes);
    }
}

#[test]
fn start_makes_everything_0() {
    let watch = Watch::started();
    let zeros = Table {
        port: [0; PLACES],
        seconds: [0; PLACES],
        length: [0; PLACES],
        sender: [ZEROS; PLACES],
    };
    assert_eq!(watch.table, zeros);
    assert_eq!(watch.buffer, vec![0; BUFFER_OCTETS]);
    for octets in [0, 1, BUFFER_OCTETS - 1, BUFFER_OCTETS + 1, 2 * BUFFER_OCTETS] {
        lent(octets, 0xEE);
    }
}

/// Two ports or a place fewer or more: zeros would suit the table in all but their number (N5).
#[test]
fn the_buffer_of_another_cell_is_unfit() {
    let [fewer, more] = [PORTS - 2, PORTS + 2].map(buffer_octets);
    for octets in [fewer, BUFFER_OCTETS - 1500, BUFFER_OCTETS + 1500, more] {
        lent(octets, 0);
    }
}

#[test]
fn a_new_record_takes_the_lowest_free_place() {
    let mut watch = Watch::holding(&[(4, 3)]);
    watch.has(0, 4, 120, &lldpdu(&[(CHASSIS, 41)]));
    watch.has(1, 4, 120, &lldpdu(&[(CHASSIS, 42)]));
    watch.has(2, 4, 120, &lldpdu(&[(CHASSIS, 43)]));
    watch.has(3, 0, 0, &[]);
    assert_eq!(watch.frame(4, &goodbye(42)), Ok(Gone));
    watch.has(1, 0, 0, &[]);
    watch.has(2, 4, 120, &lldpdu(&[(CHASSIS, 43)]));
    assert_eq!(watch.frame(LAST_PORT, &neighbour(9)), Ok(Recorded));
    watch.has(1, LAST_PORT, 120, &lldpdu(&[(CHASSIS, 9)]));
    assert_eq!(watch.frame(LAST_PORT, &neighbour(8)), Ok(Recorded));
    watch.has(3, LAST_PORT, 120, &lldpdu(&[(CHASSIS, 8)]));
}

#[test]
fn destination_type_and_padding_are_not_kept() {
    let mut watch = Watch::started();
    let padded = [&NEAREST[..], &frame(&[])[6..], &[0xAB; 9]].concat();
    assert_eq!(watch.frame(0, &padded), Ok(Recorded));
    watch.has(0, 0, 120, &A);
    let mut bare = Watch::started();
    assert_eq!(bare.frame(0, &frame(&[])), Ok(Recorded));
    assert_eq!(watch, bare);
}

#[test]
fn the_longest_lldpdu_fills_its_place() {
    // Three TLVs of types that are skipped: 17 + 2 x 513 + 455 + 2 = 1,500 octets.
    let skipped = [&[0x0B, 0xFF][..], &[0x55; 511]].concat();
    let last = [&[0x0B, 0xC5][..], &[0x55; 453]].concat();
    let longest = [&A[..17], &skipped, &skipped, &last, &[0x00, 0x00]].concat();
    assert_eq!(longest.len(), 1500);
    let mut watch = Watch::holding(&[(1, 1)]);
    assert_eq!(watch.frame(LAST_PORT, &[&HEADER[..], &longest].concat()), Ok(Recorded));
    watch.has(1, LAST_PORT, 120, &longest);
    assert_eq!(watch.frame(LAST_PORT, &neighbour(70)), Ok(Recorded));
    watch.has(1, LAST_PORT, 120, &longest);
    // The same one, shorter: zeros follow.
    assert_eq!(watch.frame(LAST_PORT, &frame(&[])), Ok(Refreshed));
    watch.has(1, LAST_PORT, 120, &A);
    watch.has(2, LAST_PORT, 120, &lldpdu(&[(CHASSIS, 70)]));
    // One octet more makes the frame too long (F1).
    let padded = [&HEADER[..], &longest, &[0x00]].concat();
    watch.refuses(3, |watch| watch.frame(LAST_PORT, &padded).err());
}

#[test]
fn a_refresh_keeps_the_place() {
    let mut watch = Watch::holding(&[(0, 2)]);
    let longer = [&lldpdu(&[(CHASSIS, 1)])[..35], &[0x08, 0x01, 0x61, 0x00, 0x00]].concat();
    assert_eq!(watch.frame(0, &[&HEADER[..], &longer].concat()), Ok(Refreshed));
    watch.has(0, 0, 120, &longer);
    let lower = frame(&[(CHASSIS, 1), (SECONDS_LOW, 1)]);
    assert_eq!(watch.frame(0, &lower), Ok(Refreshed));
    watch.has(0, 0, 1, &lower[14..]);
    watch.has(1, 0, 120, &lldpdu(&[(CHASSIS, 2)]));
    watch.has(2, 0, 0, &[]);
    // Time passed, and the refresh gives the seconds back.
    assert_eq!(watch.frame(0, &neighbour(1)), Ok(Refreshed));
    assert_eq!(watch.seconds(100), Ok(()));
    watch.has(0, 0, 20, &lldpdu(&[(CHASSIS, 1)]));
    assert_eq!(watch.frame(0, &neighbour(1)), Ok(Refreshed));
    watch.has(0, 0, 120, &lldpdu(&[(CHASSIS, 1)]));
    assert_eq!(watch.holds(0), Ok(2));
}

#[test]
fn what_makes_an_identity() {
    let mut watch = Watch::started();
    assert_eq!(watch.frame(0, &frame(&[])), Ok(Recorded));
    // Another chassis, another subtype, other octets, another port (N2).
    assert_eq!(watch.frame(0, &frame(&[(CHASSIS, 2)])), Ok(Recorded));
    assert_eq!(watch.frame(0, &frame(&[(3, 3)])), Ok(Recorded));
    assert_eq!(watch.frame(0, &frame(&[(SUBTYPE, 5)])), Ok(Recorded));
    assert_eq!(watch.frame(0, &frame(&[(PORT_ID, 0x32)])), Ok(Recorded));
    assert_eq!(watch.frame(1, &frame(&[])), Ok(Recorded));
    // A port ID of which the known one is the beginning.
    let two = [&HEADER[..], &A[..9], &[0x04, 0x03, 0x07, 0x31, 0x00], &A[13..]].concat();
    assert_eq!(watch.frame(1, &two), Ok(Recorded));
    assert_eq!(watch.holds(0), Ok(5));
    assert_eq!(watch.holds(1), Ok(2));
    // Destination, source, seconds and what follows them play no part.
    let mut other = sent_by([8, 9, 9, 9, 9, 9], frame(&[(SECONDS, 0xFF), (25, 0x42)]));
    other[..6].copy_from_slice(&NEAREST);
    assert_eq!(watch.frame(0, &other), Ok(Refreshed));
    watch.has_from([8, 9, 9, 9, 9, 9], 0, 0, 0xFF78, &other[14..]);
}

/// Recorded, refreshed and gone, each from another source (N2, N7).
#[test]
fn a_record_has_its_last_sender() {
    let mut watch = Watch::started();
    assert_eq!(watch.frame(4, &sent_by(SECOND, frame(&[]))), Ok(Recorded));
    watch.has_from(SECOND, 0, 4, 120, &A);
    let before = watch.clone();
    // The same octets from another source: the sender alone is another.
    for source in [STATION, THIRD, ZEROS] {
        assert_eq!(watch.frame(4, &sent_by(source, frame(&[]))), Ok(Refreshed));
        watch.has_from(source, 0, 4, 120, &A);
        watch.table.sender[0] = SECOND;
        assert_eq!(watch, before);
    }
    // Other octets and other seconds from the third.
    let other = frame(&[(SECONDS_LOW, 90), (25, 0x42)]);
    assert_eq!(watch.frame(4, &sent_by(THIRD, other.clone())), Ok(Refreshed));
    watch.has_from(THIRD, 0, 4, 90, &other[14..]);
    // A goodbye may come from any source, and a second one finds nobody.
    let goodbye = sent_by(SECOND, goodbye(1));
    assert_eq!(watch.frame(4, &goodbye), Ok(Gone));
    assert_eq!(watch, Watch::started());
    assert_eq!(watch.frame(4, &goodbye), Ok(UnknownGoodbye));
    assert_eq!(watch, Watch::started());
}

#[test]
fn each_record_has_a_sender_of_its_own() {
    let mut watch = Watch::started();
    // Two neighbours from one source, and the first of them on another port from another source.
    assert_eq!(watch.frame(1, &sent_by(SECOND, neighbour(1))), Ok(Recorded));
    assert_eq!(watch.frame(1, &sent_by(SECOND, neighbour(2))), Ok(Recorded));
    assert_eq!(watch.frame(5, &sent_by(THIRD, neighbour(1))), Ok(Recorded));
    let senders = |watch: &Watch| watch.table.sender[..4].to_vec();
    assert_eq!(senders(&watch), [SECOND, SECOND, THIRD, ZEROS]);
    assert_eq!(watch.frame(5, &sent_by(ZEROS, neighbour(1))), Ok(Refreshed));
    assert_eq!(senders(&watch), [SECOND, SECOND, ZEROS, ZEROS]);
    assert_eq!(watch.frame(1, &sent_by(THIRD, neighbour(2))), Ok(Refreshed));
    assert_eq!(senders(&watch), [SECOND, THIRD, ZEROS, ZEROS]);
    assert_eq!(watch.frame(1, &sent_by(THIRD, goodbye(1))), Ok(Gone));
    assert_eq!(senders(&watch), [ZEROS, THIRD, ZEROS, ZEROS]);
    assert_eq!(watch.frame(5, &sent_by(STATION, neighbour(1))), Ok(Refreshed));
    assert_eq!(senders(&watch), [ZEROS, THIRD, STATION, ZEROS]);
}

/// Senders go with their places: by a goodbye, by time, by a lost link, and by Start (N4, N6).
#[test]
fn a_freed_place_has_no_sender() {
    let mut watch = Watch::started();
    let short = frame(&[(CHASSIS, 2), (SECONDS_LOW, 60)]);
    assert_eq!(watch.frame(1, &sent_by(SECOND, neighbour(1))), Ok(Recorded));
    assert_eq!(watch.frame(2, &sent_by(SECOND, short)), Ok(Recorded));
    assert_eq!(watch.frame(3, &sent_by(SECOND, neighbour(3))), Ok(Recorded));
    assert_eq!(watch.frame(1, &goodbye(1)), Ok(Gone));
    watch.has(0, 0, 0, &[]);
    assert_eq!(watch.frame(1, &sent_by(THIRD, neighbour(4))), Ok(Recorded));
    watch.has_from(THIRD, 0, 1, 120, &lldpdu(&[(CHASSIS, 4)]));
    assert_eq!(watch.seconds(60), Ok(()));
    watch.has(1, 0, 0, &[]);
    watch.has_from(THIRD, 0, 1, 60, &lldpdu(&[(CHASSIS, 4)]));
    watch.has_from(SECOND, 2, 3, 60, &lldpdu(&[(CHASSIS, 3)]));
    assert_eq!(watch.frame(2, &neighbour(5)), Ok(Recorded));
    watch.has(1, 2, 120, &lldpdu(&[(CHASSIS, 5)]));
    assert_eq!(watch.lost(3), Ok(()));
    watch.has(2, 0, 0, &[]);
    watch.has_from(THIRD, 0, 1, 60, &lldpdu(&[(CHASSIS, 4)]));
    assert_eq!(watch.frame(3, &sent_by(ZEROS, neighbour(6))), Ok(Recorded));
    watch.has_from(ZEROS, 2, 3, 120, &lldpdu(&[(CHASSIS, 6)]));
    assert_eq!(watch.start(), Ok(()));
    assert_eq!(watch, Watch::started());
}

/// Refusals and an unknown goodbye leave the senders of the records (N7, Q2).
#[test]
fn frames_that_change_nothing_leave_the_senders() {
    let mut watch = Watch::of_b13();
    let known = sent_by(SECOND, neighbour(1));
    watch.refuses(2, |watch| watch.frame(PORTS, &known).err());
    watch.refuses(3, |watch| watch.frame(0, &from_a_group(known.clone())).err());
    watch.refuses(4, |watch| watch.frame(0, &sent_by(SECOND, frame(&[(2, 5)]))).err());
    watch.refuses(5, |watch| watch.frame(0, &known[..50]).err());
    let again = [&known[..49], &[0x06, 0x02, 0x00, 0x78], &known[49..]].concat();
    watch.refuses(6, |watch| watch.frame(0, &again).err());
    let new = sent_by(SECOND, neighbour(99));
    watch.refuses(7, |watch| watch.frame(0, &new).err());
    watch.refuses(8, |watch| watch.frame(HALF, &new).err());
    let before = watch.clone();
    assert_eq!(watch.frame(0, &sent_by(SECOND, goodbye(99))), Ok(UnknownGoodbye));
    assert_eq!(watch, before);
    // So do questions, and no seconds that pass.
    assert_eq!(watch.holds(0), Ok(6));
    assert_eq!(watch.sees(SECOND, 0), Ok(None));
    assert_eq!(watch.seconds(0), Ok(()));
    assert_eq!(watch, before);
    assert_eq!(watch.frame(0, &known), Ok(Refreshed));
    watch.has_from(SECOND, 0, 0, 120, &lldpdu(&[(CHASSIS, 1)]));
}

#[test]
fn chassis_of_each_kind_are_told_apart() {
    for crowd in much_alike() {
        let mut watch = Watch::started();
        for (chassis, place) in crowd.iter().zip(0..) {
            assert_eq!(watch.hears(chassis, 0), Ok(UnknownGoodbye));
            assert_eq!(watch.hears(chassis, 120), Ok(Recorded));
            watch.has(place, 3, 120, &announced(chassis, 120));
        }
        let all = watch.clone();
        for (chassis, place) in crowd.iter().zip(0..) {
            // A refresh changes this one alone.
            assert_eq!(watch.hears(chassis, 99), Ok(Refreshed));
            watch.has(place, 3, 99, &announced(chassis, 99));
            assert_eq!(watch.hears(chassis, 120), Ok(Refreshed));
            assert_eq!(watch, all);
            // So does a goodbye, and the place is the lowest free one then.
            assert_eq!(watch.hears(chassis, 0), Ok(Gone));
            watch.has(place, 0, 0, &[]);
            assert_eq!(watch.holds(3), Ok(5));
            assert_eq!(watch.hears(chassis, 0), Ok(UnknownGoodbye));
            assert_eq!(watch.hears(chassis, 120), Ok(Recorded));
            assert_eq!(watch, all);
        }
    }
}

#[test]
fn what_the_chassis_has_more_the_port_id_has_fewer() {
    let mut watch = Watch::started();
    for (place, octets) in [
        &[0x02, 0x03, 0x07, 0x41, 0x41, 0x04, 0x05, 0x07, 0x41, 0x41, 0x41, 0x41],
        &[0x02, 0x05, 0x07, 0x41, 0x41, 0x41, 0x41, 0x04, 0x03, 0x07, 0x41, 0x41],
    ]
    .into_iter()
    .enumerate()
    {
        let lldpdu = [&octets[..], &A[13..]].concat();
        assert_eq!(watch.frame(3, &[&HEADER[..], &lldpdu].concat()), Ok(Recorded));
        watch.has(place, 3, 120, &lldpdu);
    }
}

#[test]
fn a_wrong_chassis_changes_nothing() {
    let mut watch = Watch::started();
    for chassis in &right_chassis()[..6] {
        assert_eq!(watch.hears(chassis, 120), Ok(Recorded));
    }
    for chassis in wrong_chassis() {
        for seconds in [0, 120] {
            watch.refuses(4, |watch| watch.hears(&chassis, seconds).err());
        }
    }
}

#[test]
fn goodbyes() {
    let mut watch = Watch::of_b13();
    let before = watch.clone();
    // Unknown, also where the port holds six or the common places are taken (N7).
    assert_eq!(watch.frame(0, &goodbye(99)), Ok(UnknownGoodbye));
    assert_eq!(watch.frame(HALF, &goodbye(99)), Ok(UnknownGoodbye));
    assert_eq!(watch.frame(LAST_PORT, &goodbye(1)), Ok(UnknownGoodbye));
    assert_eq!(watch, before);
    // A goodbye may carry other fields.
    let laden = frame(&[(CHASSIS, 1), (SECONDS_LOW, 0)]);
    assert_eq!(watch.frame(0, &laden), Ok(Gone));
    watch.has(0, 0, 0, &[]);
    assert_eq!(watch.frame(0, &laden), Ok(UnknownGoodbye));
    assert_eq!(watch.holds(0), Ok(5));
}

#[test]
fn frames_from_a_group_address_change_nothing() {
    let mut watch = Watch::of_b13();
    assert_eq!(watch.seconds(20), Ok(()));
    for (port, frame, due) in [
        (0, nth(7), Err(7)),
        (0, one_of(1, 4), Err(13)),
        (HALF, nth(3), Err(8)),
        (HALF + 1, nth(1), Ok(Recorded)),
        (0, nth(1), Ok(Refreshed)),
        (0, frame(&[(CHASSIS, 2), (SECONDS_LOW, 0)]), Ok(Gone)),
        (0, goodbye(1), Ok(Gone)),
        (0, goodbye(99), Ok(UnknownGoodbye)),
    ] {
        watch.refuses(3, |watch| watch.frame(port, &from_a_group(frame.clone())).err());
        // Only the source made the difference.
        assert_eq!(watch.clone().frame(port, &frame), due);
    }
}

#[test]
fn the_run_cases() {
    let mut watch = Watch::of_b13();
    let next = HALF + 1;
    watch.refuses(7, |watch| watch.frame(0, &nth(7)).err());
    watch.refuses(8, |watch| watch.frame(HALF, &nth(3)).err());
    assert_eq!(watch.frame(next, &nth(1)), Ok(Recorded));
    assert_eq!(watch.frame(next, &nth(2)), Ok(Recorded));
    watch.refuses(8, |watch| watch.frame(next, &nth(3)).err());
    // The fourth is the first of the second chassis.
    assert_eq!(watch.frame(0, &goodbye(2)), Ok(Gone));
    assert_eq!(watch.frame(HALF, &nth(3)), Ok(Recorded));
    watch.has(3, HALF, 120, &lldpdu(&[(PORT_ID, 0x33)]));
    assert_eq!(watch.holds(0), Ok(5));
    assert_eq!(watch.holds(HALF), Ok(3));
    assert_eq!(watch.holds(next), Ok(2));

    let mut watch = Watch::holding(&[(0, 1)]);
    assert_eq!(watch.seconds(119), Ok(()));
    watch.has(0, 0, 1, &lldpdu(&[(CHASSIS, 1)]));
    assert_eq!(watch.seconds(1), Ok(()));
    assert_eq!(watch, Watch::started());
}

#[test]
fn seven_before_eight() {
    // The common places are taken and the port holds six: 8 needs two to five (Q1).
    let mut watch = Watch::of_b13();
    for port in 0..HALF {
        watch.refuses(7, |watch| watch.frame(port, &neighbour(99)).err());
    }
    // A known one is never refused for room (N12).
    for port in 0..HALF {
        assert_eq!(watch.frame(port, &nth(6)), Ok(Refreshed));
    }
}

#[test]
fn the_sure_places_stay_sure() {
    // Half of the ports hold six, the others two, and all places are used.
    let mut watch = Watch::of_b13();
    for port in HALF + 1..PORTS {
        assert_eq!(watch.frame(port, &neighbour(1)), Ok(Recorded));
        assert_eq!(watch.frame(port, &neighbour(2)), Ok(Recorded));
        watch.refuses(8, |watch| watch.frame(port, &neighbour(3)).err());
    }
    assert!(watch.table.length.iter().all(|&length| length == 37));
    // Six on a port with common places left.
    let mut watch = Watch::holding(&[(3, 6)]);
    watch.refuses(7, |watch| watch.frame(3, &neighbour(9)).err());
    assert_eq!(watch.frame(2, &neighbour(9)), Ok(Recorded));
    // Other shares of the common places: 2 for each port.
    let others: Vec<_> = (0..LAST_PORT).map(|port| (port, 4)).collect();
    let mut watch = Watch::holding(&others);
    assert_eq!(watch.frame(LAST_PORT, &neighbour(1)), Ok(Recorded));
    assert_eq!(watch.frame(0, &neighbour(5)), Ok(Recorded));
    assert_eq!(watch.frame(LAST_PORT, &neighbour(2)), Ok(Recorded));
    assert_eq!(watch.frame(LAST_PORT, &neighbour(3)), Ok(Recorded));
    for port in 0..PORTS {
        watch.refuses(8, |watch| watch.frame(port, &neighbour(99)).err());
    }
}

/// The others take all common places: half of the ports with six, or all with four and two of them
/// with one more. Then the port takes its two, which fills the table, and a third is refused (N12).
#[test]
fn each_port_takes_its_two_whatever_the_others_hold() {
    for port in 0..PORTS {
        for held in [|i| if i <= HALF { 6 } else { 2 }, |i| if i <= 2 { 5 } else { 4 }] {
            let others = (1..PORTS).map(|i| ((port + i) % PORTS, held(i)));
            let mut watch = Watch::holding(&others.collect::<Vec<_>>());
            for number in [1, 2] {
                assert_eq!(watch.frame(port, &neighbour(numbered(port, number))), Ok(Recorded));
            }
            assert_eq!(watch.holds(port), Ok(2));
            assert_eq!(watch.table.used().count(), PLACES);
            watch.refuses(8, |watch| watch.frame(port, &neighbour(99)).err());
        }
    }
}

#[test]
fn the_order_of_refusals() {
    let mut watch = Watch::of_b13();
    for port in [PORTS, PORTS + 1, 255, 256, 65_536, 1 << 32, (1 << 32) + LAST_PORT, usize::MAX] {
        watch.refuses(2, |watch| watch.frame(port, &neighbour(1)).err());
        watch.refuses(2, |watch| watch.frame(port, &[]).err());
        watch.refuses(2, |watch| watch.frame(port, &from_a_group(neighbour(1))).err());
        watch.refuses(2, |watch| watch.lost(port).err());
        watch.refuses(2, |watch| watch.holds(port).err());
    }
    let new = neighbour(99);
    let type_0800 = [&new[..12], &[0x08, 0x00], &new[14..]].concat();
    let six_octets = [&new[..14], &[0x02, 0x06, 0x04, 2, 0, 0, 0, 0], &new[23..]].concat();
    let again = [&new[..49], &[0x06, 0x02, 0x00, 0x78], &new[49..]].concat();
    for port in [0, HALF] {
        watch.refuses(3, |watch| watch.frame(port, &type_0800).err());
        watch.refuses(3, |watch| watch.frame(port, &new[..13]).err());
        watch.refuses(3, |watch| watch.frame(port, &from_a_group(six_octets.clone())).err());
        watch.refuses(4, |watch| watch.frame(port, &six_octets).err());
        watch.refuses(5, |watch| watch.frame(port, &new[..50]).err());
        watch.refuses(6, |watch| watch.frame(port, &again).err());
    }
    watch.refuses(7, |watch| watch.frame(0, &new).err());
    watch.refuses(8, |watch| watch.frame(HALF, &new).err());
}

#[test]
fn seconds_pass() {
    let mut watch = Watch::started();
    for (number, seconds) in [(1, 1u16), (2, 2), (3, 120), (4, 65_535)] {
        let [high, low] = seconds.to_be_bytes();
        let frame = frame(&[(CHASSIS, number), (SECONDS, high), (SECONDS_LOW, low)]);
        assert_eq!(watch.frame(usize::from(number), &frame), Ok(Recorded));
    }
    let before = watch.clone();
    assert_eq!(watch.seconds(0), Ok(()));
    assert_eq!(watch, before);
    assert_eq!(watch.seconds(1), Ok(()));
    watch.has(0, 0, 0, &[]);
    watch.has(1, 2, 1, &lldpdu(&[(CHASSIS, 2), (SECONDS_LOW, 2)]));
    watch.has(2, 3, 119, &lldpdu(&[(CHASSIS, 3)]));
    assert_eq!(watch.seconds(118), Ok(()));
    watch.has(1, 0, 0, &[]);
    watch.has(2, 3, 1, &lldpdu(&[(CHASSIS, 3)]));
    watch.has(3, 4, 65_416, &lldpdu(&[(CHASSIS, 4), (SECONDS, 0xFF), (SECONDS_LOW, 0xFF)]));
    assert_eq!(watch.seconds(65_415), Ok(()));
    watch.has(2, 0, 0, &[]);
    watch.has(3, 4, 1, &lldpdu(&[(CHASSIS, 4), (SECONDS, 0xFF), (SECONDS_LOW, 0xFF)]));
    let all = frame(&[(SECONDS, 0xFF), (SECONDS_LOW, 0xFF)]);
    assert_eq!(watch.frame(0, &all), Ok(Recorded));
    assert_eq!(watch.seconds(65_535), Ok(()));
    assert_eq!(watch, Watch::started());
}

#[test]
fn a_lost_link_frees_its_port_alone() {
    let mut watch = Watch::holding(&[(0, 2), (LAST_PORT, 3)]);
    assert_eq!(watch.holds(0), Ok(2));
    assert_eq!(watch.holds(LAST_PORT), Ok(3));
    assert_eq!(watch.lost(LAST_PORT), Ok(()));
    assert_eq!(watch, Watch::holding(&[(0, 2)]));
    assert_eq!(watch.lost(LAST_PORT), Ok(()));
    assert_eq!(watch.frame(3, &neighbour(30)), Ok(Recorded));
    assert_eq!(watch.lost(0), Ok(()));
    watch.has(0, 0, 0, &[]);
    watch.has(1, 0, 0, &[]);
    watch.has(2, 3, 120, &lldpdu(&[(CHASSIS, 30)]));
    assert_eq!(watch.lost(3), Ok(()));
    assert_eq!(watch, Watch::started());
}

/// A frame of a neighbour, with link information put before its End.
fn linked(number: u8, tlvs: &[&[u8]]) -> Vec<u8> {
    let whole = neighbour(number);
    [&whole[..49], &tlvs.concat(), &[0x00, 0x00]].concat()
}

#[test]
fn who_sees_an_address() {
    // Interface type 00 06 and port number 05 see 02-00-00-00-00-11; 06 and 01 00 see that and -12.
    let one = [
        0xFE, 0x10, 0xE0, 0x27, 0x1A, 0x02, 0x02, 0x00, 0x06, 0x01, 0x05, 0x01, 0x02, 0x00, 0x00,
        0x00, 0x00, 0x11,
    ];
    let both = [
        0xFE, 0x16, 0xE0, 0x27, 0x1A, 0x02, 0x01, 0x06, 0x02, 0x01, 0x00, 0x02, 0x02, 0x00, 0x00,
        0x00, 0x00, 0x12, 0x02, 0x00, 0x00, 0x00, 0x00, 0x11,
    ];
    // It says two addresses and has one: not well formed. An address list does not count either.
    let broken = [
        0xFE, 0x0F, 0xE0, 0x27, 0x1A, 0x02, 0x01, 0x06, 0x01, 0x05, 0x02, 0x02, 0x00, 0x00, 0x00,
        0x00, 0x12,
    ];
    let list = [0xFE, 0x0B, 0xE0, 0x27, 0x1A, 0x03, 0x01, 0x02, 0x00, 0x00, 0x00, 0x00, 0x12];
    let [eleven, twelve] = [0x11, 0x12].map(|last| [0x02, 0x00, 0x00, 0x00, 0x00, last]);
    let at_one = Naming {
        interface: Counted { count: 2, value: 6 },
        number: Counted { count: 1, value: 5 },
    };
    let at_both = Naming {
        interface: Counted { count: 1, value: 6 },
        number: Counted { count: 2, value: 256 },
    };

    let mut watch = Watch::holding(&[(0, 1)]);
    assert_eq!(watch.frame(1, &linked(2, &[&one, &both])), Ok(Recorded));
    assert_eq!(watch.frame(1, &linked(3, &[&broken, &list])), Ok(Recorded));
    assert_eq!(watch.frame(5, &linked(4, &[&broken, &both, &one])), Ok(Recorded));
    let first = Some(Sighting { place: 1, naming: at_one });
    let second = Some(Sighting { place: 1, naming: at_both });
    let last = Some(Sighting { place: 3, naming: at_both });
    for from in [0, 1] {
        assert_eq!(watch.sees(eleven, from), Ok(first));
        assert_eq!(watch.sees(twelve, from), Ok(second));
    }
    for from in [2, 3] {
        assert_eq!(watch.sees(eleven, from), Ok(last));
        assert_eq!(watch.sees(twelve, from), Ok(last));
    }
    for from in [4, LAST_PLACE, PLACES, PLACES + 1, 256, 1 << 32, usize::MAX] {
        assert_eq!(watch.sees(eleven, from), Ok(None));
    }
    assert_eq!(watch.sees([0x02, 0x00, 0x00, 0x00, 0x00, 0x13], 0), Ok(None));
    // The places that are free now are passed over.
    assert_eq!(watch.lost(1), Ok(()));
    assert_eq!(watch.sees(eleven, 0), Ok(last));
}

#[test]
fn the_last_place_is_asked_too() {
    // Interface type 06 and port number 05 see 02-00-00-00-00-11.
    let basic = [
        0xFE, 0x0F, 0xE0, 0x27, 0x1A, 0x02, 0x01, 0x06, 0x01, 0x05, 0x01, 0x02, 0x00, 0x00, 0x00,
        0x00, 0x11,
    ];
    let eleven = [0x02, 0x00, 0x00, 0x00, 0x00, 0x11];
    let others: Vec<_> = (0..LAST_PORT).map(|port| (port, 4)).collect();
    let mut watch = Watch::holding(&others);
    for number in [1, 2, 3, 4] {
        assert_eq!(watch.frame(LAST_PORT, &linked(number, &[&basic])), Ok(Recorded));
    }
    let place_from = |watch: &Watch, from| {
        watch.sees(eleven, from).map(|sighting| sighting.map(|sighting| sighting.place))
    };
    assert_eq!(place_from(&watch, 0), Ok(Some(PLACES - 4)));
    for place in PLACES - 4..PLACES {
        assert_eq!(place_from(&watch, place), Ok(Some(place)));
    }
    for from in [PLACES, PLACES + 1, 256 + LAST_PLACE, (1 << 32) + LAST_PLACE, usize::MAX] {
        assert_eq!(place_from(&watch, from), Ok(None));
    }
    assert_eq!(watch.frame(LAST_PORT, &goodbye(4)), Ok(Gone));
    assert_eq!(place_from(&watch, LAST_PLACE - 1), Ok(Some(LAST_PLACE - 1)));
    assert_eq!(place_from(&watch, LAST_PLACE), Ok(None));
}

/// Extension link information with these octets behind port number 05: p, k, c and so on (T11).
fn extension(interface: u8, rest: &[u8]) -> Vec<u8> {
    let head = [0xE0, 0x27, 0x1A, 0x04, 0x01, interface, 0x01, 0x05];
    [&[0xFE, (head.len() + rest.len()) as u8], &head[..], rest].concat()
}

#[test]
fn who_sees_an_address_by_either_kind_of_link_information() {
    let [eleven, twelve] = [0x11, 0x12].map(|last| [0x02, 0x00, 0x00, 0x00, 0x00, last]);
    // Basic link information at 06, and extension link information at 47, see 02-00-00-00-00-11.
    let basic = [
        0xFE, 0x0F, 0xE0, 0x27, 0x1A, 0x02, 0x01, 0x06, 0x01, 0x05, 0x01, 0x02, 0x00, 0x00, 0x00,
        0x00, 0x11,
    ];
    let entry = [&[0x06, 0x01, 0x01][..], &eleven, &[0x01, 0x32]].concat();
    let named = extension(0x47, &[&entry[..], &[0x00, 0x01], &twelve].concat());
    // With eight octets, as a pairing address, and with an octet behind its last item.
    let eight = extension(0x48, &[&[0x08, 0x01, 0x00][..], &eleven, &[0, 0], &[0, 0]].concat());
    let paired = extension(0x49, &[&[0x06, 0x00, 0x00, 0x00, 0x01][..], &eleven].concat());
    let broken = extension(0x4A, &[&entry[..], &[0x00, 0x00, 0x00]].concat());
    let sighting = |place, interface| {
        let number = Counted { count: 1, value: 5 };
        let naming = Naming { interface: Counted { count: 1, value: interface }, number };
        Ok(Some(Sighting { place, naming }))
    };

    let mut watch = Watch::started();
    let records: [&[&[u8]]; 8] = [
        &[&eight, &paired],
        &[&named],
        &[&broken],
        &[&basic, &named],
        &[&named, &basic],
        &[&paired, &broken, &named, &basic],
        &[&eight, &broken, &paired, &basic, &named],
        &[&paired],
    ];
    for (tlvs, number) in records.iter().zip(1..) {
        let port = (usize::from(number) - 1) % PORTS;
        assert_eq!(watch.frame(port, &linked(number, tlvs)), Ok(Recorded));
    }
    let due = [
        (0, sighting(1, 0x47)),
        (1, sighting(1, 0x47)),
        (2, sighting(3, 0x06)),
        (3, sighting(3, 0x06)),
        (4, sighting(4, 0x47)),
        (5, sighting(5, 0x47)),
        (6, sighting(6, 0x06)),
        (7, Ok(None)),
        (PLACES, Ok(None)),
    ];
    for (from, due) in due {
        assert_eq!(watch.sees(eleven, from), due);
        assert_eq!(watch.sees(twelve, from), Ok(None));
    }
    // A refresh takes it away, and a lost link does.
    assert_eq!(watch.frame(1, &linked(2, &[&broken])), Ok(Refreshed));
    assert_eq!(watch.sees(eleven, 0), sighting(3, 0x06));
    assert_eq!(watch.lost(3), Ok(()));
    assert_eq!(watch.sees(eleven, 0), sighting(4, 0x47));
}

#[test]
fn free_places_must_be_clear() {
    for place in [1, LAST_PLACE] {
        spoiled(|watch| watch.table.port[place] = 1);
        spoiled(|watch| watch.table.seconds[place] = 1);
        for octet in [0, 1, 1499] {
            spoiled(|watch| watch.buffer[1500 * place + octet] = 1);
        }
        // Each octet of the sender alone; of the first one each bit.
        for octet in 0..6 {
            spoiled(|watch| watch.table.sender[place][octet] = 1);
        }
        for bit in 1..8 {
            spoiled(|watch| watch.table.sender[place][0] = 1 << bit);
        }
        spoiled(|watch| watch.table.sender[place] = STATION);
    }
    // The length alone becomes 0.
    spoiled(|watch| watch.table.length[0] = 0);
}

#[test]
fn used_places_must_be_sound() {
    for port in [PORTS, PORTS + 1, 128, 130, 255] {
        spoiled(|watch| watch.table.port[0] = port as u8);
    }
    for seconds in [0, 121, 65_535] {
        spoiled(|watch| watch.table.seconds[0] = seconds);
    }
    for length in [1, 35, 36, 38, 39, 1500, 1501, 3000, 65_535] {
        spoiled(|watch| watch.table.length[0] = length);
    }
    for (at, octet) in [(0, 0x04), (1, 0x08), (11, 0), (11, 8), (14, 0x03), (17, 0x06), (36, 1)] {
        spoiled(|watch| watch.buffer[at] = octet);
    }
    // An End in the middle, and octets behind the End.
    spoiled(|watch| watch.buffer[26..28].fill(0));
    for octet in [37, 1499] {
        spoiled(|watch| watch.buffer[octet] = 1);
    }
    // Seconds of the LLDPDU under what is left, and seconds 0.
    spoiled(|watch| watch.buffer[SECONDS_LOW] = 119);
    spoiled(|watch| watch.buffer[SECONDS_LOW] = 0);
    // A group address as sender: that of A but for one bit, that bit alone, and both destinations.
    for sender in [[3, 0, 0, 0, 0, 1], [1, 0, 0, 0, 0, 0], NEAREST, [0xFF; 6]] {
        spoiled(|watch| watch.table.sender[0] = sender);
    }
    // Changes that leave it fit.
    for sender in [ZEROS, SECOND, THIRD, [0x80, 0, 0, 0, 0, 0], [0, 1, 1, 1, 1, 1]] {
        let mut watch = Watch::holding(&[(2, 1)]);
        watch.table.sender[0] = sender;
        assert!(watch.is_fit());
        watch.has_from(sender, 0, 2, 120, &lldpdu(&[(CHASSIS, 21)]));
        assert_eq!(watch.frame(2, &neighbour(21)), Ok(Refreshed));
        assert_eq!(watch, Watch::holding(&[(2, 1)]));
    }
    for seconds in [1, 2, 119, 120] {
        let mut watch = Watch::holding(&[(2, 1)]);
        watch.table.seconds[0] = seconds;
        assert!(watch.is_fit());
    }
}

#[test]
fn an_lldpdu_may_not_run_into_the_next_place() {
    // Its End would be the first two octets of the next place, which is free.
    spoiled(|watch| {
        let skipped = [&[0x0B, 0xFF][..], &[0x55; 511]].concat();
        let last = [&[0x0B, 0xC7][..], &[0x55; 455]].concat();
        let whole = [&A[..17], &skipped, &skipped, &last].concat();
        assert_eq!(whole.len(), 1500);
        watch.buffer[..1500].copy_from_slice(&whole);
        watch.table.length[0] = 1502;
    });
}

#[test]
fn no_identity_may_stand_twice() {
    for place in [1, LAST_PLACE] {
        spoiled(|watch| write(watch, place, 2, &lldpdu(&[(CHASSIS, 21)])));
        // Other seconds and another category do not make another identity, nor does the sender.
        spoiled(|watch| write(watch, place, 2, &lldpdu(&[(CHASSIS, 21), (15, 1), (25, 0x42)])));
        spoiled(|watch| {
            write(watch, place, 2, &lldpdu(&[(CHASSIS, 21)]));
            watch.table.sender[place] = SECOND;
        });
        let mut watch = Watch::holding(&[(2, 1)]);
        write(&mut watch, place, 3, &lldpdu(&[(CHASSIS, 21)]));
        assert!(watch.is_fit());
    }
}

#[test]
fn a_chassis_that_is_kept_must_be_right() {
    for chassis in right_chassis() {
        let record = announced(&chassis, 120);
        let mut watch = Watch::holding(&[(2, 1)]);
        write(&mut watch, 1, 3, &record);
        assert!(watch.is_fit());
        // It may not stand twice.
        spoiled(|watch| {
            write(watch, 1, 3, &record);
            write(watch, LAST_PLACE, 3, &record);
        });
    }
    for chassis in wrong_chassis() {
        spoiled(|watch| write(watch, 1, 3, &announced(&chassis, 120)));
    }
    for crowd in much_alike() {
        let mut watch = Watch::holding(&[(2, 1)]);
        for (chassis, place) in crowd.iter().zip(1..) {
            write(&mut watch, place, 3, &announced(chassis, 120));
        }
        assert!(watch.is_fit());
    }
}

#[test]
fn no_port_may_hold_seven() {
    spoiled(|watch| {
        for place in 1..7 {
            write(watch, place, 2, &lldpdu(&[(CHASSIS, 90 + place as u8)]));
            assert_eq!(watch.is_fit(), place < 6);
        }
    });
}

#[test]
fn the_sum_beyond_two_may_not_pass_the_common_places() {
    // Half of the ports hold six, others than port 2, and then that one holds three.
    let others: Vec<u8> = (0..=HALF as u8).filter(|&port| port != 2).collect();
    spoiled(|watch| {
        for place in 1..=6 * HALF {
            let port = others[place % HALF];
            write(watch, place, port, &lldpdu(&[(CHASSIS, place as u8)]));
        }
        assert!(watch.is_fit());
        write(watch, LAST_PLACE - 1, 2, &lldpdu(&[(CHASSIS, 22)]));
        assert!(watch.is_fit());
        write(watch, LAST_PLACE, 2, &lldpdu(&[(CHASSIS, 23)]));
    });
}
