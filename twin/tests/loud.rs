//! One loud chassis: N13, R13, N5 (g) and the run of B25, as ordinary tests.
//! Octets and expected values are typed from the rules page by hand, never taken from the program.

mod page;
mod watch;

use page::*;
use twin::id::Id;
use twin::table::{Reply, LAST_PLACE, LAST_PORT, PLACES, PORTS};
use watch::*;

use Reply::{Gone, Recorded, Refreshed, UnknownGoodbye};

/// The goodbye of one of several that share a chassis.
fn goodbye_of(chassis: u8, number: u8) -> Vec<u8> {
    let mut frame = one_of(chassis, number);
    frame[14 + SECONDS_LOW] = 0;
    frame
}

/// The LLDPDU of A from one of several that share a chassis of any kind.
fn numbered(chassis: &Id, number: u8) -> Vec<u8> {
    let mut lldpdu = announced(chassis, 120);
    // Behind the chassis ID: type, L, subtype, and then the octet of the port ID.
    lldpdu[(3 + chassis.octets.len()) + 3] = 0x30 + number;
    lldpdu
}

/// The frame of it.
fn framed(chassis: &Id, number: u8) -> Vec<u8> {
    [&HEADER[..], &numbered(chassis, number)].concat()
}

/// So many of each chassis on a port, the first chassis being 1.
fn held(port: usize, counts: &[u8]) -> Vec<(usize, Vec<u8>)> {
    let of_chassis = |(&count, chassis)| (1..=count).map(move |n| (port, one_of(chassis, n)));
    counts.iter().zip(1..).flat_map(of_chassis).collect()
}

#[test]
fn the_run_of_b25() {
    let mut watch = Watch::started();
    for number in [1, 2, 3] {
        assert_eq!(watch.frame(0, &one_of(1, number)), Ok(Recorded));
    }
    watch.refuses(13, |watch| watch.frame(0, &one_of(1, 4)).err());

    assert_eq!(watch.frame(0, &one_of(1, 1)), Ok(Refreshed));
    let before = watch.clone();
    assert_eq!(watch.frame(0, &goodbye_of(1, 4)), Ok(UnknownGoodbye));
    assert_eq!(watch, before);

    assert_eq!(watch.frame(1, &one_of(1, 4)), Ok(Recorded));

    for number in [1, 2, 3] {
        assert_eq!(watch.frame(0, &one_of(2, number)), Ok(Recorded));
    }

    assert_eq!(watch.holds(0), Ok(6));
    watch.refuses(13, |watch| watch.frame(0, &one_of(1, 4)).err());
    watch.refuses(13, |watch| watch.frame(0, &one_of(2, 4)).err());
    watch.refuses(7, |watch| watch.frame(0, &one_of(3, 1)).err());

    assert_eq!(watch.frame(0, &goodbye_of(1, 2)), Ok(Gone));
    assert_eq!(watch.frame(0, &one_of(1, 4)), Ok(Recorded));
    assert_eq!([0, 1, 2].map(|port| watch.holds(port)), [Ok(6), Ok(1), Ok(0)]);
    // It took the place of the second, which was the lowest free one (N4).
    assert_eq!(watch.buffer[1500..][..37], one_of(1, 4)[14..]);
}

/// The same ones on every port: what a chassis holds on another does not count.
#[test]
fn three_on_each_port_and_no_fourth() {
    let mut watch = Watch::started();
    for port in 0..PORTS {
        for number in [1, 2, 3] {
            assert_eq!(watch.frame(port, &one_of(1, number)), Ok(Recorded));
        }
        watch.refuses(13, |watch| watch.frame(port, &one_of(1, 4)).err());
        for number in [3, 2, 1] {
            assert_eq!(watch.frame(port, &one_of(1, number)), Ok(Refreshed));
        }
        assert_eq!(watch.frame(port, &goodbye_of(1, 4)), Ok(UnknownGoodbye));
        assert_eq!(watch.holds(port), Ok(3));
    }
    for port in 0..PORTS {
        assert_eq!(watch.frame(port, &one_of(2, 1)), Ok(Recorded));
        watch.refuses(13, |watch| watch.frame(port, &one_of(1, 4)).err());
        assert_eq!(watch.frame(port, &goodbye_of(1, 3)), Ok(Gone));
        assert_eq!(watch.frame(port, &one_of(1, 4)), Ok(Recorded));
        watch.refuses(13, |watch| watch.frame(port, &one_of(1, 3)).err());
    }
}

#[test]
fn what_lost_its_place_does_not_count() {
    let three = Watch::hearing(held(2, &[3]));
    for number in [1, 2, 3] {
        let mut watch = three.clone();
        assert_eq!(watch.frame(2, &goodbye_of(1, number)), Ok(Gone));
        assert_eq!(watch.frame(2, &one_of(1, 4)), Ok(Recorded));
        watch.refuses(13, |watch| watch.frame(2, &one_of(1, number)).err());
    }
    // With 60 seconds left, 59 pass and then 1 more (N8).
    let mut watch = three.clone();
    let short = frame(&[(PORT_ID, 0x32), (SECONDS_LOW, 60)]);
    assert_eq!(watch.frame(2, &short), Ok(Refreshed));
    assert_eq!(watch.seconds(59), Ok(()));
    watch.refuses(13, |watch| watch.frame(2, &one_of(1, 4)).err());
    assert_eq!(watch.seconds(1), Ok(()));
    assert_eq!(watch.frame(2, &one_of(1, 4)), Ok(Recorded));
    watch.refuses(13, |watch| watch.frame(2, &one_of(1, 2)).err());
    // The link of another port, then that of the port.
    assert_eq!(watch.lost(3), Ok(()));
    watch.refuses(13, |watch| watch.frame(2, &one_of(1, 2)).err());
    assert_eq!(watch.lost(2), Ok(()));
    for number in [4, 5, 6] {
        assert_eq!(watch.frame(2, &one_of(1, number)), Ok(Recorded));
    }
    watch.refuses(13, |watch| watch.frame(2, &one_of(1, 1)).err());
}

/// On a port that holds six 13 is due exactly where the chassis holds three there (N12, Q1).
#[test]
fn thirteen_before_seven() {
    for port in [0, LAST_PORT] {
        for counts in [[3, 3, 0], [3, 2, 1], [1, 3, 2], [2, 2, 2]] {
            let mut watch = Watch::hearing(held(port, &counts));
            for (count, chassis) in counts.into_iter().chain([0]).zip(1..) {
                let due = if count == 3 { 13 } else { 7 };
                watch.refuses(due, |watch| watch.frame(port, &one_of(chassis, 9)).err());
                let before = watch.clone();
                assert_eq!(watch.frame(port, &goodbye_of(chassis, 9)), Ok(UnknownGoodbye));
                assert_eq!(watch, before);
            }
        }
    }
    // Whatever the sum beyond two is: half of the ports hold six.
    let half: Vec<_> = (0..HALF).map(|port| (port, 6)).collect();
    let mut watch = Watch::crowded(&half);
    for port in 0..HALF {
        for (chassis, due) in [(1, 13), (2, 13), (3, 7)] {
            watch.refuses(due, |watch| watch.frame(port, &one_of(chassis, 4)).err());
        }
    }
}

/// Ports from 1 on that take so many common places: as many as can hold six, and the next one the
/// rest.
fn taking(common: usize) -> Vec<(usize, u8)> {
    let full = common / 4;
    let six = (1..=full).map(|port| (port, 6));
    six.chain([(full + 1, 2 + (common % 4) as u8)]).collect()
}

/// The common places are taken. On a port that holds two to five 13 is due exactly where the chassis
/// holds three there, and otherwise 8 (N12, Q1).
#[test]
fn thirteen_before_eight() {
    for port in [0, LAST_PORT] {
        for counts in [[2, 0], [1, 1], [3, 0], [2, 1], [3, 1], [2, 2], [3, 2], [2, 3]] {
            let beyond_two = usize::from(counts[0] + counts[1] - 2);
            let mut watch = Watch::crowded(&taking(2 * PORTS - beyond_two));
            for (port, frame) in held(port, &counts) {
                assert_eq!(watch.frame(port, &frame), Ok(Recorded));
            }
            for (count, chassis) in counts.into_iter().chain([0]).zip(1..) {
                let due = if count == 3 { 13 } else { 8 };
                watch.refuses(due, |watch| watch.frame(port, &one_of(chassis, 9)).err());
                assert_eq!(watch.frame(port, &goodbye_of(chassis, 9)), Ok(UnknownGoodbye));
            }
            // A common place that is free again does not help a chassis that holds three.
            assert_eq!(watch.frame(1, &goodbye_of(1, 1)), Ok(Gone));
            for (count, chassis) in counts.into_iter().zip(1..) {
                if count == 3 {
                    watch.refuses(13, |watch| watch.frame(port, &one_of(chassis, 9)).err());
                }
            }
            assert_eq!(watch.frame(port, &one_of(3, 1)), Ok(Recorded));
        }
    }
}

/// 1, 2, 3, and what the TLVs give, go before 13 (Q1).
#[test]
fn earlier_refusals_before_thirteen() {
    let mut watch = Watch::hearing(held(2, &[3]));
    let fourth = one_of(1, 4);
    for port in [PORTS, 256 + 2, (1 << 32) + 2, usize::MAX] {
        watch.refuses(2, |watch| watch.frame(port, &fourth).err());
    }
    let type_0800 = [&fourth[..12], &[0x08, 0x00], &fourth[14..]].concat();
    for wrong in [&fourth[..13], &type_0800, &from_a_group(fourth.clone())] {
        watch.refuses(3, |watch| watch.frame(2, wrong).err());
    }
    let seconds = [&fourth[..27], &[0x06, 0x03, 0x00, 0x78, 0x00], &fourth[31..]].concat();
    watch.refuses(4, |watch| watch.frame(2, &seconds).err());
    for chassis in wrong_chassis() {
        watch.refuses(4, |watch| watch.frame(2, &framed(&chassis, 4)).err());
    }
    for cut in [14, 30, 49, 50] {
        watch.refuses(5, |watch| watch.frame(2, &fourth[..cut]).err());
    }
    let again = [&fourth[..49], &[0x06, 0x02, 0x00, 0x78], &fourth[49..]].concat();
    watch.refuses(6, |watch| watch.frame(2, &again).err());
    watch.refuses(13, |watch| watch.frame(2, &fourth).err());
    watch.buffer.push(0);
    watch.refuses(1, |watch| watch.frame(2, &fourth).err());
    watch.buffer.pop();
    watch.table.seconds[2] = 0;
    watch.refuses(1, |watch| watch.frame(2, &fourth).err());
}

/// A with port IDs of every subtype, short and long (L4).
fn port_ids() -> Vec<Vec<u8>> {
    let mut frames: Vec<Vec<u8>> = (1..=7).map(|subtype| frame(&[(SUBTYPE, subtype)])).collect();
    frames.push(one_of(1, 2));
    for second in [
        [&[0x04, 0x03, 0x07][..], &[0x31, 0x00]].concat(),
        [&[0x04, 0xFF, 0x07][..], &[0x31; 254]].concat(),
        [&[0x05, 0x00, 0x07][..], &[0x31; 255]].concat(),
    ] {
        frames.push([&HEADER[..], &A[..9], &second, &A[13..]].concat());
    }
    frames
}

#[test]
fn port_ids_and_senders_do_not_matter() {
    let mut frames = port_ids();
    for _ in 0..frames.len() {
        let mut watch = Watch::started();
        for (frame, source) in frames.iter().zip([SECOND, THIRD, ZEROS]) {
            assert_eq!(watch.frame(4, &sent_by(source, frame.clone())), Ok(Recorded));
        }
        for frame in &frames[3..] {
            for source in [STATION, SECOND, THIRD, ZEROS] {
                let fourth = sent_by(source, frame.clone());
                watch.refuses(13, |watch| watch.frame(4, &fourth).err());
            }
        }
        // A table with that fourth is not fit (N5 g), whatever its seconds left are.
        write(&mut watch, LAST_PLACE, 4, &frames[3][14..]);
        for seconds in [1, 120] {
            watch.table.seconds[LAST_PLACE] = seconds;
            watch.is_unfit();
        }
        frames.rotate_left(1);
    }
    // Six chassis from one source are six.
    let six = [1, 2, 3, 4, 5, 6].map(|chassis| (4, one_of(chassis, 1)));
    assert_eq!(Watch::hearing(six).holds(4), Ok(6));
}

#[test]
fn each_kind_of_chassis_can_be_loud() {
    for chassis in right_chassis() {
        let mut watch = Watch::hearing([1, 2, 3].map(|number| (3, framed(&chassis, number))));
        watch.refuses(13, |watch| watch.frame(3, &framed(&chassis, 4)).err());
        assert_eq!(watch.frame(3, &framed(&chassis, 1)), Ok(Refreshed));
        assert_eq!(watch.frame(4, &framed(&chassis, 4)), Ok(Recorded));
    }
}

/// Chassis that share their last octet, or all octets but one.
fn one_octet_apart() -> [Id; 6] {
    [
        id(4, &[0x02, 0x00, 0x00, 0x00, 0x00, 0x01]),
        id(4, &[0x06, 0x00, 0x00, 0x00, 0x00, 0x01]),
        id(4, &[0x02, 0x00, 0x01, 0x00, 0x00, 0x01]),
        id(4, &[0x02, 0x00, 0x00, 0x00, 0x80, 0x01]),
        id(4, &[0x02, 0x00, 0x00, 0x00, 0x00, 0x03]),
        id(4, &[0x0A, 0x0B, 0x0C, 0x0D, 0x0E, 0x01]),
    ]
}

/// Six chassis at a time, of which no two are one.
fn crowds() -> Vec<[Id; 6]> {
    much_alike().into_iter().chain([one_octet_apart()]).collect()
}

#[test]
fn chassis_that_are_much_alike_are_counted_apart() {
    for crowd in crowds() {
        for one in &crowd {
            for other in crowd.iter().filter(|other| *other != one) {
                let both = [one, other].into_iter();
                let of_both = both.flat_map(|of| [1, 2, 3].map(|number| (3, framed(of, number))));
                let mut watch = Watch::hearing(of_both);
                for third in &crowd {
                    let due = if third == one || third == other { 13 } else { 7 };
                    watch.refuses(due, |watch| watch.frame(3, &framed(third, 4)).err());
                }
            }
        }
    }
}

/// Where four or more stand: at the first places, at the last ones, and far apart.
fn rows_of_places() -> [[usize; 6]; 4] {
    [
        [0, 1, 2, 3, 4, 5],
        [LAST_PLACE, LAST_PLACE - 1, LAST_PLACE - 2, LAST_PLACE - 3, LAST_PLACE - 4, 0],
        [0, LAST_PLACE, 9, 17, 2, 20],
        [1, 5, 12, PLACES / 2 + 1, 3, LAST_PLACE],
    ]
}

/// Three are fit, and a fourth gets 13; four, five and six are not fit (N5 g), on any port and at any
/// places.
#[test]
fn no_chassis_may_hold_four_on_a_port() {
    for port in 0..PORTS {
        for row in rows_of_places() {
            let mut watch = Watch::started();
            for (place, number) in row.into_iter().zip(1..) {
                write(&mut watch, place, port as u8, &one_of(1, number)[14..]);
                match number {
                    1 | 2 => assert!(watch.is_fit()),
                    3 => watch.refuses(13, |watch| watch.frame(port, &one_of(1, 4)).err()),
                    _ => watch.is_unfit(),
                }
            }
            assert_eq!(watch.start(), Ok(()));
            assert_eq!(watch, Watch::started());
        }
    }
}

/// Of four that are not fit any one is of another port or of another chassis: the table is fit.
#[test]
fn three_and_one_are_fit() {
    for crowd in crowds() {
        for [one, other] in [[&crowd[0], &crowd[1]], [&crowd[3], &crowd[2]], [&crowd[5], &crowd[4]]]
        {
            for row in rows_of_places() {
                for odd in 0..4 {
                    let mut watch = Watch::started();
                    for (&place, number) in row[..4].iter().zip(1..) {
                        write(&mut watch, place, 2, &numbered(one, number));
                    }
                    watch.is_unfit();
                    let place = row[odd];
                    watch.table.port[place] = 1;
                    assert!(watch.is_fit());
                    assert_eq!([1, 2].map(|port| watch.holds(port)), [Ok(1), Ok(3)]);
                    watch.buffer[1500 * place..][..1500].fill(0);
                    write(&mut watch, place, 2, &numbered(other, 4));
                    assert!(watch.is_fit());
                    assert_eq!(watch.holds(2), Ok(4));
                }
            }
        }
    }
}

/// All places are used, those of a port lie far apart, and all chassis have the same last octet.
#[test]
fn the_last_octet_is_no_chassis() {
    let chassis = |place: usize| id(4, &[0x02, place as u8, 0x00, 0x00, 0x00, 0x09]);
    let mut watch = Watch::started();
    for place in 0..PLACES {
        write(&mut watch, place, (place % PORTS) as u8, &numbered(&chassis(place), 1));
    }
    for port in 0..PORTS {
        assert_eq!(watch.holds(port), Ok(4));
        watch.refuses(8, |watch| watch.frame(port, &framed(&chassis(port), 4)).err());
    }
    // Port 1 has one chassis twice, three times, and then four times.
    for number in [1, 2, 3] {
        assert!(watch.is_fit());
        let place = 1 + usize::from(number) * PORTS;
        write(&mut watch, place, 1, &numbered(&chassis(1), 1 + number));
    }
    watch.is_unfit();
}
