//! Tables that are not fit, or just so (N5), and each call on them: one octet of a table that calls
//! reached is another one, places are copied, buffers have other lengths, or all octets are any.

use twin::rng::Rng;
use twin::table::{octets_of, BUFFER_OCTETS, PLACES, PLACE_OCTETS, PORTS};

use crate::agents::{address, any_frame};
use crate::bench::Bench;
use crate::cell::{Call, Cell};
use crate::due::BUFFER;
use crate::looks::any_list;
use crate::octets::table_of;
use crate::sequences::{any_port, any_seconds, any_start};

const ONE_OCTET: u64 = 0x4F43_5445_5400;
const COPIES: u64 = 0x434F_5049_4553;
const LENGTHS: u64 = 0x4C45_4E47_5448;
const ANY: u64 = 0x414E_5953_4C49;

/// How many tables are made of each kind.
const ONE_OCTET_TABLES: usize = 2_600;
const COPIED_TABLES: usize = 600;
const ANY_TABLES: usize = 300;

/// Buffers that are no table's; the last is right but for 65,536 octets.
const WRONG_LENGTHS: [usize; 10] = [
    0,
    1,
    PLACE_OCTETS,
    BUFFER_OCTETS / 2,
    BUFFER_OCTETS - PLACE_OCTETS,
    BUFFER_OCTETS - 1,
    BUFFER_OCTETS + 1,
    BUFFER_OCTETS + PLACE_OCTETS,
    65_535,
    BUFFER_OCTETS + 65_536,
];

pub fn run(bench: &mut Bench, reached: &[Cell], stock: &[Vec<u8>]) {
    let mut rng = bench.section("one octet of a table is another", ONE_OCTET);
    for _ in 0..ONE_OCTET_TABLES {
        let mut cell = reached[rng.below(reached.len())].clone();
        one_octet(&mut rng, &mut cell);
        each_call(bench, &mut rng, &cell, reached, stock);
    }
    let mut rng = bench.section("places that are copied", COPIES);
    for _ in 0..COPIED_TABLES {
        let mut cell = reached[rng.below(reached.len())].clone();
        copy(&mut rng, &mut cell);
        each_call(bench, &mut rng, &cell, reached, stock);
    }
    let mut rng = bench.section("buffers of other lengths", LENGTHS);
    for cell in reached.iter().step_by(6) {
        for length in WRONG_LENGTHS {
            let mut cell = cell.clone();
            let fill = rng.pick(&[0, 0, 1]);
            cell.slices[BUFFER].resize(length, fill);
            each_call(bench, &mut rng, &cell, reached, stock);
        }
    }
    let mut rng = bench.section("tables of any octets", ANY);
    for round in 0..ANY_TABLES {
        let mut cell = reached[rng.below(reached.len())].clone();
        // All slices, or one of them, and any octets or the same ones.
        let alone = rng.below(2 * cell.slices.len());
        let octet = rng.pick(&[0, 1, 2, 0xFF]);
        for (i, slice) in cell.slices.iter_mut().enumerate() {
            if i == alone || alone > BUFFER {
                let any = rng.octets(slice.len());
                *slice = if round % 2 == 0 { any } else { vec![octet; slice.len()] };
            }
        }
        each_call(bench, &mut rng, &cell, reached, stock);
    }
}

fn each_call(bench: &mut Bench, rng: &mut Rng, cell: &Cell, reached: &[Cell], stock: &[Vec<u8>]) {
    let calls = [
        Call::Frame { port: any_port(rng), frame: any_frame(rng, stock) },
        Call::Seconds(any_seconds(rng)),
        Call::Lost { port: any_port(rng) },
        Call::HowMany { port: any_port(rng) },
        Call::WhoSees { address: address(rng), start: any_start(rng) },
        Call::Start,
    ];
    cell.try_each(bench, rng, &calls);
    // Beside a fit table, as the first and as the second; 1 goes before 14 (D4).
    let other = &reached[rng.below(reached.len())];
    for (first, second) in [(cell, other), (other, cell)] {
        let list = any_list(rng);
        first.compare(bench, rng, second, list);
    }
}

/// The place of the octet, in any of the slices; in the buffer mostly one that an LLDPDU has.
fn one_octet(rng: &mut Rng, cell: &mut Cell) {
    let used: Vec<usize> = table_of(&cell.slices).used().collect();
    let slice = rng.pick(&[0, 1, 2, 3, BUFFER, BUFFER, BUFFER]);
    let length = cell.slices[slice].len();
    let at = match (slice, used.is_empty() || rng.once_in(4)) {
        (_, true) => rng.below(length),
        (BUFFER, _) => {
            let place = rng.pick(&used);
            let length = usize::from(table_of(&cell.slices).length[place]);
            let some = rng.below(length);
            octets_of(place).start + rng.pick(&[some, some, length.min(PLACE_OCTETS - 1)])
        }
        // A number or a sender of a used place.
        _ => {
            let width = length / PLACES;
            width * rng.pick(&used) + rng.below(width)
        }
    };
    let octet = &mut cell.slices[slice][at];
    *octet = match rng.below(5) {
        0 => *octet ^ 1 << rng.below(8),
        1 => rng.octet(),
        2 => octet.wrapping_add(1),
        3 => octet.wrapping_sub(1),
        _ => rng.pick(&[0, 1, PORTS as u8 - 1, PORTS as u8, 0xFF]),
    };
}

/// A used place is copied to another one, whole, and mostly to another port: an identity may be
/// twice, a port may hold seven, the common places may be too few, a chassis may hold four.
fn copy(rng: &mut Rng, cell: &mut Cell) {
    let used: Vec<usize> = table_of(&cell.slices).used().collect();
    if used.is_empty() {
        return;
    }
    for _ in 0..rng.pick(&[1, 1, 2, 5]) {
        let (from, to) = (rng.pick(&used), rng.below(PLACES));
        cell.copy_place(from, to);
        match rng.below(4) {
            0 => {}
            1 => cell.slices[0][to] = rng.pick(&[0, 1, 2]),
            2 => cell.slices[0][to] = rng.below(PORTS) as u8,
            // An octet of the port ID is another one: a new identity, and maybe a loud chassis.
            _ => {
                let port_id = behind_chassis(&cell.slices[BUFFER][octets_of(to)]);
                cell.slices[BUFFER][octets_of(to).start + port_id + 3] ^= 0x40;
            }
        }
    }
}

/// Where the TLV of the port ID begins in a place.
fn behind_chassis(octets: &[u8]) -> usize {
    2 + usize::from(octets[1])
}
