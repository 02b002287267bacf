//! Two tables that are compared (D1 to D4): looks between which calls were made, any two cells, full
//! tables with no record in common, the twin's stored pairs; in the lists, every length that matters.

use twin::looks::{at_each, pairs};
use twin::rng::Rng;
use twin::table::{PLACES, PORTS};

use crate::bench::Bench;
use crate::cell::Cell;
use crate::octets::octets_of;
use crate::sequences::{any_call, fill};
use crate::sizes::{ENTRY_OCTETS, LIST_OCTETS};

const STORED: u64 = 0x5041_4952_5300;
const HISTORIES: u64 = 0x4C4F_4F4B_5300;
const ANY_TWO: u64 = 0x414E_5954_574F;
const FULL: u64 = 0x4655_4C4C_5300;

/// How many looks have calls behind them and are compared with the look after these, how many cells
/// are compared with any other, and how many pairs of full tables there are.
const HISTORY_ROUNDS: usize = 120;
const ANY_ROUNDS: usize = 250;
const FULL_ROUNDS: usize = 3;

/// Lists that are longer than any entries need; of some the low octets alone say fewer.
const LONG_LISTS: [usize; 5] =
    [LIST_OCTETS, LIST_OCTETS + 1, 256, 65_536, 65_536 + LIST_OCTETS - 1];

pub fn run(bench: &mut Bench, reached: &[Cell], stock: &[Vec<u8>]) {
    let mut rng = bench.section("stored pairs", STORED);
    at_each(&pairs(), |pair, _, first, second| {
        let [first, second] = [first, second].map(|look| {
            let slices = [&octets_of(look.table)[..], &[look.buffer.to_vec()]].concat();
            Cell { slices }
        });
        for &list in &pair.lists {
            first.compare(bench, &mut rng, &second, list);
        }
    });
    let mut rng = bench.section("looks with calls between them", HISTORIES);
    for round in 0..HISTORY_ROUNDS {
        let first = reached[rng.below(reached.len())].clone();
        let mut second = first.clone();
        for _ in 0..rng.pick(&[0, 1, 2, 5, 30]) {
            let call = any_call(&mut rng, PORTS, stock);
            second.call(bench, &mut rng, &call);
        }
        if round % 2 == 0 {
            second = in_other_places(&mut rng, &second);
        }
        in_every_list(bench, &mut rng, &first, &second);
        in_every_list(bench, &mut rng, &second, &first);
        // The numbers of places play no part (D1): no entries, and so a list of no octets will do.
        let moved = in_other_places(&mut rng, &second);
        if second.compare(bench, &mut rng, &moved, 0) != Some(0) {
            bench.differ("records that stand in other places got entries");
        }
    }
    let mut rng = bench.section("any two cells", ANY_TWO);
    for _ in 0..ANY_ROUNDS {
        let [first, second] = [0, 0].map(|_: usize| &reached[rng.below(reached.len())]);
        near_the_need(bench, &mut rng, first, second);
    }
    let mut rng = bench.section("full tables", FULL);
    for _ in 0..FULL_ROUNDS {
        let mut cells = [Cell::new(), Cell::new()];
        // No chassis of a port in the one is one of it in the other.
        for (cell, chassis) in cells.iter_mut().zip([0, 2]) {
            fill(bench, &mut rng, cell, chassis);
        }
        let need = in_every_list(bench, &mut rng, &cells[0], &cells[1]);
        if need != LIST_OCTETS {
            bench.differ(&format!("the longest list was not needed, but {need} octets"));
        }
    }
}

/// The length of a list for tables of any kind: often long enough, or none at all.
pub fn any_list(rng: &mut Rng) -> usize {
    let any = rng.below(LIST_OCTETS);
    rng.pick(&[0, 1, ENTRY_OCTETS, any, LIST_OCTETS, LIST_OCTETS, LIST_OCTETS + 3])
}

fn in_other_places(rng: &mut Rng, cell: &Cell) -> Cell {
    let mut places: Vec<usize> = (0..PLACES).collect();
    rng.shuffle(&mut places);
    cell.moved(&places)
}

/// From none to three octets too many. Both tables are fit. Gives back how many octets are needed.
fn in_every_list(bench: &mut Bench, rng: &mut Rng, first: &Cell, second: &Cell) -> usize {
    let need = near_the_need(bench, rng, first, second);
    for list in 0..need {
        first.compare(bench, rng, second, list);
    }
    need
}

/// Too short by one octet and by an entry, exactly long enough, longer, and none at all.
fn near_the_need(bench: &mut Bench, rng: &mut Rng, first: &Cell, second: &Cell) -> usize {
    let need = first.compare(bench, rng, second, LIST_OCTETS).expect("both tables are fit");
    let short = [0, need.saturating_sub(ENTRY_OCTETS), need.saturating_sub(1)];
    let long = [need, need + 1, need + 2, need + 3, rng.pick(&LONG_LISTS)];
    for list in short.into_iter().chain(long) {
        first.compare(bench, rng, second, list);
    }
    need
}
