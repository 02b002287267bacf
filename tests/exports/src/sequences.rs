//! Long sequences of calls on a table of octets, from empty and from full tables.
//! Ports, starts and seconds are numbers of any size (X6).

use twin::rng::Rng;
use twin::table::{PLACES, PORTS};

use crate::agents::{address, any_frame, frame};
use crate::bench::Bench;
use crate::cell::{Call, Cell};

const SEED: u64 = 0x5345_5155_454E;

const SEQUENCES: usize = 60;
const CALLS: usize = 420;

/// Numbers that are no port, some of which have one as their low bits (R2).
const NO_PORTS: [usize; 9] = [10, 11, 12, 255, 256, 65_536 + 3, 1 << 32, (1 << 63) + 1, usize::MAX];

const SECONDS: [usize; 9] = [0, 1, 119, 120, 65_534, 65_535, 65_536, 1 << 32, usize::MAX];

/// Runs the sequences, and gives back tables that they reached.
pub fn run(bench: &mut Bench, stock: &[Vec<u8>]) -> Vec<Cell> {
    let mut rng = bench.section("sequences of calls", SEED);
    let mut reached = vec![];
    for sequence in 0..SEQUENCES {
        let mut cell = Cell::new();
        // What the slices have before a start does not matter (N6).
        for slice in &mut cell.slices {
            *slice = rng.octets(slice.len());
        }
        cell.call(bench, &mut rng, &Call::HowMany { port: 0 });
        cell.call(bench, &mut rng, &Call::Start);
        match sequence % 4 {
            1 => fill(bench, &mut rng, &mut cell, 0),
            2 => fill_ports(bench, &mut rng, &mut cell),
            _ => {}
        }
        reached.push(cell.clone());
        // From one port up to all of them.
        let ports = 1 + sequence % PORTS;
        for i in 1..=CALLS {
            let call = any_call(&mut rng, ports, stock);
            cell.call(bench, &mut rng, &call);
            if i % (CALLS / 2) == 0 {
                reached.push(cell.clone());
            }
        }
    }
    reached
}

/// All places are used, four on each port, of two chassis from this one on.
pub fn fill(bench: &mut Bench, rng: &mut Rng, cell: &mut Cell, chassis: usize) {
    for place in 0..PLACES {
        let (port, number) = (place % PORTS, place / PORTS);
        let frame = frame(rng, chassis + number / 3 + port, number, 65_535);
        cell.call(bench, rng, &Call::Frame { port, frame });
    }
}

/// Half of the ports hold six, and the others get two each (N12).
fn fill_ports(bench: &mut Bench, rng: &mut Rng, cell: &mut Cell) {
    for port in 0..PORTS {
        let most = if port < PORTS / 2 { 6 } else { 2 };
        for number in 0..most {
            let frame = frame(rng, number / 3 + port, number, 9_000);
            cell.call(bench, rng, &Call::Frame { port, frame });
        }
    }
}

/// Any of the six calls, mostly on the first so many ports.
pub fn any_call(rng: &mut Rng, ports: usize, stock: &[Vec<u8>]) -> Call {
    let no_port = rng.pick(&NO_PORTS);
    let port = if rng.once_in(25) { no_port } else { rng.below(ports) };
    match rng.below(200) {
        0 => Call::Start,
        1..=4 => Call::Lost { port },
        5..=6 => Call::Seconds(rng.pick(&SECONDS)),
        7..=20 => Call::Seconds(rng.pick(&[0, 1, 1, 2])),
        21..=50 => Call::HowMany { port },
        51..=80 => Call::WhoSees { address: address(rng), start: any_start(rng) },
        _ => Call::Frame { port, frame: any_frame(rng, stock) },
    }
}

pub fn any_start(rng: &mut Rng) -> usize {
    let far = rng.pick(&[255, 256, 65_536, 1 << 32, usize::MAX]);
    match rng.below(8) {
        0 => far,
        1..=4 => rng.below(4),
        _ => rng.between(0, PLACES + 5),
    }
}

pub fn any_seconds(rng: &mut Rng) -> usize {
    rng.pick(&SECONDS)
}

pub fn any_port(rng: &mut Rng) -> usize {
    let no_port = rng.pick(&NO_PORTS);
    if rng.once_in(5) {
        no_port
    } else {
        rng.below(PORTS)
    }
}
