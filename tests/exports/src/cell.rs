//! A cell: the table's five slices as octets, the six calls on them, and two cells compared.
//! Each call is compared with the twin's, and the slices are then what the export left.

use twin::reader::{Address, Refusal};
use twin::rng::Rng;
use twin::table::{BUFFER_OCTETS, PLACE_OCTETS};

use crate::bench::Bench;
use crate::due::{BUFFER, LIST};
use crate::exports::Export;
use crate::octets::number;
use crate::sizes::*;

/// How many octets of each slice a place has (X3).
const WIDTHS: [usize; 5] = [1, 2, 2, ADDRESS_OCTETS, PLACE_OCTETS];

#[derive(Clone)]
pub struct Cell {
    pub slices: Vec<Vec<u8>>,
}

/// One of the six calls.
#[derive(Clone, Debug)]
pub enum Call {
    Start,
    Frame { port: usize, frame: Vec<u8> },
    Seconds(usize),
    Lost { port: usize },
    HowMany { port: usize },
    WhoSees { address: Address, start: usize },
}

impl Cell {
    /// All places are free (N4).
    pub fn new() -> Cell {
        let octets = [PORTS_OCTETS, NUMBERS_OCTETS, NUMBERS_OCTETS, SENDERS_OCTETS, BUFFER_OCTETS];
        Cell { slices: octets.map(|octets| vec![0; octets]).to_vec() }
    }

    /// The call, and its refusal number.
    pub fn call(&mut self, bench: &mut Bench, rng: &mut Rng, call: &Call) -> Refusal {
        let (export, number, behind) = match *call {
            Call::Start => (Export::Start, 0, vec![]),
            Call::Frame { port, ref frame } => {
                (Export::FrameOnPort, port, vec![frame.clone(), rng.octets(REPLY_OCTETS)])
            }
            Call::Seconds(seconds) => (Export::SecondsPassed, seconds, vec![]),
            Call::Lost { port } => (Export::LinkLost, port, vec![]),
            Call::HowMany { port } => (Export::HowMany, port, vec![rng.octets(COUNT_OCTETS)]),
            Call::WhoSees { address, start } => {
                (Export::WhoSees, start, vec![address.to_vec(), rng.octets(SIGHT_OCTETS)])
            }
        };
        self.slices.extend(behind);
        let refusal = bench.compare(export, &mut self.slices, number);
        self.slices.truncate(BUFFER + 1);
        refusal
    }

    /// Each call on the same slices, so that one that should be refused and is not spoils no other.
    pub fn try_each(&self, bench: &mut Bench, rng: &mut Rng, calls: &[Call]) {
        for call in calls {
            self.clone().call(bench, rng, call);
        }
    }

    /// What changed from this cell to the second, in a list of so many octets. Gives back how many
    /// octets the entries have, where it was not refused.
    pub fn compare(
        &self,
        bench: &mut Bench,
        rng: &mut Rng,
        second: &Cell,
        list: usize,
    ) -> Option<usize> {
        let written = [list, COMPARED_OCTETS].map(|octets| rng.octets(octets));
        let mut slices = [&self.slices, &second.slices, &written[..]].concat();
        let refusal = bench.compare(Export::Compare, &mut slices, 0);
        (refusal == 0).then(|| ENTRY_OCTETS * usize::from(number(&slices[LIST + 1])))
    }

    /// Copies a place to another one, whole.
    pub fn copy_place(&mut self, from: usize, to: usize) {
        for (slice, width) in self.slices.iter_mut().zip(WIDTHS) {
            slice.copy_within(width * from..width * (from + 1), width * to);
        }
    }

    /// The same records in other places: each place has what that one of the list had.
    pub fn moved(&self, places: &[usize]) -> Cell {
        let mut cell = self.clone();
        for ((slice, from), width) in cell.slices.iter_mut().zip(&self.slices).zip(WIDTHS) {
            let octets = places.iter().flat_map(|place| &from[width * place..][..width]);
            *slice = octets.copied().collect();
        }
        cell
    }
}
