//! Slices of wrong lengths: each slice with a fixed length, at every length near it and at others.
//! They give 1 whatever the other arguments are, and nothing is touched (X2).

use twin::rng::Rng;
use twin::table::BUFFER_OCTETS;

use crate::agents::{address, any_frame};
use crate::bench::Bench;
use crate::cell::Cell;
use crate::due::{BUFFER, LIST};
use crate::exports::Export;
use crate::looks::any_list;
use crate::sequences::{any_port, any_seconds, any_start};
use crate::sizes::HEADER_OCTETS;

const ONE: u64 = 0x4F4E_454C_454E;
const SEVERAL: u64 = 0x5345_5645_5241;

/// How many calls each export gets with several slices of any length.
const SEVERAL_ROUNDS: usize = 700;

/// Far lengths, on top of the right one: those that are the same in one octet, or in two.
const FAR: [usize; 4] = [256, 512, 65_536, 131_072];

/// Arguments that the wrong lengths are put among.
pub struct Among<'a> {
    pub reached: &'a [Cell],
    pub frames: &'a [Vec<u8>],
    pub descriptions: &'a [(Vec<u8>, Vec<u8>)],
    pub stock: &'a [Vec<u8>],
}

pub fn run(bench: &mut Bench, among: &Among) {
    let mut rng = bench.section("one slice of every length", ONE);
    for export in Export::ALL {
        for (i, (_, right)) in export.slices().into_iter().enumerate() {
            let Some(right) = right else {
                continue;
            };
            let near = (0..=2 * right + 3).chain(0..=2 * right + 3).chain([right; 4]);
            for length in near.chain(FAR.map(|far| right + far)) {
                let (mut slices, number) = arguments(&mut rng, export, among);
                resize(&mut rng, &mut slices[i], length);
                bench.compare(export, &mut slices, number);
            }
        }
    }
    let mut rng = bench.section("several slices of any length", SEVERAL);
    for export in Export::ALL {
        for _ in 0..SEVERAL_ROUNDS {
            let (mut slices, number) = arguments(&mut rng, export, among);
            for (slice, (_, right)) in slices.iter_mut().zip(export.slices()) {
                if rng.once_in(3) {
                    let near = (right.unwrap_or(slice.len()) + rng.between(0, 2)).saturating_sub(1);
                    // Slices that are exchanged have lengths that are right elsewhere.
                    let elsewhere = rng.pick(&[1, 2, 3, 6, 13, 15, 40, 80, 85, 240]);
                    let length = rng.pick(&[near, elsewhere]);
                    resize(&mut rng, slice, length);
                }
            }
            bench.compare(export, &mut slices, number);
        }
    }
}

/// Cut, or with more octets behind.
fn resize(rng: &mut Rng, slice: &mut Vec<u8>, length: usize) {
    let fill = rng.pick(&[0, 0, 1, 0xFF]);
    slice.resize(length, fill);
}

/// The slices of a call and its number. Mostly no refusal is due, and often another one is (X2).
fn arguments(rng: &mut Rng, export: Export, among: &Among) -> (Vec<Vec<u8>>, usize) {
    let frame = among.frames[rng.below(among.frames.len())].clone();
    let lengths = export.slices().into_iter().map(|(_, right)| right.unwrap_or(0));
    let mut slices: Vec<Vec<u8>> = lengths.map(|length| rng.octets(length)).collect();
    match export {
        Export::Judge | Export::Read => slices[0] = frame,
        Export::ReadLldpdu => slices[0] = frame[frame.len().min(HEADER_OCTETS)..].to_vec(),
        Export::Write => {
            let (description, text) = &among.descriptions[rng.below(among.descriptions.len())];
            (slices[0], slices[1]) = (description.clone(), text.clone());
            let room = rng.pick(&[0, 100, 1_500]);
            slices[2] = rng.octets(room);
        }
        _ => {
            // One table, or the two that are compared: no call takes five slices behind its tables.
            for table in slices.chunks_exact_mut(BUFFER + 1) {
                let cell = &among.reached[rng.below(among.reached.len())];
                table.clone_from_slice(&cell.slices);
                // Sometimes a table that is not fit, and then 1 is due for that.
                if rng.once_in(8) {
                    table[BUFFER].resize(BUFFER_OCTETS - 1, 0);
                }
            }
        }
    }
    let number = match export {
        Export::FrameOnPort => {
            slices[BUFFER + 1] = any_frame(rng, among.stock);
            any_port(rng)
        }
        Export::WhoSees => {
            slices[BUFFER + 1] = address(rng).to_vec();
            any_start(rng)
        }
        Export::Compare => {
            let list = any_list(rng);
            slices[LIST] = rng.octets(list);
            0
        }
        Export::SecondsPassed => any_seconds(rng),
        _ => any_port(rng),
    };
    (slices, number)
}
