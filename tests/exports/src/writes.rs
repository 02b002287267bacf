//! Descriptions for write: stored ones of the twin, and such as are broken at each rule (W1 to W7).
//! Presences and counts of any number, parts at the edge of the text, rooms near the need.

use twin::announcements::cases;
use twin::rng::Rng;
use twin::writer::write;

use crate::bench::Bench;
use crate::damage;
use crate::described::{from_octets, to_octets, MANAGEMENT_COUNT, PARTS, PRESENCES};
use crate::exports::Export;
use crate::sizes::{DESCRIPTION_OCTETS, WRITTEN_OCTETS};

const STORED: u64 = 0x4445_5343_5249;
const PRESENT: u64 = 0x5052_4553_454E;
const EDGES: u64 = 0x4544_4745_5300;
const FAR: u64 = 0x4641_5253_5445;
const DAMAGED: u64 = 0x4252_4F4B_454E;

/// How many descriptions get each presence, how many get their parts moved, how many stand far
/// behind in their text, and how many are damaged.
const PRESENCE_ROUNDS: usize = 6;
const EDGE_ROUNDS: usize = 400;
const FAR_ROUNDS: usize = 300;
const DAMAGED_ROUNDS: usize = 24_000;

/// A description and its text. Where it is written, the LLDPDU has so many octets.
struct Base {
    description: Vec<u8>,
    text: Vec<u8>,
    room: usize,
    written: Option<usize>,
}

/// Runs the cases, and gives back the descriptions that are written, each with its text.
pub fn run(bench: &mut Bench) -> Vec<(Vec<u8>, Vec<u8>)> {
    let bases: Vec<Base> = cases().into_iter().map(base).collect();
    let sound: Vec<&Base> = bases.iter().filter(|base| base.written.is_some()).collect();
    let mut rng = bench.section("stored descriptions", STORED);
    for base in &bases {
        in_room(bench, &mut rng, &base.description, &base.text, base.room);
        in_every_room(bench, &mut rng, &base.description, &base.text);
        for room in [65_535, 65_536, 70_000] {
            if rng.once_in(20) {
                in_room(bench, &mut rng, &base.description, &base.text, room);
            }
        }
    }
    let mut rng = bench.section("every presence and every count", PRESENT);
    // Mostly descriptions in which all is present, and so right but for the presence.
    let all_present = |base: &&&Base| PRESENCES.iter().all(|&at| base.description[at] == 1);
    let full: Vec<&Base> = sound.iter().filter(all_present).copied().collect();
    for round in 0..PRESENCE_ROUNDS {
        let among = if round % 3 == 0 { &sound } else { &full };
        let base = among[rng.below(among.len())];
        for at in PRESENCES.into_iter().chain([MANAGEMENT_COUNT]) {
            for octet in 0..=255 {
                let mut description = base.description.clone();
                description[at] = octet;
                in_room(bench, &mut rng, &description, &base.text, 1_600);
            }
        }
    }
    let mut rng = bench.section("parts at the edge of the text", EDGES);
    // In half of them every part is looked at.
    let has_four = |base: &&&Base| base.description[MANAGEMENT_COUNT] == 4;
    let every_part: Vec<&Base> = full.iter().filter(has_four).copied().collect();
    for round in 0..EDGE_ROUNDS {
        let among = if round % 2 == 0 { &sound } else { &every_part };
        let base = among[rng.below(among.len())];
        for at in PARTS {
            at_the_edge(bench, &mut rng, base, at);
        }
    }
    let mut rng = bench.section("parts far behind in the text", FAR);
    for _ in 0..FAR_ROUNDS {
        let base = sound[rng.below(sound.len())];
        far_behind(bench, &mut rng, base);
    }
    let mut rng = bench.section("damaged descriptions", DAMAGED);
    for round in 0..DAMAGED_ROUNDS {
        let base = match round % 4 {
            0 => &bases[rng.below(bases.len())],
            _ => sound[rng.below(sound.len())],
        };
        let (mut description, mut text) = (base.description.clone(), base.text.clone());
        for _ in 0..rng.between(1, 3) {
            damage(&mut rng, &mut description, &mut text);
        }
        near_the_need(bench, &mut rng, &description, &text);
    }
    sound.iter().map(|base| (base.description.clone(), base.text.clone())).collect()
}

/// Numbers that two octets cannot hold become the largest that they can.
fn base(case: twin::announcements::Case) -> Base {
    let description = to_octets(&case.description);
    let written = need(&description, &case.text);
    Base { description, text: case.text, room: case.room, written }
}

/// How many octets are written where there is room; none where a rule is broken.
fn need(description: &[u8], text: &[u8]) -> Option<usize> {
    Some(write(&from_octets(description)?, text, usize::MAX).ok()?.len())
}

fn in_room(bench: &mut Bench, rng: &mut Rng, description: &[u8], text: &[u8], room: usize) {
    let output = rng.octets(room);
    let answer = rng.octets(WRITTEN_OCTETS);
    bench.compare(Export::Write, &mut [description.to_vec(), text.to_vec(), output, answer], 0);
}

/// Too short by one, exactly long enough, longer, and none at all.
fn in_every_room(bench: &mut Bench, rng: &mut Rng, description: &[u8], text: &[u8]) {
    let need = need(description, text).unwrap_or(40);
    for room in [need - 1, need, need + 1, 0, 1_499, 1_500, 1_501] {
        in_room(bench, rng, description, text, room);
    }
}

fn near_the_need(bench: &mut Bench, rng: &mut Rng, description: &[u8], text: &[u8]) {
    let need = need(description, text).unwrap_or(40);
    let room = rng.pick(&[need - 1, need, need, need + 1, need / 2, 1_500, 1_600]);
    in_room(bench, rng, description, text, room);
}

/// A part ends where the text does, or an octet behind it, or begins there, or is far away (W7).
fn at_the_edge(bench: &mut Bench, rng: &mut Rng, base: &Base, at: usize) {
    let end = base.text.len().min(65_535);
    let length =
        usize::from(u16::from_be_bytes([base.description[at + 2], base.description[at + 3]]));
    let fits = end.saturating_sub(length);
    let wraps = 65_536 - length.max(1);
    let parts = [
        (fits, length),
        (fits + 1, length),
        (end, 0),
        (end + 1, 0),
        (0, end),
        (0, end + 1),
        (wraps, length),
        (65_535, 65_535),
        (0, 0),
    ];
    for (start, length) in parts {
        let [start, length] = [start, length].map(|number| number.min(65_535) as u16);
        let mut description = base.description.clone();
        description[at..at + 2].copy_from_slice(&start.to_be_bytes());
        description[at + 2..at + 4].copy_from_slice(&length.to_be_bytes());
        near_the_need(bench, rng, &description, &base.text);
    }
}

/// So many octets more stand before the text, up to as many as the last part can begin behind.
fn far_behind(bench: &mut Bench, rng: &mut Rng, base: &Base) {
    let start = |at: usize| u16::from_be_bytes([base.description[at], base.description[at + 1]]);
    let last = PARTS.into_iter().map(start).max().unwrap_or(0);
    let most = u16::MAX - last;
    let more = rng.pick(&[most, most, 32_768, 256]).min(most);
    let mut description = base.description.clone();
    for at in PARTS {
        description[at..at + 2].copy_from_slice(&(start(at) + more).to_be_bytes());
    }
    let before = rng.octets(usize::from(more));
    // The text may end where the last part does, or be longer than two octets can tell.
    let behind = rng.pick(&[0, 1, 70_000]);
    let mut text = [before, base.text.clone()].concat();
    text.resize(text.len() + behind, rng.octet());
    near_the_need(bench, rng, &description, &text);
}

/// One thing is broken, or changed in a way that breaks nothing.
fn damage(rng: &mut Rng, description: &mut [u8], text: &mut Vec<u8>) {
    let part = rng.pick(&PARTS);
    let length = text.len();
    match rng.below(14) {
        0 => description[rng.below(DESCRIPTION_OCTETS)] = rng.octet(),
        1 => description[rng.below(DESCRIPTION_OCTETS)] ^= 1 << rng.below(8),
        2 => damage::octet(rng, text),
        3 => drop(text.pop()),
        4 => text.extend(rng.octets(9)),
        // Other octets of the text, and mostly another number of them.
        5 | 6 => {
            let start = rng.below(length + 1);
            let most = (length - start).min(rng.pick(&[7, 36, 260, 600]));
            let octets = rng.below(most + 1) as u16;
            description[part..part + 2].copy_from_slice(&(start as u16).to_be_bytes());
            description[part + 2..part + 4].copy_from_slice(&octets.to_be_bytes());
        }
        // A length at the edge of what some rule allows.
        7 => {
            let octets = rng.pick(&[0u16, 1, 4, 5, 6, 7, 8, 9, 31, 32, 64, 65, 167, 168, 255, 256]);
            description[part + 2..part + 4].copy_from_slice(&octets.to_be_bytes());
        }
        8 => {
            let seconds = rng.pick(&[0u16, 0, 1, 256, 65_535]);
            description[10..12].copy_from_slice(&seconds.to_be_bytes());
        }
        // What stands behind a presence of 0 or behind the count is not looked at (X5).
        9 => {
            for (at, behind) in PRESENCES.into_iter().zip([12, 4, 4, 4]) {
                if description[at] == 0 {
                    description[at + 1..=at + behind].copy_from_slice(&rng.octets(behind));
                }
            }
            let count = usize::from(description[MANAGEMENT_COUNT]).min(4);
            let unused = MANAGEMENT_COUNT + 1 + 4 * count;
            let octets = rng.octets(DESCRIPTION_OCTETS - unused);
            description[unused..].copy_from_slice(&octets);
        }
        10 => description[rng.pick(&[0, 5])] = rng.pick(&[0, 1, 4, 5, 7, 8, 132]),
        11 => description[rng.pick(&PRESENCES)] = rng.pick(&[0, 0, 0, 1, 2, 128, 255]),
        12 if rng.once_in(8) => text.clear(),
        _ => description[MANAGEMENT_COUNT] = rng.pick(&[0, 1, 2, 3, 4, 5, 6, 255]),
    }
}
