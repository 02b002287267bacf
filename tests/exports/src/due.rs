//! What is due: the refusal number of a call and the slices as it leaves them (X2 to X6).
//! The twin reads, writes and keeps the table; its answers are held as octets.

use twin::changes::{compare, Look};
use twin::reader::{read_frame, read_lldpdu, Address, Refusal};
use twin::writer::write;

use crate::described::from_octets;
use crate::exports::Export;
use crate::octets::{described, octets_of, reply_octet, sight, table_of, two, verdict};
use crate::sizes::HEADER_OCTETS;

const UNFIT: Refusal = 1;
const BREAKS_A_RULE: Refusal = 9;

/// The most that two octets can say.
const MOST_COUNTED: usize = 65_535;

/// Where the buffer stands among the table's slices, and what comes behind them.
pub const BUFFER: usize = 4;
const BEHIND_TABLE: usize = 5;

/// Where the list stands among the slices of compare.
pub const LIST: usize = 2 * BEHIND_TABLE;

/// The slices that the call changes, by their numbers. A refusal changes none (X4).
type Changed = Vec<(usize, Vec<u8>)>;

/// What a call answers: a refusal number, or the slices that it changes.
pub fn answer(export: Export, slices: &[Vec<u8>], number: usize) -> Result<Changed, Refusal> {
    let has_right_length = |(slice, octets): ((&str, Option<usize>), &Vec<u8>)| {
        slice.1.is_none_or(|right| right == octets.len())
    };
    // Before all else, whatever the call (X2).
    if !export.slices().into_iter().zip(slices).all(has_right_length) {
        return Err(UNFIT);
    }
    match export {
        Export::Judge => {
            let reading = read_frame(&slices[0])?;
            let description = described(&slices[0][HEADER_OCTETS..], &reading);
            Ok(vec![(1, [&verdict(&reading), &description[..12]].concat())])
        }
        Export::Read => {
            let reading = read_frame(&slices[0])?;
            let description = described(&slices[0][HEADER_OCTETS..], &reading);
            Ok(vec![(1, verdict(&reading).to_vec()), (2, description)])
        }
        Export::ReadLldpdu => {
            // What two octets cannot count is not looked at (X5).
            let looked_at = &slices[0][..slices[0].len().min(MOST_COUNTED)];
            let reading = read_lldpdu(looked_at)?;
            let description = described(looked_at, &reading);
            Ok(vec![(1, verdict(&reading).to_vec()), (2, description)])
        }
        Export::Write => {
            let [description, text, output, _] = slices else { panic!("write takes four slices") };
            let description = from_octets(description).ok_or(BREAKS_A_RULE)?;
            let written = write(&description, text, output.len())?;
            let mut output = output.clone();
            output[..written.len()].copy_from_slice(&written);
            Ok(vec![(2, output), (3, two(written.len()).to_vec())])
        }
        Export::Compare => on_two_tables(slices),
        _ => on_table(export, slices, number),
    }
}

fn on_two_tables(slices: &[Vec<u8>]) -> Result<Changed, Refusal> {
    let (first, behind) = slices.split_at(BEHIND_TABLE);
    let (second, behind) = behind.split_at(BEHIND_TABLE);
    let [first_table, second_table] = [first, second].map(table_of);
    let mut list = behind[0].clone();
    let entries = compare(
        Look { table: &first_table, buffer: &first[BUFFER] },
        Look { table: &second_table, buffer: &second[BUFFER] },
        &mut list,
    )?;
    Ok(vec![(LIST, list), (LIST + 1, two(entries).to_vec())])
}

fn on_table(export: Export, slices: &[Vec<u8>], number: usize) -> Result<Changed, Refusal> {
    let (table, behind) = slices.split_at(BEHIND_TABLE);
    let mut buffer = table[BUFFER].clone();
    let mut table = table_of(table);
    let answer = match export {
        Export::Start => table.start(&mut buffer).map(|()| None)?,
        Export::FrameOnPort => {
            let reply = table.frame_on_port(&mut buffer, number, &behind[0])?;
            Some((BEHIND_TABLE + 1, vec![reply_octet(reply)]))
        }
        Export::SecondsPassed => {
            // More than 65,535 do what 65,535 do (X6).
            let seconds = u16::try_from(number).unwrap_or(u16::MAX);
            table.seconds_passed(&mut buffer, seconds).map(|()| None)?
        }
        Export::LinkLost => table.link_lost(&mut buffer, number).map(|()| None)?,
        Export::HowMany => {
            let held = table.how_many(&buffer, number)?;
            Some((BEHIND_TABLE, vec![u8::try_from(held).expect("a port holds six at most")]))
        }
        Export::WhoSees => {
            let address: Address = behind[0].as_slice().try_into().expect("it has six octets");
            let sighting = table.who_sees(&buffer, address, number)?;
            Some((BEHIND_TABLE + 1, sight(sighting)))
        }
        _ => unreachable!("{export:?} takes no table"),
    };
    let [ports, seconds, lengths, senders] = octets_of(&table);
    let left = [ports, seconds, lengths, senders, buffer].into_iter().enumerate();
    Ok(left.chain(answer).collect())
}
