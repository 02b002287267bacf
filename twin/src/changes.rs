//! What changed between two looks: the records of two tables are held against each other, identity by
//! identity (D1 to D4). Neither table is changed.

use crate::capture::{record_text, replayed, shown, Answer};
use crate::reader::{Address, Refusal};
use crate::table::{Identity, Table};

/// The list has fewer octets than the entries (D4).
const LIST_TOO_SHORT: Refusal = 14;

/// A look: a table with the buffer that is lent to it.
#[derive(Clone, Copy, Debug)]
pub struct Look<'t> {
    pub table: &'t Table,
    pub buffer: &'t [u8],
}

/// What became of an identity (D1), with the places of its records in the first and in the second
/// table.
#[derive(Clone, Copy, Debug, PartialEq, Eq)]
pub enum Change {
    Left { first: usize },
    Joined { second: usize },
    Seconds { first: usize, second: usize },
    Altered { first: usize, second: usize },
}

impl Change {
    /// The kind, then the place that it names (D1, D3).
    pub fn entry(self) -> [u8; 2] {
        let (kind, place) = match self {
            Change::Left { first } => (1, first),
            Change::Joined { second } => (2, second),
            Change::Seconds { second, .. } => (3, second),
            Change::Altered { second, .. } => (4, second),
        };
        [kind, place as u8]
    }
}

/// Puts the entries at the front of the list and answers how many there are (D3); or 1, or 14, and the
/// list is as it was (D4).
pub fn compare(first: Look, second: Look, list: &mut [u8]) -> Result<usize, Refusal> {
    let changes = changes(first, second)?;
    let entries: Vec<u8> = changes.iter().flat_map(|change| change.entry()).collect();
    let front = list.get_mut(..entries.len()).ok_or(LIST_TOO_SHORT)?;
    front.copy_from_slice(&entries);
    Ok(changes.len())
}

/// The changes in the order of D2, or 1 where one of the tables is not fit (D4).
pub fn changes(first: Look, second: Look) -> Result<Vec<Change>, Refusal> {
    let [in_first, in_second] = [records(first)?, records(second)?];
    let mut changes = Vec::new();
    for record in &in_first {
        let first = record.place;
        match known(&in_second, record) {
            None => changes.push(Change::Left { first }),
            Some(other) if record.octets != other.octets || record.sender != other.sender => {
                changes.push(Change::Altered { first, second: other.place });
            }
            Some(other) if record.seconds != other.seconds => {
                changes.push(Change::Seconds { first, second: other.place });
            }
            Some(_) => {}
        }
    }
    for record in &in_second {
        if known(&in_first, record).is_none() {
            changes.push(Change::Joined { second: record.place });
        }
    }
    Ok(changes)
}

/// What a used place has.
struct Record<'t> {
    place: usize,
    identity: Identity,
    seconds: u16,
    octets: &'t [u8],
    sender: Address,
}

/// The records of a table, in the order of its places; 1 where it is not fit.
fn records<'t>(Look { table, buffer }: Look<'t>) -> Result<Vec<Record<'t>>, Refusal> {
    table.judge(buffer)?;
    let record = |place| -> Option<Record<'t>> {
        Some(Record {
            place,
            identity: table.identity(buffer, place)?,
            seconds: table.seconds[place],
            octets: table.lldpdu(buffer, place)?,
            sender: table.sender[place],
        })
    };
    // In a fit table each used place has a record.
    Ok(table.used().filter_map(record).collect())
}

/// The one of these that has the identity of the record.
fn known<'r, 't>(records: &'r [Record<'t>], record: &Record) -> Option<&'r Record<'t>> {
    records.iter().find(|other| other.identity == record.identity)
}

/// The changes program on a file: what changed between the tables of two limits (J4).
pub fn changes_text(file: &[u8], port: usize, limits: [u64; 2]) -> String {
    let replays = limits.map(|limit| replayed(file, port, limit));
    for (answer, table, buffer) in &replays {
        if let Answer::Refused(_) = answer {
            return shown(*answer, table, buffer);
        }
    }
    let [first, second] = replays.each_ref().map(|(_, table, buffer)| Look { table, buffer });
    let changes = changes(first, second).expect("a replay leaves a fit table");
    changes.into_iter().map(|change| line_of(change, first, second)).collect()
}

/// The word, then the record at the named place with its seconds in both tables (J4).
fn line_of(change: Change, first: Look, second: Look) -> String {
    let [in_first, in_second] =
        [first, second].map(|look| move |place: usize| look.table.seconds[place]);
    let both = |one, other| format!("{} {}", in_first(one), in_second(other));
    let (word, seconds, look, place) = match change {
        Change::Left { first: one } => ("left", format!("{} -", in_first(one)), first, one),
        Change::Joined { second: one } => ("joined", format!("- {}", in_second(one)), second, one),
        Change::Seconds { first: one, second: other } => {
            ("seconds", both(one, other), second, other)
        }
        Change::Altered { first: one, second: other } => {
            ("altered", both(one, other), second, other)
        }
    };
    format!("{word} {}", record_text(look.table, look.buffer, place, &seconds))
}
