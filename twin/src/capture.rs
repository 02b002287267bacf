//! The replay of a capture: its frames are put on one port, with the time that passed between them.
//! The file is held whole here. A program that is fed pieces must answer the same (C9).

use crate::id::Id;
use crate::numbers::LOCAL;
use crate::reader::Refusal;
use crate::table::{Table, BUFFER_OCTETS, UNFIT};

/// Other magic, other link type, or no whole file header (C2).
const NO_CAPTURE: Refusal = 11;
/// The file ends inside a record (C7).
const TORN: Refusal = 12;

const FILE_HEADER: usize = 24;
const RECORD_HEADER: usize = 16;
const ETHERNET: u32 = 1;
const MOST_SECONDS: u32 = 65_535;

/// A limit that no file reaches.
pub const ALL: u64 = u64::MAX;

/// What the replay answers: how many frames it handed over (C6), or a refusal (C8).
#[derive(Clone, Copy, Debug, PartialEq, Eq)]
pub enum Answer {
    Handed(u64),
    Refused(Refusal),
}

/// Puts the frames of a file on a port until the limit is reached (C1 to C8).
pub fn replay(
    table: &mut Table,
    buffer: &mut [u8],
    port: usize,
    limit: u64,
    file: &[u8],
) -> Answer {
    replay_beside(table, buffer, port, limit, file, |_, _, _| {})
}

/// The same while somebody else looks on. He is told of each record when its last octet is there and
/// its calls are not made yet, and he may write to the buffer (C9).
pub(crate) fn replay_beside(
    table: &mut Table,
    buffer: &mut [u8],
    port: usize,
    limit: u64,
    file: &[u8],
    beside: impl FnMut(&Record, &Table, &mut [u8]),
) -> Answer {
    match hand_over(table, buffer, port, limit, file, beside) {
        Ok(handed) => Answer::Handed(handed),
        Err(number) => Answer::Refused(number),
    }
}

/// Refusals come in the order of C8: with 1, 2 and 11 no call that changes anything has been made.
fn hand_over(
    table: &mut Table,
    buffer: &mut [u8],
    port: usize,
    limit: u64,
    file: &[u8],
    mut beside: impl FnMut(&Record, &Table, &mut [u8]),
) -> Result<u64, Refusal> {
    // A question about the port gets 1, then 2 (N10).
    table.how_many(buffer, port)?;
    let mut records = Records::of(file)?;
    let mut handed = 0;
    while handed < limit {
        let Some(record) = records.next()? else {
            break;
        };
        beside(&record, table, buffer);
        table.seconds_passed(buffer, record.seconds)?;
        if let Some(frame) = record.frame() {
            // A frame that the table refuses counts like any other (C5).
            if table.frame_on_port(buffer, port, frame) == Err(UNFIT) {
                return Err(UNFIT);
            }
            handed += 1;
        }
    }
    Ok(handed)
}

/// A record whose last octet is there.
#[derive(Clone, Debug, PartialEq, Eq)]
pub(crate) struct Record<'f> {
    pub stamp: u32,
    /// Those that pass before it (C4).
    pub seconds: u16,
    /// As many as its captured length says.
    pub octets: &'f [u8],
    pub original: u32,
    /// How many octets of the file there are up to its end.
    pub end: usize,
}

impl<'f> Record<'f> {
    /// None where it is skipped: not all of the frame was captured (C5).
    pub fn frame(&self) -> Option<&'f [u8]> {
        (self.octets.len() >= self.original as usize).then_some(self.octets)
    }
}

/// The records of a file, taken off its front one by one.
pub(crate) struct Records<'f> {
    /// How the file's numbers are read (C1).
    number: fn([u8; 4]) -> u32,
    file: &'f [u8],
    rest: &'f [u8],
    stamp_before: Option<u32>,
}

impl<'f> Records<'f> {
    /// The file header is judged by its magic and its link type alone (C1, C2).
    pub fn of(file: &'f [u8]) -> Result<Self, Refusal> {
        let (header, rest) = file.split_first_chunk::<FILE_HEADER>().ok_or(NO_CAPTURE)?;
        // Between them stand version, zone, accuracy and snap length.
        let [magic, _, _, _, _, link_type] = fields(header);
        let number = match magic {
            [0xA1, 0xB2, 0xC3, 0xD4] => u32::from_be_bytes,
            [0xD4, 0xC3, 0xB2, 0xA1] => u32::from_le_bytes,
            _ => return Err(NO_CAPTURE),
        };
        if number(link_type) != ETHERNET {
            return Err(NO_CAPTURE);
        }
        Ok(Records { number, file, rest, stamp_before: None })
    }

    /// The next record; none where the file ends behind the one before (C7).
    pub fn next(&mut self) -> Result<Option<Record<'f>>, Refusal> {
        if self.rest.is_empty() {
            return Ok(None);
        }
        let (header, behind) = self.rest.split_first_chunk::<RECORD_HEADER>().ok_or(TORN)?;
        // The second field is the microseconds.
        let [stamp, _, captured, original] = fields(header).map(self.number);
        let (octets, rest) = behind.split_at_checked(captured as usize).ok_or(TORN)?;
        let seconds = seconds_between(self.stamp_before, stamp);
        self.rest = rest;
        self.stamp_before = Some(stamp);
        Ok(Some(Record { stamp, seconds, octets, original, end: self.file.len() - rest.len() }))
    }
}

/// The fields of a header, four octets each.
fn fields<const FIELDS: usize>(header: &[u8]) -> [[u8; 4]; FIELDS] {
    let (fields, _) = header.as_chunks();
    std::array::from_fn(|i| fields[i])
}

/// None before the first record and where the stamp goes back, and never more than the table takes
/// (C4).
fn seconds_between(before: Option<u32>, stamp: u32) -> u16 {
    let passed = before.map_or(0, |before| stamp.saturating_sub(before));
    passed.min(MOST_SECONDS) as u16
}

/// The replay program on a file (J3).
pub fn replay_text(file: &[u8], port: usize, limit: u64) -> String {
    let (answer, table, buffer) = replayed(file, port, limit);
    shown(answer, &table, &buffer)
}

/// A file on a table that was just started: the answer, the table and its buffer.
pub(crate) fn replayed(file: &[u8], port: usize, limit: u64) -> (Answer, Table, Vec<u8>) {
    let mut table = Table::default();
    let mut buffer = vec![0; BUFFER_OCTETS];
    table.start(&mut buffer).expect("the buffer has its length");
    let answer = replay(&mut table, &mut buffer, port, limit, file);
    (answer, table, buffer)
}

/// A line for each used place, or the refusal alone (J3).
pub fn shown(answer: Answer, table: &Table, buffer: &[u8]) -> String {
    match answer {
        Answer::Handed(_) => {
            let line = |place| record_text(table, buffer, place, &table.seconds[place].to_string());
            table.used().map(line).collect()
        }
        Answer::Refused(number) => format!("refused {number}\n"),
    }
}

/// Port, seconds, chassis, port ID and sender of a record (J3), with this text for the seconds.
pub(crate) fn record_text(table: &Table, buffer: &[u8], place: usize, seconds: &str) -> String {
    let outline = table.outline(buffer, place).expect("a table that is shown is fit");
    format!(
        "{} {seconds} {} {} {} {}\n",
        table.port[place],
        chassis_text(&outline.chassis),
        outline.port.subtype,
        joined(&outline.port.octets),
        joined(&table.sender[place]),
    )
}

/// An address, or the word `local` and the characters as they are (J2).
fn chassis_text(chassis: &Id) -> String {
    match chassis.subtype {
        LOCAL => format!("local {}", String::from_utf8_lossy(&chassis.octets)),
        _ => joined(&chassis.octets),
    }
}

/// Octet by octet, two capital hex digits each, joined by `-` (J2).
pub(crate) fn joined(octets: &[u8]) -> String {
    let digits: Vec<String> = octets.iter().map(|octet| format!("{octet:02X}")).collect();
    digits.join("-")
}

/// A port or a limit as the replay program is given it: decimal digits alone, at least one. One that
/// is too large is a number too, and the greatest stands for it (J3).
pub fn number_of(word: &str) -> Option<u64> {
    let is_number = !word.is_empty() && word.bytes().all(|octet| octet.is_ascii_digit());
    is_number.then(|| word.parse().unwrap_or(u64::MAX))
}
