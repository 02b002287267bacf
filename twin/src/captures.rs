//! The captures: a small one cut at every octet, files on both sides of each rule of the replay, tables
//! that somebody writes to meanwhile, and random ones. The case file and the text that is expected
//! for it are made here.

mod beside;
pub(crate) mod blocks;
mod maker;
mod random;
mod rules;
#[cfg(test)]
pub(crate) mod tests;

use crate::capture::{replay_beside, Answer};
use crate::digest::digest;
use crate::table::{Table, BUFFER_OCTETS, UNFIT};
use blocks::Order;
use maker::Maker;

/// The right length of a record buffer (C9).
pub const ROOM: u16 = 1514;

/// As a number of octets: nobody writes to the table.
pub const NEVER: u64 = u64::MAX;

/// The pieces that another program is fed, and last the file as a whole.
const PIECES: [usize; 4] = [1, 7, 4096, 0];

#[derive(Clone, Debug, PartialEq, Eq)]
pub struct Case {
    /// It is not in the file; the tests count by it.
    pub order: Order,
    /// The table is the one that the case before left, and not a newly started one.
    pub go_on: bool,
    pub port: usize,
    pub limit: u64,
    /// When exactly so many octets have been fed, somebody writes to the table.
    pub spoil: u64,
    /// How long a record buffer is lent.
    pub room: u16,
    pub octets: Vec<u8>,
}

/// All cases, always the same ones.
pub fn cases() -> Vec<Case> {
    let mut maker = Maker::new();
    for order in Order::BOTH {
        maker.order = order;
        maker.rules();
        maker.somebody_beside();
    }
    maker.random_captures();
    maker.cases
}

/// The case file: whether it goes on (1 octet), port (8), limit (8), spoil (8), room (2), number of
/// octets (4), each with its high octet first, and then the octets of the capture.
pub fn case_file(cases: &[Case]) -> Vec<u8> {
    let mut file = Vec::new();
    for case in cases {
        file.push(u8::from(case.go_on));
        file.extend((case.port as u64).to_be_bytes());
        file.extend(case.limit.to_be_bytes());
        file.extend(case.spoil.to_be_bytes());
        file.extend(case.room.to_be_bytes());
        file.extend((case.octets.len() as u32).to_be_bytes());
        file.extend(&case.octets);
    }
    file
}

/// The expected text: for each size of pieces a line for each case, with the number of the case (from
/// 1), the piece, the answer and the digest of the table. How a file is cut does not matter (C9).
pub fn expected(cases: &[Case]) -> String {
    let mut player = Player::new();
    let answers: Vec<String> = cases.iter().map(|case| player.line(case)).collect();
    let mut text = String::new();
    for piece in PIECES {
        for (answer, number) in answers.iter().zip(1..) {
            text += &format!("{number} {piece} {answer}\n");
        }
    }
    text
}

/// A table with its buffer, on which captures are replayed.
struct Player {
    table: Table,
    buffer: Vec<u8>,
}

impl Player {
    fn new() -> Self {
        Player { table: Table::default(), buffer: vec![0; BUFFER_OCTETS] }
    }

    fn line(&mut self, case: &Case) -> String {
        let answer = match self.play(case) {
            Answer::Handed(frames) => format!("handed {frames}"),
            Answer::Refused(number) => format!("refused {number}"),
        };
        format!("{answer} {}", digest(&self.table, &self.buffer))
    }

    fn play(&mut self, case: &Case) -> Answer {
        if !case.go_on {
            self.table.start(&mut self.buffer).expect("the buffer has its length");
        }
        let answer = if case.room != ROOM && !case.octets.is_empty() {
            // It is lent with the first piece, and then touches nothing (C9).
            Answer::Refused(UNFIT)
        } else {
            self.replay(case)
        };
        // What was written stays, and it is written even where no call came behind it.
        if case.spoil <= case.octets.len() as u64 {
            spoil(&mut self.buffer);
        }
        answer
    }

    /// A record's calls come when its last octet has been fed. What is written at that very octet is
    /// written behind them.
    fn replay(&mut self, case: &Case) -> Answer {
        let Player { table, buffer } = self;
        replay_beside(table, buffer, case.port, case.limit, &case.octets, |record, _, buffer| {
            if case.spoil < record.end as u64 {
                spoil(buffer);
            }
        })
    }
}

/// An octet of the last place, which is free, is no longer 0: the table is not fit (N5).
fn spoil(buffer: &mut [u8]) {
    buffer[BUFFER_OCTETS - 1] = 1;
}
