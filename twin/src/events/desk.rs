//! The desk: a table with the store that its buffer is lent from, and what was kept of both.
//! It does what an event says and tells the answer in the words of the expected text.

use super::{Event, Trial};
use crate::changes::Look;
use crate::digest::digest;
use crate::frames::or_refused;
use crate::table::{
    buffer_octets, octets_of, Reply, Sighting, Table, BUFFER_OCTETS, PLACE_OCTETS, PORTS,
};

/// More than a table needs, so that a buffer can be lent that is too long.
pub const STORE_OCTETS: usize = BUFFER_OCTETS + 2_000;

/// Buffers that are no table's: none, an octet, that of a cell with two ports fewer, a place or an
/// octet too few, and as many too many (N5, N6).
pub const WRONG_LENGTHS: [usize; 7] = [
    0,
    1,
    buffer_octets(PORTS - 2),
    BUFFER_OCTETS - PLACE_OCTETS,
    BUFFER_OCTETS - 1,
    BUFFER_OCTETS + 1,
    BUFFER_OCTETS + PLACE_OCTETS,
];

#[derive(Clone)]
pub struct Desk {
    pub table: Table,
    pub store: Vec<u8>,
    pub lent: usize,
    kept: (Table, Vec<u8>),
}

impl Desk {
    pub fn new() -> Self {
        let store = vec![0; STORE_OCTETS];
        let kept = (Table::default(), store.clone());
        Desk { table: Table::default(), store, lent: BUFFER_OCTETS, kept }
    }

    /// The buffer that is given to the calls.
    pub fn buffer(&self) -> &[u8] {
        &self.store[..self.lent]
    }

    /// The table with that buffer.
    pub fn look(&self) -> Look<'_> {
        Look { table: &self.table, buffer: self.buffer() }
    }

    /// The line of an event without the number of its record, or none for a preparation.
    pub fn line(&mut self, event: &Event) -> Option<String> {
        if let Event::Spoiled(trial) = event {
            return Some(self.trial(trial));
        }
        let answer = self.act(event)?;
        Some(format!("{answer} {}", digest(&self.table, self.buffer())))
    }

    /// The answer to a call, or none for a preparation, which is done without a word.
    pub fn act(&mut self, event: &Event) -> Option<String> {
        let Desk { table, store, lent, .. } = self;
        let buffer = &mut store[..*lent];
        Some(match *event {
            Event::Start => or_refused(table.start(buffer), done_text),
            Event::Frame { port, ref frame } => {
                or_refused(table.frame_on_port(buffer, port, frame), reply_text)
            }
            Event::Seconds(seconds) => or_refused(table.seconds_passed(buffer, seconds), done_text),
            Event::Lost { port } => or_refused(table.link_lost(buffer, port), done_text),
            Event::HowMany { port } => {
                or_refused(table.how_many(buffer, port), |held| format!("holds {held}"))
            }
            Event::WhoSees { address, from } => {
                or_refused(table.who_sees(buffer, address, from), sighting_text)
            }
            _ => {
                self.prepare(event);
                return None;
            }
        })
    }

    fn prepare(&mut self, event: &Event) {
        match *event {
            Event::Lend(octets) => self.lent = octets,
            Event::SetPort { place, port } => self.table.port[place] = port,
            Event::SetSeconds { place, seconds } => self.table.seconds[place] = seconds,
            Event::SetLength { place, length } => self.table.length[place] = length,
            Event::SetSender { place, sender } => self.table.sender[place] = sender,
            Event::SetOctet { at, octet } => self.store[at] = octet,
            Event::CopyPlace { from, to } => {
                self.table.port[to] = self.table.port[from];
                self.table.seconds[to] = self.table.seconds[from];
                self.table.length[to] = self.table.length[from];
                self.table.sender[to] = self.table.sender[from];
                self.store.copy_within(octets_of(from), octets_of(to).start);
            }
            Event::Keep => self.kept = (self.table.clone(), self.store.clone()),
            _ => unreachable!("{event:?} is no preparation"),
        }
    }

    /// Five calls, the digest, and Start with the digest behind it; then the kept table is back.
    /// Start comes last, since it mends what is spoiled (N6).
    fn trial(&mut self, trial: &Trial) -> String {
        let &Trial { number, seconds, address, ref frame, .. } = trial;
        let calls = [
            Event::Frame { port: number, frame: frame.clone() },
            Event::Seconds(seconds),
            Event::Lost { port: number },
            Event::HowMany { port: number },
            Event::WhoSees { address, from: number },
        ];
        let answers: Vec<String> = calls.iter().filter_map(|call| self.act(call)).collect();
        let spoiled = digest(&self.table, self.buffer());
        let start = self.line(&Event::Start).expect("Start is a call");
        self.take_back();
        format!("spoiled {} {spoiled} {start}", answers.join(" "))
    }

    pub fn take_back(&mut self) {
        (self.table, self.store) = self.kept.clone();
        self.lent = BUFFER_OCTETS;
    }
}

fn done_text((): &()) -> String {
    "done".to_string()
}

fn reply_text(reply: &Reply) -> String {
    let text = match reply {
        Reply::Recorded => "recorded",
        Reply::Refreshed => "refreshed",
        Reply::Gone => "gone",
        Reply::UnknownGoodbye => "unknown goodbye",
    };
    text.to_string()
}

fn sighting_text(sighting: &Option<Sighting>) -> String {
    let Some(Sighting { place, naming }) = sighting else {
        return "nobody".to_string();
    };
    let [interface, number] = [naming.interface, naming.number]
        .map(|counted| format!("{}:{}", counted.count, counted.value));
    format!("place {place} interface {interface} port {number}")
}
