//! The twin's stored events on a table of octets: its calls, and its tables spoiled in each way.
//! What the twin does to numbers and octets of a table is done to the slices here (X3).

use twin::events::{events, Event, Trial};
use twin::table::BUFFER_OCTETS;

use crate::bench::Bench;
use crate::cell::{Call, Cell};
use crate::due::BUFFER;

const SEED: u64 = 0x5245_504C_4159;

/// More than a table needs, since buffers that are too long are lent too.
const STORE_OCTETS: usize = BUFFER_OCTETS + 2_000;

struct Desk {
    cell: Cell,
    /// The octets behind the buffer that is lent.
    rest: Vec<u8>,
}

pub fn run(bench: &mut Bench) {
    let mut rng = bench.section("stored events", SEED);
    let mut desk = Desk::new();
    let mut kept = desk.kept();
    for event in events() {
        if let Event::Spoiled(trial) = event {
            desk.cell.try_each(bench, &mut rng, &calls(trial));
            desk = Desk { cell: kept.0.clone(), rest: kept.1.clone() };
        } else if event == Event::Keep {
            kept = desk.kept();
        } else if let Some(call) = call(&event) {
            desk.cell.call(bench, &mut rng, &call);
        } else {
            desk.edit(&event);
        }
    }
}

fn call(event: &Event) -> Option<Call> {
    Some(match *event {
        Event::Start => Call::Start,
        Event::Frame { port, ref frame } => Call::Frame { port, frame: frame.clone() },
        Event::Seconds(seconds) => Call::Seconds(seconds.into()),
        Event::Lost { port } => Call::Lost { port },
        Event::HowMany { port } => Call::HowMany { port },
        Event::WhoSees { address, from } => Call::WhoSees { address, start: from },
        _ => return None,
    })
}

/// The six calls on a spoiled table.
fn calls(Trial { number, seconds, address, frame, .. }: Trial) -> [Call; 6] {
    [
        Call::Frame { port: number, frame },
        Call::Seconds(seconds.into()),
        Call::Lost { port: number },
        Call::HowMany { port: number },
        Call::WhoSees { address, start: number },
        Call::Start,
    ]
}

impl Desk {
    fn new() -> Desk {
        Desk { cell: Cell::new(), rest: vec![0; STORE_OCTETS - BUFFER_OCTETS] }
    }

    fn kept(&self) -> (Cell, Vec<u8>) {
        (self.cell.clone(), self.rest.clone())
    }

    /// From here on the buffer is the first so many octets of the store.
    fn lend(&mut self, octets: usize) {
        let buffer = &mut self.cell.slices[BUFFER];
        let mut store = [buffer.as_slice(), &self.rest].concat();
        self.rest = store.split_off(octets);
        *buffer = store;
    }

    fn edit(&mut self, event: &Event) {
        let lent = self.cell.slices[BUFFER].len();
        // The whole store is at hand while it is edited.
        self.lend(STORE_OCTETS);
        let slices = &mut self.cell.slices;
        let mut now_lent = lent;
        match *event {
            Event::Lend(octets) => now_lent = octets,
            Event::SetPort { place, port } => slices[0][place] = port,
            Event::SetSeconds { place, seconds } => {
                slices[1][2 * place..2 * place + 2].copy_from_slice(&seconds.to_be_bytes());
            }
            Event::SetLength { place, length } => {
                slices[2][2 * place..2 * place + 2].copy_from_slice(&length.to_be_bytes());
            }
            Event::SetSender { place, sender } => {
                slices[3][6 * place..6 * place + 6].copy_from_slice(&sender);
            }
            Event::SetOctet { at, octet } => slices[BUFFER][at] = octet,
            Event::CopyPlace { from, to } => self.cell.copy_place(from, to),
            _ => unreachable!("{event:?} is no edit"),
        }
        self.lend(now_lent);
    }
}
