//! The tuned twin: the same calls in ordinary Rust, written to be fast.
//! What it reads it borrows, and nothing is allocated.

use std::hint::black_box;

use twin::tuned::{self, Reading};

use crate::calls::Call;
use crate::contestants::{Answer, Hearer, Lent, Twin};
use crate::tables::Held;

pub struct Tuned;

impl Twin for Tuned {
    #[inline(always)]
    fn call(lent: &mut Lent, call: &Call, hearer: &mut impl Hearer) {
        // A table that is only looked at must not be known to be as it was.
        let Held { table, buffer } = black_box(&mut lent.held);
        match *call {
            Call::Read(frame) => hearer.hear(call, tuned::read_frame(black_box(frame))),
            Call::Write(announcement) => {
                let announcement = black_box(announcement);
                let (description, text) = (&announcement.description, &announcement.text);
                let written = tuned::write(description, text, &mut lent.output);
                hearer.hear(call, written.map(|octets| &lent.output[..octets]))
            }
            Call::Start => hearer.hear(call, tuned::start(table, buffer)),
            Call::Frame { port, frame } => {
                let (port, frame) = black_box((port, frame));
                hearer.hear(call, tuned::frame_on_port(table, buffer, port, frame))
            }
            Call::Seconds(seconds) => {
                hearer.hear(call, tuned::seconds_passed(table, buffer, black_box(seconds)))
            }
            Call::Lost { port } => {
                hearer.hear(call, tuned::link_lost(table, buffer, black_box(port)))
            }
            Call::HowMany { port } => {
                hearer.hear(call, tuned::how_many(table, buffer, black_box(port)))
            }
            Call::WhoSees { address, start } => {
                let (address, start) = black_box((address, start));
                hearer.hear(call, tuned::who_sees(table, buffer, address, start))
            }
        }
    }
}

impl Answer for Reading<'_> {
    fn octets(self, call: &Call) -> Vec<u8> {
        self.owned().octets(call)
    }
}

/// What was written.
impl Answer for &[u8] {
    fn octets(self, _: &Call) -> Vec<u8> {
        self.to_vec()
    }
}
