//! The plain twin: the calls in ordinary Rust, written from the rules to be read, not to be fast.
//! It keeps its own copies of what it reads.

use std::hint::black_box;

use twin::reader::read_frame;
use twin::writer::write;

use crate::calls::Call;
use crate::contestants::{Hearer, Lent, Twin, OUTPUT_OCTETS};
use crate::tables::Held;

pub struct Plain;

impl Twin for Plain {
    #[inline(always)]
    fn call(lent: &mut Lent, call: &Call, hearer: &mut impl Hearer) {
        // A table that is only looked at must not be known to be as it was.
        let Held { table, buffer } = black_box(&mut lent.held);
        match *call {
            Call::Read(frame) => hearer.hear(call, read_frame(black_box(frame))),
            Call::Write(announcement) => {
                let announcement = black_box(announcement);
                let (description, text) = (&announcement.description, &announcement.text);
                hearer.hear(call, write(description, text, OUTPUT_OCTETS))
            }
            Call::Start => hearer.hear(call, table.start(buffer)),
            Call::Frame { port, frame } => {
                let (port, frame) = black_box((port, frame));
                hearer.hear(call, table.frame_on_port(buffer, port, frame))
            }
            Call::Seconds(seconds) => {
                hearer.hear(call, table.seconds_passed(buffer, black_box(seconds)))
            }
            Call::Lost { port } => hearer.hear(call, table.link_lost(buffer, black_box(port))),
            Call::HowMany { port } => hearer.hear(call, table.how_many(buffer, black_box(port))),
            Call::WhoSees { address, start } => {
                let (address, start) = black_box((address, start));
                hearer.hear(call, table.who_sees(buffer, address, start))
            }
        }
    }
}
