//! The proved calls, as a caller in C makes them: through the archive, with slices of octets (X1).
//! The table is what crosses (X3), so it is held in octets here.

use std::hint::black_box;

use twin::table::BUFFER_OCTETS;

use crate::calls::{Call, Step};
use crate::contestants::{Contestant, Told, OUTPUT_OCTETS};
use crate::octets::octets_of;
use crate::raw::*;
use crate::sizes::*;
use crate::tables::Held;

pub struct Proved {
    ports: [u8; PORTS_OCTETS],
    seconds: [u8; NUMBERS_OCTETS],
    lengths: [u8; NUMBERS_OCTETS],
    senders: [u8; SENDERS_OCTETS],
    buffer: Vec<u8>,
    answer: [u8; SIGHT_OCTETS],
    description: [u8; DESCRIPTION_OCTETS],
    output: [u8; OUTPUT_OCTETS],
}

/// A call with the table's slices in front (X1).
macro_rules! on_table {
    ($export:ident, $held:expr $(, $more:expr)*) => {
        // Each slice is an array of its own, with that many octets (X7).
        unsafe {
            $export(
                $held.ports.as_mut_ptr(),
                PORTS_OCTETS,
                $held.seconds.as_mut_ptr(),
                NUMBERS_OCTETS,
                $held.lengths.as_mut_ptr(),
                NUMBERS_OCTETS,
                $held.senders.as_mut_ptr(),
                SENDERS_OCTETS,
                $held.buffer.as_mut_ptr(),
                $held.buffer.len(),
                $($more),*
            )
        }
    };
}

impl Proved {
    pub fn of(held: &Held) -> Proved {
        let mut proved = Proved {
            ports: [0; PORTS_OCTETS],
            seconds: [0; NUMBERS_OCTETS],
            lengths: [0; NUMBERS_OCTETS],
            senders: [0; SENDERS_OCTETS],
            buffer: Vec::with_capacity(BUFFER_OCTETS),
            answer: [0; SIGHT_OCTETS],
            description: [0; DESCRIPTION_OCTETS],
            output: [0; OUTPUT_OCTETS],
        };
        proved.put_back(held);
        proved
    }

    /// The refusal number, 0 for none. The answer is left in the slices of `self`.
    #[inline(always)]
    fn call(&mut self, call: &Call) -> u8 {
        let answer = self.answer.as_mut_ptr();
        match *call {
            Call::Read(frame) => self.read(black_box(frame)),
            Call::Write(announcement) => {
                self.write(black_box(&announcement.octets), black_box(&announcement.text))
            }
            Call::Start => on_table!(tambolune_start, self),
            Call::Frame { port, frame } => {
                let frame = black_box(frame);
                let (octets, count) = (frame.as_ptr(), frame.len());
                let port = black_box(port);
                on_table!(tambolune_frame_on_port, self, port, octets, count, answer, REPLY_OCTETS)
            }
            Call::Seconds(seconds) => {
                on_table!(tambolune_seconds_passed, self, black_box(seconds).into())
            }
            Call::Lost { port } => on_table!(tambolune_link_lost, self, black_box(port)),
            Call::HowMany { port } => {
                on_table!(tambolune_how_many, self, black_box(port), answer, COUNT_OCTETS)
            }
            Call::WhoSees { address, start } => {
                let address = black_box(&address).as_ptr();
                on_table!(
                    tambolune_who_sees,
                    self,
                    address,
                    ADDRESS_OCTETS,
                    black_box(start),
                    answer,
                    SIGHT_OCTETS
                )
            }
        }
    }

    #[inline(always)]
    fn read(&mut self, frame: &[u8]) -> u8 {
        // As for the table's slices.
        unsafe {
            tambolune_read(
                frame.as_ptr(),
                frame.len(),
                self.answer.as_mut_ptr(),
                VERDICT_OCTETS,
                self.description.as_mut_ptr(),
                DESCRIPTION_OCTETS,
            )
        }
    }

    #[inline(always)]
    fn write(&mut self, description: &[u8], text: &[u8]) -> u8 {
        // As for the table's slices.
        unsafe {
            tambolune_write(
                description.as_ptr(),
                description.len(),
                text.as_ptr(),
                text.len(),
                self.output.as_mut_ptr(),
                OUTPUT_OCTETS,
                self.answer.as_mut_ptr(),
                WRITTEN_OCTETS,
            )
        }
    }

    /// How many octets write wrote (X4).
    fn written(&self) -> usize {
        u16::from_be_bytes([self.answer[0], self.answer[1]]).into()
    }
}

impl Contestant for Proved {
    fn rounds(&mut self, steps: &[Step], rounds: usize) {
        for _ in 0..rounds {
            for step in steps {
                black_box(self.call(&step.call));
                black_box(&self.answer);
            }
        }
    }

    fn told(&mut self, call: &Call) -> Told {
        let refusal = self.call(call);
        if refusal != 0 {
            return Err(refusal);
        }
        Ok(match call {
            Call::Read(_) => [&self.answer[..VERDICT_OCTETS], &self.description].concat(),
            Call::Write(_) => self.output[..self.written()].to_vec(),
            Call::Start | Call::Seconds(_) | Call::Lost { .. } => vec![],
            Call::Frame { .. } => self.answer[..REPLY_OCTETS].to_vec(),
            Call::HowMany { .. } => self.answer[..COUNT_OCTETS].to_vec(),
            Call::WhoSees { .. } => self.answer[..SIGHT_OCTETS].to_vec(),
        })
    }

    fn left(&self) -> [Vec<u8>; 5] {
        let [ports, seconds, lengths, senders] =
            [&self.ports[..], &self.seconds, &self.lengths, &self.senders].map(<[u8]>::to_vec);
        [ports, seconds, lengths, senders, self.buffer.clone()]
    }

    fn put_back(&mut self, held: &Held) {
        let [ports, seconds, lengths, senders] = octets_of(&held.table);
        self.ports.copy_from_slice(&ports);
        self.seconds.copy_from_slice(&seconds);
        self.lengths.copy_from_slice(&lengths);
        self.senders.copy_from_slice(&senders);
        self.buffer.clone_from(&held.buffer);
    }
}
