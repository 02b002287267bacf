//! What a contestant is: it makes the calls of a row, and can tell the answer of one in octets.
//! The twin's answers become octets here, so that all can be held against each other.

use std::hint::black_box;
use std::marker::PhantomData;

use twin::reader::{Reading, Refusal};
use twin::table::{Reply, Sighting};

use crate::calls::{Call, Step};
use crate::octets::{described, octets_of, reply_octet, sight, verdict};
use crate::sizes::HEADER_OCTETS;
use crate::tables::Held;

/// 1,500 octets of output are always enough (R9).
pub const OUTPUT_OCTETS: usize = 1_500;

pub trait Contestant {
    /// So many rounds of the calls. This is what the clock is for.
    fn rounds(&mut self, steps: &[Step], rounds: usize);

    /// One call, and what it answers.
    fn told(&mut self, call: &Call) -> Told;

    /// The table's slices and the buffer as the calls left them (X3).
    fn left(&self) -> [Vec<u8>; 5];

    /// The table becomes this one, whatever it was.
    fn put_back(&mut self, held: &Held);
}

/// An answer as octets (X4), those that read and write lend beside it too; or a refusal.
pub type Told = Result<Vec<u8>, Refusal>;

/// A way to make the twin's calls.
pub trait Twin {
    fn call(lent: &mut Lent, call: &Call, hearer: &mut impl Hearer);
}

/// The table, and an output in which every LLDPDU has room (R9).
pub struct Lent {
    pub held: Held,
    pub output: [u8; OUTPUT_OCTETS],
}

/// The twin as a contestant.
pub struct Ordinary<T: Twin> {
    lent: Lent,
    twin: PhantomData<T>,
}

impl<T: Twin> Ordinary<T> {
    pub fn of(held: &Held) -> Ordinary<T> {
        let lent = Lent { held: held.clone(), output: [0; OUTPUT_OCTETS] };
        Ordinary { lent, twin: PhantomData }
    }
}

impl<T: Twin> Contestant for Ordinary<T> {
    fn rounds(&mut self, steps: &[Step], rounds: usize) {
        for _ in 0..rounds {
            for step in steps {
                T::call(&mut self.lent, &step.call, &mut Nobody);
            }
        }
    }

    fn told(&mut self, call: &Call) -> Told {
        let mut teller = Teller(None);
        T::call(&mut self.lent, call, &mut teller);
        teller.0.expect("every call answers")
    }

    fn left(&self) -> [Vec<u8>; 5] {
        let Held { table, buffer } = &self.lent.held;
        let [ports, seconds, lengths, senders] = octets_of(table);
        [ports, seconds, lengths, senders, buffer.clone()]
    }

    fn put_back(&mut self, held: &Held) {
        self.lent.held.table.clone_from(&held.table);
        self.lent.held.buffer.clone_from(&held.buffer);
    }
}

/// Who gets the answer of a call of the twin.
pub trait Hearer {
    fn hear<A: Answer>(&mut self, call: &Call, answer: Result<A, Refusal>);
}

/// While the clock runs nobody looks at an answer, but it has to be made.
struct Nobody;

impl Hearer for Nobody {
    #[inline(always)]
    fn hear<A: Answer>(&mut self, _: &Call, answer: Result<A, Refusal>) {
        black_box(&answer);
    }
}

struct Teller(Option<Told>);

impl Hearer for Teller {
    fn hear<A: Answer>(&mut self, call: &Call, answer: Result<A, Refusal>) {
        self.0 = Some(answer.map(|answer| answer.octets(call)));
    }
}

pub trait Answer {
    fn octets(self, call: &Call) -> Vec<u8>;
}

impl Answer for () {
    fn octets(self, _: &Call) -> Vec<u8> {
        vec![]
    }
}

impl Answer for Reply {
    fn octets(self, _: &Call) -> Vec<u8> {
        vec![reply_octet(self)]
    }
}

/// How many a port holds (N10).
impl Answer for usize {
    fn octets(self, _: &Call) -> Vec<u8> {
        vec![self as u8]
    }
}

impl Answer for Option<Sighting> {
    fn octets(self, _: &Call) -> Vec<u8> {
        sight(self)
    }
}

/// What was written.
impl Answer for Vec<u8> {
    fn octets(self, _: &Call) -> Vec<u8> {
        self
    }
}

impl Answer for Reading {
    fn octets(self, call: &Call) -> Vec<u8> {
        let Call::Read(frame) = call else { panic!("only read answers a reading") };
        [&verdict(&self)[..], &described(&frame[HEADER_OCTETS..], &self)].concat()
    }
}
