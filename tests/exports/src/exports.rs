//! The exports as a caller in C reaches them (X1), and the slices that each of them takes (X2).
//! A slice is two words, the pointer and the number of octets; some calls take one number more.

use crate::lent::Lent;
use crate::raw;
use crate::sizes::*;

/// Only the right number of slices comes in, since `Export::slices` says how many there are.
macro_rules! call {
    ($export:ident, $lent:expr, [$($slice:ident),+] $(, $number:expr, [$($behind:ident),*])?) => {{
        let [$($slice,)+ $($($behind,)*)?] = $lent else { panic!("another number of slices") };
        // Each slice is a vector of its own with that many octets.
        unsafe {
            raw::$export(
                $($slice.pointer(), $slice.octets(),)+
                $($number, $($behind.pointer(), $behind.octets(),)*)?
            )
        }
    }};
}

/// A slice that a call takes: its name, and its number of octets where that is fixed (X2).
pub type Slice = (&'static str, Option<usize>);

const TABLE: [Slice; 5] = table(["ports", "seconds", "lengths", "senders", "buffer"]);

/// Those of the second table, where two are compared.
const SECOND: [Slice; 5] =
    table(["second ports", "second seconds", "second lengths", "second senders", "second buffer"]);

/// The slices of a table. The length of the buffer is the table's to judge (X2).
const fn table([ports, seconds, lengths, senders, buffer]: [&'static str; 5]) -> [Slice; 5] {
    [
        (ports, Some(PORTS_OCTETS)),
        (seconds, Some(NUMBERS_OCTETS)),
        (lengths, Some(NUMBERS_OCTETS)),
        (senders, Some(SENDERS_OCTETS)),
        (buffer, None),
    ]
}

#[derive(Clone, Copy, Debug, PartialEq, Eq)]
pub enum Export {
    Judge,
    Read,
    ReadLldpdu,
    Write,
    Start,
    FrameOnPort,
    SecondsPassed,
    LinkLost,
    HowMany,
    WhoSees,
    Compare,
}

use Export::*;

impl Export {
    pub const ALL: [Export; 11] = [
        Judge,
        Read,
        ReadLldpdu,
        Write,
        Start,
        FrameOnPort,
        SecondsPassed,
        LinkLost,
        HowMany,
        WhoSees,
        Compare,
    ];

    /// Its name in the rules, and the refusals that it can give (X1).
    pub fn name_and_refusals(self) -> (&'static str, &'static [u8]) {
        match self {
            Judge => ("judge", &[1, 3, 4, 5, 6]),
            Read => ("read", &[1, 3, 4, 5, 6]),
            ReadLldpdu => ("read LLDPDU", &[1, 4, 5, 6]),
            Write => ("write", &[1, 9, 10]),
            Start => ("start", &[1]),
            FrameOnPort => ("frame on a port", &[1, 2, 3, 4, 5, 6, 7, 8, 13]),
            SecondsPassed => ("seconds passed", &[1]),
            LinkLost => ("link lost", &[1, 2]),
            HowMany => ("how many", &[1, 2]),
            WhoSees => ("who sees", &[1]),
            Compare => ("compare", &[1, 14]),
        }
    }

    /// The slices that it takes, in their order (X1, X2).
    pub fn slices(self) -> Vec<Slice> {
        let answer = |octets| ("answer", Some(octets));
        let description = ("description", Some(DESCRIPTION_OCTETS));
        let behind: &[Slice] = match self {
            Judge => return vec![("frame", None), answer(JUDGED_OCTETS)],
            Read => return vec![("frame", None), answer(VERDICT_OCTETS), description],
            ReadLldpdu => return vec![("LLDPDU", None), answer(VERDICT_OCTETS), description],
            Write => {
                let free = [("text", None), ("output", None)];
                return [&[description], &free[..], &[answer(WRITTEN_OCTETS)]].concat();
            }
            Compare => {
                let written = [("list", None), answer(COMPARED_OCTETS)];
                return [&TABLE, &SECOND, &written[..]].concat();
            }
            Start | SecondsPassed | LinkLost => &[],
            FrameOnPort => &[("frame", None), answer(REPLY_OCTETS)],
            HowMany => &[answer(COUNT_OCTETS)],
            WhoSees => &[("address", Some(ADDRESS_OCTETS)), answer(SIGHT_OCTETS)],
        };
        [&TABLE, behind].concat()
    }

    /// The call itself. The number is the port, the start or the seconds; others do not look at it.
    pub fn call(self, lent: &mut [Lent], number: usize) -> u8 {
        match self {
            Judge => call!(tambolune_judge, lent, [a, b]),
            Read => call!(tambolune_read, lent, [a, b, c]),
            ReadLldpdu => call!(tambolune_read_lldpdu, lent, [a, b, c]),
            Write => call!(tambolune_write, lent, [a, b, c, d]),
            Start => call!(tambolune_start, lent, [a, b, c, d, e]),
            FrameOnPort => {
                call!(tambolune_frame_on_port, lent, [a, b, c, d, e], number, [f, g])
            }
            SecondsPassed => call!(tambolune_seconds_passed, lent, [a, b, c, d, e], number, []),
            LinkLost => call!(tambolune_link_lost, lent, [a, b, c, d, e], number, []),
            HowMany => call!(tambolune_how_many, lent, [a, b, c, d, e], number, [f]),
            // The address stands before the start.
            WhoSees => call!(tambolune_who_sees, lent, [a, b, c, d, e, f], number, [g]),
            Compare => call!(tambolune_compare, lent, [a, b, c, d, e, f, g, h, i, j, k, l]),
        }
    }
}
