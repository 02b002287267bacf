//! The sizes: each `tambolune_size_` function, and the number that the rules give (N1, X2).
//! What the number of ports decides is taken from the twin; the rest is typed from the rules.

use twin::table::{BUFFER_OCTETS, PLACES, PLACE_OCTETS, PORTS};

pub const PORTS_OCTETS: usize = PLACES;
pub const NUMBERS_OCTETS: usize = 2 * PLACES;
pub const SENDERS_OCTETS: usize = ADDRESS_OCTETS * PLACES;
pub const ADDRESS_OCTETS: usize = 6;
pub const DESCRIPTION_OCTETS: usize = 85;
pub const JUDGED_OCTETS: usize = 15;
pub const VERDICT_OCTETS: usize = 3;
pub const WRITTEN_OCTETS: usize = 2;
pub const REPLY_OCTETS: usize = 1;
pub const COUNT_OCTETS: usize = 1;
pub const SIGHT_OCTETS: usize = 13;
pub const COMPARED_OCTETS: usize = 2;
pub const ENTRY_OCTETS: usize = 2;

/// A list that is never too short: an entry for each place of both tables (D4).
pub const LIST_OCTETS: usize = ENTRY_OCTETS * 2 * PLACES;

/// The frame's octets before the LLDPDU (F1).
pub const HEADER_OCTETS: usize = 14;

extern "C" {
    fn tambolune_size_ports() -> usize;
    fn tambolune_size_places() -> usize;
    fn tambolune_size_place() -> usize;
    fn tambolune_size_buffer() -> usize;
    fn tambolune_size_numbers() -> usize;
    fn tambolune_size_senders() -> usize;
    fn tambolune_size_address() -> usize;
    fn tambolune_size_description() -> usize;
    fn tambolune_size_judged() -> usize;
    fn tambolune_size_verdict() -> usize;
    fn tambolune_size_written() -> usize;
    fn tambolune_size_reply() -> usize;
    fn tambolune_size_count() -> usize;
    fn tambolune_size_sight() -> usize;
    fn tambolune_size_compared() -> usize;
    fn tambolune_size_entry() -> usize;
    fn tambolune_size_header() -> usize;
}

/// How many sizes were compared, or the name of the first that is another one, with both numbers.
pub fn compare() -> Result<usize, (&'static str, usize, usize)> {
    // A function that only answers a number can be called at any time.
    let sizes = unsafe {
        [
            ("ports", tambolune_size_ports(), PORTS),
            ("places", tambolune_size_places(), PLACES),
            ("place", tambolune_size_place(), PLACE_OCTETS),
            ("buffer", tambolune_size_buffer(), BUFFER_OCTETS),
            ("numbers", tambolune_size_numbers(), NUMBERS_OCTETS),
            ("senders", tambolune_size_senders(), SENDERS_OCTETS),
            ("address", tambolune_size_address(), ADDRESS_OCTETS),
            ("description", tambolune_size_description(), DESCRIPTION_OCTETS),
            ("judged", tambolune_size_judged(), JUDGED_OCTETS),
            ("verdict", tambolune_size_verdict(), VERDICT_OCTETS),
            ("written", tambolune_size_written(), WRITTEN_OCTETS),
            ("reply", tambolune_size_reply(), REPLY_OCTETS),
            ("count", tambolune_size_count(), COUNT_OCTETS),
            ("sight", tambolune_size_sight(), SIGHT_OCTETS),
            ("compared", tambolune_size_compared(), COMPARED_OCTETS),
            ("entry", tambolune_size_entry(), ENTRY_OCTETS),
            ("header", tambolune_size_header(), HEADER_OCTETS),
        ]
    };
    match sizes.iter().find(|(_, said, due)| said != due) {
        Some(&different) => Err(different),
        None => Ok(sizes.len()),
    }
}
