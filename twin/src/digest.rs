//! The digest of a table and its buffer: one number by which two programs compare what they hold.
//! Events and captures have it in each of their lines.

use crate::table::Table;

const MODULUS: u64 = 4_294_967_291;

/// Over all numbers, then all senders, then all octets of the buffer given.
pub(crate) fn digest(table: &Table, buffer: &[u8]) -> u64 {
    let port = table.port.map(u64::from);
    let seconds = table.seconds.map(u64::from);
    let length = table.length.map(u64::from);
    let senders = table.sender.as_flattened();
    let octets = senders.iter().chain(buffer).map(|&octet| u64::from(octet));
    let values = port.into_iter().chain(seconds).chain(length).chain(octets);
    values.fold(0, |h, value| (h * 31 + value + 1) % MODULUS)
}
