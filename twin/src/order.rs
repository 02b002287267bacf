//! Either order: whether it matters which of two frames on different ports comes first (E2). That is
//! told by the table before them and by the two frames; neither of them is heard here.

use crate::changes::Look;
use crate::reader::{outline_frame, Outline};
use crate::table::PORTS;

/// A frame, and the port that it comes on.
#[derive(Clone, Debug, PartialEq, Eq)]
pub struct Heard {
    pub port: u8,
    pub frame: Vec<u8>,
}

/// Why the order of two frames matters (E2).
#[derive(Clone, Copy, Debug, PartialEq, Eq)]
pub enum Because {
    /// Both would take the last common place (a).
    LastPlace,
    /// The one frees a common place where none is left, and the other one would take it (b).
    FreedPlace,
}

/// Why the order of two frames on different ports matters on a fit table; none where it does not (E2).
/// The numbers are those of E2, and what is held is counted here: the table's own rules of room have no
/// part in it.
pub fn matters(look: Look, [x, y]: [&Heard; 2]) -> Option<Because> {
    let takes = |heard: &Heard| is_asking(look, heard) && (2..=5).contains(&held(look, heard));
    let frees = |heard: &Heard| is_leaving(look, heard) && held(look, heard) >= 3;
    match left(look) {
        1 if takes(x) && takes(y) => Some(Because::LastPlace),
        0 if (frees(x) && takes(y)) || (frees(y) && takes(x)) => Some(Because::FreedPlace),
        _ => None,
    }
}

/// The common places that are not taken (N12).
pub fn left(look: Look) -> usize {
    let beyond_two = (0..PORTS).map(|port| records_on(look, port as u8).len().saturating_sub(2));
    2 * PORTS - beyond_two.sum::<usize>()
}

/// What the port of a frame holds.
pub fn held(look: Look, heard: &Heard) -> usize {
    records_on(look, heard.port).len()
}

/// It is recorded, or refused with 7 or 8 (E2).
pub fn is_asking(look: Look, heard: &Heard) -> bool {
    announced(heard).is_some_and(|outline| {
        let records = records_on(look, heard.port);
        let of_chassis = records.iter().filter(|record| record.chassis == outline.chassis);
        outline.seconds > 0 && !is_known(&records, &outline) && of_chassis.count() != 3
    })
}

/// It is gone (E2).
pub fn is_leaving(look: Look, heard: &Heard) -> bool {
    announced(heard).is_some_and(|outline| {
        outline.seconds == 0 && is_known(&records_on(look, heard.port), &outline)
    })
}

/// What a valid frame on a port in range announces.
fn announced(heard: &Heard) -> Option<Outline> {
    outline_frame(&heard.frame).ok().filter(|_| usize::from(heard.port) < PORTS)
}

/// The records of a port.
fn records_on(Look { table, buffer }: Look, port: u8) -> Vec<Outline> {
    let places = table.used().filter(|&place| table.port[place] == port);
    places.filter_map(|place| table.outline(buffer, place)).collect()
}

/// Whether one of a port's records has the identity that is announced on it (N2).
fn is_known(records: &[Outline], announced: &Outline) -> bool {
    let is =
        |record: &Outline| record.chassis == announced.chassis && record.port == announced.port;
    records.iter().any(is)
}
