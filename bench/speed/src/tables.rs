//! The tables that the rows stand on, made by the twin's frame calls; some are then unfit (N5).
//! A full table has four neighbours on each port, and the fourth is of a second chassis (N13).

use twin::table::{octets_of, Table, BUFFER_OCTETS, OF_EACH_PORT, PLACES, PORTS};

use crate::frames::{Announced, Later};

/// A table and its buffer.
#[derive(Clone)]
pub struct Held {
    pub table: Table,
    pub buffer: Vec<u8>,
}

/// A frame, and the port that it comes in on.
pub type Heard = (usize, &'static [u8]);

/// Chassis and port ID of the neighbours of a port, by their number there.
type Neighbour = fn(usize, usize) -> Announced;

impl Held {
    pub fn empty() -> Held {
        Held { table: Table::default(), buffer: vec![0; BUFFER_OCTETS] }
    }

    /// Each frame is recorded, in this order, and so at the lowest free place (N4).
    pub fn of(heard: &[Heard]) -> Held {
        let mut held = Held::empty();
        for &(port, frame) in heard {
            let reply = held.table.frame_on_port(&mut held.buffer, port, frame);
            assert_eq!(reply, Ok(twin::table::Reply::Recorded), "a new neighbour on port {port}");
        }
        held
    }

    /// A table whose buffer is an octet too short, so that no call but the crossing is made (R1).
    pub fn too_short(mut self) -> Held {
        self.buffer.pop();
        self
    }

    /// The last octet of the last place, which is behind its LLDPDU, is not 0 (N5 c).
    pub fn spoiled_at_the_end(mut self) -> Held {
        self.buffer[BUFFER_OCTETS - 1] = 1;
        self
    }

    /// The last place has the record of the one before it (N5 d).
    pub fn one_identity_twice(mut self) -> Held {
        let (from, to) = (PLACES - 2, PLACES - 1);
        self.buffer.copy_within(octets_of(from), octets_of(to).start);
        self.table.length[to] = self.table.length[from];
        self
    }
}

/// So many neighbours, four to a port from port 0 on.
pub fn first(count: usize, neighbour: Neighbour) -> Vec<Heard> {
    let of_place = |place: usize| {
        let (port, number) = (place / OF_EACH_PORT, place % OF_EACH_PORT);
        (port, neighbour(port, number).frame())
    };
    (0..count).map(of_place).collect()
}

pub fn full(neighbour: Neighbour) -> Vec<Heard> {
    first(PLACES, neighbour)
}

/// The first half of the ports hold six each and the others two, which takes all places (B13).
pub fn crowded() -> Vec<Heard> {
    let on_port = |port: usize| {
        let count = if port < PORTS / 2 { 6 } else { 2 };
        (0..count).map(move |number| (port, of_a(port, number).frame()))
    };
    (0..PORTS).flat_map(on_port).collect()
}

/// As frame A: three of its chassis, and then of the next one, with a port ID of one octet.
pub fn of_a(_port: usize, number: usize) -> Announced {
    let mut announced = Announced::a();
    announced.chassis[5] += (number / 3) as u8;
    announced.port_id[0] += number as u8;
    announced
}

pub fn with_few(port: usize, number: usize) -> Announced {
    Announced { later: Later::Few, ..of_a(port, number) }
}

pub fn with_empty(port: usize, number: usize) -> Announced {
    Announced { later: Later::Empty, ..of_a(port, number) }
}

pub fn with_links(port: usize, number: usize) -> Announced {
    Announced { later: Later::Links, ..of_a(port, number) }
}

pub fn with_short_links(port: usize, number: usize) -> Announced {
    Announced { later: Later::ShortLinks, ..of_a(port, number) }
}

pub fn with_items(port: usize, number: usize) -> Announced {
    Announced { later: Later::Items, ..of_a(port, number) }
}

/// Port IDs of 255 octets (L4) that differ in their first octet alone.
pub fn with_early_port_id(port: usize, number: usize) -> Announced {
    alike_at_the_end(port, number, 0)
}

/// The same, but they differ so far behind that they have to be compared almost whole.
pub fn with_late_port_id(port: usize, number: usize) -> Announced {
    alike_at_the_end(port, number, 252)
}

/// All on a port share the last octets of chassis and port ID, so that whoever tells identities
/// apart by these has to look further.
fn alike_at_the_end(_port: usize, number: usize, differing: usize) -> Announced {
    let mut announced = Announced { port_id: vec![b'x'; 255], ..Announced::a() };
    announced.chassis[1] = (number / 3) as u8;
    announced.port_id[differing] = number as u8;
    announced
}

/// One port ID, and chassis that differ in their second octet alone.
pub fn of_own_chassis(_port: usize, number: usize) -> Announced {
    let mut announced = Announced::a();
    announced.chassis[1] = number as u8;
    announced
}

/// Two of each of two chassis, so that a record that is there twice makes no chassis loud (N13).
pub fn of_two_chassis(_port: usize, number: usize) -> Announced {
    let mut announced = of_a(0, number);
    announced.chassis[5] = 1 + (number / 2) as u8;
    announced
}
