//! The tuned peer: the answers of the plain reader, table and writer, made for speed.
//! It borrows where they copy, allocates nothing, and keeps nothing from one call to the next.

mod extension;
mod octets;
mod reader;
mod table;
mod walk;
mod writer;

pub use reader::{
    name_link, outline_frame, outline_lldpdu, read_frame, read_lldpdu, Link, Management, Outline,
    Reading,
};
pub use table::{frame_on_port, how_many, is_fit, link_lost, seconds_passed, start, who_sees};
pub use writer::write;
