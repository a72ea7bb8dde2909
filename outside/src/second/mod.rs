//! A second implementation of the byte formats, clear rather than fast.
//!
//! It knows only what `docs/FORMAT.md`, `docs/REFUSALS.md` and `docs/TERMS.md` say. Where a
//! function hands back a refusal, it is the refusal's number.

mod crc;
mod id;
mod list;
mod message;
mod packets;
mod request;

pub use crc::{crc32c, crc8};
pub use id::{id_is_lawful, reading_is_lawful, rows_refusal, Id, Occurrence};
pub use list::{read_list, List};
pub use message::{read_answer, read_event, write_answer, write_event};
pub use packets::{addresses_refusal, joined, message_is_taken, packets};
pub use request::{read_request, write_ack, write_sync};

/// What a reader makes of bytes that it accepts.
#[derive(Clone, Debug, PartialEq, Eq)]
pub enum Message {
    Sync {
        slot: bool,
        delay: u8,
        retry: u8,
        /// Identifier and switch, in the order in which they stand, repetitions included.
        items: Vec<(u8, bool)>,
    },
    Ack {
        slot: bool,
        /// The enable list as it stands, from its start to its total length.
        list: Vec<u8>,
    },
    Event {
        generation: u8,
        retries: u8,
        list: List,
    },
    Answer {
        slot: bool,
        list: List,
    },
}

/// Copies `bytes` to the start of `buffer` and leaves the rest of it; hands back how many.
fn put(buffer: &mut [u8], bytes: &[u8]) -> usize {
    buffer[..bytes.len()].copy_from_slice(bytes);
    bytes.len()
}
