//! Hand-written fast code, as a measure of speed for the proved crates: no allocation, no unsafe,
//! no `std` needed.
//!
//! The check words and the readers and writers of bytes are complete. The endpoint and the book
//! are right where they are measured, that is for an accepted sync, an idle tick and an accepted
//! pick-up; what they leave out is said at each.

mod book;
mod crc;
mod endpoint;
mod event;
mod lawful;
mod list;
mod request;

pub use book::{Book, BookState};
pub use crc::{crc32c_by_8, crc32c_by_table};
pub use endpoint::{Board, Endpoint, EndpointState, Mailbox};
pub use event::{read_answer, read_event, write_event};
pub use list::ListView;
pub use request::{read_request, RequestView};

/// Puts the check word behind the first `length` bytes; hands back the length with it.
fn seal(buffer: &mut [u8], length: usize) -> usize {
    let word = crc32c_by_8(&buffer[..length]);
    buffer[length..length + 4].copy_from_slice(&word.to_le_bytes());
    length + 4
}

/// What stands before the check word, if that is right.
fn unsealed(bytes: &[u8]) -> Option<&[u8]> {
    let (before, word) = bytes.split_last_chunk::<4>()?;
    (u32::from_le_bytes(*word) == crc32c_by_8(before)).then_some(before)
}

#[cfg(test)]
mod tests {
    use super::*;
    use crate::inputs::{next, Input, Rng};
    use crate::second::{self, Id, List, Message, Occurrence};

    fn list(view: &ListView) -> List {
        if view.overflow {
            return List::Overflow;
        }
        let occurrence = |(id, reading): (Id, &[u8])| Occurrence {
            id,
            reading: reading.to_vec(),
        };
        List::Occurrences(view.occurrences().map(occurrence).collect())
    }

    fn event(view: ListView) -> Message {
        let generation = view.transmission >> 3;
        Message::Event {
            generation,
            retries: view.transmission & 7,
            list: list(&view),
        }
    }

    fn answer((slot, view): (bool, ListView)) -> Message {
        Message::Answer {
            slot,
            list: list(&view),
        }
    }

    /// The enable list of an ack is nothing that the fast reader hands back.
    fn without_list(message: Message) -> Message {
        match message {
            Message::Ack { slot, .. } => Message::Ack {
                slot,
                list: Vec::new(),
            },
            other => other,
        }
    }

    fn request(view: RequestView) -> Message {
        let RequestView {
            slot, delay, retry, ..
        } = view;
        match view.count {
            0 => Message::Ack {
                slot,
                list: Vec::new(),
            },
            _ => Message::Sync {
                slot,
                delay,
                retry,
                items: view.items().collect(),
            },
        }
    }

    fn written(room: usize, transmission: u8, sources: &[Occurrence]) {
        let slices: Vec<(Id, &[u8])> = sources
            .iter()
            .map(|source| (source.id, &source.reading[..]))
            .collect();
        let (mut one, mut other) = (vec![0xEE; room], vec![0xEE; room]);
        assert_eq!(
            write_event(&mut one, transmission, &slices),
            second::write_event(&mut other, transmission, sources)
        );
        assert_eq!(one, other);
    }

    #[test]
    fn the_fast_code_agrees_with_the_second_implementation() {
        let mut rng = Rng::new(4);
        for _ in 0..50_000 {
            match next(&mut rng) {
                Input::Crc(bytes) => assert_eq!(crc32c_by_8(&bytes), second::crc32c(&bytes)),
                Input::Event(bytes) => {
                    assert_eq!(read_event(&bytes).map(event), second::read_event(&bytes))
                }
                Input::Answer(bytes) => {
                    assert_eq!(read_answer(&bytes).map(answer), second::read_answer(&bytes))
                }
                Input::Request(bytes) => assert_eq!(
                    read_request(&bytes).map(request),
                    second::read_request(&bytes).map(without_list)
                ),
                Input::WriteEvent {
                    room,
                    transmission,
                    sources,
                } => written(room, transmission, &sources),
                _ => {}
            }
        }
    }
}
