//! Event messages and answers.

use super::list::{read_list, write_list, ListView};
use super::{seal, unsealed};
use crate::second::Id;

pub const ROOM_EVENT: usize = 4111;
const EVENT_HEADER: [u8; 4] = [0x84, 0x28, 0, 0];

/// Writes the event message of these sources, which are lawful, at most 64 and of unlike IDs.
pub fn write_event(
    buffer: &mut [u8],
    transmission: u8,
    sources: &[(Id, &[u8])],
) -> Result<usize, u8> {
    write_event_of(buffer, transmission, sources.iter().copied())
}

pub fn write_event_of<'a>(
    buffer: &mut [u8],
    transmission: u8,
    sources: impl Iterator<Item = (Id, &'a [u8])> + Clone,
) -> Result<usize, u8> {
    if buffer.len() < ROOM_EVENT {
        return Err(10);
    }
    buffer[..4].copy_from_slice(&EVENT_HEADER);
    let list = write_list(&mut buffer[4..], transmission, sources);
    Ok(seal(buffer, 4 + list))
}

/// Writes the answer into a buffer that has room for the longest one.
pub fn write_answer_of<'a>(
    buffer: &mut [u8],
    slot: bool,
    sources: impl Iterator<Item = (Id, &'a [u8])> + Clone,
) -> usize {
    buffer[..8].copy_from_slice(&[0x84, 0x88 | u8::from(slot), 0, 0, 0, 0, 0, 0]);
    let list = write_list(&mut buffer[8..], 0, sources);
    seal(buffer, 8 + list)
}

/// The list of a lawful event message.
pub fn read_event(bytes: &[u8]) -> Result<ListView<'_>, u8> {
    unsealed(bytes)
        .and_then(|message| message.strip_prefix(&EVENT_HEADER))
        .and_then(read_list)
        .ok_or(25)
}

/// The slot bit and the list of a lawful answer.
pub fn read_answer(bytes: &[u8]) -> Result<(bool, ListView<'_>), u8> {
    let Some(&[0x84, kind @ 0x88..=0x89, 0, 0, 0, 0, 0, 0, ref list @ ..]) = unsealed(bytes) else {
        return Err(28);
    };
    match read_list(list) {
        Some(list) if list.transmission == 0 => Ok((kind == 0x89, list)),
        _ => Err(28),
    }
}
