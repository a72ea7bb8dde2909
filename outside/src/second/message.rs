//! Event messages and answers.

use super::crc::{sealed, unsealed};
use super::list::list_bytes;
use super::{put, read_list, Message, Occurrence};

const ROOM_EVENT: usize = 4111;
const ROOM_ANSWER: usize = 4115;
const EVENT_HEADER: [u8; 4] = [0x84, 0x28, 0, 0];

pub fn read_event(bytes: &[u8]) -> Result<Message, u8> {
    event(bytes).ok_or(25)
}

pub fn read_answer(bytes: &[u8]) -> Result<Message, u8> {
    answer(bytes).ok_or(28)
}

/// Writes the event message of these sources, which are lawful, at most 64 and of unlike IDs.
pub fn write_event(
    buffer: &mut [u8],
    transmission: u8,
    sources: &[Occurrence],
) -> Result<usize, u8> {
    if buffer.len() < ROOM_EVENT {
        return Err(10);
    }
    let mut message = EVENT_HEADER.to_vec();
    message.extend(list_bytes(transmission, sources));
    Ok(put(buffer, &sealed(message)))
}

/// Writes the answer of these sources, which are lawful, at most 64 and of unlike IDs.
pub fn write_answer(buffer: &mut [u8], slot: bool, sources: &[Occurrence]) -> Result<usize, u8> {
    if buffer.len() < ROOM_ANSWER {
        return Err(1);
    }
    let mut message = answer_header(slot).to_vec();
    message.extend(list_bytes(0, sources));
    Ok(put(buffer, &sealed(message)))
}

fn event(bytes: &[u8]) -> Option<Message> {
    let list = unsealed(bytes)?.strip_prefix(&EVENT_HEADER)?;
    let (transmission, list) = read_list(list)?;
    Some(Message::Event {
        generation: transmission >> 3,
        retries: transmission & 7,
        list,
    })
}

fn answer(bytes: &[u8]) -> Option<Message> {
    let message = unsealed(bytes)?;
    let slot = message.get(1)? & 1 == 1;
    let list = message.strip_prefix(&answer_header(slot))?;
    match read_list(list)? {
        (0, list) => Some(Message::Answer { slot, list }),
        _ => None,
    }
}

fn answer_header(slot: bool) -> [u8; 8] {
    [0x84, 0x88 + u8::from(slot), 0, 0, 0, 0, 0, 0]
}

#[cfg(test)]
mod tests {
    use super::*;
    use crate::second::{Id, List};

    const EVENT: [u8; 25] = [
        0x84, 0x28, 0, 0, 1, 0, 0x11, 0, 0, 7, 8, 9, 1, 0, 6, 0, 0, 0, 0, 2, 0x1E, 0x2C, 0x41,
        0x70, 0xD9,
    ];
    const RETRY: [u8; 25] = [
        0x84, 0x28, 0, 0, 1, 0, 0x11, 0, 0, 7, 9, 9, 1, 0, 6, 0, 0, 0, 0, 2, 0x1E, 0xED, 0xB6,
        0x01, 0x4E,
    ];
    const EVENT_OVERFLOW: [u8; 15] = [
        0x84, 0x28, 0, 0, 0, 0, 0, 0, 0x80, 7, 0xF8, 0xCF, 0x3A, 0x33, 0xCB,
    ];
    const ANSWER: [u8; 29] = [
        0x84, 0x88, 0, 0, 0, 0, 0, 0, 1, 0, 0x11, 0, 0, 7, 0, 9, 1, 0, 6, 0, 0, 0, 0, 2, 0x1E,
        0x16, 0x48, 0x01, 0x5F,
    ];
    const ANSWER_EMPTY: [u8; 19] = [
        0x84, 0x88, 0, 0, 0, 0, 0, 0, 0, 0, 7, 0, 0, 7, 0, 0xDF, 0x5B, 0xBC, 0x01,
    ];
    const ANSWER_OVERFLOW: [u8; 19] = [
        0x84, 0x88, 0, 0, 0, 0, 0, 0, 0, 0, 0, 0, 0x80, 7, 0, 0xD8, 0x22, 0xED, 0x22,
    ];

    fn temperature() -> Vec<Occurrence> {
        vec![Occurrence {
            id: Id {
                identifier: 6,
                scope: 2,
                info: 0,
            },
            reading: vec![0x1E],
        }]
    }

    fn too_long() -> Vec<Occurrence> {
        (0..57)
            .map(|info| Occurrence {
                id: Id {
                    identifier: 0xC0,
                    scope: 0,
                    info,
                },
                reading: vec![1; 64],
            })
            .collect()
    }

    fn written(sources: &[Occurrence], transmission: u8) -> Vec<u8> {
        let mut buffer = [0xEE; ROOM_EVENT + 1];
        let length = write_event(&mut buffer, transmission, sources).unwrap();
        assert!(buffer[length..].iter().all(|byte| *byte == 0xEE));
        buffer[..length].to_vec()
    }

    fn answered(sources: &[Occurrence], slot: bool) -> Vec<u8> {
        let mut buffer = [0xEE; ROOM_ANSWER + 1];
        let length = write_answer(&mut buffer, slot, sources).unwrap();
        assert!(buffer[length..].iter().all(|byte| *byte == 0xEE));
        buffer[..length].to_vec()
    }

    #[test]
    fn the_documented_messages_are_written() {
        assert_eq!(written(&temperature(), 8), EVENT);
        assert_eq!(written(&temperature(), 9), RETRY);
        assert_eq!(written(&too_long(), 0xF8), EVENT_OVERFLOW);
        assert_eq!(answered(&temperature(), false), ANSWER);
        assert_eq!(answered(&[], false), ANSWER_EMPTY);
        assert_eq!(answered(&too_long(), false), ANSWER_OVERFLOW);
    }

    #[test]
    fn the_documented_messages_are_read() {
        let list = List::Occurrences(temperature());
        let event = |generation, retries, list| {
            Ok(Message::Event {
                generation,
                retries,
                list,
            })
        };
        let answer = |list| Ok(Message::Answer { slot: false, list });
        assert_eq!(read_event(&EVENT), event(1, 0, list.clone()));
        assert_eq!(read_event(&RETRY), event(1, 1, list.clone()));
        assert_eq!(read_event(&EVENT_OVERFLOW), event(31, 0, List::Overflow));
        assert_eq!(read_answer(&ANSWER), answer(list));
        assert_eq!(
            read_answer(&ANSWER_EMPTY),
            answer(List::Occurrences(vec![]))
        );
        assert_eq!(read_answer(&ANSWER_OVERFLOW), answer(List::Overflow));
    }

    #[test]
    fn the_slot_bit() {
        let bytes = answered(&temperature(), true);
        assert_eq!(bytes[1], 0x89);
        let list = List::Occurrences(temperature());
        assert_eq!(
            read_answer(&bytes),
            Ok(Message::Answer { slot: true, list })
        );
    }

    #[test]
    fn every_changed_bit_is_seen() {
        for bit in 0..8 * EVENT.len() {
            let mut bytes = EVENT;
            bytes[bit / 8] ^= 1 << (bit % 8);
            assert_eq!(read_event(&bytes), Err(25));
        }
        for bit in 0..8 * ANSWER.len() {
            let mut bytes = ANSWER;
            bytes[bit / 8] ^= 1 << (bit % 8);
            assert_eq!(read_answer(&bytes), Err(28));
        }
    }

    #[test]
    fn headers_are_exact() {
        for place in 0..4 {
            let mut bytes = EVENT[..21].to_vec();
            bytes[place] ^= 1;
            assert_eq!(read_event(&sealed(bytes)), Err(25));
        }
        for place in (0..8).filter(|place| *place != 1) {
            let mut bytes = ANSWER[..25].to_vec();
            bytes[place] ^= 1;
            assert_eq!(read_answer(&sealed(bytes)), Err(28));
        }
    }

    #[test]
    fn an_answer_has_no_transmission_info() {
        let mut bytes = ANSWER[..25].to_vec();
        bytes[14] = 8;
        assert_eq!(read_answer(&sealed(bytes)), Err(28));
    }

    #[test]
    fn a_short_buffer_is_refused_and_left() {
        let mut buffer = [0xEE; ROOM_EVENT - 1];
        assert_eq!(write_event(&mut buffer, 0, &[]), Err(10));
        assert_eq!(buffer, [0xEE; ROOM_EVENT - 1]);
        let mut buffer = [0xEE; ROOM_ANSWER - 1];
        assert_eq!(write_answer(&mut buffer, true, &[]), Err(1));
        assert_eq!(buffer, [0xEE; ROOM_ANSWER - 1]);
    }
}
