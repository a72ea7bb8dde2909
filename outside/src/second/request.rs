//! Requests: the sync and the ack.

use super::crc::{sealed, unsealed};
use super::{put, Message};

const LEAST: usize = 25;
const MOST: usize = 4224;
const ROOM: usize = 217;
/// Where the enable list begins.
const LIST: usize = 16;
const LIST_HEADER: usize = 5;
const MOST_ITEMS_PART: usize = 4096;
const ITEM: usize = 3;
const MOST_ITEMS: usize = 64;
const ON: u8 = 0x80;

/// Asks the questions 2 to 9 in their order.
pub fn read_request(bytes: &[u8]) -> Result<Message, u8> {
    ask(2, (LEAST..=MOST).contains(&bytes.len()))?;
    ask(3, bytes[0] == 0x84)?;
    let request = unsealed(bytes).ok_or(4)?;
    ask(
        5,
        request[1] >> 3 == 1 && request[4] == 0x03 && request[8] == 0x04,
    )?;
    ask(6, request[2] & 0b11 == 0)?;
    let list = &request[LIST..];
    let count = list[0];
    let total = usize::from(u16::from_le_bytes([list[2], list[3]]));
    let header = usize::from(list[4]);
    ask(
        7,
        header >= LIST_HEADER && total >= header && total <= list.len(),
    )?;
    let (list, items_part) = (&list[..total], &list[header..total]);
    ask(8, items_part.len() <= MOST_ITEMS_PART)?;
    let items = items(count, items_part).ok_or(9)?;
    let slot = request[1] & 1 == 1;
    Ok(match count {
        0 => Message::Ack {
            slot,
            list: list.to_vec(),
        },
        _ => Message::Sync {
            slot,
            delay: request[10],
            retry: request[9],
            items,
        },
    })
}

/// Writes a sync; asks 17, 19, 20.
pub fn write_sync(
    buffer: &mut [u8],
    items: &[(u8, bool)],
    delay: u8,
    retry: u8,
) -> Result<usize, u8> {
    ask(17, buffer.len() >= ROOM)?;
    ask(19, (1..=MOST_ITEMS).contains(&items.len()))?;
    ask(20, !an_identifier_stands_twice(items))?;
    Ok(put(buffer, &request_bytes(items, delay, retry)))
}

/// Writes an ack; asks 17.
pub fn write_ack(buffer: &mut [u8]) -> Result<usize, u8> {
    ask(17, buffer.len() >= ROOM)?;
    Ok(put(buffer, &request_bytes(&[], 0, 0)))
}

fn ask(number: u8, yes: bool) -> Result<(), u8> {
    if yes {
        Ok(())
    } else {
        Err(number)
    }
}

/// The first `count` items, none where they do not fit.
fn items(count: u8, items_part: &[u8]) -> Option<Vec<(u8, bool)>> {
    let mut found = Vec::new();
    let mut rest = items_part;
    for _ in 0..count {
        let length = usize::from(*rest.first()?);
        if length < ITEM || length > rest.len() {
            return None;
        }
        found.push((rest[1], rest[2] & ON != 0));
        rest = &rest[length..];
    }
    Some(found)
}

fn an_identifier_stands_twice(items: &[(u8, bool)]) -> bool {
    (1..items.len()).any(|i| {
        items[..i]
            .iter()
            .any(|(identifier, _)| *identifier == items[i].0)
    })
}

fn request_bytes(items: &[(u8, bool)], delay: u8, retry: u8) -> Vec<u8> {
    let mut bytes = vec![
        0x84, 0x08, 0, 0, 0x03, 0, 0, 0, 0x04, retry, delay, 0, 0, 0, 0, 0,
    ];
    let total = (LIST_HEADER + ITEM * items.len()) as u16;
    bytes.extend([items.len() as u8, 0]);
    bytes.extend(total.to_le_bytes());
    bytes.push(LIST_HEADER as u8);
    for (identifier, on) in items {
        bytes.extend([ITEM as u8, *identifier, if *on { ON } else { 0 }]);
    }
    sealed(bytes)
}

#[cfg(test)]
mod tests {
    use super::*;

    const SYNC: [u8; 28] = [
        0x84, 8, 0, 0, 3, 0, 0, 0, 4, 2, 1, 0, 0, 0, 0, 0, 1, 0, 8, 0, 5, 3, 6, 0x80, 0xD9, 0xA6,
        0xCE, 0x76,
    ];
    const ACK: [u8; 25] = [
        0x84, 8, 0, 0, 3, 0, 0, 0, 4, 0, 0, 0, 0, 0, 0, 0, 0, 0, 5, 0, 5, 0x97, 0x3B, 0xDC, 0xF1,
    ];

    fn sync(items: &[(u8, bool)]) -> Result<Message, u8> {
        Ok(Message::Sync {
            slot: false,
            delay: 1,
            retry: 2,
            items: items.to_vec(),
        })
    }

    /// The sync of the document with another enable list, and the check word made right.
    fn with_list(list: &[u8]) -> Vec<u8> {
        sealed([&SYNC[..LIST], list].concat())
    }

    fn with_byte(place: usize, byte: u8) -> Vec<u8> {
        let mut bytes = SYNC[..24].to_vec();
        bytes[place] = byte;
        sealed(bytes)
    }

    #[test]
    fn the_documented_requests_are_written() {
        let mut buffer = [0xEE; ROOM];
        assert_eq!(write_sync(&mut buffer, &[(6, true)], 1, 2), Ok(28));
        assert_eq!(buffer[..28], SYNC);
        assert_eq!(buffer[28..], [0xEE; ROOM - 28]);
        let mut buffer = [0xEE; ROOM];
        assert_eq!(write_ack(&mut buffer), Ok(25));
        assert_eq!(buffer[..25], ACK);
        assert_eq!(buffer[25..], [0xEE; ROOM - 25]);
    }

    #[test]
    fn the_documented_requests_are_read() {
        assert_eq!(read_request(&SYNC), sync(&[(6, true)]));
        assert_eq!(
            read_request(&ACK),
            Ok(Message::Ack {
                slot: false,
                list: vec![0, 0, 5, 0, 5]
            })
        );
        let twice = with_list(&[2, 0, 0x0B, 0, 5, 3, 6, 0x80, 3, 6, 0]);
        assert_eq!(read_request(&twice), sync(&[(6, true), (6, false)]));
    }

    #[test]
    fn what_is_not_read() {
        for (place, byte) in [
            (2, 0xFC),
            (3, 0xFF),
            (5, 0xFF),
            (6, 1),
            (7, 1),
            (11, 1),
            (12, 1),
            (15, 1),
            (17, 9),
            (1, 0x0E),
            (23, 0xFF),
        ] {
            assert_eq!(
                read_request(&with_byte(place, byte)),
                sync(&[(6, true)]),
                "{place}"
            );
        }
        let list = [
            2, 0, 17, 0, 7, 0xAA, 0xBB, 5, 6, 0xFF, 1, 2, 3, 9, 0x7F, 0xCC, 0xDD, 0xEE,
        ];
        assert_eq!(
            read_request(&with_list(&list)),
            sync(&[(6, true), (9, false)])
        );
    }

    #[test]
    fn an_ack_may_have_bytes_in_its_items_part_and_behind() {
        let bytes = with_list(&[0, 1, 7, 0, 6, 0xAA, 0, 0xCC]);
        let list = vec![0, 1, 7, 0, 6, 0xAA, 0];
        assert_eq!(read_request(&bytes), Ok(Message::Ack { slot: false, list }));
    }

    #[test]
    fn refusals() {
        for (bytes, number) in [
            (ACK[..24].to_vec(), 2),
            (vec![0; 4225], 2),
            (vec![0; 4224], 3),
            (with_byte(0, 0x04), 3),
            ([&SYNC[..27], &[0]].concat(), 4),
            (with_byte(1, 0x00), 5),
            (with_byte(1, 0x88), 5),
            (with_byte(4, 0x04), 5),
            (with_byte(8, 0x03), 5),
            (with_byte(2, 1), 6),
            (with_byte(2, 2), 6),
            (with_byte(20, 4), 7),
            (with_byte(20, 9), 7),
            (with_byte(18, 9), 7),
            (with_byte(18, 7), 9),
            (with_byte(16, 2), 9),
            (with_byte(21, 2), 9),
            (with_byte(21, 4), 9),
            (with_byte(20, 6), 9),
        ] {
            assert_eq!(read_request(&bytes), Err(number), "{bytes:02X?}");
        }
    }

    #[test]
    fn the_items_part_at_its_limit() {
        let list = |length: u16, header: u8| {
            let [low, high] = (length + u16::from(header)).to_le_bytes();
            let mut list = vec![0, 0, low, high, header];
            list.resize(usize::from(length) + usize::from(header), 0);
            with_list(&list)
        };
        assert!(read_request(&list(4096, 5)).is_ok());
        assert!(read_request(&list(4096, 108)).is_ok());
        assert_eq!(read_request(&list(4097, 5)), Err(8));
        assert_eq!(read_request(&list(4096, 109)), Err(2));
    }

    #[test]
    fn as_many_items_as_a_byte_can_say() {
        let mut list = vec![0xFF, 0, 0x02, 0x03, 5];
        (0..255).for_each(|identifier| list.extend([3, identifier, 0]));
        let items: Vec<(u8, bool)> = (0..255).map(|identifier| (identifier, false)).collect();
        assert_eq!(read_request(&with_list(&list)), sync(&items));
    }

    #[test]
    fn what_is_refused_to_be_written() {
        let all: Vec<(u8, bool)> = (0..65).map(|identifier| (identifier, true)).collect();
        let mut buffer = [0xEE; ROOM];
        assert_eq!(write_sync(&mut buffer[1..], &[], 0, 0), Err(17));
        assert_eq!(write_ack(&mut buffer[1..]), Err(17));
        assert_eq!(write_sync(&mut buffer, &[], 0, 0), Err(19));
        assert_eq!(write_sync(&mut buffer, &all, 0, 0), Err(19));
        assert_eq!(
            write_sync(&mut buffer, &[(1, true), (2, true), (1, false)], 0, 0),
            Err(20)
        );
        assert_eq!(buffer, [0xEE; ROOM]);
        assert_eq!(write_sync(&mut buffer, &all[..64], 0, 0), Ok(217));
    }
}
