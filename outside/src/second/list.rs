//! Occurrences and lists.

use super::id::{an_id_stands_twice, is_lawful, FIRST_VENDOR};
use super::{Id, Occurrence};

#[derive(Clone, Debug, PartialEq, Eq)]
pub enum List {
    Overflow,
    Occurrences(Vec<Occurrence>),
}

const VERSION: u8 = 0;
const HEADER: usize = 7;
const MOST_BODY: usize = 4096;
const MOST_OCCURRENCES: usize = 64;
const OCCURRENCE_HEADER: usize = 9;
const OVERFLOW_BIT: u32 = 1 << 23;

/// The transmission info and the list, or none where the bytes are no lawful list.
pub fn read_list(bytes: &[u8]) -> Option<(u8, List)> {
    if bytes.len() < HEADER {
        return None;
    }
    let (header, body) = bytes.split_at(HEADER);
    if header[1] != VERSION || usize::from(header[5]) != HEADER {
        return None;
    }
    let number = usize::from(header[0]);
    let length_info = u32::from_le_bytes([header[2], header[3], header[4], 0]);
    let list = if length_info == OVERFLOW_BIT {
        overflow(number, body)?
    } else {
        occurrences(number, length_info, body)?
    };
    Some((header[6], list))
}

fn overflow(number: usize, body: &[u8]) -> Option<List> {
    (number == 0 && body.is_empty()).then_some(List::Overflow)
}

fn occurrences(number: usize, length_info: u32, body: &[u8]) -> Option<List> {
    if length_info as usize != HEADER + body.len() || body.len() > MOST_BODY {
        return None;
    }
    let mut found = Vec::new();
    let mut rest = body;
    while !rest.is_empty() {
        let (occurrence, behind) = read_occurrence(rest)?;
        found.push(occurrence);
        rest = behind;
    }
    let lawful = found.len() == number
        && number <= MOST_OCCURRENCES
        && found.iter().all(is_lawful)
        && !an_id_stands_twice(&found);
    lawful.then_some(List::Occurrences(found))
}

/// The occurrence at the start of the bytes, if it has the form of one, and what is behind it.
fn read_occurrence(bytes: &[u8]) -> Option<(Occurrence, &[u8])> {
    if bytes.len() < OCCURRENCE_HEADER {
        return None;
    }
    let (header, behind) = bytes.split_at(OCCURRENCE_HEADER);
    let id = Id {
        identifier: header[3],
        scope: header[8],
        info: u32::from_le_bytes([header[4], header[5], header[6], header[7]]),
    };
    let (length, other) = if id.identifier >= FIRST_VENDOR {
        (header[2], header[1])
    } else {
        (header[1], header[2])
    };
    if usize::from(header[0]) != OCCURRENCE_HEADER || other != 0 || behind.len() < length.into() {
        return None;
    }
    let (reading, rest) = behind.split_at(length.into());
    Some((
        Occurrence {
            id,
            reading: reading.to_vec(),
        },
        rest,
    ))
}

/// The list of these occurrences, or the overflow header where they would be too long.
pub(super) fn list_bytes(transmission: u8, sources: &[Occurrence]) -> Vec<u8> {
    let body: Vec<u8> = sources.iter().flat_map(occurrence_bytes).collect();
    if body.len() > MOST_BODY {
        return header_bytes(0, OVERFLOW_BIT, transmission);
    }
    let mut list = header_bytes(
        sources.len() as u8,
        (HEADER + body.len()) as u32,
        transmission,
    );
    list.extend(body);
    list
}

fn header_bytes(number: u8, length_info: u32, transmission: u8) -> Vec<u8> {
    let mut header = vec![number, VERSION];
    header.extend(&length_info.to_le_bytes()[..3]);
    header.extend([HEADER as u8, transmission]);
    header
}

fn occurrence_bytes(occurrence: &Occurrence) -> Vec<u8> {
    let Occurrence { id, reading } = occurrence;
    let length = reading.len() as u8;
    let (specific, vendor) = if id.identifier >= FIRST_VENDOR {
        (0, length)
    } else {
        (length, 0)
    };
    let mut bytes = vec![OCCURRENCE_HEADER as u8, specific, vendor, id.identifier];
    bytes.extend(id.info.to_le_bytes());
    bytes.push(id.scope);
    bytes.extend(reading);
    bytes
}

#[cfg(test)]
mod tests {
    use super::*;

    fn temperature(reading: u8) -> Occurrence {
        Occurrence {
            id: Id {
                identifier: 6,
                scope: 2,
                info: 0,
            },
            reading: vec![reading],
        }
    }

    fn vendor(info: u32, length: usize) -> Occurrence {
        Occurrence {
            id: Id {
                identifier: 0xC0,
                scope: 0,
                info,
            },
            reading: vec![0xA5; length],
        }
    }

    /// The list of one temperature, with a byte changed.
    fn changed(place: usize, byte: u8) -> Vec<u8> {
        let mut list = list_bytes(8, &[temperature(0x1E)]);
        list[place] = byte;
        list
    }

    #[test]
    fn the_documented_lists() {
        let list = [1, 0, 0x11, 0, 0, 7, 8, 9, 1, 0, 6, 0, 0, 0, 0, 2, 0x1E];
        assert_eq!(list_bytes(8, &[temperature(0x1E)]), list);
        assert_eq!(
            read_list(&list),
            Some((8, List::Occurrences(vec![temperature(0x1E)])))
        );
        let empty = [0, 0, 7, 0, 0, 7, 0x55];
        assert_eq!(list_bytes(0x55, &[]), empty);
        assert_eq!(read_list(&empty), Some((0x55, List::Occurrences(vec![]))));
        let overflow = [0, 0, 0, 0, 0x80, 7, 0xF8];
        assert_eq!(read_list(&overflow), Some((0xF8, List::Overflow)));
    }

    #[test]
    fn a_body_of_4096_bytes_fits() {
        let mut sources: Vec<Occurrence> = (0..55).map(|i| vendor(i, 64)).collect();
        sources.extend([vendor(55, 63), vendor(56, 0)]);
        let list = list_bytes(8, &sources);
        assert_eq!(list[..7], [0x39, 0, 7, 0x10, 0, 7, 8]);
        assert_eq!(list.len(), 4103);
        assert_eq!(read_list(&list), Some((8, List::Occurrences(sources))));
    }

    #[test]
    fn a_body_of_4097_bytes_overflows() {
        let mut sources: Vec<Occurrence> = (0..56).map(|i| vendor(i, 64)).collect();
        sources.push(vendor(56, 0));
        assert_eq!(list_bytes(8, &sources), [0, 0, 0, 0, 0x80, 7, 8]);
        let body: Vec<u8> = sources.iter().flat_map(occurrence_bytes).collect();
        let mut list = header_bytes(57, 7 + 4097, 8);
        list.extend(body);
        assert_eq!(read_list(&list), None);
    }

    #[test]
    fn a_changed_byte_is_seen() {
        for (place, byte) in [
            (0, 0),
            (0, 2),
            (1, 1),
            (2, 0x10),
            (2, 0x12),
            (3, 1),
            (4, 1),
            (4, 0x80),
            (5, 6),
            (7, 8),
            (7, 10),
            (8, 0),
            (8, 2),
            (9, 1),
            (10, 0x0C),
            (10, 5),
            (10, 0xC0),
            (11, 1),
            (14, 1),
            (15, 1),
            (15, 0x82),
        ] {
            assert_eq!(read_list(&changed(place, byte)), None, "{place} {byte:02X}");
        }
        assert!(read_list(&changed(6, 0xFF)).is_some());
        assert!(read_list(&changed(16, 0xFF)).is_some());
    }

    #[test]
    fn a_byte_more_or_less_is_seen() {
        let list = changed(6, 8);
        for length in 0..list.len() {
            assert_eq!(read_list(&list[..length]), None);
        }
        assert_eq!(read_list(&[&list[..], &[0]].concat()), None);
        assert_eq!(read_list(&[0, 0, 0, 0, 0x80, 7, 8, 0]), None);
        assert_eq!(read_list(&[1, 0, 0, 0, 0x80, 7, 8]), None);
        assert_eq!(read_list(&[0, 0, 7, 0, 0x80, 7, 8]), None);
        assert_eq!(read_list(&[0, 0, 0, 0, 0, 7, 8]), None);
    }

    #[test]
    fn an_id_may_not_stand_twice() {
        assert_eq!(
            read_list(&list_bytes(0, &[temperature(1), temperature(2)])),
            None
        );
        assert!(read_list(&list_bytes(0, &[vendor(1, 0), vendor(2, 0)])).is_some());
    }

    #[test]
    fn at_most_64_occurrences() {
        let sources: Vec<Occurrence> = (0..65).map(|i| vendor(i, 1)).collect();
        assert!(read_list(&list_bytes(0, &sources[..64])).is_some());
        assert_eq!(read_list(&list_bytes(0, &sources)), None);
    }

    #[test]
    fn a_vendor_reading_of_65_bytes_is_unlawful() {
        assert!(read_list(&list_bytes(0, &[vendor(0, 64)])).is_some());
        assert_eq!(read_list(&list_bytes(0, &[vendor(0, 65)])), None);
    }
}
