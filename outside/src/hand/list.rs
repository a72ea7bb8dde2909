//! Lists, written into a buffer and read in place.

use super::lawful::{is_lawful, FIRST_VENDOR};
use crate::second::Id;

const HEADER: usize = 7;
const OCCURRENCE_HEADER: usize = 9;
const MOST_BODY: usize = 4096;
const MOST_OCCURRENCES: usize = 64;
const OVERFLOW_BIT: u32 = 1 << 23;

/// A lawful list in its bytes.
#[derive(Clone, Copy, Debug)]
pub struct ListView<'a> {
    pub transmission: u8,
    pub overflow: bool,
    body: &'a [u8],
}

impl<'a> ListView<'a> {
    pub fn occurrences(&self) -> impl Iterator<Item = (Id, &'a [u8])> {
        let mut rest = self.body;
        std::iter::from_fn(move || {
            let (id, reading, behind) = split(rest)?;
            rest = behind;
            Some((id, reading))
        })
    }
}

/// The unique ID as one number.
pub fn key(id: &Id) -> u64 {
    u64::from(id.identifier) << 40 | u64::from(id.scope) << 32 | u64::from(id.info)
}

/// Writes the list at the start of the place; hands back its length.
pub fn write_list<'a>(
    place: &mut [u8],
    transmission: u8,
    sources: impl Iterator<Item = (Id, &'a [u8])> + Clone,
) -> usize {
    let mut number = 0;
    let mut body = 0;
    for (_, reading) in sources.clone() {
        number += 1;
        body += OCCURRENCE_HEADER + reading.len();
    }
    if body > MOST_BODY {
        place[..HEADER].copy_from_slice(&header(0, OVERFLOW_BIT, transmission));
        return HEADER;
    }
    let total = HEADER + body;
    let (start, mut rest) = place[..total].split_at_mut(HEADER);
    start.copy_from_slice(&header(number, total as u32, transmission));
    for (id, reading) in sources {
        let (occurrence, behind) = rest.split_at_mut(OCCURRENCE_HEADER + reading.len());
        let (start, end) = occurrence.split_at_mut(OCCURRENCE_HEADER);
        start.copy_from_slice(&occurrence_header(&id, reading.len() as u8));
        end.copy_from_slice(reading);
        rest = behind;
    }
    total
}

fn header(number: u8, length_info: u32, transmission: u8) -> [u8; HEADER] {
    let [low, middle, high, _] = length_info.to_le_bytes();
    [number, 0, low, middle, high, HEADER as u8, transmission]
}

fn occurrence_header(id: &Id, length: u8) -> [u8; OCCURRENCE_HEADER] {
    let [a, b, c, d] = id.info.to_le_bytes();
    let (specific, vendor) = if id.identifier < FIRST_VENDOR {
        (length, 0)
    } else {
        (0, length)
    };
    [
        OCCURRENCE_HEADER as u8,
        specific,
        vendor,
        id.identifier,
        a,
        b,
        c,
        d,
        id.scope,
    ]
}

/// The list, if the bytes are a lawful one.
pub fn read_list(bytes: &[u8]) -> Option<ListView<'_>> {
    let &[number, 0, low, middle, high, 7, transmission, ref body @ ..] = bytes else {
        return None;
    };
    let length_info = u32::from_le_bytes([low, middle, high, 0]);
    let overflow = length_info == OVERFLOW_BIT;
    let lawful = if overflow {
        number == 0 && body.is_empty()
    } else {
        length_info as usize == bytes.len()
            && body.len() <= MOST_BODY
            && body_is_lawful(usize::from(number), body)
    };
    lawful.then_some(ListView {
        transmission,
        overflow,
        body,
    })
}

fn body_is_lawful(number: usize, body: &[u8]) -> bool {
    if number > MOST_OCCURRENCES {
        return false;
    }
    let mut keys = Keys::new();
    let mut rest = body;
    for _ in 0..number {
        let Some((id, reading, behind)) = split(rest) else {
            return false;
        };
        if !is_lawful(id.identifier, id.scope, id.info, reading) || !keys.add(key(&id)) {
            return false;
        }
        rest = behind;
    }
    rest.is_empty()
}

/// Up to 64 keys, and a set of 256 bits that tells most new keys without a search.
struct Keys {
    count: usize,
    keys: [u64; MOST_OCCURRENCES],
    hashes: [u64; 4],
}

impl Keys {
    fn new() -> Keys {
        Keys {
            count: 0,
            keys: [0; MOST_OCCURRENCES],
            hashes: [0; 4],
        }
    }

    /// Adds the key; whether it is new.
    fn add(&mut self, key: u64) -> bool {
        let hash = key.wrapping_mul(0x9E37_79B9_7F4A_7C15) >> 56;
        let word = &mut self.hashes[(hash >> 6) as usize];
        let bit = 1 << (hash & 63);
        if *word & bit != 0 && self.keys[..self.count].contains(&key) {
            return false;
        }
        *word |= bit;
        self.keys[self.count] = key;
        self.count += 1;
        true
    }
}

/// The unique ID and the reading of the first occurrence, if it has the form of one, and what is
/// behind it.
fn split(bytes: &[u8]) -> Option<(Id, &[u8], &[u8])> {
    let &[9, specific, vendor, identifier, a, b, c, d, scope, ref behind @ ..] = bytes else {
        return None;
    };
    let (length, other) = if identifier < FIRST_VENDOR {
        (specific, vendor)
    } else {
        (vendor, specific)
    };
    if other != 0 {
        return None;
    }
    let (reading, behind) = behind.split_at_checked(usize::from(length))?;
    Some((
        Id {
            identifier,
            scope,
            info: u32::from_le_bytes([a, b, c, d]),
        },
        reading,
        behind,
    ))
}
