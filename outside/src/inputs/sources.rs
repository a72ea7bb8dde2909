//! Unique IDs, readings and occurrences, lawful ones and such as break one rule.

use super::Rng;
use crate::second::{Id, Occurrence};

const FIRST_VENDOR: u8 = 0xC0;
const MOST_BODY: usize = 4096;

/// The highest lawful byte of the reading, by identifier; none where the reading is empty.
const HIGHEST: [Option<u8>; 12] = [
    Some(1),
    Some(1),
    Some(7),
    Some(3),
    None,
    None,
    Some(0xFF),
    Some(0xFF),
    Some(0xFF),
    Some(0xFF),
    None,
    Some(1),
];

pub fn lawful_id(rng: &mut Rng) -> Id {
    let identifier = if rng.one_in(2) {
        rng.below(12) as u8
    } else {
        vendor_identifier(rng)
    };
    let scope = lawful_scope(rng, identifier);
    Id {
        identifier,
        scope,
        info: lawful_info(rng, identifier, scope),
    }
}

pub fn lawful_reading(rng: &mut Rng, identifier: u8) -> Vec<u8> {
    if identifier >= FIRST_VENDOR {
        let length = vendor_length(rng);
        return rng.bytes(length);
    }
    match HIGHEST[usize::from(identifier)] {
        Some(highest) => vec![edge_or_between(rng, 0, usize::from(highest)) as u8],
        None => Vec::new(),
    }
}

pub fn lawful_occurrence(rng: &mut Rng) -> Occurrence {
    let id = lawful_id(rng);
    Occurrence {
        id,
        reading: lawful_reading(rng, id.identifier),
    }
}

/// Lawful occurrences of unlike IDs: mostly few, sometimes up to 64, sometimes near the body's
/// limit, so that they overflow or just do not, and sometimes far beyond it.
pub fn lawful_sources(rng: &mut Rng) -> Vec<Occurrence> {
    match rng.below(40) {
        0 | 1 => {
            let length = rng.between(MOST_BODY - 2, MOST_BODY + 3);
            sources_of_body(rng, length)
        }
        2 => {
            let length = rng.between(MOST_BODY + 1, 64 * (9 + 64));
            sources_of_body(rng, length)
        }
        3..=5 => sources(rng, 5, 64),
        _ => sources(rng, 0, 4),
    }
}

/// Like `lawful_sources`, but never so long that they overflow.
pub fn lawful_sources_that_fit(rng: &mut Rng) -> Vec<Occurrence> {
    match rng.below(60) {
        0 => {
            let length = rng.between(MOST_BODY - 3, MOST_BODY);
            sources_of_body(rng, length)
        }
        1..=4 => loop {
            let found = sources(rng, 5, 64);
            if body_length(&found) <= MOST_BODY {
                return found;
            }
        },
        _ => sources(rng, 0, 4),
    }
}

/// Lawful occurrences of unlike IDs whose body is longer than the limit by 1 to 4 bytes.
pub fn sources_just_too_long(rng: &mut Rng) -> Vec<Occurrence> {
    let length = rng.between(MOST_BODY + 1, MOST_BODY + 4);
    sources_of_body(rng, length)
}

/// So many vendor occurrences of unlike IDs, with readings of at most `most` bytes.
pub fn vendor_sources(rng: &mut Rng, count: usize, most: usize) -> Vec<Occurrence> {
    let mut found: Vec<Occurrence> = Vec::new();
    while found.len() < count {
        let id = vendor_id(rng);
        if !has(&found, &id) {
            let length = rng.between(0, most);
            found.push(Occurrence {
                id,
                reading: rng.bytes(length),
            });
        }
    }
    found
}

pub fn body_length(sources: &[Occurrence]) -> usize {
    sources.iter().map(|source| 9 + source.reading.len()).sum()
}

pub fn unlawful_identifier(rng: &mut Rng) -> u8 {
    edge_or_between(rng, 0x0C, 0xBF) as u8
}

/// An ID of which only the identifier is unlawful.
pub fn id_of_unlawful_identifier(rng: &mut Rng) -> Id {
    let scope = rng.below(6) as u8;
    let identifier = unlawful_identifier(rng);
    Id {
        identifier,
        scope,
        info: lawful_info(rng, FIRST_VENDOR, scope),
    }
}

/// An ID whose scope is unlawful for its identifier.
pub fn id_of_unlawful_scope(rng: &mut Rng) -> Id {
    let Id {
        identifier,
        scope,
        info,
    } = lawful_id(rng);
    if rng.one_in(2) {
        let scope = scope | 1 << rng.between(3, 7);
        return Id {
            identifier,
            scope,
            info,
        };
    }
    loop {
        let scope = edge_or_between(rng, 0, 7) as u8;
        if !lawful_scopes(identifier).contains(&scope) {
            return Id {
                identifier,
                scope,
                info: lawful_info(rng, FIRST_VENDOR, scope),
            };
        }
    }
}

/// An ID whose scope ID info is unlawful for its scope.
pub fn id_of_unlawful_info(rng: &mut Rng) -> Id {
    let (identifier, scope) = loop {
        let id = lawful_id(rng);
        if id.scope != 0 {
            break (id.identifier, id.scope);
        }
    };
    let least = match (identifier, scope) {
        (_, 2) => 1,
        (_, 3) => 0x100,
        (_, 4) => 0x1_0100,
        _ => 0x1_0000,
    };
    let info = match rng.below(4) {
        0 => least,
        1 if identifier == 0x0B => edge_or_between(rng, 0, 0xFFFF),
        1 => edge_or_between(rng, least, least + 0xFF),
        2 => 1 << rng.between(18, 31),
        _ => edge_or_between(rng, least, 0xFFFF_FFFF),
    };
    Id {
        identifier,
        scope,
        info: info as u32,
    }
}

/// A lawful ID with a byte that its identifier does not allow.
pub fn occurrence_of_unlawful_byte(rng: &mut Rng) -> Occurrence {
    let identifier = *rng.pick(&[0x00, 0x01, 0x02, 0x03, 0x0B]);
    let highest = HIGHEST[usize::from(identifier)].unwrap_or(0xFF);
    let byte = edge_or_between(rng, usize::from(highest) + 1, 0xFF) as u8;
    Occurrence {
        id: id_of(rng, identifier),
        reading: vec![byte],
    }
}

/// A lawful ID with a reading of a length that its identifier does not allow.
pub fn occurrence_of_unlawful_length(rng: &mut Rng) -> Occurrence {
    let id = lawful_id(rng);
    let length = if id.identifier >= FIRST_VENDOR {
        *rng.pick(&[65, 65, 66, 255])
    } else if HIGHEST[usize::from(id.identifier)].is_none() {
        *rng.pick(&[1, 1, 2, 64])
    } else {
        *rng.pick(&[0, 2, 2, 64])
    };
    Occurrence {
        id,
        reading: (0..length).map(|_| rng.below(2) as u8).collect(),
    }
}

/// A lawful occurrence whose reading is not empty.
pub fn occurrence_with_reading(rng: &mut Rng) -> Occurrence {
    loop {
        let found = lawful_occurrence(rng);
        if !found.reading.is_empty() {
            return found;
        }
    }
}

/// One of the two ends, or any between them.
pub fn edge_or_between(rng: &mut Rng, least: usize, most: usize) -> usize {
    match rng.below(8) {
        0 => least,
        1 => most,
        _ => rng.between(least, most),
    }
}

fn sources(rng: &mut Rng, least: usize, most: usize) -> Vec<Occurrence> {
    let count = edge_or_between(rng, least, most);
    let mut found: Vec<Occurrence> = Vec::new();
    while found.len() < count {
        let source = lawful_occurrence(rng);
        if !has(&found, &source.id) {
            found.push(source);
        }
    }
    found
}

/// Vendor occurrences of unlike IDs whose body has exactly this length, at most 64 × 73.
fn sources_of_body(rng: &mut Rng, length: usize) -> Vec<Occurrence> {
    let count = rng.between(length.div_ceil(9 + 64), 64);
    let mut found = vendor_sources(rng, count, 64);
    let mut now = body_length(&found);
    while now != length {
        let reading = &mut found[rng.below(count)].reading;
        let before = reading.len();
        if now > length {
            reading.truncate(before.saturating_sub(now - length));
        } else {
            reading.resize((before + length - now).min(64), rng.byte());
        }
        now = now + reading.len() - before;
    }
    found
}

fn has(sources: &[Occurrence], id: &Id) -> bool {
    sources.iter().any(|source| source.id == *id)
}

fn vendor_identifier(rng: &mut Rng) -> u8 {
    edge_or_between(rng, 0xC0, 0xFF) as u8
}

fn vendor_id(rng: &mut Rng) -> Id {
    let identifier = vendor_identifier(rng);
    id_of(rng, identifier)
}

fn id_of(rng: &mut Rng, identifier: u8) -> Id {
    let scope = lawful_scope(rng, identifier);
    Id {
        identifier,
        scope,
        info: lawful_info(rng, identifier, scope),
    }
}

fn vendor_length(rng: &mut Rng) -> usize {
    match rng.below(16) {
        0 => 0,
        1 => 63,
        2 => 64,
        3 => rng.between(0, 64),
        _ => rng.between(0, 8),
    }
}

fn lawful_scopes(identifier: u8) -> &'static [u8] {
    match identifier {
        FIRST_VENDOR..=0xFF => &[0, 1, 2, 3, 4, 5],
        0x0B => &[4],
        0x02 | 0x0A => &[1, 2],
        0x05..=0x09 => &[2],
        _ => &[1],
    }
}

fn lawful_scope(rng: &mut Rng, identifier: u8) -> u8 {
    *rng.pick(lawful_scopes(identifier))
}

fn lawful_info(rng: &mut Rng, identifier: u8, scope: u8) -> u32 {
    let mi_port = identifier == 0x0B || rng.one_in(2);
    let (least, most) = match scope {
        0 => (0, 0xFFFF_FFFF),
        3 => (0, 0xFF),
        4 if mi_port => (0x1_0000, 0x1_00FF),
        1 | 4 | 5 => (0, 0xFFFF),
        _ => (0, 0),
    };
    edge_or_between(rng, least, most) as u32
}

#[cfg(test)]
mod tests {
    use super::*;
    use crate::second::{id_is_lawful, reading_is_lawful, rows_refusal};

    #[test]
    fn what_is_called_lawful_is_so() {
        let mut rng = Rng::new(1);
        for _ in 0..2000 {
            let found = lawful_sources(&mut rng);
            assert!(found.is_empty() || rows_refusal(&found).is_ok());
            assert!(body_length(&lawful_sources_that_fit(&mut rng)) <= MOST_BODY);
            let found = occurrence_with_reading(&mut rng);
            assert!(rows_refusal(&[found]).is_ok());
        }
    }

    #[test]
    fn what_breaks_a_rule_does_so() {
        let mut rng = Rng::new(2);
        for _ in 0..2000 {
            assert!(!id_is_lawful(&id_of_unlawful_identifier(&mut rng)));
            assert!(!id_is_lawful(&id_of_unlawful_scope(&mut rng)));
            assert!(!id_is_lawful(&id_of_unlawful_info(&mut rng)));
            for found in [
                occurrence_of_unlawful_byte(&mut rng),
                occurrence_of_unlawful_length(&mut rng),
            ] {
                assert!(id_is_lawful(&found.id));
                assert!(!reading_is_lawful(&found.id, &found.reading));
            }
        }
    }

    #[test]
    fn bodies_at_the_limit() {
        let mut rng = Rng::new(3);
        for length in MOST_BODY - 2..=MOST_BODY + 3 {
            let found = sources_of_body(&mut rng, length);
            assert_eq!(body_length(&found), length);
            assert!(rows_refusal(&found).is_ok());
        }
        assert!(body_length(&sources_just_too_long(&mut rng)) > MOST_BODY);
    }
}
