//! Unique IDs, readings, and which of them are lawful.

#[derive(Clone, Copy, Debug, PartialEq, Eq, Hash)]
pub struct Id {
    pub identifier: u8,
    pub scope: u8,
    pub info: u32,
}

#[derive(Clone, Debug, PartialEq, Eq)]
pub struct Occurrence {
    pub id: Id,
    pub reading: Vec<u8>,
}

pub(super) const FIRST_VENDOR: u8 = 0xC0;
const MOST_ROWS: usize = 64;
const MOST_READING: usize = 64;

pub fn id_is_lawful(id: &Id) -> bool {
    scopes(id.identifier).contains(&id.scope) && info_is_lawful(id)
}

/// Whether the reading is lawful for the identifier; scope and info do not matter to it.
pub fn reading_is_lawful(id: &Id, reading: &[u8]) -> bool {
    match id.identifier {
        0x00 | 0x01 | 0x0B => one_byte_to(1, reading),
        0x02 => one_byte_to(7, reading),
        0x03 => one_byte_to(3, reading),
        0x04 | 0x05 | 0x0A => reading.is_empty(),
        0x06..=0x09 => one_byte_to(0xFF, reading),
        0x0C..=0xBF => false,
        FIRST_VENDOR..=0xFF => reading.len() <= MOST_READING,
    }
}

/// The questions that making a table board asks: 13, 14, 15.
pub fn rows_refusal(rows: &[Occurrence]) -> Result<(), u8> {
    if rows.is_empty() || rows.len() > MOST_ROWS {
        return Err(13);
    }
    if !rows.iter().all(is_lawful) {
        return Err(14);
    }
    if an_id_stands_twice(rows) {
        return Err(15);
    }
    Ok(())
}

pub(super) fn is_lawful(occurrence: &Occurrence) -> bool {
    id_is_lawful(&occurrence.id) && reading_is_lawful(&occurrence.id, &occurrence.reading)
}

pub(super) fn an_id_stands_twice(occurrences: &[Occurrence]) -> bool {
    (1..occurrences.len()).any(|i| occurrences[..i].iter().any(|o| o.id == occurrences[i].id))
}

fn scopes(identifier: u8) -> &'static [u8] {
    match identifier {
        0x00 | 0x01 | 0x03 | 0x04 => &[1],
        0x02 | 0x0A => &[1, 2],
        0x05..=0x09 => &[2],
        0x0B => &[4],
        0x0C..=0xBF => &[],
        FIRST_VENDOR..=0xFF => &[0, 1, 2, 3, 4, 5],
    }
}

fn info_is_lawful(id: &Id) -> bool {
    let mi_port = (0x1_0000..=0x1_00FF).contains(&id.info);
    match id.scope {
        0 => true,
        1 | 5 => id.info <= 0xFFFF,
        2 => id.info == 0,
        3 => id.info <= 0xFF,
        4 if id.identifier == 0x0B => mi_port,
        4 => id.info <= 0xFFFF || mi_port,
        _ => false,
    }
}

fn one_byte_to(most: u8, reading: &[u8]) -> bool {
    matches!(reading, [byte] if *byte <= most)
}

#[cfg(test)]
mod tests {
    use super::*;

    fn id(identifier: u8, scope: u8, info: u32) -> Id {
        Id {
            identifier,
            scope,
            info,
        }
    }

    #[test]
    fn every_identifier_has_its_scopes() {
        for identifier in 0..=0xFF {
            let lawful: Vec<u8> = (0..=0xFF)
                .filter(|scope| {
                    id_is_lawful(&id(identifier, *scope, 0))
                        || id_is_lawful(&id(identifier, *scope, 0x1_0000))
                })
                .collect();
            assert_eq!(lawful, scopes(identifier));
        }
    }

    #[test]
    fn infos_at_their_limits() {
        for (identifier, scope, info, lawful) in [
            (0xC0, 0, 0xFFFF_FFFF, true),
            (0x04, 1, 0xFFFF, true),
            (0x04, 1, 0x1_0000, false),
            (0x0A, 2, 0, true),
            (0x0A, 2, 1, false),
            (0xFF, 3, 0xFF, true),
            (0xFF, 3, 0x100, false),
            (0xC0, 4, 0xFFFF, true),
            (0xC0, 4, 0x1_0000, true),
            (0xC0, 4, 0x1_00FF, true),
            (0xC0, 4, 0x1_0100, false),
            (0x0B, 4, 0, false),
            (0x0B, 4, 0xFFFF, false),
            (0x0B, 4, 0x1_0000, true),
            (0x0B, 4, 0x1_00FF, true),
            (0x0B, 4, 0x1_0100, false),
            (0xC0, 5, 0xFFFF, true),
            (0xC0, 5, 0x1_0000, false),
            (0xC0, 6, 0, false),
            (0xBF, 2, 0, false),
        ] {
            assert_eq!(
                id_is_lawful(&id(identifier, scope, info)),
                lawful,
                "{identifier:02X} {scope} {info:X}"
            );
        }
    }

    #[test]
    fn one_byte_readings() {
        let counts = [2, 2, 8, 4, 0, 0, 256, 256, 256, 256, 0, 2, 0];
        for (identifier, count) in counts.into_iter().enumerate() {
            let id = id(identifier as u8, 1, 0);
            let lawful = (0..=0xFF)
                .filter(|byte| reading_is_lawful(&id, &[*byte]))
                .count();
            assert_eq!(lawful, count);
            assert!(!reading_is_lawful(&id, &[0, 0]));
            assert_eq!(
                reading_is_lawful(&id, &[]),
                matches!(identifier, 4 | 5 | 10)
            );
        }
    }

    #[test]
    fn vendor_readings() {
        for (identifier, length, lawful) in [
            (0xBF, 0, false),
            (0xC0, 0, true),
            (0xC0, 64, true),
            (0xFF, 64, true),
            (0xFF, 65, false),
        ] {
            assert_eq!(
                reading_is_lawful(&id(identifier, 0, 0), &vec![0xFF; length]),
                lawful
            );
        }
    }

    #[test]
    fn rows() {
        let row = |identifier, byte| Occurrence {
            id: id(identifier, 2, 0),
            reading: vec![byte],
        };
        assert_eq!(rows_refusal(&[]), Err(13));
        assert_eq!(rows_refusal(&vec![row(6, 1); 65]), Err(13));
        assert_eq!(rows_refusal(&vec![row(6, 1); 64]), Err(15));
        assert_eq!(rows_refusal(&[row(6, 1), row(6, 2), row(5, 1)]), Err(14));
        assert_eq!(rows_refusal(&[row(6, 1), row(7, 1)]), Ok(()));
    }
}
