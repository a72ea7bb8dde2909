//! What is handed to the writers.

use super::sources::{
    edge_or_between, id_of_unlawful_identifier, id_of_unlawful_info, id_of_unlawful_scope,
    lawful_reading, lawful_sources, occurrence_of_unlawful_byte, occurrence_of_unlawful_length,
    vendor_sources,
};
use super::{Input, Made, Meant, Rng};
use crate::second::{Id, Occurrence};

const MOST_MESSAGE: usize = 4224;

pub fn sync(rng: &mut Rng) -> Made {
    let room = room(rng, 217);
    let (kind, items) = items(rng);
    let meant = if room < 217 {
        Meant::Refused(17)
    } else {
        match kind {
            "no items" | "items too many" => Meant::Refused(19),
            "identifier twice" => Meant::Refused(20),
            _ => Meant::Accepted,
        }
    };
    let input = Input::WriteSync {
        room,
        items,
        delay: rng.byte(),
        retry: rng.byte(),
    };
    Made { kind, meant, input }
}

pub fn ack(rng: &mut Rng) -> Made {
    let room = room(rng, 217);
    Made {
        kind: "room",
        meant: fits(room, 217, 17),
        input: Input::WriteAck { room },
    }
}

pub fn event(rng: &mut Rng) -> Made {
    let room = room(rng, 4111);
    let sources = lawful_sources(rng);
    let input = Input::WriteEvent {
        room,
        transmission: rng.byte(),
        sources,
    };
    Made {
        kind: "lawful sources",
        meant: fits(room, 4111, 10),
        input,
    }
}

pub fn answer(rng: &mut Rng) -> Made {
    let room = room(rng, 4115);
    let sources = lawful_sources(rng);
    let input = Input::WriteAnswer {
        room,
        slot: rng.one_in(2),
        sources,
    };
    Made {
        kind: "lawful sources",
        meant: fits(room, 4115, 1),
        input,
    }
}

pub fn packets(rng: &mut Rng) -> Made {
    let length = match rng.below(32) {
        0 => 0,
        1 => rng.between(MOST_MESSAGE - 1, MOST_MESSAGE),
        2 => MOST_MESSAGE + 1,
        3..=12 => *rng.pick(&[1, 63, 64, 65, 127, 128, 129, 255, 256, 257, 320]),
        13 => rng.between(1, MOST_MESSAGE),
        _ => rng.between(1, 200),
    };
    let lawful = !rng.one_in(8);
    let address = |rng: &mut Rng| {
        if lawful || rng.one_in(2) {
            edge_or_between(rng, 0, 127) as u8
        } else {
            edge_or_between(rng, 128, 255) as u8
        }
    };
    let (destination_address, source_address) = (address(rng), address(rng));
    let meant = match length {
        _ if destination_address > 127 || source_address > 127 => Meant::Refused(16),
        1..=MOST_MESSAGE => Meant::Accepted,
        _ => Meant::NotTaken,
    };
    let input = Input::Packets {
        destination_address,
        source_address,
        source_id: rng.byte(),
        destination_id: rng.byte(),
        message: rng.bytes(length),
    };
    Made {
        kind: "message",
        meant,
        input,
    }
}

/// Rows for a table board, with one fault or none.
pub fn rows(rng: &mut Rng) -> Made {
    let mut rows = lawful_sources(rng);
    let count = rows.len();
    let (kind, meant) = match rng.below(8) {
        0 => {
            rows = if rng.one_in(2) {
                Vec::new()
            } else {
                vendor_sources(rng, 65, 2)
            };
            ("0 or 65 rows", Meant::Refused(13))
        }
        1 | 2 if count > 0 => {
            let place = rng.below(count);
            rows[place] = unlawful_occurrence(rng);
            ("unlawful row", Meant::Refused(14))
        }
        3 if (1..64).contains(&count) => {
            let id = rng.pick(&rows).id;
            let again = Occurrence {
                id,
                reading: lawful_reading(rng, id.identifier),
            };
            rows.insert(rng.between(0, count), again);
            ("row twice", Meant::Refused(15))
        }
        4 if (1..63).contains(&count) => {
            let again = rows[count - 1].clone();
            rows.insert(0, again);
            rows.push(unlawful_occurrence(rng));
            ("row twice, and an unlawful one", Meant::Refused(14))
        }
        _ if count == 0 => ("no rows", Meant::Refused(13)),
        _ => ("lawful rows", Meant::Accepted),
    };
    Made {
        kind,
        meant,
        input: Input::Rows(rows),
    }
}

fn unlawful_occurrence(rng: &mut Rng) -> Occurrence {
    match rng.below(5) {
        0 => {
            let length = rng.below(2);
            Occurrence {
                id: id_of_unlawful_identifier(rng),
                reading: rng.bytes(length),
            }
        }
        1 => {
            let id = id_of_unlawful_scope(rng);
            with_reading(rng, id)
        }
        2 => {
            let id = id_of_unlawful_info(rng);
            with_reading(rng, id)
        }
        3 => occurrence_of_unlawful_byte(rng),
        _ => occurrence_of_unlawful_length(rng),
    }
}

fn with_reading(rng: &mut Rng, id: Id) -> Occurrence {
    Occurrence {
        id,
        reading: lawful_reading(rng, id.identifier),
    }
}

fn fits(room: usize, least: usize, number: u8) -> Meant {
    if room < least {
        Meant::Refused(number)
    } else {
        Meant::Accepted
    }
}

/// The length of a buffer that must have `least` bytes; mostly it has them.
fn room(rng: &mut Rng, least: usize) -> usize {
    match rng.below(16) {
        0 => least - 1,
        1 => rng.below(least),
        2 => rng.below(30),
        3..=6 => least + 1,
        7 => rng.between(least, least + 200),
        _ => least,
    }
}

fn items(rng: &mut Rng) -> (&'static str, Vec<(u8, bool)>) {
    match rng.below(16) {
        0 => ("no items", Vec::new()),
        1 => {
            let count = edge_or_between(rng, 65, 300);
            let items = (0..count).map(|_| (rng.byte(), rng.one_in(2))).collect();
            ("items too many", items)
        }
        2 | 3 => {
            let mut items = unlike_items(rng, 63);
            let again = (rng.pick(&items).0, rng.one_in(2));
            items.insert(rng.between(0, items.len()), again);
            ("identifier twice", items)
        }
        4..=6 => ("many items", unlike_items(rng, 64)),
        _ => ("items", unlike_items(rng, 4)),
    }
}

/// 1 to `most` items of unlike identifiers.
fn unlike_items(rng: &mut Rng, most: usize) -> Vec<(u8, bool)> {
    let count = edge_or_between(rng, 1, most);
    let mut items: Vec<(u8, bool)> = Vec::new();
    while items.len() < count {
        let identifier = rng.byte();
        if items.iter().all(|item| item.0 != identifier) {
            items.push((identifier, rng.one_in(2)));
        }
    }
    items
}
