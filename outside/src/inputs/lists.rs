//! Event messages and answers, from parts that are each free to be wrong.

use super::sources::{
    edge_or_between, id_of_unlawful_identifier, id_of_unlawful_info, id_of_unlawful_scope,
    lawful_occurrence, lawful_reading, lawful_sources_that_fit, occurrence_of_unlawful_byte,
    occurrence_of_unlawful_length, occurrence_with_reading, sources_just_too_long, vendor_sources,
};
use super::{damage, sealed, Meant, Rng};
use crate::second::{Id, Occurrence};

/// A message of a list, with all that the formats say in it.
struct Parts {
    /// The message's bytes before the list.
    message_header: Vec<u8>,
    number: u8,
    version: u8,
    total: u32,
    overflow: bool,
    header_length: u8,
    transmission: u8,
    occurrences: Vec<Form>,
    behind: Vec<u8>,
}

/// An occurrence with the lengths that it says.
struct Form {
    length: u8,
    specific: u8,
    vendor: u8,
    id: Id,
    reading: Vec<u8>,
}

/// The bytes of a message, the kind of it, and what it is meant to be.
pub type MadeBytes = (&'static str, Meant, Vec<u8>);

pub fn event(rng: &mut Rng) -> MadeBytes {
    let transmission = rng.byte();
    made(rng, vec![0x84, 0x28, 0, 0], transmission, 25)
}

pub fn answer(rng: &mut Rng) -> MadeBytes {
    let slot = rng.below(2) as u8;
    made(rng, vec![0x84, 0x88 + slot, 0, 0, 0, 0, 0, 0], 0, 28)
}

fn made(rng: &mut Rng, message_header: Vec<u8>, transmission: u8, refusal: u8) -> MadeBytes {
    let mut parts = if rng.one_in(8) {
        overflowing(message_header, transmission)
    } else {
        listing(message_header, transmission, &lawful_sources_that_fit(rng))
    };
    let refused = Meant::Refused(refusal);
    match rng.below(10) {
        0..=3 => ("lawful", Meant::Accepted, sealed(parts.bytes())),
        4 => {
            let (kind, bytes) = damage::unsealed(rng, sealed(parts.bytes()));
            (kind, refused, bytes)
        }
        5 => sealed_damage(rng, parts.bytes(), refused),
        _ => {
            let (kind, spoil) = *rng.pick(if parts.is_answer() {
                &SPOILS
            } else {
                &SPOILS[1..]
            });
            spoil(rng, &mut parts);
            (kind, refused, sealed(parts.bytes()))
        }
    }
}

/// Damage to the bytes of a message before its check word is made.
fn sealed_damage(rng: &mut Rng, mut bytes: Vec<u8>, refused: Meant) -> MadeBytes {
    match rng.below(4) {
        0 => {
            let length = edge_or_between(rng, 0, bytes.len() - 1);
            bytes.truncate(length);
            ("sealed, cut", refused, sealed(bytes))
        }
        1 => {
            let length = rng.between(4, 40);
            (
                "sealed, random bytes",
                Meant::Either,
                sealed(rng.bytes(length)),
            )
        }
        _ => {
            let place = rng.below(bytes.len());
            bytes[place] ^= rng.byte_but_zero();
            ("sealed, byte changed", Meant::Either, sealed(bytes))
        }
    }
}

fn overflowing(message_header: Vec<u8>, transmission: u8) -> Parts {
    let mut parts = listing(message_header, transmission, &[]);
    parts.total = 0;
    parts.overflow = true;
    parts
}

fn listing(message_header: Vec<u8>, transmission: u8, sources: &[Occurrence]) -> Parts {
    let mut parts = Parts {
        message_header,
        number: 0,
        version: 0,
        total: 0,
        overflow: false,
        header_length: 7,
        transmission,
        occurrences: sources.iter().map(Form::of).collect(),
        behind: Vec::new(),
    };
    parts.count();
    parts
}

impl Form {
    fn of(occurrence: &Occurrence) -> Form {
        let length = occurrence.reading.len() as u8;
        let is_vendor = occurrence.id.identifier >= 0xC0;
        Form {
            length: 9,
            specific: if is_vendor { 0 } else { length },
            vendor: if is_vendor { length } else { 0 },
            id: occurrence.id,
            reading: occurrence.reading.clone(),
        }
    }

    fn bytes(&self) -> Vec<u8> {
        let mut bytes = vec![self.length, self.specific, self.vendor, self.id.identifier];
        bytes.extend(self.id.info.to_le_bytes());
        bytes.push(self.id.scope);
        bytes.extend(&self.reading);
        bytes
    }
}

impl Parts {
    /// Makes the number and the total length right, and the overflow bit 0.
    fn count(&mut self) {
        let body: usize = self
            .occurrences
            .iter()
            .map(|form| 9 + form.reading.len())
            .sum();
        self.number = self.occurrences.len() as u8;
        self.total = (7 + body) as u32;
        self.overflow = false;
    }

    fn is_answer(&self) -> bool {
        self.message_header.len() == 8
    }

    fn bytes(&self) -> Vec<u8> {
        let mut bytes = self.message_header.clone();
        bytes.extend([self.number, self.version]);
        let length_info = self.total | u32::from(self.overflow) << 23;
        bytes.extend(&length_info.to_le_bytes()[..3]);
        bytes.extend([self.header_length, self.transmission]);
        self.occurrences
            .iter()
            .for_each(|form| bytes.extend(form.bytes()));
        bytes.extend(&self.behind);
        bytes
    }

    /// Puts an occurrence in place of another, or as the first one, and counts anew.
    fn replace(&mut self, rng: &mut Rng, form: Form) {
        if self.occurrences.is_empty() {
            self.occurrences.push(form);
        } else {
            let place = rng.below(self.occurrences.len());
            self.occurrences[place] = form;
        }
        self.count();
    }

    /// Lists these sources alone, and counts anew.
    fn list(&mut self, sources: &[Occurrence]) {
        self.occurrences = sources.iter().map(Form::of).collect();
        self.count();
    }
}

/// Makes lawful parts unlawful in one deliberate way.
type Spoil = fn(&mut Rng, &mut Parts);

/// The first one is for answers alone.
const SPOILS: [(&str, Spoil); 26] = [
    ("transmission info", |rng, parts| {
        parts.transmission = rng.byte_but_zero()
    }),
    ("message header", message_header),
    ("number off by one", number_off_by_one),
    ("number", |rng, parts| parts.number ^= rng.byte_but_zero()),
    ("version", |rng, parts| parts.version = rng.byte_but_zero()),
    ("total length off by one", total_off_by_one),
    ("total length", |rng, parts| {
        parts.total ^= rng.between(1, 0x7F_FFFF) as u32
    }),
    ("header length", |rng, parts| {
        parts.header_length ^= rng.byte_but_zero()
    }),
    ("overflow bit", |_, parts| parts.overflow = !parts.overflow),
    ("overflow with a number", overflow_with_number),
    ("overflow with a total length", overflow_with_total),
    ("overflow with a body", overflow_with_body),
    ("bytes behind", |rng, parts| {
        let length = edge_or_between(rng, 1, 12);
        parts.behind = rng.bytes(length);
    }),
    ("occurrence's length", occurrence_length),
    ("infos exchanged", infos_exchanged),
    ("both infos", both_infos),
    ("info's length off by one", info_length_off_by_one),
    ("identifier", |rng, parts| {
        let id = id_of_unlawful_identifier(rng);
        replace_id(rng, parts, id);
    }),
    ("scope", |rng, parts| {
        let id = id_of_unlawful_scope(rng);
        replace_id(rng, parts, id);
    }),
    ("scope ID info", |rng, parts| {
        let id = id_of_unlawful_info(rng);
        replace_id(rng, parts, id);
    }),
    ("reading's byte", |rng, parts| {
        let form = Form::of(&occurrence_of_unlawful_byte(rng));
        parts.replace(rng, form);
    }),
    ("reading's length", |rng, parts| {
        let form = Form::of(&occurrence_of_unlawful_length(rng));
        parts.replace(rng, form);
    }),
    ("ID twice", id_twice),
    ("65 occurrences", |rng, parts| {
        parts.list(&vendor_sources(rng, 65, 4))
    }),
    ("more than 65 occurrences", |rng, parts| {
        let count = edge_or_between(rng, 66, 255);
        parts.list(&vendor_sources(rng, count, 2));
    }),
    ("body too long", |rng, parts| {
        parts.list(&sources_just_too_long(rng))
    }),
];

fn message_header(rng: &mut Rng, parts: &mut Parts) {
    let place = rng.below(parts.message_header.len());
    let slot_bit = parts.is_answer() && place == 1;
    let change = rng.byte_but_zero();
    parts.message_header[place] ^= if slot_bit {
        change | 1 << rng.between(1, 7)
    } else {
        change
    };
}

fn number_off_by_one(rng: &mut Rng, parts: &mut Parts) {
    parts.number = if rng.one_in(2) {
        parts.number.wrapping_sub(1)
    } else {
        parts.number.wrapping_add(1)
    };
}

fn total_off_by_one(rng: &mut Rng, parts: &mut Parts) {
    let total = if rng.one_in(2) {
        parts.total.wrapping_sub(1)
    } else {
        parts.total + 1
    };
    parts.total = total & 0x7F_FFFF;
}

fn overflow_with_number(rng: &mut Rng, parts: &mut Parts) {
    overflow_with_body(rng, parts);
    parts.occurrences.clear();
    parts.number = rng.byte_but_zero();
}

fn overflow_with_total(rng: &mut Rng, parts: &mut Parts) {
    overflow_with_body(rng, parts);
    parts.occurrences.clear();
    parts.total = if rng.one_in(2) {
        7
    } else {
        rng.between(1, 0x7F_FFFF) as u32
    };
}

fn overflow_with_body(rng: &mut Rng, parts: &mut Parts) {
    let form = Form::of(&lawful_occurrence(rng));
    parts.replace(rng, form);
    parts.number = 0;
    parts.total = 0;
    parts.overflow = true;
}

fn occurrence_length(rng: &mut Rng, parts: &mut Parts) {
    let mut form = Form::of(&lawful_occurrence(rng));
    form.length = match rng.below(3) {
        0 => form.length + form.reading.len().max(1) as u8,
        1 => 8,
        _ => form.length ^ rng.byte_but_zero(),
    };
    parts.replace(rng, form);
}

fn infos_exchanged(rng: &mut Rng, parts: &mut Parts) {
    let mut form = Form::of(&occurrence_with_reading(rng));
    std::mem::swap(&mut form.specific, &mut form.vendor);
    parts.replace(rng, form);
}

fn both_infos(rng: &mut Rng, parts: &mut Parts) {
    let mut form = Form::of(&occurrence_with_reading(rng));
    let more = edge_or_between(rng, 1, 8) as u8;
    if form.specific == 0 {
        form.specific = more;
    } else {
        form.vendor = more;
    }
    if !rng.one_in(4) {
        form.reading.extend(rng.bytes(more.into()));
    }
    parts.replace(rng, form);
}

/// It stands last, so that its reading ends too early or too late for the body.
fn info_length_off_by_one(rng: &mut Rng, parts: &mut Parts) {
    let mut form = Form::of(&occurrence_with_reading(rng));
    let length = if form.specific == 0 {
        &mut form.vendor
    } else {
        &mut form.specific
    };
    *length = if rng.one_in(2) {
        *length - 1
    } else {
        *length + 1
    };
    parts.occurrences.push(form);
    parts.count();
}

fn replace_id(rng: &mut Rng, parts: &mut Parts, id: Id) {
    let reading = if (0x0C..0xC0).contains(&id.identifier) {
        let length = rng.below(3);
        rng.bytes(length)
    } else {
        lawful_reading(rng, id.identifier)
    };
    parts.replace(rng, Form::of(&Occurrence { id, reading }));
}

fn id_twice(rng: &mut Rng, parts: &mut Parts) {
    if parts.occurrences.is_empty() {
        parts.occurrences.push(Form::of(&lawful_occurrence(rng)));
    }
    let id = rng.pick(&parts.occurrences).id;
    let again = Form::of(&Occurrence {
        id,
        reading: lawful_reading(rng, id.identifier),
    });
    let place = rng.between(0, parts.occurrences.len());
    parts.occurrences.insert(place, again);
    parts.count();
}
